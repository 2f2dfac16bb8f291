//! Files and pipes.

use std::io::{self, BufWriter, ErrorKind, IsTerminal, Read, Write};
use std::path::Path;

use crate::trouble::Trouble;

/// Whether a file name stands for standard input or output.
pub fn is_pipe(file: &Path) -> bool {
    file == Path::new("-")
}

/// What messages call a file.
pub fn name_of(file: &Path) -> String {
    if is_pipe(file) {
        "standard input".into()
    } else {
        file.display().to_string()
    }
}

/// All bytes of a file or of standard input.
pub fn read_bytes(file: &Path) -> Result<Vec<u8>, Trouble> {
    let bytes = if is_pipe(file) {
        let mut bytes = Vec::new();
        io::stdin().lock().read_to_end(&mut bytes).map(|_| bytes)
    } else {
        std::fs::read(file)
    };
    bytes.map_err(|error| Trouble::misused(format!("cannot read {}: {error}", name_of(file))))
}

/// All text of a file or of standard input.
pub fn read_text(file: &Path) -> Result<String, Trouble> {
    String::from_utf8(read_bytes(file)?)
        .map_err(|_| Trouble::misused(format!("{} is not text", name_of(file))))
}

/// Writes to a file or to standard output.
pub fn write_bytes(file: &Path, bytes: &[u8]) -> Result<(), Trouble> {
    if is_pipe(file) {
        return say(|out| out.write_all(bytes));
    }
    std::fs::write(file, bytes)
        .map_err(|error| Trouble::misused(format!("cannot write {}: {error}", file.display())))
}

/// Writes an image, but not onto a screen.
pub fn write_image(file: &Path, image: &[u8]) -> Result<(), Trouble> {
    if is_pipe(file) && io::stdout().is_terminal() {
        return Err(Trouble::misused("an image is not text: name a file with -o, or use a pipe".into()));
    }
    write_bytes(file, image)
}

/// Writes lines to standard output.
pub fn say(lines: impl FnOnce(&mut dyn Write) -> io::Result<()>) -> Result<(), Trouble> {
    let mut out = BufWriter::new(io::stdout().lock());
    lines(&mut out).and_then(|()| out.flush()).map_err(|error| match error.kind() {
        ErrorKind::BrokenPipe => Trouble::Closed,
        _ => Trouble::misused(format!("cannot write standard output: {error}")),
    })
}
