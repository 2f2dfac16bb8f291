//! The tool as its users meet it: each subcommand, files and pipes, refusals and exit statuses.

use std::fs;
use std::io::Write;
use std::path::{Path, PathBuf};
use std::process::{Command, Output, Stdio};

use huttaralu::STEPS_IN_A_DAY;
use limits::{COUNTS_SIZE, ENTRY_SIZE, LARGEST_STEP, MOST_STEPS, STEPS_IN_A_YEAR};

/// A folder that goes when the test ends.
struct Folder(PathBuf);

impl Folder {
    fn new(name: &str) -> Folder {
        let path = Path::new(env!("CARGO_TARGET_TMPDIR")).join(name);
        let _ = fs::remove_dir_all(&path);
        fs::create_dir_all(&path).unwrap();
        Folder(path)
    }

    fn file(&self, name: &str, bytes: &[u8]) -> String {
        let path = self.path(name);
        fs::write(&path, bytes).unwrap();
        path
    }

    fn path(&self, name: &str) -> String {
        self.0.join(name).to_str().unwrap().into()
    }
}

impl Drop for Folder {
    fn drop(&mut self) {
        let _ = fs::remove_dir_all(&self.0);
    }
}

fn hutt(arguments: &[&str], input: &[u8]) -> Output {
    let mut child = Command::new(env!("CARGO_BIN_EXE_hutt"))
        .args(arguments)
        .stdin(Stdio::piped())
        .stdout(Stdio::piped())
        .stderr(Stdio::piped())
        .spawn()
        .unwrap();
    // A tool that needs no input may have closed the pipe already.
    let _ = child.stdin.take().unwrap().write_all(input);
    child.wait_with_output().unwrap()
}

/// What was printed by a run that succeeds.
fn printed(arguments: &[&str], input: &[u8]) -> Vec<u8> {
    let output = hutt(arguments, input);
    let words = String::from_utf8_lossy(&output.stderr).into_owned();
    assert_eq!((output.status.code(), words.as_str()), (Some(0), ""), "{arguments:?}");
    output.stdout
}

fn lines(arguments: &[&str], input: &[u8]) -> String {
    String::from_utf8(printed(arguments, input)).unwrap()
}

/// The words of a run that ends with `status` and prints nothing.
fn words(status: i32, arguments: &[&str], input: &[u8]) -> String {
    let output = hutt(arguments, input);
    assert_eq!(output.status.code(), Some(status), "{arguments:?}");
    assert!(output.stdout.is_empty(), "{arguments:?}");
    String::from_utf8(output.stderr).unwrap()
}

/// The text of the steps below `n`.
fn first_steps(n: usize) -> Vec<u8> {
    format!("0-{}", n - 1).into_bytes()
}

const TWO_BLOCKS: &[u8] = &[
    2, 0, 0, 0, //
    1, 0x0F, 0, 0, 0, 0x10, 0, 0, 0, 2, 0, 0, 0, //
    0, 0xA0, 0x86, 1, 0, 0x11, 0, 0, 0, 5, 0, 0, 0, //
    5, 0, 0, 0, 0xFF, 0xFF, 0x86, 0x8D, 0x10,
];

#[test]
fn writes_from_a_pipe_and_from_a_file() {
    assert_eq!(printed(&["write"], b"0-15 100000"), TWO_BLOCKS);
    assert_eq!(printed(&["write", "-"], b"0-15, # sixteen steps\n100000\n"), TWO_BLOCKS);
    let folder = Folder::new("write");
    let (text, image) = (folder.file("steps.txt", b"0 1 2-14\n15\n100000"), folder.path("image"));
    assert_eq!(printed(&["write", &text, "-o", &image], b""), b"");
    assert_eq!(fs::read(image).unwrap(), TWO_BLOCKS);
    assert_eq!(printed(&["write"], b""), [0; 8]);
}

#[test]
fn refuses_lists_by_line() {
    assert_eq!(
        words(1, &["write"], b"5\n5"),
        "hutt: standard input, line 2: refusal 11 (index 1): list not strictly increasing\n"
    );
    assert_eq!(
        words(1, &["write"], format!("5 4\n3\n{}", LARGEST_STEP + 1).as_bytes()),
        "hutt: standard input, line 3: refusal 12 (index 3): a step above the largest step\n"
    );
    assert!(words(1, &["write"], b"99999999999999").contains("refusal 12 (index 0)"));
    assert!(words(1, &["write"], &first_steps(MOST_STEPS + 1)).contains("refusal 13"));
    let row = MOST_STEPS / 8;
    assert_eq!(printed(&["write"], &first_steps(MOST_STEPS)).len(), COUNTS_SIZE + ENTRY_SIZE + row);
}

#[test]
fn text_that_has_no_steps_is_misuse() {
    assert_eq!(
        words(2, &["write"], b"1\nwet"),
        "hutt: standard input: line 2: 'wet' is neither a step nor a stretch\n"
    );
    assert!(words(2, &["write"], b"9-3").contains("ends before it starts"));
    assert!(words(2, &["write"], b"\xFF\xFE").contains("is not text"));
}

#[test]
fn checks() {
    assert_eq!(lines(&["check"], TWO_BLOCKS), "accepted: steps 17 blocks 2 bytes 39\n");
    assert_eq!(lines(&["check", "-"], &[0; 8]), "accepted: steps 0 blocks 0 bytes 8\n");
    assert!(words(1, &["check"], &[0; 7]).contains("standard input: refusal 1 "));
    assert!(words(1, &["check"], &[0; 9]).contains("refusal 2 "));
    let folder = Folder::new("check");
    let mut damaged = TWO_BLOCKS.to_vec();
    damaged[36] = 0x80;
    let file = folder.file("damaged", &damaged);
    let said = words(1, &["check", &file], b"");
    assert!(
        said.starts_with(&format!("hutt: {file}: refusal 7 (block 1): a code starts with 80 hex")),
        "{said}"
    );
}

#[test]
fn reads_in_three_forms() {
    assert_eq!(
        lines(&["read"], TWO_BLOCKS),
        (0..16).map(|step| format!("{step}\n")).collect::<String>() + "100000\n"
    );
    assert_eq!(lines(&["read", "--as", "stretches"], TWO_BLOCKS), "0-15\n100000\n");
    let ends_of_the_year = format!("0-15 {}-{}", STEPS_IN_A_YEAR - 10, STEPS_IN_A_YEAR - 1);
    assert_eq!(
        lines(&["read", "--as", "clock", "-"], &printed(&["write"], ends_of_the_year.as_bytes())),
        "day 1, 00:00 until day 1, 01:36\nday 365, 23:00 until the end of the year\n"
    );
    assert!(words(1, &["read"], &TWO_BLOCKS[..38]).contains("refusal 1 "));
}

#[test]
fn what_is_read_can_be_written_again() {
    for form in ["steps", "stretches"] {
        assert_eq!(printed(&["write"], &printed(&["read", "--as", form], TWO_BLOCKS)), TWO_BLOCKS);
    }
}

#[test]
fn ranks() {
    assert_eq!(lines(&["rank", "-", "16"], TWO_BLOCKS), "100000\n");
    assert_eq!(lines(&["rank", "-", "11", "--clock"], TWO_BLOCKS), "11 (day 1, 01:06)\n");
    assert_eq!(
        words(1, &["rank", "-", "17"], TWO_BLOCKS),
        "hutt: standard input: refusal 17 (n is 17): rank not below n\n"
    );
    assert!(words(1, &["rank", "-", "0"], &[0; 7]).contains("refusal 1 "));
}

#[test]
fn first_at_or_after_a_bound() {
    assert_eq!(lines(&["first", "-", "16"], TWO_BLOCKS), "100000 16\n");
    assert_eq!(lines(&["first", "-", "1/01:01", "-c"], TWO_BLOCKS), "11 11 (day 1, 01:06)\n");
    assert_eq!(lines(&["first", "-", "100001"], TWO_BLOCKS), "nothing\n");
    assert_eq!(lines(&["first", "-", "4294967295"], TWO_BLOCKS), "nothing\n");
    assert!(words(2, &["first", "-", "366/00:00"], TWO_BLOCKS).contains("days 1 to 365"));
    assert!(words(2, &["first", "-", "4294967296"], TWO_BLOCKS).contains("32-bit"));
}

#[test]
fn pairs() {
    let folder = Folder::new("pairs");
    let first = folder.file("first", &printed(&["write"], b"1-5"));
    let second = folder.file("second", &printed(&["write"], b"2 4-8"));
    for (operation, result) in [("both", "2 4 5"), ("either", "1-8"), ("without", "1 3")] {
        assert_eq!(
            printed(&[operation, &first, &second], b""),
            printed(&["write"], result.as_bytes()),
            "{operation}"
        );
    }
    let out = folder.path("out");
    assert_eq!(printed(&["without", "-", &second, "-o", &out], &fs::read(&first).unwrap()), b"");
    assert_eq!(fs::read(out).unwrap(), printed(&["write"], b"1 3"));
}

#[test]
fn pairs_name_the_side_that_is_refused() {
    let folder = Folder::new("sides");
    let good = folder.file("good", TWO_BLOCKS);
    let bad = folder.file("bad", &TWO_BLOCKS[..20]);
    let said = words(1, &["both", &good, &bad], b"");
    assert!(
        said.starts_with(&format!("hutt: {bad}: refusal 1 (")) && said.contains("second image"),
        "{said}"
    );
    let said = words(1, &["either", &bad, &bad], b"");
    assert!(said.contains("first image"), "{said}");
    assert!(words(2, &["both", "-", "-"], TWO_BLOCKS).contains("not both"));
}

#[test]
fn a_result_can_be_too_long() {
    let folder = Folder::new("long");
    let low = folder.file("low", &printed(&["write"], &first_steps(MOST_STEPS)));
    let high = folder.file("high", &printed(&["write"], MOST_STEPS.to_string().as_bytes()));
    let said = words(1, &["either", &low, &high], b"");
    assert!(said.starts_with("hutt: the result: refusal 13 "), "{said}");
}

#[test]
fn lists_blocks() {
    assert_eq!(
        lines(&["blocks"], TWO_BLOCKS),
        "blocks 2 steps 17 bytes 39\n0 bits 0 15 16 2\n1 vbyte 100000 100000 1 3\n"
    );
    assert_eq!(lines(&["blocks", "-"], &[0; 8]), "blocks 0 steps 0 bytes 8\n");
    assert!(words(1, &["blocks"], &[]).contains("refusal 1 "));
}

#[test]
fn tells_the_time() {
    let (last, after) = ((STEPS_IN_A_YEAR - 1).to_string(), STEPS_IN_A_YEAR.to_string());
    assert_eq!(lines(&["clock", "0", &last], b""), "day 1, 00:00\nday 365, 23:54\n");
    assert_eq!(
        words(1, &["clock", &after], b""),
        format!("hutt: step {after}: refusal 18 (place 0): step after the year given to the clock\n")
    );
    assert!(words(2, &["clock", "noon"], b"").contains("noon"));
}

#[test]
fn plots() {
    let folder = Folder::new("plot");
    let slip = folder.file("slip.hutt", &printed(&["write"], b"100-140 300-330"));
    let road = folder.file("road & mud.hutt", &printed(&["write"], b"120-150"));
    let svg = lines(&["plot", &slip, &road, "--title", "Two <places>"], b"");
    assert!(svg.starts_with("<svg ") && svg.ends_with("</svg>\n"));
    for words in ["Two &lt;places&gt;", ">slip<", ">road &amp; mud<", ">day 1<", ">day 2<"] {
        assert!(svg.contains(words), "{words}");
    }
    let out = folder.path("strip.svg");
    assert_eq!(printed(&["plot", "-", "--days", "2", "-o", &out], &fs::read(&slip).unwrap()), b"");
    let svg = fs::read_to_string(out).unwrap();
    assert!(svg.contains(">day 2<") && !svg.contains(">day 1<"));
    assert!(words(1, &["plot", &slip, "-"], b"").contains("refusal 1 "));
    assert!(words(2, &["plot", &slip, "--days", "5-3"], b"").contains("days are as"));
    assert!(words(2, &["plot"], b"").contains("FILE"));
}

#[test]
fn plots_a_whole_year_by_columns() {
    let year: String = tides::CAUSEWAY.year(1).iter().map(|step| format!("{step}\n")).collect();
    let svg = lines(&["plot", "-"], &printed(&["write"], year.as_bytes()));
    assert!(svg.contains("Each column is a day"));
    assert!(svg.len() < 100_000);
    let longest = printed(&["write"], format!("0 {LARGEST_STEP}").as_bytes());
    let days = LARGEST_STEP / STEPS_IN_A_DAY + 1;
    assert!(lines(&["plot", "-"], &longest).contains(&format!("Days 1 to {days}")));
}

#[test]
fn demo_answers_the_pupil() {
    let folder = Folder::new("demo");
    let into = folder.path("made");
    let said = lines(&["demo", "--into", &into, "--at", "171/10:30"], b"");
    assert!(said.contains("When are causeway and boat slip both under water? Asked day 171, 10:30."));
    let [causeway, slip, both] = ["causeway", "boat-slip", "both"].map(|name| format!("{into}/{name}.hutt"));
    assert_eq!(printed(&["both", &causeway, &slip], b""), fs::read(&both).unwrap());
    // The first stretch that is told starts at the first common step after the question.
    let first = lines(&["first", &both, "171/10:30", "--clock"], b"");
    let clock = first.split(['(', ')']).nth(1).unwrap();
    assert!(said.contains(&format!("  {clock}  until  ")), "{first}{said}");
    for picture in ["question.svg", "year.svg"] {
        assert!(fs::read_to_string(format!("{into}/{picture}")).unwrap().ends_with("</svg>\n"));
    }
    let after = STEPS_IN_A_YEAR.to_string();
    assert!(words(2, &["demo", "--into", &into, "--at", &after], b"").contains("not in the year"));
}

#[test]
fn misuse_has_status_2() {
    assert!(words(2, &[], b"").contains("Usage"));
    assert!(words(2, &["swim"], b"").contains("swim"));
    assert!(words(2, &["rank", "-"], b"").contains("RANK"));
    assert!(words(2, &["check", "no/such/file"], b"").contains("cannot read no/such/file"));
    let folder = Folder::new("misuse");
    let out = folder.path("no/such/folder");
    assert!(words(2, &["write", "-o", &out], b"1").contains("cannot write"));
}

#[test]
fn helps() {
    let help = lines(&["--help"], b"");
    for command in [
        "write", "check", "read", "rank", "first", "both", "either", "without", "blocks", "clock", "plot",
        "demo",
    ] {
        assert!(help.contains(&format!("\n  {command} ")), "{command}");
        assert!(lines(&[command, "--help"], b"").contains("Usage: hutt"));
    }
    assert!(lines(&["--version"], b"").starts_with("hutt "));
}

#[test]
fn a_reader_that_leaves_early_is_no_fault() {
    let image = printed(&["write"], b"0-1000000");
    let folder = Folder::new("early");
    let file = folder.file("long", &image);
    let mut child = Command::new(env!("CARGO_BIN_EXE_hutt"))
        .args(["read", &file])
        .stdout(Stdio::piped())
        .stderr(Stdio::piped())
        .spawn()
        .unwrap();
    drop(child.stdout.take());
    let output = child.wait_with_output().unwrap();
    assert_eq!((output.status.code(), output.stderr.as_slice()), (Some(0), &b""[..]));
}
