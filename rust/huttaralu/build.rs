//! Finds the static library that the crate binds, or has it made.
//!
//! `HUTTARALU_ARCHIVE`, if set, is a `libhuttaralu.a` that is ready. Otherwise `rt lib` proves the library
//! and makes it. `rt` runs on x86-64 alone, and makes the library for x86-64 and for aarch64 under Linux.

use std::env;
use std::fs;
use std::path::{Path, PathBuf};
use std::process::Command;

const READY: &str = "HUTTARALU_ARCHIVE";
const ARCHIVE: &str = "libhuttaralu.a";

fn main() {
    match archive() {
        Ok(archive) => {
            let folder = archive.parent().unwrap_or(Path::new("."));
            println!("cargo::rustc-link-search=native={}", folder.display());
            println!("cargo::rustc-link-lib=static=huttaralu");
        }
        Err(word) => println!("cargo::error={word}"),
    }
}

/// The archive to link.
fn archive() -> Result<PathBuf, String> {
    println!("cargo::rerun-if-env-changed={READY}");
    match env::var_os(READY) {
        Some(ready) => ready_archive(Path::new(&ready)),
        None => made_archive(),
    }
}

/// The archive at a path, if the linker can take it from there.
fn ready_archive(path: &Path) -> Result<PathBuf, String> {
    let found = path.canonicalize().map_err(|error| format!("no library at {}: {error}", path.display()))?;
    if found.file_name().is_none_or(|name| name != ARCHIVE) {
        return Err(format!("the library has to be called {ARCHIVE}, and this one is {}", found.display()));
    }
    println!("cargo::rerun-if-changed={}", found.display());
    Ok(found)
}

/// The archive of the repository's own library, made anew where its sources have changed.
fn made_archive() -> Result<PathBuf, String> {
    let package = PathBuf::from(env::var_os("CARGO_MANIFEST_DIR").expect("cargo names the package's folder"));
    let root = package.join("../..");
    watch(&root)?;
    let [processor, system] = ["CARGO_CFG_TARGET_ARCH", "CARGO_CFG_TARGET_OS"].map(variable);
    let target = match (processor.as_str(), system.as_str()) {
        ("x86_64", "linux") => "x86_64-unknown-linux-gnu",
        ("aarch64", "linux") => "aarch64-unknown-linux-gnu",
        _ => return Err(not_here(&format!("and not for {processor} under {system}"))),
    };
    if !variable("HOST").starts_with("x86_64") {
        return Err(not_here("which runs on x86-64 alone"));
    }
    if Command::new("rt").arg("version").output().is_err() {
        return Err(not_here("and there is no command `rt` on the PATH"));
    }
    let folder = root.join("crates/huttaralu");
    run(Command::new("rt").args(["lib", "--target", target]).current_dir(&folder))?;
    let made = folder.join("out").join(ARCHIVE);
    let archive = Path::new(&variable("OUT_DIR")).join(ARCHIVE);
    fs::copy(&made, &archive).map_err(|error| format!("no library at {}: {error}", made.display()))?;
    Ok(archive)
}

/// Has cargo watch what the library is made from, and not what `rt` keeps beside it.
fn watch(root: &Path) -> Result<(), String> {
    println!("cargo::rerun-if-changed={}", root.join("crates.txt").display());
    let crates = root.join("crates");
    let found =
        fs::read_dir(&crates).map_err(|error| format!("no crates at {}: {error}", crates.display()))?;
    for folder in found.flatten() {
        for part in ["src", "specs", "proofs"].map(|part| folder.path().join(part)) {
            if part.is_dir() {
                println!("cargo::rerun-if-changed={}", part.display());
            }
        }
    }
    Ok(())
}

/// Why the library cannot be made here, and what to do.
fn not_here(why: &str) -> String {
    format!(
        "the library is made by the Rattle toolchain's `rt lib`, {why}: \
         make it on x86-64 Linux, for it or for aarch64, or set {READY} to a {ARCHIVE} that is ready"
    )
}

/// What cargo says by a variable.
fn variable(name: &str) -> String {
    env::var(name).unwrap_or_else(|_| panic!("cargo sets {name}"))
}

/// Runs a command, and tells its last words if it fails.
fn run(command: &mut Command) -> Result<(), String> {
    let name = command.get_program().to_string_lossy().into_owned();
    let ended = command.output().map_err(|error| format!("{name} does not run: {error}"))?;
    if ended.status.success() {
        return Ok(());
    }
    let said = [ended.stdout, ended.stderr].concat();
    let said = String::from_utf8_lossy(&said);
    let last: Vec<&str> = said.lines().rev().take(3).collect();
    Err(format!(
        "{name} failed ({}): {}",
        ended.status,
        last.into_iter().rev().collect::<Vec<_>>().join(" | ")
    ))
}
