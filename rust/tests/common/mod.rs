//! Runs the programs that `tools/build` builds.

use std::io::Write;
use std::path::{Path, PathBuf};
use std::process::{Command, Stdio};

pub fn root() -> PathBuf {
    Path::new(env!("CARGO_MANIFEST_DIR")).join("..").canonicalize().expect("the project's root")
}

pub fn program(name: &str) -> Command {
    let path = root().join("target").join("bin").join(name);
    assert!(path.is_file(), "{} is missing: run tools/build first", path.display());
    Command::new(path)
}

/// What a program prints when these bytes are its standard input.
pub fn printed(name: &str, input: &[u8]) -> String {
    let mut child = program(name)
        .stdin(Stdio::piped())
        .stdout(Stdio::piped())
        .spawn()
        .unwrap_or_else(|error| panic!("{name} cannot be run: {error}"));
    // A program may stop reading before the end; what counts is what it prints.
    let _ = child.stdin.take().expect("piped").write_all(input);
    let run = child.wait_with_output().expect("the program ends");
    assert!(run.status.success(), "{name} answers {}", run.status);
    String::from_utf8(run.stdout).expect("text")
}
