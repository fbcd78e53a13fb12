//! Builds the C example with the C compiler, strictly, and runs it.

use std::path::{Path, PathBuf};
use std::process::Command;

fn root() -> PathBuf {
    Path::new(env!("CARGO_MANIFEST_DIR")).join("..")
}

/// Builds the example for one standard of C, and gives back what it prints.
fn output_of_example(standard: &str) -> String {
    let program = Path::new(env!("CARGO_TARGET_TMPDIR")).join(format!("example-{standard}"));
    let compiler = std::env::var("CC").unwrap_or_else(|_| "cc".to_string());
    let built = Command::new(&compiler)
        .arg(format!("-std={standard}"))
        .args(["-O2", "-Wall", "-Wextra", "-Wconversion", "-Werror", "-pedantic", "-I"])
        .arg(root().join("include"))
        .arg(root().join("include").join("example.c"))
        .arg(Path::new(env!("HJERRINGSEL_LIB_DIR")).join("libhjerringsel.a"))
        .arg("-o")
        .arg(&program)
        .status()
        .unwrap_or_else(|error| panic!("the C compiler {compiler} cannot be run: {error}"));
    assert!(built.success(), "the example does not build as {standard}");
    let run = Command::new(&program).output().expect("the example runs");
    assert!(run.status.success(), "the example answers {}", run.status);
    String::from_utf8(run.stdout).expect("the example prints text")
}

const DUE: &str = "\
from to before after
0 1 0 0
0 2 0 0
1 0 65536 58368
1 2 0 7168
2 0 65536 65536
2 1 0 0
house order 0 1 3 4 5 2
refused 1 at 73
";

#[test]
fn the_example_prints_the_round_of_plate_a() {
    assert_eq!(output_of_example("c99"), DUE);
    assert_eq!(output_of_example("c11"), DUE);
}
