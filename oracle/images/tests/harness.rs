//! The program `images`, asked with the reference as the program and with a wrong one.

use std::fs;
use std::path::Path;
use std::process::{Command, Output};

fn images(program: &str, count: &str) -> Output {
    let mut command = Command::new(env!("CARGO_BIN_EXE_images"));
    let command = command.args([program, count]);
    // What it leaves at a difference goes there.
    let command = command.env("TMPDIR", env!("CARGO_TARGET_TMPDIR"));
    command.output().expect("it starts")
}

#[test]
fn the_reference_has_no_difference() {
    let output = images(env!("CARGO_BIN_EXE_runs_reference"), "8");
    let text = String::from_utf8_lossy(&output.stdout);
    assert!(output.status.success(), "{text}");
    assert!(text.contains("no difference"), "{text}");
}

#[test]
fn a_wrong_program_is_shown_with_its_input() {
    // It prints its input, so it differs on the first case.
    let output = images("cat", "1");
    let text = String::from_utf8_lossy(&output.stdout);
    assert_eq!(output.status.code(), Some(1), "{text}");
    let file = text.lines().find(|line| line.ends_with(".image"));
    let file = Path::new(file.expect("the file is named"));
    let example = Path::new(env!("CARGO_MANIFEST_DIR")).join("../../examples/case_l.image");
    assert!(fs::read(file).expect("the input") == fs::read(example).expect("case L"));
}

#[test]
fn a_program_that_does_not_end_is_shown_with_its_input() {
    let endless = Path::new(env!("CARGO_MANIFEST_DIR")).join("tests/endless");
    let output = images(endless.to_str().expect("a name"), "1");
    let text = String::from_utf8_lossy(&output.stdout);
    assert_eq!(output.status.code(), Some(1), "{text}");
    assert!(text.contains("no end within 2 s of computing"), "{text}");
    assert!(text.contains(".image"), "{text}");
}
