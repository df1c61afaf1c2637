//! The driver ends with a failure where a program answers something else, and
//! keeps the input.

use std::fs;
use std::os::unix::fs::PermissionsExt;
use std::path::{Path, PathBuf};
use std::process::{Command, Output};

/// A folder of crates with one program in it, which is a shell script.
fn crates(name: &str, script: &str) -> PathBuf {
    let folder = Path::new(env!("CARGO_TARGET_TMPDIR")).join(name);
    let out = folder.join("constants").join("out");
    fs::create_dir_all(&out).expect("a folder");
    fs::write(folder.join("constants").join("stdin"), "chain=0\n").expect("an input");
    let program = out.join("constants");
    fs::write(&program, format!("#!/bin/sh\n{script}\n")).expect("a program");
    fs::set_permissions(&program, fs::Permissions::from_mode(0o755)).expect("a program to run");
    folder
}

fn compared(crates: &Path) -> (Output, String) {
    let mut command = Command::new(env!("CARGO_BIN_EXE_compare"));
    let output = command
        .args(["--percent", "1", "--family", "lines valid"])
        .arg(crates)
        .output()
        .expect("a run");
    let text = String::from_utf8_lossy(&output.stdout).into_owned();
    (output, text)
}

#[test]
fn a_program_that_answers_something_else() {
    let (output, text) = compared(&crates(
        "else",
        "while read -r line; do echo constant=1; done",
    ));
    assert_eq!(output.status.code(), Some(1));
    let path = text
        .split("input kept in ")
        .nth(1)
        .and_then(|rest| rest.lines().next())
        .expect("a path");
    assert!(fs::read(path).expect("the input").starts_with(b"chain="));
    assert!(text.contains("program:   constant=1\n"), "{text}");
    assert!(!text.ends_with(" 0 differed\n"), "{text}");
}

#[test]
fn a_program_that_fails() {
    let (output, text) = compared(&crates("fails", "exit 3"));
    assert_ne!(output.status.code(), Some(0), "{text}");
}

#[test]
fn a_folder_without_programs() {
    let folder = Path::new(env!("CARGO_TARGET_TMPDIR")).join("empty");
    assert_eq!(compared(&folder).0.status.code(), Some(2));
}
