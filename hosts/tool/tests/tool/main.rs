//! The tool as its users run it: the binary, its standard streams and its exit status.

mod input;
mod job;
mod list;
mod order;
mod pictures;
mod receiver;
mod refused;
mod show;
mod streams;
mod xml;

use std::io::Write;
use std::process::{Command, Stdio};

/// What a run of the tool left.
#[derive(Debug, PartialEq)]
struct Said {
    status: i32,
    out: String,
    error: String,
}

fn tool() -> Command {
    Command::new(env!("CARGO_BIN_EXE_keshtiwol"))
}

/// Runs the tool with these arguments and this standard input.
fn keshtiwol(arguments: &[&str], input: &[u8]) -> Said {
    let mut child = tool()
        .args(arguments)
        .stdin(Stdio::piped())
        .stdout(Stdio::piped())
        .stderr(Stdio::piped())
        .spawn()
        .expect("the tool does not start");
    // It may end without reading all of it.
    let _ = child.stdin.take().unwrap().write_all(input);
    let output = child.wait_with_output().unwrap();
    Said {
        status: output.status.code().expect("the tool was ended by a signal"),
        out: String::from_utf8(output.stdout).unwrap(),
        error: String::from_utf8(output.stderr).unwrap(),
    }
}

/// What it wrote, where all went well.
fn written(arguments: &[&str], input: &[u8]) -> String {
    let said = keshtiwol(arguments, input);
    assert_eq!((said.status, said.error.as_str()), (0, ""), "{arguments:?}");
    said.out
}

/// A file of the repository.
fn repository(path: &str) -> String {
    format!("{}/../../{path}", env!("CARGO_MANIFEST_DIR"))
}

/// A file for a test alone, which is not there yet.
fn scratch(name: &str) -> String {
    let path = format!("{}/{name}", env!("CARGO_TARGET_TMPDIR"));
    let _ = std::fs::remove_file(&path);
    path
}
