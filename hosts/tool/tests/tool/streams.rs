//! Where the tool writes, and standard output that can't be written.

use std::fs::File;
use std::io::Read;
use std::process::Stdio;

use crate::{tool, written};

/// 1,022 asyncs, as text: a picture that no pipe holds whole.
fn large() -> String {
    "0200".repeat(1022) + "00"
}

#[test]
fn a_reader_that_leaves_is_no_failure() {
    let mut child = tool().args(["svg", &large()]).stdout(Stdio::piped()).stderr(Stdio::piped()).spawn().unwrap();
    let mut out = child.stdout.take().unwrap();
    out.read_exact(&mut [0; 4]).unwrap();
    drop(out);
    let output = child.wait_with_output().unwrap();
    assert_eq!((output.status.code(), output.stderr), (Some(0), vec![]));
}

#[test]
fn a_dash_is_the_standard_output() {
    assert_eq!(written(&["dot", "00", "-o", "-"], b""), written(&["dot", "00"], b""));
}

#[test]
fn a_full_disk_is_told() {
    let full = File::options().write(true).open("/dev/full").unwrap();
    let output = tool().args(["svg", &large()]).stdout(full).stderr(Stdio::piped()).spawn().unwrap().wait_with_output().unwrap();
    let error = String::from_utf8(output.stderr).unwrap();
    assert_eq!(output.status.code(), Some(2));
    assert!(error.starts_with("keshtiwol: the standard output can't be written: "), "{error}");
}

#[test]
fn nobody_reads_the_explanation() {
    let mut child = tool().args(["list", "05"]).stdout(Stdio::null()).stderr(Stdio::piped()).stdin(Stdio::null()).spawn().unwrap();
    drop(child.stderr.take());
    assert_eq!(child.wait().unwrap().code(), Some(1));
}
