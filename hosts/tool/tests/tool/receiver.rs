//! The README's picture, docs/pictures/receiver.svg: both channels of a receiver are filtered at once, and log's vertex waits for them.
//! The test's arguments are those that make it; with `-o` and the picture's name behind them they make it again.

use std::fs;

use crate::{repository, written};

#[test]
fn the_readmes_picture() {
    let program = "01 90 81 DB 06 03 02 01 11 01 21 00 02 01 12 01 22 00 00 01 30 00";
    let moment = ["--steps", "17", "--then", "4,4,5,5"];
    let names = ["14074000=retune", "17=filter 1", "33=decode 1", "18=filter 2", "34=decode 2", "48=log"].map(|name| ["--name", name]);
    let arguments = [&["svg", program], &moment[..], &names.concat()].concat();
    let picture = written(&arguments, b"");
    assert!(picture.contains("runs filter 1") && picture.contains("runs filter 2") && picture.contains("vertex 2: released"));
    assert!(picture == fs::read_to_string(repository("docs/pictures/receiver.svg")).unwrap(), "make the picture again: {arguments:?}");
}
