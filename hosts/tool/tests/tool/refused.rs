//! Refused programs and refused steps, whatever was asked for.

use std::path::Path;

use crate::{keshtiwol, scratch};

#[test]
fn every_command_explains_and_ends_with_1() {
    for command in ["show", "list", "check", "dot", "svg"] {
        let said = keshtiwol(&[command, "03 02 07 05 00 00 01 06 00"], b"");
        assert_eq!((said.status, said.out.as_str()), (1, ""));
        assert_eq!(
            said.error,
            "keshtiwol: the program is refused with 3: an item's first byte is above 6\n\n    \
            bytes 0 to 8 of 9, counted from 0:\n    \
            03 02 07 05 00 00 01 06 00\n          \
            ^^ byte 2\n\n\
            07 starts no item. 00 ends a body, 01 is a job, 02 an async, 03 a finish, 04 a fork, 05 a future, 06 a force.\n"
        );
    }
}

#[test]
fn a_window_of_a_long_program() {
    let mut program = [1, 5].repeat(150);
    program[200] = 0xAB;
    let said = keshtiwol(&["check", "--file", "-"], &program);
    assert_eq!(said.status, 1);
    assert!(
        said.error.contains(
            "    bytes 188 to 211 of 300, counted from 0:\n    \
            .. 01 05 01 05 01 05 01 05 01 05 01 05 AB 05 01 05 01 05 01 05 01 05 01 05 ..\n                                           \
            ^^ byte 200\n"
        ),
        "{}",
        said.error
    );
}

#[test]
fn a_body_without_its_end() {
    let said = keshtiwol(&["show", "01 90 81 DB 06 04 01 01 00 01 02"], b"");
    assert_eq!((said.status, said.out.as_str()), (1, ""));
    assert_eq!(
        said.error,
        "keshtiwol: the program is refused with 5: the bytes run out\n\n    \
        bytes 0 to 10 of 11, counted from 0:\n    \
        01 90 81 DB 06 04 01 01 00 01 02\n                                     \
        ^^ byte 11 would stand here\n\n\
        Still open: the fork at byte 5, in its second body; the program.\n\
        At least 2 end bytes (00) are missing.\n\
        The last end byte, byte 8, is that of the fork at byte 5, in its first body.\n"
    );
}

#[test]
fn a_force_of_no_future() {
    let said = keshtiwol(&["check", "05 01 01 00 06 01 00"], b"");
    assert_eq!((said.status, said.out.as_str()), (1, ""));
    assert_eq!(
        said.error,
        "keshtiwol: the program is refused with 43: no such future is open\n\n    \
        bytes 0 to 6 of 7, counted from 0:\n    \
        05 01 01 00 06 01 00\n                   \
        ^^ byte 5\n\n\
        The force at byte 4 has the number 1. Open there: 0, the future at byte 0.\n\
        A future is open behind its item, to the end of the body in which the item stands, and not in its own body.\n"
    );
}

#[test]
fn forks_that_only_the_second_edition_has_vertices_for() {
    let program = "040000".repeat(400) + "00";
    let refused = keshtiwol(&["show", &program], b"");
    assert_eq!((refused.status, refused.out.as_str()), (1, ""));
    assert!(refused.error.contains("refused with 8: ") && refused.error.contains("3 for each of 400 forks"), "{}", refused.error);
    assert!(refused.error.ends_with("In the second edition it makes 802, and loads: --edition 2.\n"), "{}", refused.error);
    for command in ["show", "list", "check", "dot", "svg"] {
        assert_eq!(keshtiwol(&[command, "--edition", "2", &program], b"").status, 0, "{command}");
    }
}

#[test]
fn no_bytes_at_all() {
    for said in [keshtiwol(&["list", ""], b""), keshtiwol(&["list", "--file", "-"], b""), keshtiwol(&["list", "--hex-file", "-"], b" \n")] {
        assert_eq!((said.status, said.out.as_str()), (1, ""));
        assert!(said.error.contains("refused with 1: ") && said.error.contains("It has no bytes."), "{}", said.error);
    }
}

#[test]
fn no_picture_is_written() {
    let picture = scratch("refused.svg");
    assert_eq!(keshtiwol(&["svg", "05", "-o", &picture], b"").status, 1);
    assert!(!Path::new(&picture).exists());
}

#[test]
fn a_step_that_is_refused() {
    let said = keshtiwol(&["dot", "01 05 00", "--then", "0,1"], b"");
    assert_eq!((said.status, said.out.as_str()), (1, ""));
    let words = "step 2, of vertex 1, is refused with 21: something must finish before this vertex starts";
    assert_eq!(said.error, format!("keshtiwol: {words}\n"));
}
