//! The ways to hand in a program, and command lines that are wrong.

use std::fs;

use crate::{keshtiwol, scratch, written};

const BYTES: [u8; 6] = [1, 0x90, 0x81, 0xDB, 6, 0];
const LISTED: &str = "vertices 2 jobs 1 steps 5\n0 start\n0 job 14074000\n0 stop\n1 start\n1 stop\n";

#[test]
fn every_way_to_hand_in_a_program() {
    let texts = [
        &["01", "90", "81", "DB", "06", "00"][..],
        &["019081db0600"],
        &["01 90 81", "dB06 00"],
        &[" 01 9081DB  0600 "],
        &["0x01,", "0x90,", "0x81,", "0xDB,", "0x06,", "0x00"],
        &["01,90,81,db,06,00 # retune"],
    ];
    for text in texts {
        assert_eq!(written(&[&["list"], text].concat(), b""), LISTED);
    }
    let (bytes, text) = (scratch("input.bytes"), scratch("input.hex"));
    fs::write(&bytes, BYTES).unwrap();
    fs::write(&text, "# retune\r\n01 90 81\r\nDB 06 # 14074000\n\n00\n").unwrap();
    assert_eq!(written(&["list", "--file", &bytes], b""), LISTED);
    assert_eq!(written(&["list", "--hex-file", &text], b""), LISTED);
    assert_eq!(written(&["list", "--file", "-"], &BYTES), LISTED);
    assert_eq!(written(&["list", "--hex-file", "-"], b"019081 DB0600"), LISTED);
}

/// A file of bytes is not text: what looks like digits are bytes above 4.
#[test]
fn bytes_are_not_taken_for_text() {
    let said = keshtiwol(&["list", "--file", "-"], b"00");
    assert_eq!(said.status, 1);
    assert!(said.error.contains("30 starts no item"), "{}", said.error);
}

#[test]
fn an_endless_file_is_refused() {
    let said = keshtiwol(&["check", "--file", "/dev/zero"], b"");
    assert_eq!(said.status, 1);
    assert!(said.error.contains("It has at least 4097 bytes."), "{}", said.error);
    let said = keshtiwol(&["check", "--hex-file", "/dev/zero"], b"");
    assert_eq!((said.status, said.error.as_str()), (2, "keshtiwol: /dev/zero has more than 1048576 bytes of text\n"));
}

#[test]
fn malformed_text_names_the_character() {
    let wrong: [(&[&str], &[u8], &str); 5] = [
        (&["list", "03", "0g"], b"", "line 1, character 5: 'g' is no hexadecimal digit"),
        (&["list", "0x03,", "/*", "finish", "*/"], b"", "line 1, character 7: '/' is no hexadecimal digit"),
        (&["svg", "03", "2", "01"], b"", "line 1, character 4: '2' stands alone, and a byte is two digits"),
        (&["check", "--hex-file", "-"], b"03 02\n01 0", "line 2, character 4: '0' stands alone, and a byte is two digits"),
        (&["check", "--hex-file", "-"], b"03 \xFF", "line 1, character 4: '\u{FFFD}' is no hexadecimal digit"),
    ];
    for (arguments, input, words) in wrong {
        let said = keshtiwol(arguments, input);
        assert_eq!((said.status, said.out.as_str()), (2, ""), "{arguments:?}");
        assert_eq!(said.error, format!("keshtiwol: the program's text, {words}\n'keshtiwol --help' tells more\n"));
    }
}

#[test]
fn wrong_command_lines_and_files() {
    let missing = scratch("there-is-no-such-file");
    let wrong: [(&[&str], &str); 6] = [
        (&[], "a command is missing"),
        (&["lst", "00"], "there is no command 'lst'"),
        (&["list"], "list wants a program"),
        (&["svg", "--fancy", "00"], "there is no option '--fancy'"),
        (&["list", "--file", &missing], &format!("{missing} can't be read: ")),
        (&["svg", "00", "-o", &format!("{missing}/x.svg")], &format!("{missing}/x.svg can't be written: ")),
    ];
    for (arguments, words) in wrong {
        let said = keshtiwol(arguments, b"");
        assert_eq!((said.status, said.out.as_str()), (2, ""), "{arguments:?}");
        assert!(said.error.starts_with(&format!("keshtiwol: {words}")), "{}", said.error);
    }
}

#[test]
fn help_and_version() {
    let help = written(&["--help"], b"");
    let commands = ["show", "list", "order", "check", "dot", "svg", "job"].map(|command| format!("keshtiwol {command} "));
    let options = ["--hex-file", "--file", "--steps", "--then", "--name", "-o", "--jobs", "0x", "#"].map(str::to_string);
    for word in commands.iter().chain(&options) {
        assert!(help.contains(word), "{word}");
    }
    assert_eq!(written(&["svg", "-h"], b""), help);
    let version = env!("CARGO_PKG_VERSION");
    assert_eq!(written(&["--version"], b""), format!("keshtiwol {version}, engine {version}\n"));
}
