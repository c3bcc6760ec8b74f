//! Outlines of programs.

use std::fs;

use crate::{repository, scratch, written};

#[test]
fn the_receiver() {
    let program = "01 90 81 DB 06 03 02 01 11 01 21 00 02 01 12 01 22 00 00 01 30 00";
    let outline = [
        " 0  01 90 81 DB 06  job 14074000",
        " 5  03              finish",
        " 6  02                async",
        " 7  01 11               job 17",
        " 9  01 21               job 33",
        "11  00                end of the async",
        "12  02                async",
        "13  01 12               job 18",
        "15  01 22               job 34",
        "17  00                end of the async",
        "18  00              end of the finish",
        "19  01 30           job 48",
        "21  00              end of the program\n",
    ]
    .join("\n");
    assert_eq!(written(&["show", program], b""), outline);
    let names = [("14074000", "retune"), ("17", "filter 1"), ("48", "log <all>")];
    let arguments = names.map(|(job, name)| ["--name".to_string(), format!("{job}={name}")]).concat();
    let arguments: Vec<&str> = arguments.iter().map(String::as_str).collect();
    let named = names.iter().fold(outline, |text, (job, name)| text.replace(&format!("job {job}\n"), &format!("{name}\n")));
    assert_eq!(written(&[&["show", program], &arguments[..]].concat(), b""), named);
}

#[test]
fn where_a_forks_second_body_begins() {
    let outline = [
        "0  04     fork",
        "1  01 01    job 1",
        "3  00     end of the fork's first body; beside it:",
        "4  01 02    job 2",
        "6  00     end of the fork",
        "7  01 03  job 3",
        "9  00     end of the program\n",
    ];
    assert_eq!(written(&["show", "04 01 01 00 01 02 00 01 03 00"], b""), outline.join("\n"));
}

/// The bytes of the lines are the program's, whose items the listing counts, and its offsets count them.
#[test]
fn every_byte_is_shown_once() {
    let cases = fs::read_to_string(repository("crates/lister_cases/stdout")).unwrap();
    let deepest = "02".repeat(31) + &"00".repeat(32);
    let longest = "0200".repeat(1022) + "00";
    let accepted =
        cases.split("program ").skip(1).filter_map(|case| case.split_once('\n')).filter(|(_, said)| said.starts_with("vertices"));
    let mut shown = 0;
    for program in accepted.map(|(bytes, _)| bytes).chain([deepest.as_str(), longest.as_str()]) {
        let (mut all, mut jobs) = (String::new(), 0);
        for line in written(&["show", program], b"").lines() {
            let (offset, rest) = line.trim_start().split_once("  ").unwrap();
            let (bytes, words) = rest.split_once("  ").unwrap();
            assert_eq!(offset.parse(), Ok(all.len() / 2), "{line}");
            all += &bytes.replace(' ', "");
            jobs += u32::from(words.trim_start().starts_with("job "));
        }
        assert_eq!(all, program.replace(' ', "").to_uppercase());
        assert!(written(&["list", program], b"").contains(&format!(" jobs {jobs} ")), "{program}");
        shown += 1;
    }
    assert!(shown > 2);
}

#[test]
fn a_commented_file() {
    let path = scratch("commented.hex");
    fs::write(&path, "# one job\n0x01, 0x05, # number 5\n00 # the end\n").unwrap();
    assert_eq!(written(&["show", "--hex-file", &path], b""), "0  01 05  job 5\n2  00     end of the program\n");
}
