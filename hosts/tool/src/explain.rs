//! Why a program is refused, for people: the words, the bytes around the place with a mark under the one at fault, and what to look for.

use std::ops::Range;

use keshtiwol::{refusal, Edition, Refusal, PROGRAM_BYTES, ROWS};

use crate::bodies::Open;
use crate::hex;
use crate::items::{items, vertices_of_fork, Counts};
use crate::number;

/// Programs up to this length are shown whole, of longer ones as many bytes.
const SHOWN: usize = 24;

/// So many open bodies or futures are told; of more, one less and how many there are besides.
const TOLD: usize = 6;

const BYTES_OF_A_JOB: &str = "'keshtiwol job NUMBER' tells a job's bytes.";

const BYTES_OF_A_FORCE: &str = "'keshtiwol job NUMBER' tells a job's bytes; a force's are the same behind its 06.";

const WHERE_FUTURES_ARE_OPEN: &str =
    "A future is open behind its item, to the end of the body in which the item stands, and not in its own body.";

pub fn explain(program: &[u8], edition: Edition, refusal: Refusal) -> String {
    let words = format!("the program is refused with {}: {}", refusal.number, refusal::text(refusal.number));
    let shown = match refusal.number {
        refusal::NUMBER_MALFORMED..=refusal::JOB_TOO_LARGE | refusal::NO_SUCH_FUTURE => marked(program, refusal.place as usize),
        _ => "    This is about the whole program, and not about one of its bytes.\n".to_string(),
    };
    format!("{words}\n\n{shown}\n{}", advice(program, edition, refusal))
}

/// The bytes around a place, their offsets, and a mark under the byte at the place. One past the last byte there is none.
fn marked(program: &[u8], place: usize) -> String {
    let Range { start, end } = window(program.len(), place);
    let before = if start > 0 { ".. " } else { "" };
    let after = if end < program.len() { " .." } else { "" };
    let mark = " ".repeat(before.len() + 3 * (place - start));
    let at = if place < program.len() { format!("byte {place}") } else { format!("byte {place} would stand here") };
    format!(
        "    bytes {start} to {} of {}, counted from 0:\n    {before}{}{after}\n    {mark}^^ {at}\n",
        end - 1,
        program.len(),
        hex::text(&program[start..end])
    )
}

/// The offsets shown: with the place about in the middle, as far as the program reaches.
fn window(length: usize, place: usize) -> Range<usize> {
    let start = place.saturating_sub(SHOWN / 2).min(length.saturating_sub(SHOWN));
    start..length.min(start + SHOWN)
}

/// What to look for.
fn advice(program: &[u8], edition: Edition, refusal: Refusal) -> String {
    let place = refusal.place as usize;
    match refusal.number {
        refusal::LENGTH_OUTSIDE if program.is_empty() => "It has no bytes. The shortest program is 00, an end byte alone.".to_string(),
        refusal::LENGTH_OUTSIDE => format!("It has at least {} bytes.", program.len().min(PROGRAM_BYTES + 1)),
        refusal::NUMBER_MALFORMED => malformed(program, place),
        refusal::BYTE_UNKNOWN => {
            let kinds = "01 is a job, 02 an async, 03 a finish, 04 a fork, 05 a future, 06 a force";
            format!("{:02X} starts no item. 00 ends a body, {kinds}.", program[place])
        }
        refusal::LEVEL_TOO_DEEP => {
            "The body that starts here is inside 32 others. The main body is level 1, and 32 levels are allowed.".to_string()
        }
        refusal::BYTES_RUN_OUT => run_out(program),
        refusal::BYTES_AFTER_END => format!("The program ends with byte {}, the end byte of its main body.", place - 1),
        refusal::JOB_TOO_LARGE => {
            format!("The {}'s number is {}.", of_number(program, place - 1).0, whole_number(program, place))
        }
        refusal::NO_SUCH_FUTURE => no_such_future(program, place),
        refusal::TOO_MANY_VERTICES => too_many_vertices(&Counts::of(program), edition),
        _ => "The tables that this tool lends are large enough for every program, so this is a mistake of the tool.".to_string(),
    }
}

/// What makes the vertices, and whether they are few enough in the second edition.
fn too_many_vertices(counts: &Counts, edition: Edition) -> String {
    let Counts { asyncs, finishes, forks, futures, forces, .. } = counts;
    let in_second = counts.vertices(Edition::Second);
    let tip = match edition {
        Edition::First if in_second as usize <= ROWS => format!("\nIn the second edition it makes {in_second}, and loads: --edition 2."),
        _ => String::new(),
    };
    format!(
        "It would make {}: 2, and 1 for each of {asyncs} asyncs, 2 for each of {finishes} finishes, {} for each of {forks} forks, \
        2 for each of {futures} futures, 1 for each of {forces} forces.{tip}",
        counts.vertices(edition),
        vertices_of_fork(edition)
    )
}

/// What the item is that starts at a place and has a number, and how to find its bytes.
fn of_number(program: &[u8], place: usize) -> (&'static str, &'static str) {
    match program[place] {
        1 => ("job", BYTES_OF_A_JOB),
        _ => ("force", BYTES_OF_A_FORCE),
    }
}

/// The number at a place, which ends.
fn whole_number(program: &[u8], place: usize) -> u64 {
    number::at(program, place).expect("a number that does not end is refused otherwise").0
}

/// About the force whose number is at a place: the futures that are open there.
fn no_such_future(program: &[u8], place: usize) -> String {
    let force = place - 1;
    let mut open = Open::new();
    for (bytes, item) in items(&program[..force]) {
        open.pass(bytes.start, item);
    }
    let futures: Vec<String> =
        open.nearest_future_first().enumerate().map(|(number, place)| format!("{number}, the future at byte {place}")).collect();
    let there = if futures.is_empty() { "No future is open there.".to_string() } else { format!("Open there: {}.", told(futures)) };
    format!("The force at byte {force} has the number {}. {there}\n{WHERE_FUTURES_ARE_OPEN}", whole_number(program, place))
}

/// About the number at a place: it goes on too long, or ends in 00.
fn malformed(program: &[u8], place: usize) -> String {
    let reason = match number::at(program, place) {
        None => format!(
            "The number's fifth byte, {:02X}, says that another follows, and a number has five at most: the largest, {}, is {}.",
            program[place + 4],
            u32::MAX,
            hex::text(&number::bytes(u32::MAX.into()))
        ),
        Some((number, length)) => format!(
            "The number {} ends in 00, so it is not in its shortest form: it is {number}, which is written {}.\n\
            If that 00 is meant to end a body, the number lacks its last byte: one of 80 or above says that another follows.",
            hex::text(&program[place..place + length]),
            hex::text(&number::bytes(number))
        ),
    };
    format!("{reason}\n{}", of_number(program, place - 1).1)
}

/// The number that goes on, if any, the bodies that are open, and what the last end byte ends, which may have been meant for another.
fn run_out(program: &[u8]) -> String {
    let mut open = Open::new();
    let mut read = 0;
    let mut last_end = String::new();
    for (bytes, item) in items(program) {
        if let Some(body) = open.pass(bytes.start, item) {
            last_end = format!("\nThe last end byte, byte {}, is that of {body}.", bytes.start);
        }
        read = bytes.end;
    }
    let number = if read == program.len() {
        String::new()
    } else {
        let (kind, bytes) = of_number(program, read);
        let lacks = if program.len() - read == 1 { "is missing" } else { "goes on: its last byte is below 80" };
        format!("The number of the {kind} at byte {read} {lacks}. {bytes}\n")
    };
    let missing = match open.ends_to_come() {
        1 => "1 end byte (00) is missing.".to_string(),
        ends if ends == open.level() => format!("{ends} end bytes (00) are missing."),
        ends => format!("{ends} end bytes (00) are missing: a fork has two bodies, and each has its own."),
    };
    let bodies = open.innermost_first().map(|body| body.to_string()).collect();
    format!("{number}Still open: {}.\nAt least {missing}{last_end}", told(bodies))
}

/// What is open, as one list.
fn told(mut open: Vec<String>) -> String {
    if open.len() > TOLD {
        let more = open.split_off(TOLD - 1).len();
        open.push(format!("and {more} more"));
    }
    open.join("; ")
}

#[cfg(test)]
mod tests {
    use super::*;
    use keshtiwol::Machine;

    fn explained(program: &[u8]) -> String {
        explained_in(Edition::First, program)
    }

    fn explained_in(edition: Edition, program: &[u8]) -> String {
        explain(program, edition, Machine::load_in(program, edition).unwrap_err())
    }

    /// Each line with a mark, and the line above it.
    fn mark(text: &str) -> (&str, &str) {
        let lines: Vec<_> = text.lines().collect();
        let at = lines.iter().position(|line| line.contains("^^")).expect("no mark");
        (lines[at - 1], lines[at])
    }

    #[test]
    fn short_programs_whole() {
        let text = explained(&[1, 0x80, 0, 0]);
        assert_eq!(
            text,
            "the program is refused with 2: a number is longer than five bytes or not in its shortest form\n\n    \
            bytes 0 to 3 of 4, counted from 0:\n    01 80 00 00\n       ^^ byte 1\n\n\
            The number 80 00 ends in 00, so it is not in its shortest form: it is 0, which is written 00.\n\
            If that 00 is meant to end a body, the number lacks its last byte: one of 80 or above says that another follows.\n\
            'keshtiwol job NUMBER' tells a job's bytes."
        );
    }

    #[test]
    fn the_mark_is_under_the_byte() {
        for length in [1, 12, 23, 24, 25, 36, 37, 100, 4095] {
            for place in [0, 1, 11, 12, 13, 23, 24, 25, 35, 36, 37, 90, 4094].into_iter().filter(|&place| place < length) {
                let mut program = vec![1; length];
                program[place] = 0x77;
                let text = marked(&program, place);
                let (bytes, mark) = mark(&text);
                let column = mark.find("^^").unwrap();
                assert_eq!(&bytes[column..column + 2], "77", "{text}");
                assert_eq!(bytes.matches("01").count(), length.min(SHOWN) - 1);
                assert_eq!(bytes.ends_with(" .."), length > SHOWN && place + SHOWN / 2 < length, "{text}");
                assert_eq!(bytes.starts_with("    .."), length > SHOWN && place > SHOWN / 2, "{text}");
            }
        }
    }

    #[test]
    fn bytes_that_run_out_are_marked_behind_the_last() {
        for length in [1, 2, 24, 25, 300] {
            let program = vec![2; length.min(31)].into_iter().chain(vec![0; length.saturating_sub(31).min(30)]).collect::<Vec<_>>();
            let text = explained(&program);
            let (bytes, mark) = mark(&text);
            assert_eq!(mark.find("^^"), Some(bytes.len() + 1), "{text}");
            assert!(mark.ends_with(&format!("byte {} would stand here", program.len())), "{text}");
        }
    }

    #[test]
    fn each_refusal_has_its_words() {
        let pairs = [[2, 0].repeat(1023), vec![0]].concat();
        let cases: [(&[u8], &str, &str); 11] = [
            (&[], "refused with 1: ", "It has no bytes. The shortest program is 00, an end byte alone."),
            (&[0; 4097], "refused with 1: ", "It has at least 4097 bytes."),
            (&[1, 0x80, 0x80, 0], "refused with 2: ", "The number 80 80 00 ends in 00"),
            (&[1, 5, 7, 0], "refused with 3: ", "07 starts no item."),
            (&[2; 40], "refused with 4: ", "The body that starts here is inside 32 others."),
            (&[3, 0], "refused with 5: ", "Still open: the program."),
            (&[1, 5, 0, 0], "refused with 6: ", "The program ends with byte 2, the end byte of its main body."),
            (&[1, 0x80, 0x80, 0x80, 0x80, 0x10, 0], "refused with 7: ", "The job's number is 4294967296."),
            (&[6, 0x80, 0x80, 0x80, 0x80, 0x10, 0], "refused with 7: ", "The force's number is 4294967296."),
            (&pairs, "refused with 8: ", "It would make 1025: 2, and 1 for each of 1023 asyncs, 2 for each of 0 finishes"),
            (&[6, 0, 0], "refused with 43: ", "The force at byte 0 has the number 0. No future is open there."),
        ];
        for (program, words, advice) in cases {
            let text = explained(program);
            assert!(text.contains(words) && text.contains(advice), "{text}");
            let has_place = !words.contains(" 1:") && !words.contains(" 8:");
            assert_eq!(text.contains("^^"), has_place, "{text}");
            assert_eq!(text.contains("not about one of its bytes"), !has_place, "{text}");
        }
    }

    #[test]
    fn too_many_forks() {
        let forks = |count| [[4, 0, 0].repeat(count), vec![0]].concat();
        let counted = |vertices, of_fork, forks| {
            format!(
                "It would make {vertices}: 2, and 1 for each of 0 asyncs, 2 for each of 0 finishes, {of_fork} for each of {forks} forks, \
                2 for each of 0 futures, 1 for each of 0 forces."
            )
        };
        let tip = "\nIn the second edition it makes 1024, and loads: --edition 2.";
        assert_eq!(advised(&forks(511)), counted(1535, 3, 511) + tip);
        assert!(Machine::load_in(&forks(511), Edition::Second).is_ok());
        assert_eq!(advised(&forks(512)), counted(1538, 3, 512));
        assert!(explained_in(Edition::Second, &forks(512)).ends_with(&counted(1026, 2, 512)));
    }

    #[test]
    fn futures_that_are_not_open() {
        let cases: [(&[u8], &str); 6] = [
            (&[5, 6, 0, 0, 0], "The force at byte 1 has the number 0. No future is open there."),
            (&[2, 5, 0, 0, 6, 0, 0], "The force at byte 4 has the number 0. No future is open there."),
            (&[5, 0, 6, 1, 0], "The force at byte 2 has the number 1. Open there: 0, the future at byte 0."),
            (
                &[5, 0, 3, 5, 0, 6, 9, 0, 0],
                "The force at byte 5 has the number 9. Open there: 0, the future at byte 3; 1, the future at byte 0.",
            ),
            (
                &[5, 0, 5, 0, 5, 0, 5, 0, 5, 0, 5, 0, 5, 0, 6, 7, 0],
                "The force at byte 14 has the number 7. Open there: 0, the future at byte 12; 1, the future at byte 10; \
                2, the future at byte 8; 3, the future at byte 6; 4, the future at byte 4; and 2 more.",
            ),
            (&[6, 0xFF, 0xFF, 0xFF, 0xFF, 0x0F, 0], "The force at byte 0 has the number 4294967295. No future is open there."),
        ];
        for (program, words) in cases {
            assert_eq!(advised(program), format!("{words}\n{WHERE_FUTURES_ARE_OPEN}"), "{program:?}");
        }
    }

    /// The last lines of an explanation.
    fn advised(program: &[u8]) -> String {
        explained(program).rsplit_once("\n\n").unwrap().1.to_string()
    }

    #[test]
    fn numbers_that_end_in_00() {
        let cases: [(&[u8], &str, u32, &str); 6] = [
            (&[0x80, 0], "80 00", 0, "00"),
            (&[0x80, 0x80, 0], "80 80 00", 0, "00"),
            (&[0xC8, 0], "C8 00", 72, "48"),
            (&[0xC8, 0x80, 0], "C8 80 00", 72, "48"),
            (&[0x90, 0x81, 0], "90 81 00", 144, "90 01"),
            (&[0xFF, 0xFF, 0xFF, 0xFF, 0], "FF FF FF FF 00", 268_435_455, "FF FF FF 7F"),
        ];
        for (bytes, written, number, shortest) in cases {
            let advice = advised(&[&[1], bytes, &[0]].concat());
            let words =
                format!("The number {written} ends in 00, so it is not in its shortest form: it is {number}, which is written {shortest}.");
            assert_eq!(advice.lines().next(), Some(words.as_str()));
        }
    }

    #[test]
    fn numbers_of_more_than_five_bytes() {
        for fifth in [0x80, 0xFF] {
            let advice = advised(&[&[1, 0x80, 0x80, 0x80, 0x80, fifth], &[0xFF; 20][..]].concat());
            assert!(advice.starts_with(&format!("The number's fifth byte, {fifth:02X}, says that another follows")), "{advice}");
            assert!(advice.contains("the largest, 4294967295, is FF FF FF FF 0F."), "{advice}");
        }
        assert!(advised(&[6, 0x80, 0x80, 0x80, 0x80, 0x80, 0]).ends_with(BYTES_OF_A_FORCE));
        // The fifth is the program's last.
        assert!(advised(&[1, 0x80, 0x80, 0x80, 0x80, 0x80]).starts_with("The number's fifth byte, 80,"));
    }

    #[test]
    fn bodies_still_open() {
        let cases: [(&[u8], &str); 5] = [
            (&[1, 5], "Still open: the program.\nAt least 1 end byte (00) is missing."),
            (&[3, 2, 1, 5], "Still open: the async at byte 1; the finish at byte 0; the program.\nAt least 3 end bytes (00) are missing."),
            (
                &[3, 2, 1, 5, 0, 0],
                "Still open: the program.\nAt least 1 end byte (00) is missing.\n\
                The last end byte, byte 5, is that of the finish at byte 0.",
            ),
            (
                &[1, 0x90, 0x81, 0xDB, 6, 4, 0, 1, 1],
                "Still open: the fork at byte 5, in its second body; the program.\nAt least 2 end bytes (00) are missing.\n\
                The last end byte, byte 6, is that of the fork at byte 5, in its first body.",
            ),
            (
                &[3, 4, 2, 1, 1, 0],
                "Still open: the fork at byte 1, in its first body; the finish at byte 0; the program.\n\
                At least 4 end bytes (00) are missing: a fork has two bodies, and each has its own.\n\
                The last end byte, byte 5, is that of the async at byte 2.",
            ),
        ];
        for (program, words) in cases {
            assert_eq!(advised(program), words, "{program:?}");
        }
    }

    /// The end byte meant for the program ends another body, and that is told.
    #[test]
    fn a_forgotten_end_byte() {
        // fork { job 1 [forgotten] { job 2 } job 3
        let fork = advised(&[4, 1, 1, 1, 2, 0, 1, 3, 0]);
        assert!(fork.starts_with("Still open: the program.\n"), "{fork}");
        assert!(fork.ends_with("\nThe last end byte, byte 8, is that of the fork at byte 0, in its second body."), "{fork}");
        // finish { async { job 5 } [forgotten] job 6
        let finish = advised(&[3, 2, 1, 5, 0, 1, 6, 0]);
        assert!(finish.ends_with("\nThe last end byte, byte 7, is that of the finish at byte 0."), "{finish}");
    }

    #[test]
    fn many_bodies_still_open() {
        let list = |depth: usize| advised(&vec![2; depth]).lines().next().unwrap().to_string();
        assert!(list(5).ends_with("; the async at byte 1; the async at byte 0; the program."));
        let rest = "the async at byte 4; the async at byte 3; the async at byte 2; the async at byte 1; and 2 more.";
        assert_eq!(list(6), format!("Still open: the async at byte 5; {rest}"));
        assert!(list(31).starts_with("Still open: the async at byte 30; ") && list(31).ends_with("the async at byte 26; and 27 more."));
    }

    #[test]
    fn numbers_that_go_on() {
        let open = "Still open: the async at byte 0; the program.\nAt least 2 end bytes (00) are missing.";
        let tip = BYTES_OF_A_JOB;
        for more in 1..5 {
            let program = [&[2, 1, 5, 1], &[0xC8; 4][..more]].concat();
            assert_eq!(advised(&program), format!("The number of the job at byte 3 goes on: its last byte is below 80. {tip}\n{open}"));
        }
        assert_eq!(advised(&[2, 1, 5, 1]), format!("The number of the job at byte 3 is missing. {tip}\n{open}"));
        let tip = BYTES_OF_A_FORCE;
        assert_eq!(advised(&[2, 1, 5, 6]), format!("The number of the force at byte 3 is missing. {tip}\n{open}"));
        let goes_on = "The number of the force at byte 3 goes on: its last byte is below 80.";
        assert_eq!(advised(&[2, 1, 5, 6, 0xC8]), format!("{goes_on} {tip}\n{open}"));
    }
}
