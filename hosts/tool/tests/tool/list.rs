//! Listings against those of the proved lister.

use std::fs;

use crate::{keshtiwol, repository, written};

#[test]
fn the_listers_samples() {
    for (lister, edition) in [("lister", "1"), ("second_lister", "2")] {
        let expected = fs::read_to_string(repository(&format!("crates/{lister}/stdout"))).unwrap();
        let sample = repository(&format!("crates/{lister}/stdin"));
        assert_eq!(written(&["list", "--edition", edition, "--file", &sample], b""), expected);
    }
}

/// The file has a line `edition ... program` with the number and the bytes, then the lines that the edition's lister prints for them.
#[test]
fn the_listers_cases() {
    let cases = fs::read_to_string(repository("crates/lister_cases/stdout")).unwrap();
    let (mut accepted, mut refused) = (0, 0);
    for case in cases.split("edition ").skip(1) {
        let (heading, expected) = case.split_once('\n').unwrap();
        let (edition, bytes) = heading.split_once(" program").unwrap();
        let said = match bytes {
            " of 4097 bytes" => keshtiwol(&["list", "--edition", edition, "--file", "-"], &[0; 4097]),
            _ => keshtiwol(&["list", "--edition", edition, bytes.trim()], b""),
        };
        if let Some(refusal) = expected.strip_prefix("refused ") {
            let (number, place) = refusal.trim_end().split_once(' ').unwrap();
            assert_eq!((said.status, said.out.as_str()), (1, ""), "{bytes}");
            assert!(said.error.starts_with(&format!("keshtiwol: the program is refused with {number}: ")), "{}", said.error);
            let marked = said.error.lines().find_map(|line| line.split_once("^^ byte "));
            let marked = marked.map_or("0", |(_, at)| at.trim_end_matches(" would stand here"));
            assert_eq!(marked, place, "{bytes}");
            refused += 1;
        } else {
            assert_eq!((said.status, said.error.as_str()), (0, ""), "{bytes}");
            assert_eq!(said.out, expected, "{bytes}");
            accepted += 1;
        }
    }
    assert!(accepted > 0 && refused > 0, "{accepted} accepted, {refused} refused");
}

#[test]
fn a_fork_in_either_edition() {
    let fork = "04 01 01 00 01 02 00 01 03 00";
    let lines = [
        "vertices 4 jobs 3 steps 19",
        "0 start",
        "0 new 2",
        "0 new 3",
        "0 edge 2 0",
        "0 edge 3 0",
        "0 release 2",
        "0 release 3",
        "0 yield",
        "2 start",
        "2 job 1",
        "2 stop",
        "3 start",
        "3 job 2",
        "3 stop",
        "0 start",
        "0 job 3",
        "0 stop",
        "1 start",
        "1 stop\n",
    ];
    assert_eq!(written(&["list", fork, "--edition", "2"], b""), lines.join("\n"));
    let first = written(&["list", fork], b"");
    assert!(first.starts_with("vertices 5 jobs 3 steps 22\n"), "{first}");
    assert_eq!(written(&["list", fork, "--edition", "1"], b""), first);
    // All else is done alike.
    let sample = "03 02 01 05 00 00 01 06 00";
    assert_eq!(written(&["list", sample, "--edition", "2"], b""), written(&["list", sample], b""));
}

#[test]
fn the_largest_program() {
    let pairs = [[2, 0].repeat(1022), vec![0]].concat();
    let lines = written(&["list", "--file", "-"], &pairs);
    assert!(lines.starts_with("vertices 1024 jobs 0 steps 5114\n0 start\n"));
    assert_eq!(lines.lines().count(), 1 + 5114);
    assert!(lines.ends_with("\n1 start\n1 stop\n"));
}

#[test]
fn what_a_program_holds_and_needs() {
    let sample = "accepted: 9 bytes with 2 jobs, 1 async, 1 finish, 0 forks, 0 futures, 0 forces\n\
                  needs 5 vertex rows, 3 edge rows and 21 steps\n";
    assert_eq!(written(&["check", "03 02 01 05 00 00 01 06 00"], b""), sample);
    let forced = "accepted: 5 bytes with 0 jobs, 0 asyncs, 0 finishes, 0 forks, 1 future, 1 force\n\
                  needs 5 vertex rows, 3 edge rows and 19 steps\n";
    assert_eq!(written(&["check", "05 00 06 00 00"], b""), forced);
    let shortest = "accepted: 1 byte with 0 jobs, 0 asyncs, 0 finishes, 0 forks, 0 futures, 0 forces\n\
                    needs 2 vertex rows, 1 edge row and 4 steps\n";
    assert_eq!(written(&["check", "00"], b""), shortest);
    let fork = "accepted: 4 bytes with 0 jobs, 0 asyncs, 0 finishes, 1 fork, 0 futures, 0 forces\n\
                needs 4 vertex rows, 3 edge rows and 16 steps, in the second edition\n";
    assert_eq!(written(&["check", "04 00 00 00", "--edition", "2"], b""), fork);
}
