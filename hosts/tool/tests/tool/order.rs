//! Orders of jobs that are asked for.

use crate::{keshtiwol, written};

// fork { job 1 } { job 2 }, then job 3
const FORK: &str = "04 01 01 00 01 02 00 01 03 00";

/// What is said of an order that is not fair.
fn unfair(program: &str, jobs: &str) -> String {
    let said = keshtiwol(&["order", program, "--jobs", jobs], b"");
    assert_eq!((said.status, said.out.as_str()), (1, ""), "{program} {jobs}");
    assert_eq!(keshtiwol(&["order", program, "--jobs", jobs, "--edition", "2"], b""), said);
    said.error
}

/// The numbers of the jobs in a listing.
fn jobs(listing: &str) -> Vec<&str> {
    listing.lines().skip(1).filter_map(|line| line.split_once(" job ")).map(|(_, number)| number).collect()
}

#[test]
fn both_orders_of_a_fork() {
    let lines = [
        "vertices 4 jobs 3 steps 19",
        "0 start",
        "0 new 2",
        "0 new 3",
        "0 edge 2 0",
        "0 edge 3 0",
        "0 release 2",
        "0 release 3",
        "0 yield",
        "2 start",
        "3 start",
        "3 job 2",
        "3 stop",
        "2 job 1",
        "2 stop",
        "0 start",
        "0 job 3",
        "0 stop",
        "1 start",
        "1 stop\n",
    ];
    assert_eq!(written(&["order", FORK, "--jobs", "4,1,7", "--edition", "2"], b""), lines.join("\n"));
    for (edition, heading) in [("1", "vertices 5 jobs 3 steps 22\n"), ("2", "vertices 4 jobs 3 steps 19\n")] {
        for (offsets, numbers) in [("1,4,7", ["1", "2", "3"]), ("4,1,7", ["2", "1", "3"])] {
            let listing = written(&["order", FORK, "--jobs", offsets, "--edition", edition], b"");
            assert!(listing.starts_with(heading), "{listing}");
            assert_eq!(jobs(&listing), numbers);
            // The same steps as in a run of the lowest vertex, in another order.
            let sorted = |listing: &str| {
                let mut lines: Vec<String> = listing.lines().map(str::to_string).collect();
                lines.sort();
                lines
            };
            assert_eq!(sorted(&listing), sorted(&written(&["list", FORK, "--edition", edition], b"")));
        }
    }
}

#[test]
fn a_program_without_jobs() {
    let lines = "vertices 2 jobs 0 steps 4\n0 start\n0 stop\n1 start\n1 stop\n";
    assert_eq!(written(&["order", "00", "--jobs", ""], b""), lines);
    assert_eq!(unfair("00", "0"), "keshtiwol: no job starts at byte 0; 'keshtiwol show' tells where jobs start\n");
}

/// Jobs with the same number, and a number whose bytes look like jobs.
#[test]
fn jobs_are_told_apart_by_offset() {
    // async { job 5 } async { job 5 job 2,113,665 }
    let program = "02 01 05 00 02 01 05 01 81 81 81 01 00 00";
    let listing = written(&["order", program, "--jobs", "5,7,1"], b"");
    assert_eq!(jobs(&listing), ["5", "2113665", "5"]);
    assert!(listing.find("3 job 5\n") < listing.find("2 job 5\n"), "{listing}");
    assert_eq!(unfair(program, "1,7,5"), "keshtiwol: job 2113665 at byte 7 stands before job 5 at byte 5, which comes ahead of it\n");
    assert_eq!(unfair(program, "1,11,5"), "keshtiwol: no job starts at byte 11; 'keshtiwol show' tells where jobs start\n");
}

#[test]
fn what_is_wrong_with_an_order() {
    let wrong = [
        ("7,1,4", "job 3 at byte 7 stands before job 1 at byte 1, which comes ahead of it"),
        ("1,7,4", "job 3 at byte 7 stands before job 2 at byte 4, which comes ahead of it"),
        ("7,4,1", "job 3 at byte 7 stands before job 2 at byte 4, which comes ahead of it"),
        ("1,4", "job 3 at byte 7 is missing from the list"),
        ("7", "job 1 at byte 1 is missing from the list"),
        ("", "job 1 at byte 1 is missing from the list"),
        ("7,4,4,7", "job 2 at byte 4 stands in the list twice"),
        ("7,7,2,0", "no job starts at byte 2; 'keshtiwol show' tells where jobs start"),
        ("1,4,7,10", "no job starts at byte 10; 'keshtiwol show' tells where jobs start"),
    ];
    for (jobs, words) in wrong {
        assert_eq!(unfair(FORK, jobs), format!("keshtiwol: {words}\n"));
    }
}

#[test]
fn futures_wait_for_forces_only() {
    // future { job 1 } job 2 force 0 job 3
    let program = "05 01 01 00 01 02 06 00 01 03 00";
    assert_eq!(jobs(&written(&["order", program, "--jobs", "1,4,8"], b"")), ["1", "2", "3"]);
    assert_eq!(jobs(&written(&["order", program, "--jobs", "4,1,8"], b"")), ["2", "1", "3"]);
    assert_eq!(unfair(program, "4,8,1"), "keshtiwol: job 3 at byte 8 stands before job 1 at byte 1, which comes ahead of it\n");
    // finish { future { job 1 } } job 2
    assert_eq!(jobs(&written(&["order", "03 05 01 01 00 00 01 02 00", "--jobs", "6,2"], b"")), ["2", "1"]);
}

#[test]
fn the_most_asyncs() {
    let program = [[2, 1, 5, 0].repeat(1022), vec![0]].concat();
    let offsets: Vec<String> = (0..1022).rev().map(|number| (4 * number + 1).to_string()).collect();
    let listing = written(&["order", "--file", "-", "--jobs", &offsets.join(",")], &program);
    assert!(listing.starts_with("vertices 1024 jobs 1022 steps 6136\n"));
    let vertices = listing.lines().filter_map(|line| line.strip_suffix(" job 5")).map(|vertex| vertex.parse::<u32>().unwrap());
    assert!(vertices.eq((2..1024).rev()));
}

#[test]
fn refused_programs_and_wrong_command_lines() {
    let refused = keshtiwol(&["order", "05 01 01 00 06 01 00", "--jobs", "9,9"], b"");
    assert_eq!(refused, keshtiwol(&["list", "05 01 01 00 06 01 00"], b""));
    assert!(refused.status == 1 && refused.error.contains("refused with 43"), "{}", refused.error);
    let forks = "040000".repeat(400) + "00";
    assert!(keshtiwol(&["order", &forks, "--jobs", ""], b"").error.contains("refused with 8"));
    assert!(written(&["order", &forks, "--jobs", "", "--edition", "2"], b"").starts_with("vertices 802 jobs 0 steps 4804\n"));
    for (line, words) in [
        (&["order", FORK][..], "order wants --jobs: where each job starts, in the order that is asked for"),
        (&["order", FORK, "--jobs", "1,x,7"], "--jobs: 'x' is no number, or too large"),
        (&["order", "--jobs", "1,4,7"], "order wants a program: hexadecimal text, --hex-file or --file"),
    ] {
        let said = keshtiwol(line, b"");
        assert_eq!((said.status, said.out.as_str()), (2, ""), "{line:?}");
        assert_eq!(said.error, format!("keshtiwol: {words}\n'keshtiwol --help' tells more\n"));
    }
}
