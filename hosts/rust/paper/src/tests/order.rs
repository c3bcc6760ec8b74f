//! "Which job comes ahead", with futures: what the machine does in all orders of steps, in either edition, against the notes' words.

use super::*;
use crate::ahead::ahead;
use crate::steps::Book;
use std::collections::HashSet;

/// Pairs of job numbers, which tell the jobs of these programs apart: the first comes ahead of the second.
type Pairs = BTreeSet<(u32, u32)>;

// --- What the note says ------------------------------------------------------------------------

/// The pairs of `ahead` by the jobs' numbers.
fn ahead_by_number(program: &[u8]) -> Pairs {
    let book = Book::new(program, Edition::Second);
    let number = |offset: usize| match book.item(offset as u32) {
        Some(Item::Job { number, .. }) => number,
        other => panic!("{other:?} at {offset} of {program:02x?}"),
    };
    ahead(program).into_iter().map(|(p, q)| (number(p), number(q))).collect()
}

/// A program in words.
fn words(program: &[u8]) -> String {
    body_in_words(&Book::new(program, Edition::Second), 0)
}

/// The body that starts at a place.
fn body_in_words(book: &Book, mut at: usize) -> String {
    let body = |place| body_in_words(book, place);
    let mut text = String::new();
    loop {
        let (words, past) = match book.item(at as u32).unwrap() {
            Item::Job { number, past } => (format!("job {number} "), past),
            Item::Async { past } => (format!("async {{ {}}} ", body(at + 1)), past),
            Item::Finish { past } => (format!("finish {{ {}}} ", body(at + 1)), past),
            Item::Fork { right, past } => (format!("fork {{ {}}} {{ {}}} ", body(at + 1), body(right.into())), past),
            Item::Future { past } => (format!("future {{ {}}} ", body(at + 1)), past),
            Item::Force { number, past } => (format!("force {number} "), past),
            Item::End => return text,
        };
        text += &words;
        at = past.into();
    }
}

/// Offsets, behind numbers of several bytes too, and of jobs with the same number.
#[test]
fn jobs_are_told_apart_by_offset() {
    // job 4,294,967,295 async { job 1 } finish { job 200 } job 14,074,000
    let program = [1, 0xFF, 0xFF, 0xFF, 0xFF, 0x0F, 2, 1, 1, 0, 3, 1, 0xC8, 1, 0, 1, 0x90, 0x81, 0xDB, 6, 0];
    assert_eq!(ahead(&program), [(0, 7), (0, 11), (0, 15), (11, 15)].into());
    // Behind a first future 199 others, a force of the first by a number of two bytes, and a job 5; another job 5 in or before the first.
    let futures = [[5, 0].repeat(199), vec![6, 0xC7, 1, 1, 5, 0]].concat();
    assert_eq!(ahead(&[&[5, 1, 5, 0][..], &futures].concat()), [(1, 405)].into());
    assert_eq!(ahead(&[&[1, 5, 5, 0][..], &futures].concat()), [(0, 405)].into());
}

/// In a program that reading refuses no job comes ahead, and one that only the second edition reads is read.
#[test]
fn which_programs_are_read() {
    for refused in [&[][..], &[1, 1, 1, 2], &[1, 1, 1, 2, 0, 0], &[1, 1, 1, 2, 6, 0, 0], &[7]] {
        assert_eq!(ahead(refused), [].into());
    }
    let forks = [vec![1, 1], [4, 0, 0].repeat(400), vec![1, 2, 0]].concat();
    assert_eq!(load_refusal(&forks), refusal(8, 0));
    assert_eq!(ahead(&forks), [(0, 1202)].into());
}

// --- What the machine does ---------------------------------------------------------------------

/// What was seen in all orders of a program's steps.
struct Orders {
    /// The pairs of jobs of which the first was answered before the second in each order.
    before: Pairs,
    /// Whether vertex 1 finished after all jobs in each order.
    jobs_before_vertex_1: bool,
    states: usize,
}

/// Takes every step that is accepted in every state that steps lead to from loading, with no more rows than are needed. Each order ends
/// at the full count, and meets no refusal but 21 to 23 and no cycle.
fn all_orders(edition: Edition, program: &[u8]) -> Orders {
    let c = counts(program);
    let mut first = Lent::rows_for(edition, program);
    assert_eq!(first.load(program), Answer::Ready);
    let mut jobs = Vec::new();
    let _ = read(program, edition, |_, item| {
        if let Item::Job { number, .. } = item {
            assert!(!jobs.contains(&number), "the jobs of these programs have numbers of their own");
            jobs.push(number);
        }
    });
    let bit = |job| 1u32 << jobs.iter().position(|&number| number == job).unwrap();
    let mut before: Pairs = jobs.iter().flat_map(|&p| jobs.iter().map(move |&q| (p, q))).filter(|(p, q)| p != q).collect();
    let mut jobs_before_vertex_1 = true;
    // A state is what is lent, and which jobs were answered.
    let mut seen = HashSet::from([state(&first, 0)]);
    let mut waiting = vec![(first, 0u32)];
    while let Some((lent, answered)) = waiting.pop() {
        let finished = |vertex| lent.row(vertex)[STATUS] == FINISHED;
        let all_finished = (0..lent.tally.made as usize).all(finished);
        jobs_before_vertex_1 &= answered.count_ones() == c.jobs || !finished(1);
        let mut steps = 0;
        for vertex in 0..lent.tally.made {
            let mut after = lent.clone();
            let mut now = answered;
            match after.step(program, vertex) {
                Answer::Refused { number, .. } => {
                    assert!([21, 22, 23].contains(&number), "{number}: {program:02x?}");
                    continue;
                }
                Answer::Job { number, .. } => {
                    assert_eq!(answered & bit(number), 0);
                    now |= bit(number);
                    before.retain(|&(p, q)| q != number || answered & bit(p) != 0);
                }
                _ => {}
            }
            steps += 1;
            if seen.insert(state(&after, now)) {
                assert!(!has_cycle(&after.held()));
                waiting.push((after, now));
            }
        }
        assert_eq!(steps == 0, all_finished, "{program:02x?}");
        if all_finished {
            assert_eq!((lent.tally.steps, lent.tally.held), (full_count_in(edition, program), 0));
            assert_eq!((lent.tally.made, answered.count_ones()), (c.vertices(edition), c.jobs));
        }
    }
    Orders { before, jobs_before_vertex_1, states: seen.len() }
}

/// All words of a small program's state, in bytes.
fn state(lent: &Lent, answered: u32) -> Vec<u8> {
    let Tally { made, held, steps } = lent.tally;
    let words = lent.vertices.iter().chain(&lent.edges).chain([&made, &held, &steps, &answered]);
    words.map(|&word| u8::try_from(word).unwrap()).collect()
}

// --- One against the other ---------------------------------------------------------------------

/// Programs in hexadecimal and in words, and their ordered pairs of jobs.
const TABLE: [(&str, &str, &[(u32, u32)]); 50] = [
    // Forks: nested, one after the other, and with asyncs and finishes in their branches.
    ("04 01 01 00 01 02 00 01 03 00", "fork { job 1 } { job 2 } job 3", &[(1, 3), (2, 3)]),
    ("04 00 00 01 01 04 00 00 00", "fork { } { } job 1 fork { } { }", &[]),
    (
        "04 04 01 01 00 01 02 00 01 03 00 01 04 00 01 05 00",
        "fork { fork { job 1 } { job 2 } job 3 } { job 4 } job 5",
        &[(1, 3), (1, 5), (2, 3), (2, 5), (3, 5), (4, 5)],
    ),
    ("04 01 01 00 04 01 02 00 01 03 00 00 01 04 00", "fork { job 1 } { fork { job 2 } { job 3 } } job 4", &[(1, 4), (2, 4), (3, 4)]),
    (
        "04 01 01 00 01 02 00 04 01 03 00 01 04 00 00",
        "fork { job 1 } { job 2 } fork { job 3 } { job 4 }",
        &[(1, 3), (1, 4), (2, 3), (2, 4)],
    ),
    ("04 02 01 01 00 00 01 02 00 01 03 00", "fork { async { job 1 } } { job 2 } job 3", &[(2, 3)]),
    ("04 02 01 01 00 01 02 00 01 03 00 01 04 00", "fork { async { job 1 } job 2 } { job 3 } job 4", &[(2, 4), (3, 4)]),
    ("04 03 02 01 01 00 00 00 01 02 00 01 03 00", "fork { finish { async { job 1 } } } { job 2 } job 3", &[(1, 3), (2, 3)]),
    ("03 04 02 01 01 00 00 01 02 00 00 01 03 00", "finish { fork { async { job 1 } } { job 2 } } job 3", &[(1, 3), (2, 3)]),
    ("02 04 01 01 00 01 02 00 01 03 00 01 04 00", "async { fork { job 1 } { job 2 } job 3 } job 4", &[(1, 3), (2, 3)]),
    ("05 04 01 01 00 01 02 00 01 03 00 01 04 00", "future { fork { job 1 } { job 2 } job 3 } job 4", &[(1, 3), (2, 3)]),
    (
        "04 05 01 01 00 06 00 01 02 00 01 03 00 01 04 00",
        "fork { future { job 1 } force 0 job 2 } { job 3 } job 4",
        &[(1, 2), (1, 4), (2, 4), (3, 4)],
    ),
    // A future never forced.
    ("05 01 01 00 01 02 00", "future { job 1 } job 2", &[]),
    ("01 01 05 01 02 00 01 03 00", "job 1 future { job 2 } job 3", &[(1, 2), (1, 3)]),
    ("05 01 01 00 05 01 02 00 00", "future { job 1 } future { job 2 }", &[]),
    ("05 01 01 01 02 00 01 03 00", "future { job 1 job 2 } job 3", &[(1, 2)]),
    ("05 02 01 01 00 01 02 00 01 03 00", "future { async { job 1 } job 2 } job 3", &[]),
    ("05 03 02 01 01 00 00 01 02 00 01 03 00", "future { finish { async { job 1 } } job 2 } job 3", &[(1, 2)]),
    // Forced once.
    ("05 01 01 00 06 00 01 02 00", "future { job 1 } force 0 job 2", &[(1, 2)]),
    ("05 01 01 00 01 02 06 00 01 03 00", "future { job 1 } job 2 force 0 job 3", &[(1, 3), (2, 3)]),
    ("05 02 01 01 00 01 02 00 06 00 01 03 00", "future { async { job 1 } job 2 } force 0 job 3", &[(1, 3), (2, 3)]),
    (
        "05 04 01 01 00 01 02 00 01 03 00 06 00 01 04 00",
        "future { fork { job 1 } { job 2 } job 3 } force 0 job 4",
        &[(1, 3), (1, 4), (2, 3), (2, 4), (3, 4)],
    ),
    ("02 05 01 01 00 06 00 01 02 00 01 03 00", "async { future { job 1 } force 0 job 2 } job 3", &[(1, 2)]),
    // Forced twice.
    ("05 01 01 00 06 00 01 02 06 00 01 03 00", "future { job 1 } force 0 job 2 force 0 job 3", &[(1, 2), (1, 3), (2, 3)]),
    ("05 01 01 00 02 06 00 01 02 00 06 00 01 03 00", "future { job 1 } async { force 0 job 2 } force 0 job 3", &[(1, 2), (1, 3)]),
    // A force in an async, a finish, a fork's branch.
    ("05 01 01 00 02 06 00 01 02 00 01 03 00", "future { job 1 } async { force 0 job 2 } job 3", &[(1, 2)]),
    ("05 01 01 00 03 06 00 01 02 00 01 03 00", "future { job 1 } finish { force 0 job 2 } job 3", &[(1, 2), (1, 3), (2, 3)]),
    (
        "05 01 01 00 03 02 06 00 01 02 00 00 01 03 00",
        "future { job 1 } finish { async { force 0 job 2 } } job 3",
        &[(1, 2), (1, 3), (2, 3)],
    ),
    (
        "05 01 01 00 04 06 00 01 02 00 01 03 00 01 04 00",
        "future { job 1 } fork { force 0 job 2 } { job 3 } job 4",
        &[(1, 2), (1, 4), (2, 4), (3, 4)],
    ),
    (
        "05 01 01 00 04 01 02 00 06 00 01 03 00 01 04 00",
        "future { job 1 } fork { job 2 } { force 0 job 3 } job 4",
        &[(1, 3), (1, 4), (2, 4), (3, 4)],
    ),
    ("05 01 01 00 04 02 06 00 00 00 00 01 02 00", "future { job 1 } fork { async { force 0 } } { } job 2", &[]),
    ("05 01 01 00 04 06 00 00 06 00 00 01 02 00", "future { job 1 } fork { force 0 } { force 0 } job 2", &[(1, 2)]),
    // Two futures, force 1 and force 0.
    ("05 01 01 00 05 01 02 00 06 00 01 03 00", "future { job 1 } future { job 2 } force 0 job 3", &[(2, 3)]),
    ("05 01 01 00 05 01 02 00 06 01 01 03 00", "future { job 1 } future { job 2 } force 1 job 3", &[(1, 3)]),
    (
        "05 01 01 00 05 01 02 00 06 01 01 03 06 00 01 04 00",
        "future { job 1 } future { job 2 } force 1 job 3 force 0 job 4",
        &[(1, 3), (1, 4), (2, 4), (3, 4)],
    ),
    (
        "05 01 01 00 02 05 01 02 00 06 01 01 03 00 06 00 01 04 00",
        "future { job 1 } async { future { job 2 } force 1 job 3 } force 0 job 4",
        &[(1, 3), (1, 4)],
    ),
    // A future in a future's body.
    ("05 05 01 01 00 01 02 00 06 00 01 03 00", "future { future { job 1 } job 2 } force 0 job 3", &[(2, 3)]),
    ("05 05 01 01 00 06 00 01 02 00 06 00 01 03 00", "future { future { job 1 } force 0 job 2 } force 0 job 3", &[(1, 2), (1, 3), (2, 3)]),
    ("05 05 01 01 00 01 02 06 00 00 06 00 01 03 00", "future { future { job 1 } job 2 force 0 } force 0 job 3", &[(1, 3), (2, 3)]),
    // A future that forces an earlier one.
    ("05 01 01 00 05 06 00 01 02 00 01 03 00", "future { job 1 } future { force 0 job 2 } job 3", &[(1, 2)]),
    ("05 01 01 00 05 06 00 01 02 00 06 00 01 03 00", "future { job 1 } future { force 0 job 2 } force 0 job 3", &[(1, 2), (1, 3), (2, 3)]),
    ("05 01 01 00 05 02 06 00 00 00 06 00 01 02 00", "future { job 1 } future { async { force 0 } } force 0 job 2", &[(1, 2)]),
    ("05 01 01 00 05 06 00 00 06 01 01 02 00", "future { job 1 } future { force 0 } force 1 job 2", &[(1, 2)]),
    (
        "05 01 01 00 05 06 00 06 00 00 05 06 00 06 00 00 06 00 01 02 00",
        "future { job 1 } future { force 0 force 0 } future { force 0 force 0 } force 0 job 2",
        &[(1, 2)],
    ),
    // A finish around a future does not wait for it.
    ("03 05 01 01 00 00 01 02 00", "finish { future { job 1 } } job 2", &[]),
    ("03 05 01 01 00 01 02 00 01 03 00", "finish { future { job 1 } job 2 } job 3", &[(2, 3)]),
    ("03 05 01 01 00 06 00 00 01 02 00", "finish { future { job 1 } force 0 } job 2", &[(1, 2)]),
    ("03 05 01 01 00 02 06 00 00 00 01 02 00", "finish { future { job 1 } async { force 0 } } job 2", &[(1, 2)]),
    ("05 03 05 01 01 00 00 00 06 00 01 02 00", "future { finish { future { job 1 } } } force 0 job 2", &[]),
    ("04 05 01 01 00 00 00 01 02 00", "fork { future { job 1 } } { } job 2", &[]),
];

fn bytes(hexadecimal: &str) -> Vec<u8> {
    hexadecimal.split(' ').map(|byte| u8::from_str_radix(byte, 16).unwrap()).collect()
}

#[test]
fn orders_of_the_table() {
    for (hexadecimal, in_words, pairs) in TABLE {
        let program = bytes(hexadecimal);
        assert_eq!(words(&program).trim_end(), in_words, "{hexadecimal}");
        let pairs: Pairs = pairs.iter().copied().collect();
        assert_eq!(ahead_by_number(&program), pairs, "{in_words}");
        for edition in EDITIONS {
            assert_eq!(all_orders(edition, &program).before, pairs, "{edition:?}: {in_words}");
        }
    }
}

/// A body of few items, whose jobs have numbers of their own. Most bodies in items begin with a job.
fn small_body(dice: &mut Dice, level: usize, mut open: usize, room: &mut usize, jobs: &mut u8, out: &mut Vec<u8>) {
    if level > 1 && !dice.one_in(4) {
        *jobs += 1;
        out.extend([1, *jobs]);
    }
    while *room > 0 && !(level > 1 && dice.one_in(2)) {
        *room -= 1;
        let mut inner = |dice: &mut Dice, opener: &[u8], bodies, open| {
            out.extend(opener);
            for _ in 0..bodies {
                small_body(dice, level + 1, open, room, jobs, out);
            }
        };
        match dice.below(12) {
            0 => inner(dice, &[2], 1, open),
            1 => inner(dice, &[3], 1, open),
            2 if level < 3 => inner(dice, &[4], 2, open),
            3..=5 if level < 4 => {
                inner(dice, &[5], 1, open);
                open += 1;
            }
            6..=8 if open > 0 => out.extend([6, dice.below(open) as u8]),
            _ => {
                *jobs += 1;
                out.extend([1, *jobs]);
            }
        }
    }
    out.push(0);
}

/// A small program with three to six jobs.
fn small_program(dice: &mut Dice, most_steps: u32, wanted: impl Fn(Counts) -> bool) -> Vec<u8> {
    loop {
        let (mut room, mut jobs, mut program) = (4 + dice.below(4), 0, Vec::new());
        small_body(dice, 1, 0, &mut room, &mut jobs, &mut program);
        let c = counts(&program);
        if wanted(c) && (3..=6).contains(&c.jobs) && full_count(&program) <= most_steps {
            return program;
        }
    }
}

/// All orders of so many random programs, in each of these editions.
fn orders_at_random(programs: usize, editions: &[Edition], mut draw: impl FnMut() -> Vec<u8>) {
    let (mut states, mut ordered, mut unordered) = (0, 0, 0);
    let mut tried = HashSet::new();
    while tried.len() < programs {
        let program = draw();
        if !tried.insert(program.clone()) {
            continue;
        }
        let pairs = ahead_by_number(&program);
        for &edition in editions {
            let orders = all_orders(edition, &program);
            assert_eq!(orders.before, pairs, "{edition:?}, {program:02x?}: {}", words(&program));
            states += orders.states;
        }
        let jobs = counts(&program).jobs as usize;
        ordered += pairs.len();
        unordered += jobs * (jobs - 1) / 2 - pairs.len();
    }
    println!("{states} states of {} programs, {editions:?}; {ordered} pairs ordered, {unordered} not", tried.len());
    assert!(ordered > programs && unordered > programs, "{ordered} {unordered}");
}

/// With a future, mostly with a force.
#[test]
fn orders_of_programs_with_futures() {
    let (mut dice, mut unforced) = (Dice(505), Dice(506));
    orders_at_random(400, &EDITIONS, || {
        let forced = !unforced.one_in(10);
        small_program(&mut dice, 48, |c| c.futures > 0 && (c.forces > 0 || !forced))
    });
}

/// With a fork, often with several.
#[test]
fn orders_of_programs_with_forks() {
    let (mut dice, mut alone) = (Dice(1010), Dice(1011));
    orders_at_random(200, &EDITIONS, || {
        let forks = if alone.one_in(2) { 1 } else { 2 };
        small_program(&mut dice, 52, |c| c.forks >= forks)
    });
}

/// "An unforced future still ends, but vertex 1 need not finish last."
#[test]
fn vertex_1_need_not_finish_last() {
    for (program, last) in [
        ("02 01 01 00 01 02 00", true),
        ("03 02 01 01 00 00 01 02 00", true),
        ("05 01 01 00 06 00 00", true),
        ("05 01 01 00 02 06 00 00 00", true),
        ("05 01 01 00 05 06 00 00 06 00 00", true),
        ("04 02 01 01 00 00 01 02 00 00", true),
        ("04 05 01 01 00 00 01 02 00 00", false),
        ("05 01 01 00 00", false),
        ("03 05 01 01 00 00 00", false),
        ("05 05 01 01 00 00 06 00 00", false),
        ("05 01 01 00 05 06 00 00 00", false),
    ] {
        for edition in EDITIONS {
            assert_eq!(all_orders(edition, &bytes(program)).jobs_before_vertex_1, last, "{edition:?}: {program}");
        }
    }
    // Lowest first, vertex 1 stops before the future's body starts; the run is done when all vertices are finished.
    let program = bytes("05 01 07 00 00");
    let mut lent = loaded(&program);
    let (mut jobs, mut stopped) = (Vec::new(), Vec::new());
    while let Lowest::Vertex(vertex) = lent.lowest(&program) {
        match lent.step(&program, vertex) {
            Answer::Stop => stopped.push(vertex),
            Answer::Job { number, .. } => jobs.push((number, stopped.len())),
            _ => {}
        }
    }
    assert_eq!((jobs, stopped), (vec![(7, 2)], vec![0, 1, 3, 2]));
    let mut lent = loaded(&program);
    assert_eq!(lent.run(&program, 9).ending, Ending::Spent);
    assert_eq!((lent.row(1)[STATUS], lent.row(3)[STATUS]), (FINISHED, 2));
    assert_eq!(lent.run(&program, 5), Run { ending: Ending::Done, last: Some(Answer::Stop), taken: 5 });
}

/// Larger programs, in any order: each job is answered after all that come ahead of it.
#[test]
fn larger_programs_keep_the_order() {
    let mut dice = Dice(77);
    let mut ordered = 0;
    for round in 0..400 {
        let edition = EDITIONS[round % 2];
        let (mut room, mut jobs, mut program) = (20 + dice.below(20), 0, Vec::new());
        small_body(&mut dice, 1, 0, &mut room, &mut jobs, &mut program);
        // The roads of forces in futures can double again and again.
        if counts(&program).forces > 8 {
            continue;
        }
        let pairs = ahead_by_number(&program);
        for _ in 0..4 {
            let order = jobs_at_random(edition, &program, &mut dice);
            let at = |job: u32| order.iter().position(|&answered| answered == job).unwrap();
            for &(p, q) in &pairs {
                ordered += 1;
                assert!(at(p) < at(q), "{p} {q} {program:02x?}");
            }
        }
    }
    assert!(ordered > 10_000, "{ordered}");
}
