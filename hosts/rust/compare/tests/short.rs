//! A short comparison that yet sees every word, every refusal and programs at the limits.

use compare::counts::{Callers, Crossings, Dispatches, Forces, Gaps, InCounts, Orders, Passes, Repeats, Starts, REFUSALS, WORDS};
use keshtiwol::{Edition, Machine};

#[test]
fn no_difference() {
    let (counts, _) = match compare::compare(1_000_000, 1) {
        Ok(done) => done,
        Err(failure) => panic!("seed {}: {}", failure.seed, failure.difference.0),
    };
    println!("{counts}");
    for word in WORDS {
        assert!(counts.said(word) > 0, "{word} was never said");
    }
    for number in REFUSALS {
        assert!(counts.refusals(number) > 0, "refusal {number} was never seen");
    }
    assert_eq!(counts.largest(), [4096, 1024, 32]);
    let (jobs, largest) = counts.jobs();
    assert!(jobs.iter().all(|&jobs| jobs > 500), "jobs with numbers of 1 to 5 bytes: {jobs:?}");
    assert_eq!(largest, u32::MAX);
    let (longest, filled) = counts.chains();
    assert_eq!(longest, 1024);
    assert!(filled > 1000, "only {filled} chains filled their list");
    let ties = counts.ties();
    assert!(ties.iter().all(|&times| times > 1000), "cycle tests that a chain was compared with: {ties:?}");
    for (by, repeats) in ["commands", "steps"].iter().zip(counts.repeats()) {
        let Repeats { all, full, cycle, itself } = repeats;
        assert!(all > 500 && full > 200 && cycle > 100 && itself > 50, "edges held already, taken by {by}: {repeats:?}");
    }
    let gaps = counts.gaps();
    let Gaps { none, all, first, last, between, most } = gaps;
    assert!([none, all, first, last, between].iter().all(|&times| times > 200) && most == 1024, "rows that stops dropped: {gaps:?}");
    let forces = counts.forces();
    let Forces { taken, finished, farthest, refused, none, not_made, later } = forces;
    assert!([taken, finished, refused, none, not_made, later].iter().all(|&times| times > 100), "what forces followed: {forces:?}");
    assert!(farthest > 100, "what forces followed: {forces:?}");
    assert!(counts.refusals(43) > 300);
    for (by, starts) in ["commands", "steps"].iter().zip(counts.starts()) {
        let Starts { started, waited, against_edges, without_edges, bad_status, bad_edge } = starts;
        let all = [started, waited, against_edges, without_edges, bad_status, bad_edge];
        assert!(all.iter().all(|&times| times > 150), "released vertices that were to start, by {by}: {starts:?}");
    }
    let edges_in = counts.edges_in();
    let InCounts { true_words, largest, none, several } = edges_in;
    assert!([true_words, largest, none, several].iter().all(|&times| times > 80), "what became of in-counts: {edges_in:?}");
    for (by, callers) in ["commands", "steps"].iter().zip(counts.callers()) {
        let Callers { waiting, passing, again, edges, idle_edges, cycles, stops, transfers } = callers;
        let all = [waiting, passing, again, edges, idle_edges, stops];
        assert!(all.iter().all(|&times| times > 100) && transfers > 30, "callers with edges in, by {by}: {callers:?}");
        assert!(cycles > 1000 || *by == "steps", "callers with edges in, by {by}: {callers:?}");
    }
    let editions = counts.editions();
    assert!(editions.iter().flatten().all(|&times| times > 100), "loads, steps, runs, dispatches and lowest, by edition: {editions:?}");
    let crossings = counts.crossings();
    let Crossings { taken, nothing_starts, second_only } = crossings;
    assert!(taken > 1000 && nothing_starts > 100 && second_only > 50, "where the edition mattered: {crossings:?}");
    let dispatches = counts.dispatches();
    let Dispatches { taken, handed, most, kept, passed } = dispatches;
    assert!(taken > 80_000 && handed > 10_000 && most >= 64 && kept > 1000 && passed > 500, "what dispatches did: {dispatches:?}");
    assert!(counts.refusals(44) > 100);
    let orders = counts.orders();
    let Orders { whole, cut, most } = orders;
    assert!(whole > 250 && cut > 500 && most > 300, "orders of jobs that were asked for: {orders:?}");
    for (by, passes) in ["runs", "dispatches"].iter().zip(counts.passes()) {
        let Passes { two, many, last_two, last_many, most, cycles, force_cycles, transfer_cycles, full, .. } = passes;
        let Passes { appended, idle, transfers, opened, .. } = passes;
        assert!(two > 2000 && many > 50 && last_two > 500 && last_many > 50 && most > 150, "what {by} passed over: {passes:?}");
        let refused = [cycles, force_cycles, transfer_cycles, full];
        assert!(refused.iter().all(|&times| times > 50), "what {by} passed over: {passes:?}");
        assert!([appended, idle, transfers, opened].iter().all(|&times| times > 50), "what {by} passed over: {passes:?}");
    }
    for (call, times) in counts.unsound_beside_the_tally() {
        assert!(times > 50, "12 for a status or an edge: {call}, {times} times");
    }
}

/// The generator's valid programs do load, its damaged ones mostly don't, and the mixed one is what the benchmark says of it.
#[test]
fn generated_programs() {
    use compare::{draw::Draw, programs};
    let mut draw = Draw::new(5);
    let mut refused = 0;
    for round in 0..3000 {
        let size = if round % 10 == 0 { programs::Size::Large } else { programs::Size::Small };
        let edition = draw.pick(&[Edition::First, Edition::Second]);
        let program = match round % 3 {
            0 => programs::with_forks(&mut draw, size, edition),
            _ => programs::valid(&mut draw, size, edition),
        };
        let machine = Machine::load_in(&program, edition);
        assert!(machine.is_ok(), "{machine:?}: {program:02X?}");
        refused += u32::from(Machine::load_in(&programs::damaged(&mut draw, size, edition), edition).is_err());
    }
    assert!(refused > 2000, "only {refused} of 3000 damaged programs were refused");
    let mixed = programs::mixed();
    let mut machine = Machine::load(&mixed).unwrap();
    assert_eq!(machine.run(keshtiwol::STEP_LIMIT).ending, keshtiwol::Ending::Done);
    assert_eq!((mixed.len(), machine.tally().made, programs::needs(&mixed, Edition::First).2), (4000, 1000, 32));
}
