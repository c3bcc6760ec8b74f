//! Note 6, "May it start?": the ninth word, and what start and the step of a released vertex look at.

use super::*;
use crate::graph::{EXECUTING, RELEASED};

fn start(vertex: u32) -> Command {
    Command::Start { vertex }
}

fn stop(caller: u32) -> Command {
    Command::Stop { caller }
}

/// By vertex 0.
fn edge(source: u32, target: u32) -> Command {
    Command::NewEdge { caller: 0, source, target }
}

/// Does a command that is accepted.
fn accepted(lent: &mut Lent, command: Command) {
    let answer = lent.command(command);
    assert!(!is_refused(answer), "{command:?}: {answer:?}");
}

// --- What changes the word ---------------------------------------------------------------------

/// "Give each vertex row a ninth word, the number of edges into it, kept true by every command from loading or opening on."
#[test]
fn what_each_call_does_to_it() {
    // Opening leaves 0, and so does a newTd, whatever stood there and whatever its caller has.
    let mut lent = Lent::rows(6, 6);
    assert_eq!(lent.open(), Answer::Ready);
    assert!(lent.vertices.chunks(VERTEX_WORDS).all(|row| row[IN_COUNT] == 0));
    accepted(&mut lent, start(0));
    lent.set_in_count(0, 77);
    for vertex in 1..6 {
        lent.set_in_count(vertex, 9);
        accepted(&mut lent, Command::NewTd { caller: 0, place: 0, scope: 0 });
    }
    assert_eq!(lent.in_counts(), [77, 0, 0, 0, 0, 0]);
    lent.set_in_count(0, 0);
    // An edge that is appended counts, in its target's word.
    for ends in [(0, 1), (0, 2), (1, 2), (3, 2)] {
        accepted(&mut lent, edge(ends.0, ends.1));
    }
    assert_eq!(lent.in_counts(), [0, 1, 3, 0, 0, 0]);
    // One that is held already does not, nor does one that is refused.
    accepted(&mut lent, edge(1, 2));
    assert_eq!(lent.command(edge(2, 1)), refusal(35, 0));
    assert_eq!(lent.command(edge(1, 0)), refusal(35, 0));
    assert_eq!(lent.in_counts(), [0, 1, 3, 0, 0, 0]);
    // A transfer moves sources, and no target.
    accepted(&mut lent, Command::Transfer { caller: 0, vertex: 4 });
    assert_eq!(lent.held(), [(4, 1), (4, 2), (1, 2), (3, 2)]);
    assert_eq!(lent.in_counts(), [0, 1, 3, 0, 0, 0]);
    // A release and a start leave it; a stop takes one for each row that it drops.
    for vertex in [3, 4] {
        accepted(&mut lent, Command::Release { caller: 0, vertex });
        accepted(&mut lent, start(vertex));
    }
    assert_eq!(lent.in_counts(), [0, 1, 3, 0, 0, 0]);
    accepted(&mut lent, stop(4));
    assert_eq!(lent.in_counts(), [0, 0, 2, 0, 0, 0]);
    accepted(&mut lent, stop(3));
    assert_eq!(lent.in_counts(), [0, 0, 1, 0, 0, 0]);
    // An edge out of a finished vertex is not held, so it does not count.
    accepted(&mut lent, edge(4, 2));
    assert_eq!(lent.in_counts(), [0, 0, 1, 0, 0, 0]);
    assert_eq!(lent.held(), [(1, 2)]);
    // Loading leaves 1 in vertex 1, into which the edge from 0 leads.
    let lent = loaded(&[0]);
    assert_eq!(lent.in_counts(), [0, 1]);
    assert!(lent.vertices[2 * VERTEX_WORDS..].iter().all(|&word| word == 0));
}

/// "The word stops at 0 and at its largest number."
#[test]
fn where_it_stops() {
    for (word, more) in [(0, 1), (5, 6), (u32::MAX - 1, u32::MAX), (u32::MAX, u32::MAX)] {
        let mut lent = graph(&[3, 1], &[], 1);
        lent.set_in_count(1, word);
        accepted(&mut lent, edge(0, 1));
        assert_eq!((lent.in_counts(), lent.held()), (vec![0, more], vec![(0, 1)]));
    }
    for (word, fewer) in [(0, 0), (1, 0), (5, 4), (u32::MAX, u32::MAX - 1)] {
        let mut lent = graph(&[3, 1], &[[0, 1]], 0);
        lent.set_in_count(1, word);
        accepted(&mut lent, stop(0));
        assert_eq!((lent.in_counts(), lent.held()), (vec![0, fewer], vec![]));
    }
}

/// A target of two rows that are dropped loses two, one row after the other.
#[test]
fn two_dropped_rows_with_one_target() {
    for (word, fewer) in [(2, 0), (3, 1), (1, 0), (0, 0), (9, 7), (u32::MAX, u32::MAX - 2)] {
        let mut lent = graph(&[3, 1, 2], &[[0, 1], [0, 2], [2, 1], [0, 1]], 0);
        lent.set_in_count(1, word);
        accepted(&mut lent, stop(0));
        assert_eq!((lent.in_counts(), lent.held()), (vec![0, fewer, 0], vec![(2, 1)]));
    }
    // Its own word, where an edge leads from a vertex to itself.
    let mut lent = graph(&[3], &[[0, 0], [0, 0]], 0);
    accepted(&mut lent, stop(0));
    assert_eq!(lent.in_counts(), [0]);
}

/// By steps as by commands: the largest number and one more edge, 0 and a drop, two dropped rows.
#[test]
fn altered_words_and_steps() {
    let program = [2, 0, 0];
    let mut lent = loaded(&program);
    for _ in 0..2 {
        assert!(!is_refused(lent.step(&program, 0)));
    }
    lent.set_in_count(1, u32::MAX);
    assert_eq!(lent.step(&program, 0), Answer::Edge(2, 1));
    assert_eq!(lent.in_counts(), [0, u32::MAX, 0]);
    assert_eq!(lent.step(&program, 0), Answer::Release(2));
    let at_its_end = lent.clone();
    for (word, fewer) in [(0, 0), (1, 0), (5, 4)] {
        lent.clone_from(&at_its_end);
        lent.set_in_count(1, word);
        assert_eq!(lent.step(&program, 0), Answer::Stop);
        assert_eq!(lent.in_counts(), [0, fewer, 0]);
    }
    lent.clone_from(&at_its_end);
    lent.edges[2 * EDGE_WORDS..3 * EDGE_WORDS].copy_from_slice(&[0, 1]);
    lent.tally.held = 3;
    lent.set_in_count(1, 5);
    assert_eq!(lent.step(&program, 0), Answer::Stop);
    assert_eq!((lent.in_counts(), lent.held()), (vec![0, 3, 0], vec![(2, 1)]));
}

// --- What follows the word ---------------------------------------------------------------------

/// "on altered tables 21 follows the word"
#[test]
fn refusal_21_follows_it() {
    let program = [0];
    for (word, edges, answer) in [
        (0, &[[0, 1]][..], Answer::Start),
        (0, &[], Answer::Start),
        (1, &[[0, 1]], refusal(21, 0)),
        (5, &[], refusal(21, 0)),
        (1, &[], refusal(21, 0)),
        (u32::MAX, &[], refusal(21, 0)),
    ] {
        let mut lent = graph(&[4, 2], edges, 0);
        lent.set_in_count(1, word);
        let mut expected = lent.clone();
        if answer == Answer::Start {
            expected.vertices[VERTEX_WORDS + STATUS] = EXECUTING;
        }
        let mut after = lent.clone();
        assert_eq!(after.command(start(1)), answer, "{word} {edges:?}");
        assert_eq!(after, expected);
        // So do a step, a run and the lowest vertex.
        (lent.tally.steps, expected.tally.steps) = (8, 8);
        lent.vertices[VERTEX_WORDS + PLACE] = 0;
        lent.vertices[VERTEX_WORDS + PHASE] = 0;
        let mut after = lent.clone();
        assert_eq!(after.step(&program, 1), answer);
        assert_eq!((after.row(1)[STATUS], after.tally.steps), (expected.row(1)[STATUS], if is_refused(answer) { 8 } else { 9 }));
        let (lowest, run) = match answer {
            Answer::Start => (Lowest::Vertex(1), Run { ending: Ending::Done, last: Some(Answer::Stop), taken: 2 }),
            _ => (Lowest::NoVertex, Run { ending: Ending::Stuck, last: None, taken: 0 }),
        };
        assert_eq!(lent.lowest(&program), lowest);
        assert_eq!(lent.run(&program, 9), run);
    }
}

/// Start: 12 by the tally, 20, 12 by the row, 22, 39, 23, 21.
#[test]
fn start_refuses_in_order() {
    let lent = graph(&[1, 3, 4, 2, 0, 5, u32::MAX], &[[0, 3]], 1);
    for (vertex, number) in [(7, 20), (u32::MAX, 20), (0, 22), (1, 39), (2, 23), (3, 21), (4, 12), (5, 12), (6, 12)] {
        for (made, held) in [(8, 2), (7, 2), (7, 1)] {
            // The tally first: over the rows by one or by many, of either table.
            for (over_made, over_held) in [(9, held), (made, 3), (u32::MAX, held), (made, u32::MAX)] {
                let mut bad = lent.clone();
                (bad.tally.made, bad.tally.held) = (over_made, over_held);
                let before = bad.clone();
                assert_eq!(bad.command(start(vertex)), refusal(12, 0));
                assert_eq!(bad, before);
            }
        }
        // Whatever the steps, and whatever the word where it is not released.
        for steps in [0, 8192, u32::MAX] {
            for word in [lent.in_counts().get(vertex as usize).copied().unwrap_or(0), 1] {
                let mut after = lent.clone();
                after.tally.steps = steps;
                if vertex < 7 {
                    after.set_in_count(vertex, word);
                }
                let before = after.clone();
                assert_eq!(after.command(start(vertex)), refusal(number, 0), "{vertex}");
                assert_eq!(after, before);
            }
        }
    }
}

/// Tables that are not sound, but where only a vertex or an edge is wrong that a start of vertex 1 does not name: vertex 0 executes, 1 is
/// released, 2 is new, 3 finished, 4 waits, 5 executes.
fn spoilt() -> Vec<Lent> {
    let mut sound = graph(&[3, 2, 1, 4, 2, 3], &[[0, 4], [2, 4]], 2);
    sound.tally.steps = 8;
    for vertex in 0..6 {
        let row = &mut sound.vertices[VERTEX_WORDS * vertex..][..VERTEX_WORDS];
        (row[PLACE], row[PHASE]) = (0, 0);
    }
    let mut all = Vec::new();
    for status in [0, 5, u32::MAX] {
        let mut bad = sound.clone();
        bad.vertices[5 * VERTEX_WORDS + STATUS] = status;
        all.push(bad);
    }
    for (word, end) in [(0, 6), (1, 6), (2, u32::MAX), (3, u32::MAX)] {
        let mut bad = sound.clone();
        bad.edges[word] = end;
        all.push(bad);
    }
    all
}

/// "For start, and for a step of a released vertex, 12 then looks at the tally and that vertex's row only."
#[test]
fn something_wrong_elsewhere() {
    let program = [0];
    for lent in spoilt() {
        // What does not look there: the start and the step of a released vertex, taken and refused by its word, and other starts.
        let mut expected = lent.clone();
        expected.vertices[VERTEX_WORDS + STATUS] = EXECUTING;
        let mut after = lent.clone();
        assert_eq!(after.command(start(1)), Answer::Start);
        assert_eq!(after, expected);
        after.clone_from(&lent);
        assert_eq!(after.step(&program, 1), Answer::Start);
        expected.tally.steps += 1;
        assert_eq!(after, expected);
        // Now it executes, so that its step looks at all of it.
        assert_eq!(after.step(&program, 1), refusal(12, 0));
        assert_eq!(after.command(start(1)), refusal(39, 0));
        assert_eq!(after, expected);
        for (vertex, number) in [(4, 21), (0, 39), (2, 22), (3, 23), (6, 20)] {
            assert_eq!(lent.clone().command(start(vertex)), refusal(number, 0));
        }
        assert_eq!(lent.clone().step(&program, 4), refusal(21, 0));
        // All else does: every other command, the step of every other vertex, and calls that name none.
        for command in [
            Command::NewTd { caller: 0, place: 0, scope: 0 },
            edge(0, 1),
            edge(0, 4),
            edge(3, 1),
            Command::Release { caller: 0, vertex: 2 },
            Command::Transfer { caller: 0, vertex: 2 },
            stop(0),
            stop(1),
            stop(6),
            Command::Yield { caller: 0 },
            Command::Yield { caller: 1 },
        ] {
            let mut after = lent.clone();
            assert_eq!(after.command(command), refusal(12, 0), "{command:?}");
            assert_eq!(after, lent);
        }
        for vertex in [0, 2, 3, 5, 6, u32::MAX] {
            let mut after = lent.clone();
            assert_eq!(after.step(&program, vertex), refusal(12, 0), "{vertex}");
            assert_eq!(after, lent);
        }
        let mut after = lent.clone();
        assert_eq!(after.run(&program, 9), Run { ending: Ending::Refused { number: 12, place: 0 }, last: None, taken: 0 });
        assert_eq!(after, lent);
        assert_eq!(lent.lowest(&program), Lowest::Refused { number: 12, place: 0 });
        assert_eq!(lent.chain(0, 4), Err(12));
        // The tally counts everywhere; its steps do at a step, and not at a start.
        let mut late = lent.clone();
        late.tally.steps = 8192;
        assert_eq!(late.clone().step(&program, 1), refusal(12, 0));
        assert_eq!(late.clone().step(&program, 4), refusal(12, 0));
        assert_eq!(late.command(start(1)), Answer::Start);
        for (made, held) in [(9, 2), (6, 5)] {
            let mut over = lent.clone();
            (over.tally.made, over.tally.held) = (made, held);
            assert_eq!(over.clone().step(&program, 1), refusal(12, 0));
            assert_eq!(over.command(start(1)), refusal(12, 0));
        }
    }
}

/// Only start and the step of a released vertex look at the words: with other words all else answers the same, and leaves the same but
/// for those words.
#[test]
fn nothing_else_follows_it() {
    let mut dice = Dice(606);
    let mut taken = 0;
    for _ in 0..3000 {
        let program = random_program(&mut dice);
        let n = 1 + dice.below(7);
        let statuses: Vec<u32> = (0..n).map(|_| [1, 2, 3, 3, 4][dice.below(5)]).collect();
        let edges: Vec<Edge> = (0..dice.below(2 * n)).map(|_| [dice.below(n) as u32, dice.below(n) as u32]).collect();
        let mut lent = graph(&statuses, &edges, 1 + dice.below(2));
        lent.tally.steps = 0;
        for row in lent.vertices.chunks_mut(VERTEX_WORDS) {
            (row[PLACE], row[PHASE]) = (dice.below(program.len()) as u32, dice.below(3) as u32);
        }
        let mut other = lent.clone();
        for vertex in 0..n as u32 {
            other.set_in_count(vertex, [0, 1, 5, u32::MAX][dice.below(4)]);
        }
        let without_words = |lent: &Lent| {
            let mut lent = lent.clone();
            lent.vertices.chunks_mut(VERTEX_WORDS).for_each(|row| row[IN_COUNT] = 0);
            lent
        };
        let vertex = dice.below(n) as u32;
        let caller = dice.below(n) as u32;
        let command = random_command(&mut dice, caller, n);
        let (one, two) = if !matches!(command, Command::Start { .. }) && dice.one_in(2) {
            (lent.command(command), other.command(command))
        } else if statuses[vertex as usize] != RELEASED {
            (lent.step(&program, vertex), other.step(&program, vertex))
        } else {
            continue;
        };
        assert_eq!(one, two);
        assert_eq!(without_words(&lent), without_words(&other));
        taken += u32::from(!is_refused(one));
    }
    assert!(taken > 300, "{taken}");
}

// --- Kept true ---------------------------------------------------------------------------------

/// A command of this caller that names vertices made, and one more now and then. Stops are rare, so that something is left to do.
fn random_command(dice: &mut Dice, caller: u32, made: usize) -> Command {
    let mut name = || {
        let more = usize::from(dice.one_in(10));
        dice.below(made + more) as u32
    };
    let (a, b) = (name(), name());
    match dice.below(24) {
        0..=2 => Command::NewTd { caller, place: a, scope: b },
        3..=10 => Command::NewEdge { caller, source: a, target: b },
        11 | 12 => Command::NewEdge { caller, source: a, target: caller },
        13..=15 => Command::Release { caller, vertex: a },
        16 | 17 => Command::Transfer { caller, vertex: a },
        18..=21 => start(a),
        22 => Command::Yield { caller },
        _ => stop(caller),
    }
}

/// What start would answer if it looked at all edges.
fn by_the_full_search(lent: &Lent, vertex: u32) -> Answer {
    match lent.row(vertex as usize)[STATUS] {
        NEW => refusal(22, 0),
        EXECUTING => refusal(39, 0),
        FINISHED => refusal(23, 0),
        _ if lent.held().iter().any(|edge| edge.1 == vertex) => refusal(21, 0),
        _ => Answer::Start,
    }
}

/// That each word is true, and that so each start answers as the full search would; how many of these were taken and were 21.
fn assert_true(lent: &Lent) -> [u32; 2] {
    assert_eq!(lent.in_counts(), lent.edges_into(), "{lent:?}");
    let mut seen = [0; 2];
    for vertex in 0..lent.tally.made {
        let answer = lent.clone().command(start(vertex));
        assert_eq!(answer, by_the_full_search(lent, vertex));
        seen[0] += u32::from(answer == Answer::Start);
        seen[1] += u32::from(answer == refusal(21, 0));
    }
    seen
}

/// "kept true by every command from [...] opening on", the refused ones included.
#[test]
fn kept_true_from_an_opening_on() {
    let mut dice = Dice(66);
    let (mut starts, mut dropped, mut most, mut refused) = ([0; 2], 0, 0, 0);
    // Yields, edges taken onto the caller, and stops and transfers of vertices that edges lead into.
    let (mut yields, mut onto_caller, mut stops, mut transfers) = (0, 0, 0, 0);
    for _ in 0..3000 {
        let rows = 2 + dice.below(9);
        let edge_rows = dice.below(2 * rows + 1);
        let mut lent = Lent::rows(rows, edge_rows);
        assert_eq!(lent.open(), Answer::Ready);
        accepted(&mut lent, start(0));
        for _ in 0..60 {
            let made = lent.tally.made as usize;
            let executing: Vec<u32> = (0..made as u32).filter(|&vertex| lent.row(vertex as usize)[STATUS] == EXECUTING).collect();
            // Mostly by a vertex that executes.
            let caller = match executing.get(dice.below(executing.len())) {
                Some(&caller) if !dice.one_in(8) => caller,
                _ => dice.below(made) as u32,
            };
            let command = random_command(&mut dice, caller, made);
            let before = lent.clone();
            let answer = lent.command(command);
            if is_refused(answer) {
                refused += 1;
                assert_eq!(lent, before);
            }
            dropped += u32::from(answer == Answer::Stop && lent.tally.held < before.tally.held);
            yields += u32::from(answer == Answer::Yield);
            onto_caller += u32::from(matches!(answer, Answer::Edge(_, target) if target == caller));
            let edges_in = before.edges_into()[caller as usize] > 0;
            stops += u32::from(edges_in && answer == Answer::Stop);
            transfers += u32::from(edges_in && matches!(answer, Answer::Transfer(_)));
            most = lent.in_counts().into_iter().fold(most, u32::max);
            let seen = assert_true(&lent);
            (starts[0], starts[1]) = (starts[0] + seen[0], starts[1] + seen[1]);
        }
    }
    assert!(starts[0] > 5000 && starts[1] > 5000 && dropped > 500 && most > 3 && refused > 5000, "{starts:?} {dropped} {most} {refused}");
    let seen = [yields, onto_caller, stops, transfers];
    assert!(seen.iter().all(|&times| times > 100), "{seen:?}");
}

/// "kept true by every command from loading [...] on": by steps of any vertices, the refused ones included, and by runs.
#[test]
fn kept_true_from_a_loading_on() {
    let mut dice = Dice(67);
    let (mut starts, mut refused) = ([0; 2], 0);
    for round in 0..800 {
        let edition = EDITIONS[round % 2];
        let program = random_program(&mut dice);
        let mut lent = Lent::rows_for(edition, &program);
        assert_eq!(lent.load(&program), Answer::Ready);
        while lent.tally.steps < full_count_in(edition, &program) {
            if dice.one_in(20) {
                lent.run(&program, dice.below(6) as u32);
            } else {
                refused += u32::from(is_refused(lent.step(&program, dice.below(lent.tally.made as usize + 1) as u32)));
            }
            let seen = assert_true(&lent);
            (starts[0], starts[1]) = (starts[0] + seen[0], starts[1] + seen[1]);
        }
        assert!(lent.in_counts().iter().all(|&word| word == 0));
    }
    assert!(starts[0] > 5000 && starts[1] > 5000 && refused > 5000, "{starts:?} {refused}");
}
