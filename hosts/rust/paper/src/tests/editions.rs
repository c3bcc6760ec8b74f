//! Note 10, "Fork as in the article": yield, edges onto the caller, and the second edition's fork.

use super::*;
use crate::graph::{EXECUTING, MADE, RELEASED};

const FORK: [u8; 10] = [4, 1, 1, 0, 1, 2, 0, 1, 3, 0];

fn edge(caller: u32, source: u32, target: u32) -> Command {
    Command::NewEdge { caller, source, target }
}

fn empty_forks(forks: usize) -> Vec<u8> {
    [[4, 0, 0].repeat(forks), vec![0]].concat()
}

// --- Yield -------------------------------------------------------------------------------------

/// "Add the command yield, which turns the executing caller released": no other word changes.
#[test]
fn what_a_yield_does() {
    // An edge out of the caller stays, and so does one into it.
    let lent = graph(&[3, 1, 2, 3], &[[0, 1], [2, 0], [3, 1]], 1);
    for caller in [0, 3] {
        let mut after = lent.clone();
        assert_eq!(after.command(Command::Yield { caller }), Answer::Yield);
        let mut expected = lent.clone();
        expected.vertices[VERTEX_WORDS * caller as usize + STATUS] = RELEASED;
        assert_eq!(after, expected);
        // It is released now, so that it cannot yield again, and starts as any released one: where no edge leads in.
        assert_eq!(after.command(Command::Yield { caller }), refusal(30, 0));
        let again = if caller == 3 { Answer::Start } else { refusal(21, 0) };
        assert_eq!(after.command(Command::Start { vertex: caller }), again);
        if caller == 3 {
            assert_eq!(after, lent);
        }
    }
}

/// "let newEdge also take the caller as its target": the caller yields, and starts again when the source has finished.
#[test]
fn a_caller_that_waits() {
    let mut lent = Lent::rows(3, 2);
    assert_eq!(lent.open(), Answer::Ready);
    let new = Command::NewTd { caller: 0, place: 0, scope: 0 };
    let expected = [
        (Command::Start { vertex: 0 }, Answer::Start),
        (new, Answer::New(1)),
        (edge(0, 1, 0), Answer::Edge(1, 0)),
        // Held already.
        (edge(0, 1, 0), Answer::Edge(1, 0)),
        // "Cycle for newEdge: t1 is t2 or t2 reaches t1."
        (edge(0, 0, 1), refusal(35, 0)),
        (edge(0, 0, 0), refusal(35, 0)),
        // With an edge in, it still executes.
        (new, Answer::New(2)),
        (Command::Release { caller: 0, vertex: 1 }, Answer::Release(1)),
        (Command::Yield { caller: 0 }, Answer::Yield),
        (Command::Start { vertex: 0 }, refusal(21, 0)),
        (Command::Start { vertex: 1 }, Answer::Start),
        (Command::Stop { caller: 1 }, Answer::Stop),
        (Command::Start { vertex: 0 }, Answer::Start),
        // A finished source adds nothing.
        (edge(0, 1, 0), Answer::Edge(1, 0)),
        (Command::Stop { caller: 0 }, Answer::Stop),
    ];
    for (command, answer) in expected {
        assert_eq!(lent.command(command), answer, "{command:?}");
        assert_eq!(lent.in_counts(), lent.edges_into());
    }
    assert_eq!(lent.tally, Tally { made: 3, held: 0, steps: 0 });
}

/// "so 33 spares the caller", and no other vertex that executes.
#[test]
fn only_the_caller_is_spared() {
    let lent = graph(&[3, 3, 1, 4], &[], 1);
    for (command, answer) in [
        (edge(0, 2, 0), Answer::Edge(2, 0)),
        (edge(1, 2, 1), Answer::Edge(2, 1)),
        (edge(0, 1, 0), Answer::Edge(1, 0)),
        (edge(0, 2, 1), refusal(33, 0)),
        (edge(1, 2, 0), refusal(33, 0)),
        (edge(0, 1, 1), refusal(33, 0)),
        (edge(0, 0, 0), refusal(35, 0)),
        (edge(0, 3, 0), Answer::Edge(3, 0)),
        (edge(0, 3, 1), refusal(33, 0)),
        // A caller that does not execute is refused for that.
        (edge(2, 0, 2), refusal(30, 0)),
        (edge(3, 0, 3), refusal(30, 0)),
    ] {
        let mut after = lent.clone();
        assert_eq!(after.command(command), answer, "{command:?}");
        assert_eq!(is_refused(answer) || answer == Answer::Edge(3, 0), after == lent);
    }
    // An edge from the caller to itself that is held is taken, as any other.
    let mut lent = graph(&[3, 1], &[[0, 0]], 0);
    let before = lent.clone();
    assert_eq!(lent.command(edge(0, 0, 0)), Answer::Edge(0, 0));
    assert_eq!(lent, before);
    assert_eq!(lent.command(edge(0, 1, 0)), refusal(32, 0));
}

/// "A bare vertex may now stop or transfer with edges leading in, and an edge into a finished vertex stays held."
#[test]
fn stops_and_transfers_with_edges_in() {
    let mut lent = graph(&[3, 1, 1, 2], &[[0, 3]], 2);
    assert_eq!(lent.command(edge(0, 1, 0)), Answer::Edge(1, 0));
    let before = lent.clone();
    // 1 leads to 0 and so on to 3.
    assert_eq!(lent.command(Command::Transfer { caller: 0, vertex: 2 }), Answer::Transfer(2));
    assert_eq!((lent.held(), lent.in_counts()), (vec![(2, 3), (1, 0)], vec![1, 0, 0, 1]));
    // To the vertex that it waits for: that one has an edge out.
    assert_eq!(before.clone().command(Command::Transfer { caller: 0, vertex: 1 }), refusal(38, 0));
    lent.clone_from(&before);
    assert_eq!(lent.command(Command::Stop { caller: 0 }), Answer::Stop);
    assert_eq!((lent.held(), lent.in_counts()), (vec![(1, 0)], vec![1, 0, 0, 0]));
    assert_eq!(lent.row(0)[STATUS], FINISHED);
    // It leads into a finished vertex, is named by paths, and goes with its source.
    assert_eq!(lent.chain(0, 1), Ok(vec![1, 0]));
    lent.vertices[VERTEX_WORDS + STATUS] = EXECUTING;
    assert_eq!(lent.command(Command::Stop { caller: 1 }), Answer::Stop);
    assert_eq!((lent.held(), lent.in_counts()), (vec![], vec![0; 4]));
}

/// "in steps of either edition": an async whose vertex has itself as its scope, on altered tables.
#[test]
fn a_step_with_an_edge_onto_its_vertex() {
    let program = [2, 0, 0];
    for edition in EDITIONS {
        let mut lent = loaded_in(edition, &program);
        lent.run(&program, 2);
        lent.vertices[SCOPE] = 0;
        assert_eq!(lent.clone().step(&program, 0), Answer::Edge(2, 0));
        // Another vertex that executes is not spared.
        lent.vertices[SCOPE] = 1;
        lent.vertices[VERTEX_WORDS + STATUS] = EXECUTING;
        assert_eq!(lent.step(&program, 0), refusal(33, 0));
        // Itself to itself.
        (lent.vertices[SCOPE], lent.vertices[MADE]) = (0, 0);
        assert_eq!(lent.step(&program, 0), refusal(35, 0));
    }
}

// --- The second edition's fork -----------------------------------------------------------------

/// Every command of the fork, with the rows and edges that it leaves, and what becomes of the vertex that yields.
#[test]
fn commands_of_the_fork() {
    let mut lent = Lent::rows_for(Edition::Second, &FORK);
    assert_eq!(lent.load(&FORK), Answer::Ready);
    assert_eq!((lent.vertices.len(), lent.edges.len()), (4 * VERTEX_WORDS, 3 * EDGE_WORDS));
    assert_eq!(lent.step(&FORK, 0), Answer::Start);
    let all: [(Answer, u32, [u32; 3], &[u32], &[(u32, u32)]); 6] = [
        (Answer::New(2), 1, [2, 0, 0], &[1], &[(0, 1)]),
        (Answer::New(3), 2, [2, 3, 0], &[1, 1], &[(0, 1)]),
        (Answer::Edge(2, 0), 3, [2, 3, 0], &[1, 1], &[(0, 1), (2, 0)]),
        (Answer::Edge(3, 0), 4, [2, 3, 0], &[1, 1], &[(0, 1), (2, 0), (3, 0)]),
        (Answer::Release(2), 5, [2, 3, 0], &[2, 1], &[(0, 1), (2, 0), (3, 0)]),
        (Answer::Release(3), 6, [2, 3, 0], &[2, 2], &[(0, 1), (2, 0), (3, 0)]),
    ];
    for (answer, phase, made, statuses, edges) in all {
        assert_eq!(lent.step(&FORK, 0), answer);
        let mut own = row(EXECUTING, 0, 1);
        own[PHASE] = phase;
        own[MADE..MADE + 3].copy_from_slice(&made);
        own[IN_COUNT] = edges.len() as u32 - 1;
        assert_eq!(lent.row(0), own);
        for ((vertex, &status), place) in (2..).zip(statuses).zip([1, 4]) {
            assert_eq!(lent.row(vertex), row(status, place, 1));
        }
        assert_eq!(lent.held(), edges);
    }
    // "yield, and then past the item": phase and made vertices are 0 again, and what the vertex waits for still leads in.
    assert_eq!(lent.step(&FORK, 0), Answer::Yield);
    let mut own = row(RELEASED, 7, 1);
    own[IN_COUNT] = 2;
    assert_eq!(lent.row(0), own);
    assert_eq!(lent.tally, Tally { made: 4, held: 3, steps: 8 });
    // "the vertex starts again" when both have finished, and goes on behind the fork.
    for (vertex, answer) in [
        (0, refusal(21, 0)),
        (2, Answer::Start),
        (2, Answer::Job { number: 1, offset: 1 }),
        (2, Answer::Stop),
        (0, refusal(21, 0)),
        (3, Answer::Start),
        (3, Answer::Job { number: 2, offset: 4 }),
        (0, refusal(21, 0)),
        (3, Answer::Stop),
        (0, Answer::Start),
        (0, Answer::Job { number: 3, offset: 7 }),
        (0, Answer::Stop),
        (1, Answer::Start),
        (1, Answer::Stop),
    ] {
        assert_eq!(lent.step(&FORK, vertex), answer);
    }
    assert_eq!(lent.tally, Tally { made: 4, held: 0, steps: 19 });
}

/// Branches that finish before the vertex yields: "the main thread is allowed to restart the computation immediately".
#[test]
fn branches_that_end_before_the_yield() {
    let program = [4, 0, 0, 0];
    let mut lent = loaded_in(Edition::Second, &program);
    let order = [0, 0, 0, 0, 0, 0, 2, 2, 0, 3, 3];
    assert!(order.iter().all(|&vertex| !is_refused(lent.step(&program, vertex))));
    assert_eq!((lent.held(), lent.row(0)[STATUS]), (vec![(0, 1)], EXECUTING));
    assert_eq!(lent.step(&program, 0), Answer::Yield);
    assert_eq!(lent.lowest(&program), Lowest::Vertex(0));
    assert_eq!(lent.run(&program, u32::MAX), Run { ending: Ending::Done, last: Some(Answer::Stop), taken: 4 });
    assert_eq!(lent.tally.steps, 16);
}

/// "It makes 2 vertices and 2 edges and costs 12 steps in place of 15."
#[test]
fn what_it_costs() {
    assert_eq!((full_count_in(Edition::First, &FORK), full_count_in(Edition::Second, &FORK)), (22, 19));
    // Each kind of item once, and a job.
    let program = [1, 1, 2, 0, 3, 0, 4, 0, 0, 5, 0, 6, 0, 0];
    for (edition, vertices, steps) in
        [(Edition::First, 11, 4 + 1 + 5 + 10 + 15 + 9 + 6), (Edition::Second, 10, 4 + 1 + 5 + 10 + 12 + 9 + 6)]
    {
        let c = counts(&program);
        assert_eq!((c.vertices(edition), c.edge_rows(), full_count_in(edition, &program)), (vertices, 7, steps));
        let rows = |vertices: u32, edges| Lent::rows_in(edition, vertices as usize, edges);
        assert_eq!(rows(vertices - 1, 7).load(&program), refusal(10, 0));
        assert_eq!(rows(vertices, 6).load(&program), refusal(11, 0));
        let mut lent = rows(vertices, 7);
        assert_eq!(lent.load(&program), Answer::Ready);
        assert_eq!(lent.run(&program, u32::MAX), Run { ending: Ending::Done, last: Some(Answer::Stop), taken: steps });
        assert_eq!(lent.tally, Tally { made: vertices, held: 0, steps });
    }
}

#[test]
fn listing_of_the_fork() {
    assert_eq!(
        listing(Edition::Second, &FORK),
        "vertices 4 jobs 3 steps 19\n0 start\n0 new 2\n0 new 3\n0 edge 2 0\n0 edge 3 0\n0 release 2\n0 release 3\n0 yield\n2 start\n\
         2 job 1\n2 stop\n3 start\n3 job 2\n3 stop\n0 start\n0 job 3\n0 stop\n1 start\n1 stop\n"
    );
    assert_eq!(
        listing(Edition::First, &FORK),
        "vertices 5 jobs 3 steps 22\n0 start\n0 new 2\n0 new 3\n0 new 4\n0 edge 2 4\n0 edge 3 4\n0 transfer 4\n0 release 4\n0 release 2\n\
         0 release 3\n0 stop\n2 start\n2 job 1\n2 stop\n3 start\n3 job 2\n3 stop\n4 start\n4 job 3\n4 stop\n1 start\n1 stop\n"
    );
}

/// "8, and so 13, go by the edition": 341 to 511 forks load in the second only.
#[test]
fn how_many_forks_load() {
    for (forks, first, second) in [
        (340, Answer::Ready, Answer::Ready),
        (341, refusal(8, 0), Answer::Ready),
        (511, refusal(8, 0), Answer::Ready),
        (512, refusal(8, 0), refusal(8, 0)),
    ] {
        let program = empty_forks(forks);
        for (edition, answer) in EDITIONS.into_iter().zip([first, second]) {
            let mut lent = Lent::rows_in(edition, 1024, 1024);
            assert_eq!(lent.load(&program), answer, "{edition:?}: {forks}");
            if answer == Answer::Ready {
                assert_eq!(lent.run(&program, u32::MAX).ending, Ending::Done);
                assert_eq!(lent.tally.steps, full_count_in(edition, &program));
            }
        }
    }
    // 8 comes before 10 and 11 in either, and 10 by the edition's own number.
    let program = empty_forks(400);
    assert_eq!(Lent::rows(0, 0).load(&program), refusal(8, 0));
    assert_eq!(Lent::rows_in(Edition::Second, 801, 0).load(&program), refusal(10, 0));
    assert_eq!(Lent::rows_in(Edition::Second, 802, 800).load(&program), refusal(11, 0));
    assert_eq!(Lent::rows_in(Edition::Second, 802, 801).load(&program), Answer::Ready);
    // Tables that the second edition loaded: a step of the first finds bytes that loading refuses, but where it is a start.
    let mut lent = loaded_in(Edition::Second, &program);
    lent.edition = Edition::First;
    assert_eq!(lent.step(&program, 0), Answer::Start);
    let before = lent.clone();
    assert_eq!(lent.step(&program, 0), refusal(13, 0));
    assert_eq!(lent.lowest(&program), Lowest::NoVertex);
    assert_eq!(lent.run(&program, 9), Run { ending: Ending::Stuck, last: None, taken: 0 });
    assert_eq!(lent, before);
    lent.edition = Edition::Second;
    assert_eq!(lent.step(&program, 0), Answer::New(2));
}

/// All 1,024 vertices, as forks, and jobs in all bytes that are left: no step is refused for the 8,192.
#[test]
fn as_many_steps_as_fit() {
    let program = [[4, 0, 0].repeat(511), [1, 0].repeat(1281), vec![0]].concat();
    assert_eq!((program.len(), full_count_in(Edition::Second, &program)), (4096, 7417));
    let run = loaded_in(Edition::Second, &program).run(&program, u32::MAX);
    assert_eq!(run, Run { ending: Ending::Done, last: Some(Answer::Stop), taken: 7417 });
}

/// "phases 7 and 8 of a fork are 13 in the second", and those from 9 on in either.
#[test]
fn phases_of_the_fork() {
    for (edition, commands) in EDITIONS.into_iter().zip([9, 7]) {
        let mut lent = loaded_in(edition, &FORK);
        lent.run(&FORK, 4);
        for phase in (0..12).chain([u32::MAX]) {
            let mut lent = lent.clone();
            lent.vertices[PHASE] = phase;
            let before = lent.clone();
            let answer = lent.step(&FORK, 0);
            assert_eq!(answer == refusal(13, 0), phase >= commands, "{edition:?}: {phase}");
            if is_refused(answer) {
                assert_eq!(lent, before);
            }
        }
    }
}

/// What is refused at the fork's newEdge and yield on altered tables: the made words name anything, the forking vertex is itself.
#[test]
fn altered_words_of_the_fork() {
    let mut lent = loaded_in(Edition::Second, &FORK);
    lent.run(&FORK, 3);
    assert_eq!(lent.row(0)[PHASE], 2);
    for (first, answer) in [
        (2, Answer::Edge(2, 0)),
        (3, Answer::Edge(3, 0)),
        (0, refusal(35, 0)),
        // 0 leads to 1.
        (1, refusal(35, 0)),
        (4, refusal(20, 0)),
        (u32::MAX, refusal(20, 0)),
    ] {
        let mut lent = lent.clone();
        lent.vertices[MADE] = first;
        assert_eq!(lent.step(&FORK, 0), answer, "{first}");
    }
    // No row is left, and the edge is held already.
    let mut full = lent.clone();
    full.edges.truncate(EDGE_WORDS);
    assert_eq!(full.step(&FORK, 0), refusal(32, 0));
    full.edges.extend([2, 0]);
    (full.tally.held, full.vertices[IN_COUNT]) = (2, 1);
    let mut expected = full.clone();
    (expected.vertices[PHASE], expected.tally.steps) = (3, 4);
    assert_eq!(full.step(&FORK, 0), Answer::Edge(2, 0));
    assert_eq!(full, expected);
    // The yield looks at no made word.
    lent.vertices[PHASE] = 6;
    lent.vertices[MADE..MADE + 3].fill(u32::MAX);
    assert_eq!(lent.step(&FORK, 0), Answer::Yield);
    assert_eq!(lent.row(0), row(RELEASED, 7, 1));
}

/// A vertex's latest open future is its own through a yield, and its branches have it as well.
#[test]
fn futures_and_the_fork() {
    let program = [5, 1, 1, 0, 4, 6, 0, 1, 2, 0, 5, 0, 0, 6, 0, 1, 3, 0];
    let mut lent = loaded_in(Edition::Second, &program);
    lent.run(&program, 13);
    assert_eq!((lent.row(0)[STATUS], lent.row(0)[PLACE]), (RELEASED, 13));
    assert_eq!([0, 4, 5].map(|vertex| lent.row(vertex)[FUTURE]), [2, 2, 2]);
    assert_eq!(lent.run(&program, u32::MAX).ending, Ending::Done);
    assert_eq!(
        lent.tally,
        Tally { made: counts(&program).vertices(Edition::Second), held: 0, steps: full_count_in(Edition::Second, &program) }
    );
    // The second branch's own future is not open behind the fork.
    assert_eq!(lent.row(0)[FUTURE], 2);
}

// --- Both editions on the same tables ----------------------------------------------------------

/// A fork begun in one edition and gone on with in the other: what the tables then hold decides.
#[test]
fn a_fork_in_both_editions() {
    // Three commands of the first, then the second's fourth: its third vertex is left as it is.
    let mut lent = loaded(&FORK);
    lent.run(&FORK, 4);
    lent.edition = Edition::Second;
    for answer in [Answer::Edge(3, 0), Answer::Release(2), Answer::Release(3), Answer::Yield] {
        assert_eq!(lent.step(&FORK, 0), answer);
    }
    assert_eq!((lent.row(0)[PLACE], lent.row(4)[STATUS]), (7, NEW));
    assert_eq!(lent.run(&FORK, u32::MAX), Run { ending: Ending::Stuck, last: Some(Answer::Stop), taken: 11 });
    // Two of the second's, then the first's.
    let mut lent = loaded_in(Edition::Second, &FORK);
    lent.run(&FORK, 3);
    lent.edition = Edition::First;
    assert_eq!(lent.run(&FORK, u32::MAX), Run { ending: Ending::Done, last: Some(Answer::Stop), taken: 19 });
    // Four of the second's, then the first's fifth: there the third made word is 0, and the forking vertex takes the edge.
    let mut lent = loaded_in(Edition::Second, &FORK);
    lent.run(&FORK, 4);
    lent.edition = Edition::First;
    assert_eq!(lent.step(&FORK, 0), Answer::Edge(2, 0));
    assert_eq!(lent.step(&FORK, 0), Answer::Edge(3, 0));
    assert_eq!(lent.step(&FORK, 0), refusal(37, 0));
    // A vertex that yielded is one that is released.
    let mut lent = loaded_in(Edition::Second, &FORK);
    lent.run(&FORK, 8);
    lent.edition = Edition::First;
    assert_eq!(lent.run(&FORK, u32::MAX), Run { ending: Ending::Done, last: Some(Answer::Stop), taken: 11 });
}

/// Each step of any edition, on tables of either: it is accepted, or it is refused and changes nothing, and in-counts stay true.
#[test]
fn any_edition_at_any_step() {
    let mut dice = Dice(10);
    let mut refusals = BTreeSet::new();
    let (mut done, mut stuck) = (0, 0);
    for _ in 0..1500 {
        let program = random_program(&mut dice);
        let mut lent = Lent::rows_in(EDITIONS[dice.below(2)], 100, 100);
        assert_eq!(lent.load(&program), Answer::Ready);
        for _ in 0..200 {
            lent.edition = EDITIONS[dice.below(2)];
            let before = lent.clone();
            match lent.step(&program, dice.below(lent.tally.made as usize) as u32) {
                Answer::Refused { number, place } => {
                    refusals.insert(number);
                    assert_eq!((place, &lent), (0, &before));
                }
                _ => assert_eq!(lent.tally.steps, before.tally.steps + 1),
            }
            assert_eq!(lent.in_counts(), lent.edges_into());
            assert!(!has_cycle(&lent.held()));
        }
        let mut plain = lent.clone();
        let run = lent.run(&program, u32::MAX);
        assert_eq!((plain_run(&mut plain, &program, u32::MAX), plain), (run, lent));
        match run.ending {
            Ending::Done => done += 1,
            Ending::Stuck => stuck += 1,
            ending => panic!("{ending:?}"),
        }
    }
    assert!(done > 300 && stuck > 100, "{done} {stuck}");
    assert!([13, 21, 22, 23, 36, 37].iter().all(|number| refusals.contains(number)), "{refusals:?}");
}
