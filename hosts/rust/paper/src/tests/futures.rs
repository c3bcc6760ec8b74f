//! Futures and forces: how they are read, what their steps do, and the eighth word.

use super::*;
use crate::graph::{EXECUTING, MADE, RELEASED};

/// A row whose latest open future is this.
fn row_with(status: u32, place: u32, scope: u32, future: u32) -> Row {
    let mut words = row(status, place, scope);
    words[FUTURE] = future;
    words
}

/// Takes steps of vertex 0 that are accepted.
fn by_vertex_0(program: &[u8], steps: usize) -> Lent {
    let mut lent = loaded(program);
    for _ in 0..steps {
        let answer = lent.step(program, 0);
        assert!(!is_refused(answer), "{answer:?}");
    }
    lent
}

/// Futures with empty bodies, then this.
fn after_futures(futures: usize, rest: &[u8]) -> Vec<u8> {
    [&[5, 0].repeat(futures), rest].concat()
}

// --- Reading -----------------------------------------------------------------------------------

/// "Refusal 3 begins above 6; the example `05` becomes 5 at 1, and `07` gives 3 at 0."
#[test]
fn examples_of_the_note() {
    for (program, number, place) in
        [(&[5][..], 5, 1), (&[7], 3, 0), (&[6], 5, 1), (&[6, 0], 43, 1), (&[5, 0, 6, 1, 0], 43, 3), (&[5, 0, 7], 3, 2), (&[5, 0, 6], 5, 3)]
    {
        assert_eq!(load_refusal(program), refusal(number, place), "{program:02x?}");
    }
    let program = [5, 0, 6, 0, 0];
    assert_eq!(full_count(&program), 19);
    assert_eq!(loaded(&program).run(&program, u32::MAX), Run { ending: Ending::Done, last: Some(Answer::Stop), taken: 19 });
    assert_eq!(
        listing(Edition::First, &program),
        "vertices 5 jobs 0 steps 19\n0 start\n0 new 2\n0 new 3\n0 edge 3 2\n0 release 2\n0 release 3\n0 new 4\n0 edge 2 4\n\
         0 transfer 4\n0 release 4\n0 stop\n3 start\n3 stop\n2 start\n2 stop\n4 start\n4 stop\n1 start\n1 stop\n"
    );
}

/// "A future is open after its item, to the end of its body and in bodies inside later items."
#[test]
fn where_futures_are_open() {
    let loads: [&[u8]; 12] = [
        &[5, 0, 6, 0, 6, 0, 0],
        &[5, 0, 2, 6, 0, 0, 0],
        &[5, 0, 3, 6, 0, 0, 0],
        &[5, 0, 4, 6, 0, 0, 6, 0, 0, 0],
        &[5, 0, 5, 6, 0, 0, 6, 1, 0],
        &[5, 0, 2, 3, 4, 0, 5, 6, 0, 0, 0, 0, 0, 0],
        &[5, 0, 5, 0, 6, 1, 0],
        &[5, 5, 0, 6, 0, 0, 6, 0, 0],
        &[2, 5, 0, 6, 0, 0, 0],
        &[4, 5, 0, 6, 0, 0, 5, 0, 6, 0, 0, 0],
        // Two are open where the second item's body begins, and three behind a future of its own.
        &[5, 0, 5, 0, 2, 5, 0, 6, 2, 0, 6, 1, 0],
        &[5, 0, 4, 5, 0, 6, 1, 0, 5, 0, 6, 1, 0, 6, 0, 0],
    ];
    for program in loads {
        assert_eq!(loaded(program).run(program, u32::MAX).taken, full_count(program), "{program:02x?}");
    }
    let refused: [(&[u8], u32); 12] = [
        // Not before its item, nor in its own body.
        (&[6, 0, 5, 0, 0], 1),
        (&[5, 6, 0, 0, 0], 2),
        (&[5, 2, 6, 0, 0, 0, 0], 3),
        (&[5, 0, 5, 6, 1, 0, 0], 4),
        // Not behind the end of the body in which its item stands.
        (&[2, 5, 0, 0, 6, 0, 0], 5),
        (&[3, 5, 0, 0, 6, 0, 0], 5),
        (&[5, 5, 0, 0, 6, 1, 0], 5),
        (&[4, 5, 0, 0, 0, 6, 0, 0], 6),
        // Not from one branch to the other.
        (&[4, 5, 0, 0, 6, 0, 0, 0], 5),
        (&[5, 0, 4, 5, 0, 0, 6, 1, 0, 0], 7),
        (&[5, 0, 4, 5, 0, 0, 5, 0, 0, 6, 1, 0], 10),
        (&[5, 0, 5, 0, 2, 5, 0, 6, 2, 0, 6, 2, 0], 11),
    ];
    for (program, place) in refused {
        assert_eq!(load_refusal(program), refusal(43, place), "{program:02x?}");
    }
}

/// "43 a force with no such future open, at its number's first byte, by place among 2 to 7, after 7, which holds for that number too".
#[test]
fn numbers_of_forces() {
    for futures in [0, 1] {
        let first = 2 * futures as u32 + 1;
        let refused: [(&[u8], (u32, u32)); 9] = [
            (&[], (5, first)),
            (&[0x80], (5, first + 1)),
            (&[0x80, 0x80, 0x80, 0x80], (5, first + 4)),
            (&[0x80, 0, 0], (2, first)),
            (&[0x80, 0x80, 0x80, 0x80, 0x80, 0], (2, first)),
            (&[0xff, 0xff, 0xff, 0xff, 0x10, 0], (7, first)),
            (&[0xff, 0xff, 0xff, 0xff, 0x7f, 0], (7, first)),
            (&[0xff, 0xff, 0xff, 0xff, 0x0f, 0], (43, first)),
            (&[1, 0], (43, first)),
        ];
        for (bytes, (number, place)) in refused {
            let program = after_futures(futures, &[&[6], bytes].concat());
            assert_eq!(load_refusal(&program), refusal(number, place), "{program:02x?}");
        }
    }
    // The first by place, and what comes before and behind all of them.
    assert_eq!(load_refusal(&[6, 0, 7]), refusal(43, 1));
    assert_eq!(load_refusal(&[7, 6, 0]), refusal(3, 0));
    assert_eq!(load_refusal(&[1, 0x80, 0, 6, 0]), refusal(2, 1));
    assert_eq!(load_refusal(&[6, 0, 1, 0x80, 0, 0]), refusal(43, 1));
    assert_eq!(load_refusal(&[0, 6, 0]), refusal(6, 1));
    assert_eq!(load_refusal(&[6; 4097]), refusal(1, 0));
    assert_eq!(load_refusal(&after_futures(600, &[0])), refusal(8, 0));
    assert_eq!(load_refusal(&after_futures(600, &[6, 0xD8, 4, 0])), refusal(43, 1201));
    assert_eq!(Lent::rows(0, 0).load(&[6, 0, 0]), refusal(43, 1));
    // Numbers of two bytes.
    for (futures, number, answer) in [(129, 128, Answer::Ready), (128, 128, refusal(43, 257)), (300, 299, Answer::Ready)] {
        let program = after_futures(futures, &[&[6], &number_bytes(number)[..], &[0]].concat());
        assert_eq!(Lent::rows(1024, 1024).load(&program), answer);
    }
}

/// "A future adds 2 vertices, 1 edge and 9 steps; a force 1, 1 and 6."
#[test]
fn what_they_add() {
    let at_the_limit = |item: &[u8], times: usize| [&item.repeat(times), &[0][..]].concat();
    let forces = |times: usize| after_futures(1, &at_the_limit(&[6, 0], times));
    for (program, vertices, edge_rows, steps) in [
        (vec![5, 0, 0], 4, 2, 13),
        (vec![5, 0, 6, 0, 0], 5, 3, 19),
        (vec![5, 0, 6, 0, 6, 0, 0], 6, 4, 25),
        (after_futures(511, &[0]), 1024, 512, 4 + 9 * 511),
        (forces(1020), 1024, 1022, 4 + 9 + 6 * 1020),
        (at_the_limit(&[5, 0, 6, 0], 340), 1022, 681, 4 + 15 * 340),
    ] {
        let c = counts(&program);
        assert_eq!((c.vertices(Edition::First), c.edge_rows(), full_count(&program)), (vertices, edge_rows, steps));
        let (vertices, edge_rows) = (vertices as usize, edge_rows as usize);
        assert_eq!(Lent::rows(vertices - 1, edge_rows).load(&program), refusal(10, 0));
        assert_eq!(Lent::rows(vertices, edge_rows - 1).load(&program), refusal(11, 0));
        let mut lent = Lent::rows(vertices, edge_rows);
        assert_eq!(lent.load(&program), Answer::Ready);
        assert_eq!(lent.run(&program, u32::MAX), Run { ending: Ending::Done, last: Some(Answer::Stop), taken: steps });
        assert_eq!(lent.tally, Tally { made: vertices as u32, held: 0, steps });
    }
    assert_eq!(load_refusal(&after_futures(512, &[0])), refusal(8, 0));
    assert_eq!(load_refusal(&forces(1021)), refusal(8, 0));
    // Levels: a future's body is one deeper, a force has none.
    let deep = [[5].repeat(31), [0].repeat(32)].concat();
    assert_eq!(loaded(&deep).run(&deep, u32::MAX).taken, 4 + 9 * 31);
    let forced = [&[2].repeat(30), &[5, 0, 6, 0][..], &[0].repeat(31)].concat();
    assert_eq!(loaded(&forced).run(&forced, u32::MAX).taken, full_count(&forced));
}

// --- Steps -------------------------------------------------------------------------------------

/// Every command of a future and of a force, with the rows and edges that it leaves.
#[test]
fn commands_of_the_items() {
    let program = [1, 9, 5, 1, 1, 0, 6, 0, 1, 2, 0];
    let mut lent = by_vertex_0(&program, 2);
    let executing = |place, phase, made: [u32; 3], future| {
        let mut row = row_with(EXECUTING, place, 1, future);
        row[PHASE] = phase;
        row[MADE..MADE + 3].copy_from_slice(&made);
        row
    };
    let t = |status| row_with(status, 10, 1, 0);
    let body = |status| row_with(status, 3, 2, 0);
    let rest = |status| row_with(status, 8, 1, 2);
    let all: [(Answer, Row, &[Row], &[(u32, u32)]); 10] = [
        (Answer::New(2), executing(2, 1, [2, 0, 0], 0), &[t(1)], &[(0, 1)]),
        (Answer::New(3), executing(2, 2, [2, 3, 0], 0), &[t(1), body(1)], &[(0, 1)]),
        (Answer::Edge(3, 2), executing(2, 3, [2, 3, 0], 0), &[t(1), body(1)], &[(0, 1), (3, 2)]),
        (Answer::Release(2), executing(2, 4, [2, 3, 0], 0), &[t(2), body(1)], &[(0, 1), (3, 2)]),
        (Answer::Release(3), executing(6, 0, [0, 0, 0], 2), &[t(2), body(2)], &[(0, 1), (3, 2)]),
        (Answer::New(4), executing(6, 1, [4, 0, 0], 2), &[t(2), body(2), rest(1)], &[(0, 1), (3, 2)]),
        (Answer::Edge(2, 4), executing(6, 2, [4, 0, 0], 2), &[t(2), body(2), rest(1)], &[(0, 1), (3, 2), (2, 4)]),
        (Answer::Transfer(4), executing(6, 3, [4, 0, 0], 2), &[t(2), body(2), rest(1)], &[(4, 1), (3, 2), (2, 4)]),
        (Answer::Release(4), executing(10, 0, [0, 0, 0], 2), &[t(2), body(2), rest(2)], &[(4, 1), (3, 2), (2, 4)]),
        (Answer::Stop, row_with(FINISHED, 10, 1, 2), &[t(2), body(2), rest(2)], &[(4, 1), (3, 2), (2, 4)]),
    ];
    for (answer, own, others, edges) in all {
        let steps = lent.tally.steps;
        assert_eq!(lent.step(&program, 0), answer);
        assert_eq!(lent.row(0), own);
        for (at, &(mut other)) in others.iter().enumerate() {
            other[IN_COUNT] = edges.iter().filter(|edge| edge.1 as usize == 2 + at).count() as u32;
            assert_eq!(lent.row(2 + at), other);
        }
        assert_eq!(lent.held(), edges);
        assert_eq!(lent.tally, Tally { made: 2 + others.len() as u32, held: edges.len() as u32, steps: steps + 1 });
    }
    // One phase more than the items have commands, at each of them.
    for (place, commands) in [(2, 5), (6, 4)] {
        for phase in [commands, commands + 1, 9, u32::MAX] {
            let mut lent = by_vertex_0(&program, 7);
            (lent.vertices[PLACE], lent.vertices[PHASE]) = (place, phase);
            assert_eq!(lent.step(&program, 0), refusal(13, 0));
        }
    }
}

/// "the latest open future, copied from the maker by newTd and set to t in the vertex that did the future", for each kind of item.
#[test]
fn what_the_words_name() {
    // The body of an item behind two futures, t of the first being 2 and of the second 4, sees the second; its rest does, too.
    for (program, words) in [
        (&[5, 0, 5, 0, 2, 0, 0][..], &[0, 0, 0, 0, 2, 2, 4][..]),
        (&[5, 0, 5, 0, 3, 0, 0], &[0, 0, 0, 0, 2, 2, 4, 4]),
        (&[5, 0, 5, 0, 4, 0, 0, 0], &[0, 0, 0, 0, 2, 2, 4, 4, 4]),
        (&[5, 0, 5, 0, 5, 0, 0], &[0, 0, 0, 0, 2, 2, 4, 4]),
        (&[5, 0, 5, 0, 6, 1, 0], &[0, 0, 0, 0, 2, 2, 4]),
    ] {
        let mut lent = loaded(program);
        lent.run(program, u32::MAX);
        let seen: Vec<u32> = (0..lent.tally.made as usize).map(|vertex| lent.row(vertex)[FUTURE]).collect();
        let last = if program[4] == 5 { 6 } else { 4 };
        assert_eq!((seen[0], &seen[1..]), (last, &words[1..]), "{program:02x?}");
    }
    // A future in a body is no longer open behind it: vertex 2 is that body, 3 and 4 its future, 5 the rest.
    let program = [2, 5, 0, 0, 2, 0, 0];
    let mut lent = loaded(&program);
    lent.run(&program, u32::MAX);
    assert_eq!((0..6).map(|vertex| lent.row(vertex)[FUTURE]).collect::<Vec<_>>(), [0, 0, 4, 0, 0, 0]);
}

/// Opening and loading leave 0, and so does a newTd whose caller has 0; "copied from the maker by newTd" in single commands as well.
#[test]
fn the_word_in_single_commands() {
    let new = |caller| Command::NewTd { caller, place: 5, scope: 6 };
    let mut lent = Lent::rows(6, 2);
    assert_eq!(lent.open(), Answer::Ready);
    assert_eq!(lent.row(0), row(RELEASED, 0, 0));
    assert_eq!(lent.command(Command::Start { vertex: 0 }), Answer::Start);
    assert_eq!(lent.command(new(0)), Answer::New(1));
    assert_eq!(lent.row(1), row(NEW, 5, 6));
    // It is a word like another: what stands there is copied, whatever it is, and no other command looks at it or changes it.
    for (made, word) in [(2, 1), (3, 77), (4, u32::MAX)] {
        lent.vertices[FUTURE] = word;
        assert_eq!(lent.command(new(0)), Answer::New(made));
        assert_eq!(lent.row(made as usize), row_with(NEW, 5, 6, word));
    }
    for command in [
        Command::NewEdge { caller: 0, source: 1, target: 2 },
        Command::Transfer { caller: 0, vertex: 3 },
        Command::Release { caller: 0, vertex: 1 },
        Command::Start { vertex: 1 },
        Command::Stop { caller: 1 },
    ] {
        let words = |lent: &Lent| (0..5).map(|vertex| lent.row(vertex)[FUTURE]).collect::<Vec<_>>();
        let before = words(&lent);
        assert!(!is_refused(lent.command(command)));
        assert_eq!(words(&lent), before);
    }
    // The caller's, and not the lowest's or the scope's.
    let mut lent = graph(&[3, 3, 3], &[], 1);
    (lent.vertices[FUTURE], lent.vertices[2 * VERTEX_WORDS + FUTURE]) = (1, 2);
    assert_eq!(lent.command(Command::NewTd { caller: 2, place: 0, scope: 0 }), Answer::New(3));
    assert_eq!(lent.row(3), row_with(NEW, 0, 0, 2));
}

/// "set to t [...] at that item's last command": what stands in the first made word then, and not before.
#[test]
fn the_word_is_set_at_the_last_command() {
    let program = [5, 0, 0];
    for (word, value) in [(0, 2), (0, 77), (0, 0), (1, 2)] {
        let mut lent = by_vertex_0(&program, 5);
        assert_eq!((lent.row(0)[PHASE], lent.row(0)[FUTURE]), (4, 0));
        lent.vertices[MADE + word] = value;
        let first = lent.vertices[MADE];
        // The second word names the vertex released, and 2 is released already.
        let before = lent.clone();
        if word == 1 {
            assert_eq!(lent.step(&program, 0), refusal(36, 0));
            assert_eq!(lent, before);
        } else {
            assert_eq!(lent.step(&program, 0), Answer::Release(3));
            assert_eq!(lent.row(0), row_with(EXECUTING, 2, 1, first));
        }
    }
}

/// "so a force follows its number of such words"
#[test]
fn a_force_follows_words() {
    for futures in 1..5 {
        for number in 0..futures {
            let program = after_futures(futures, &[6, number as u8, 0]);
            let mut lent = by_vertex_0(&program, 2 + 5 * futures);
            let (t, rest) = (2 * (futures - number) as u32, 2 + 2 * futures as u32);
            assert_eq!(lent.step(&program, 0), Answer::Edge(t, rest));
        }
    }
    // Words that lead round and round are followed as often as the number says.
    let program = after_futures(3, &[6, 2, 0]);
    let lent = by_vertex_0(&program, 17);
    assert_eq!((lent.row(0)[FUTURE], lent.row(6)[FUTURE], lent.row(4)[FUTURE]), (6, 4, 2));
    for (altered, t) in [(&[(4, 6)][..], 6), (&[(6, 6)], 6), (&[(0, 4), (4, 6)], 4), (&[(0, 3), (3, 5), (5, 3)], 3)] {
        let mut lent = lent.clone();
        for &(vertex, word) in altered {
            lent.vertices[VERTEX_WORDS * vertex + FUTURE] = word;
        }
        assert_eq!(lent.step(&program, 0), Answer::Edge(t, 8), "{altered:?}");
    }
}

/// 13 "is also given at a force's newEdge where the words followed come to 0 or to no made vertex".
#[test]
fn words_that_lead_to_no_future() {
    let program = after_futures(3, &[6, 2, 0]);
    let lent = by_vertex_0(&program, 17);
    assert_eq!(lent.tally.made, 9);
    // The words followed are those of 0, 6 and 4.
    for vertex in [0, 6, 4] {
        for word in [0, 9, 10, 1023, 1024, u32::MAX] {
            let mut altered = lent.clone();
            altered.vertices[VERTEX_WORDS * vertex + FUTURE] = word;
            // Before the command's own: 20 for the target, 35, 32.
            for target in [8, 99, 0, 2, 4, 6] {
                altered.vertices[MADE] = target;
                let before = altered.clone();
                assert_eq!(altered.step(&program, 0), refusal(13, 0));
                assert_eq!(altered, before);
            }
            // Only there: at its other commands a force looks at none of them.
            for (phase, target, answer) in [(0, 0, Answer::New(9)), (2, 8, Answer::Transfer(8)), (3, 8, Answer::Release(8))] {
                let mut altered = altered.clone();
                (altered.vertices[PHASE], altered.vertices[MADE]) = (phase, target);
                assert_eq!(altered.step(&program, 0), answer);
            }
        }
    }
    // The word of the last one is not followed, nor are those of others.
    for vertex in [1, 2, 3, 5, 7, 8] {
        let mut altered = lent.clone();
        altered.vertices[VERTEX_WORDS * vertex + FUTURE] = u32::MAX;
        assert_eq!(altered.step(&program, 0), Answer::Edge(2, 8));
    }
    // Where the words lead to a vertex made, the command's own are due.
    for (target, number) in [(9, 20), (u32::MAX, 20), (0, 32), (2, 35), (1, 32)] {
        let mut altered = lent.clone();
        altered.vertices[MADE] = target;
        altered.edges.truncate(EDGE_WORDS * lent.tally.held as usize);
        assert_eq!(altered.step(&program, 0), refusal(number, 0));
    }
    for status in [EXECUTING, FINISHED] {
        let mut altered = lent.clone();
        altered.vertices[VERTEX_WORDS * 8 + STATUS] = status;
        assert_eq!(altered.step(&program, 0), refusal(33, 0));
    }
    // A run meets it as well: no other vertex can step.
    let program = [5, 0, 6, 0, 0];
    let mut lent = by_vertex_0(&program, 7);
    lent.run(&program, 0);
    for vertex in [3, 2] {
        lent.vertices[VERTEX_WORDS * vertex + STATUS] = FINISHED;
    }
    (lent.edges[2], lent.edges[3], lent.tally.held) = (0, 0, 1);
    lent.vertices[FUTURE] = 0;
    assert_eq!(lent.lowest(&program), Lowest::NoVertex);
    assert_eq!(lent.run(&program, 5), Run { ending: Ending::Stuck, last: None, taken: 0 });
    lent.vertices[FUTURE] = 2;
    assert_eq!(lent.run(&program, 1), Run { ending: Ending::Spent, last: Some(Answer::Edge(2, 4)), taken: 1 });
}

/// "13 counts 43 as it does 1 to 8": on bytes that loading refuses with 43 no executing vertex steps.
#[test]
fn steps_on_bytes_with_no_such_future() {
    let mut lent = by_vertex_0(&[1, 1, 1, 1, 0], 1);
    for program in [&[1, 1, 6, 0, 0][..], &[1, 1, 5, 0, 6, 1, 0], &[6, 0, 0]] {
        let before = lent.clone();
        assert_eq!(lent.step(program, 0), refusal(13, 0));
        assert_eq!(lent.run(program, 3), Run { ending: Ending::Stuck, last: None, taken: 0 });
        assert_eq!(lent, before);
    }
    assert_eq!(lent.step(&[1, 1, 5, 0, 6, 0, 0], 0), Answer::Job { number: 1, offset: 0 });
}

/// A force of a finished future says its edge and holds none.
#[test]
fn a_force_of_a_finished_future() {
    let program = [5, 1, 1, 0, 6, 0, 6, 0, 0];
    let mut lent = Lent::rows(6, 4);
    assert_eq!(lent.load(&program), Answer::Ready);
    // Vertex 0 to the force, then the future's body and its t to their ends.
    let order = [0, 0, 0, 0, 0, 0, 3, 3, 3, 2, 2];
    assert!(order.iter().all(|&vertex| !is_refused(lent.step(&program, vertex))));
    assert_eq!((lent.row(2)[STATUS], lent.held()), (FINISHED, vec![(0, 1)]));
    assert_eq!(lent.step(&program, 0), Answer::New(4));
    assert_eq!(lent.step(&program, 0), Answer::Edge(2, 4));
    assert_eq!(lent.held(), [(0, 1)]);
    // A second force of the same.
    assert_eq!(lent.run(&program, u32::MAX).ending, Ending::Done);
    assert_eq!(lent.tally, Tally { made: 6, held: 0, steps: full_count(&program) });
    // Its row counts for 11 all the same.
    assert_eq!(Lent::rows(6, 3).load(&program), refusal(11, 0));
}
