//! The examples of docs/ENGINE.md, through the safe functions.

use keshtiwol::{Answer, Edition, Ending, Lowest, Machine, Refusal, Run, EDGE_WORDS, FUTURE, IN_COUNT, STEP_LIMIT, TARGET, VERTEX_WORDS};

/// Steps the lowest vertex until none can step: each step's vertex and answer.
fn steps(machine: &mut Machine) -> Vec<(u32, Answer)> {
    let mut taken = Vec::new();
    while let Lowest::Vertex(vertex) = machine.lowest() {
        taken.push((vertex, machine.step(vertex)));
    }
    taken
}

fn jobs(program: &[u8]) -> Vec<u32> {
    jobs_in(Edition::First, program)
}

fn jobs_in(edition: Edition, program: &[u8]) -> Vec<u32> {
    let mut machine = Machine::load_in(program, edition).unwrap();
    let number = |(_, answer)| match answer {
        Answer::Job { number, .. } => Some(number),
        _ => None,
    };
    steps(&mut machine).into_iter().filter_map(number).collect()
}

fn listing(program: &[u8]) -> String {
    listing_in(Edition::First, program)
}

fn listing_in(edition: Edition, program: &[u8]) -> String {
    let mut machine = match Machine::load_in(program, edition) {
        Ok(machine) => machine,
        Err(Refusal { number, place }) => return format!("refused {number} {place}\n"),
    };
    let taken = steps(&mut machine);
    let jobs = taken.iter().filter(|(_, answer)| matches!(answer, Answer::Job { .. })).count();
    let mut text = format!("vertices {} jobs {jobs} steps {}\n", machine.tally().made, machine.tally().steps);
    for (vertex, answer) in taken {
        text += &format!("{vertex} {answer}\n");
    }
    text
}

const LISTED: [u8; 9] = [3, 2, 1, 5, 0, 0, 1, 6, 0];

#[test]
fn step_counts() {
    let counts: [(&[u8], u32); 8] = [
        (&[0], 4),
        (&[1, 0, 0], 5),
        (&[2, 1, 1, 0, 1, 2, 0], 11),
        (&[4, 1, 1, 0, 1, 2, 0, 1, 3, 0], 22),
        (&[1, 0xFF, 0xFF, 3, 0], 5),
        (&LISTED, 21),
        (&[5, 0, 6, 0, 0], 19),
        (&[5, 1, 1, 0, 1, 2, 0], 15),
    ];
    for (program, count) in counts {
        let mut machine = Machine::load(program).unwrap();
        let run = machine.run(STEP_LIMIT);
        assert_eq!(run, Run { ending: Ending::Done, last: Some(Answer::Stop), taken: count }, "{program:02X?}");
        assert_eq!(machine.tally().steps, count);
        assert_eq!(machine.tally().held, 0);
        assert_eq!(machine.run(0), Run { ending: Ending::Done, last: None, taken: 0 });
    }
}

#[test]
fn jobs_lowest_first() {
    assert_eq!(jobs(&[1, 0, 0]), [0]);
    assert_eq!(jobs(&[2, 1, 1, 0, 1, 2, 0]), [2, 1]);
    assert_eq!(jobs(&[4, 1, 1, 0, 1, 2, 0, 1, 3, 0]), [1, 2, 3]);
    assert_eq!(jobs(&[1, 0xFF, 0xFF, 3, 0]), [65_535]);
}

/// Retune to 14,074,000 Hz, then the least and the greatest number of five bytes.
#[test]
fn frequencies() {
    let program = [1, 0x90, 0x81, 0xDB, 6, 1, 0x80, 0x80, 0x80, 0x80, 1, 1, 0xFF, 0xFF, 0xFF, 0xFF, 0x0F, 0];
    assert_eq!(jobs(&program), [14_074_000, 268_435_456, u32::MAX]);
    assert_eq!(
        listing(&program),
        "vertices 2 jobs 3 steps 7\n0 start\n0 job 14074000\n0 job 268435456\n0 job 4294967295\n0 stop\n1 start\n1 stop\n"
    );
    assert_eq!(jobs(&[1, 0x80, 0x80, 4, 0]), [65_536]);
}

/// What follows a force waits for its future; what follows a future that is not forced does not, and vertex 1 stops before it.
#[test]
fn futures() {
    assert_eq!(jobs(&[5, 1, 1, 0, 1, 2, 0]), [2, 1]);
    assert_eq!(jobs(&[5, 1, 1, 0, 1, 2, 6, 0, 1, 3, 0]), [2, 1, 3]);
    // Two futures, and force 1 waits for the first: job 3 behind it may come before job 2 of the second.
    let mut machine = Machine::load(&[5, 1, 1, 0, 5, 1, 2, 0, 6, 1, 1, 3, 0]).unwrap();
    assert_eq!(machine.run(16).last, Some(Answer::Stop));
    assert_eq!(machine.step(6), Answer::Refused { number: 21, place: 0 });
    let said: Vec<_> = [3, 3, 3, 2, 2, 6, 6].into_iter().map(|vertex| machine.step(vertex)).collect();
    assert_eq!((said[1], said[6]), (Answer::Job { number: 1, offset: 1 }, Answer::Job { number: 3, offset: 10 }));
    assert_eq!(machine.run(STEP_LIMIT).ending, Ending::Done);
    assert_eq!(
        listing(&[5, 0, 6, 0, 0]),
        "vertices 5 jobs 0 steps 19\n0 start\n0 new 2\n0 new 3\n0 edge 3 2\n0 release 2\n0 release 3\n0 new 4\n0 edge 2 4\n\
         0 transfer 4\n0 release 4\n0 stop\n3 start\n3 stop\n2 start\n2 stop\n4 start\n4 stop\n1 start\n1 stop\n"
    );
    let mut machine = Machine::load(&[5, 1, 7, 0, 0]).unwrap();
    let stopped: Vec<_> = steps(&mut machine).into_iter().filter(|step| step.1 == Answer::Stop).map(|step| step.0).collect();
    assert_eq!(stopped, [0, 1, 3, 2]);
}

/// The latest open future: set in the vertex that did the future, and copied to the vertices that it makes.
#[test]
fn words_for_futures() {
    let mut machine = Machine::load(&[5, 0, 5, 0, 6, 1, 0]).unwrap();
    let words = |machine: &Machine| machine.vertices().chunks(VERTEX_WORDS).map(|row| row[FUTURE]).collect::<Vec<_>>();
    assert_eq!(words(&machine), [0, 0]);
    machine.run(5);
    assert_eq!(words(&machine), [0, 0, 0, 0]);
    machine.run(1);
    assert_eq!(words(&machine), [2, 0, 0, 0]);
    machine.run(6);
    assert_eq!(words(&machine), [4, 0, 0, 0, 2, 2, 4]);
    assert_eq!(machine.run(1).last, Some(Answer::Edge(2, 6)));
    machine.run(STEP_LIMIT);
    assert_eq!(words(&machine), [4, 0, 0, 0, 2, 2, 4]);
}

/// The second edition's fork makes no third vertex: the forking one yields, and starts again behind its branches.
#[test]
fn forks_of_the_second_edition() {
    let fork = [4, 1, 1, 0, 1, 2, 0, 1, 3, 0];
    let mut machine = Machine::load_in(&fork, Edition::Second).unwrap();
    assert_eq!((machine.edition(), Machine::load(&fork).unwrap().edition()), (Edition::Second, Edition::default()));
    assert_eq!(machine.run(8), Run { ending: Ending::Spent, last: Some(Answer::Yield), taken: 8 });
    assert!(!machine.may_start(0) && machine.may_start(2) && machine.may_start(3));
    assert_eq!(machine.chain(0, 2).unwrap(), [2, 0]);
    assert_eq!(machine.run(STEP_LIMIT), Run { ending: Ending::Done, last: Some(Answer::Stop), taken: 11 });
    assert_eq!(jobs_in(Edition::Second, &fork), [1, 2, 3]);
    assert_eq!(
        listing_in(Edition::Second, &fork),
        "vertices 4 jobs 3 steps 19\n0 start\n0 new 2\n0 new 3\n0 edge 2 0\n0 edge 3 0\n0 release 2\n0 release 3\n0 yield\n2 start\n\
         2 job 1\n2 stop\n3 start\n3 job 2\n3 stop\n0 start\n0 job 3\n0 stop\n1 start\n1 stop\n"
    );
    // All else is as in the first.
    assert_eq!(listing_in(Edition::Second, &LISTED), listing(&LISTED));
    let forks = |times| [[4, 0, 0].repeat(times), vec![0]].concat();
    for (times, second) in [(340, true), (341, true), (511, true), (512, false)] {
        assert_eq!(Machine::load(&forks(times)).is_ok(), times == 340);
        match Machine::load_in(&forks(times), Edition::Second) {
            Ok(mut machine) if second => {
                assert_eq!(machine.run(STEP_LIMIT).taken as usize, 4 + 12 * times);
                assert_eq!(machine.tally().made as usize, 2 + 2 * times);
            }
            loaded => assert_eq!(loaded.unwrap_err(), Refusal { number: 8, place: 0 }),
        }
    }
}

/// At each moment of some programs: a vertex may start exactly where its next step starts it, and its word is the number of edges into it.
#[test]
fn which_vertices_may_start() {
    let fork: &[u8] = &[4, 1, 1, 0, 1, 2, 0, 1, 3, 0];
    let first = Edition::First;
    for (program, edition) in [(&LISTED[..], first), (fork, first), (fork, Edition::Second), (&[5, 0, 5, 0, 6, 1, 0], first)] {
        let mut machine = Machine::load_in(program, edition).unwrap();
        loop {
            for (vertex, row) in (0..).zip(machine.vertices().chunks(VERTEX_WORDS)) {
                let edges_in = machine.edges().chunks(EDGE_WORDS).filter(|edge| edge[TARGET] == vertex).count();
                assert_eq!(row[IN_COUNT] as usize, edges_in);
                assert_eq!(machine.may_start(vertex), machine.clone().step(vertex) == Answer::Start);
            }
            assert!(!machine.may_start(machine.tally().made) && !machine.may_start(u32::MAX));
            let Lowest::Vertex(vertex) = machine.lowest() else { break };
            machine.step(vertex);
        }
    }
    let mut machine = Machine::load(&LISTED).unwrap();
    machine.run(8);
    assert_eq!([0, 1, 2, 3, 4].map(|vertex| machine.may_start(vertex)), [false, false, false, true, false]);
}

/// The async's job ahead of the other, which the lowest first would not give.
#[test]
fn jobs_in_either_order() {
    let mut machine = Machine::load(&[2, 1, 1, 0, 1, 2, 0]).unwrap();
    let said: Vec<_> = [0, 0, 0, 0, 2, 2, 0].into_iter().map(|vertex| machine.step(vertex)).collect();
    assert_eq!(
        said,
        [
            Answer::Start,
            Answer::New(2),
            Answer::Edge(2, 1),
            Answer::Release(2),
            Answer::Start,
            Answer::Job { number: 1, offset: 1 },
            Answer::Job { number: 2, offset: 4 },
        ]
    );
    assert_eq!(machine.run(STEP_LIMIT), Run { ending: Ending::Done, last: Some(Answer::Stop), taken: 4 });
}

#[test]
fn the_listing() {
    let expected = "vertices 5 jobs 2 steps 21\n0 start\n0 new 2\n0 new 3\n0 edge 3 2\n0 transfer 2\n0 release 2\n0 release 3\n0 stop\n\
        3 start\n3 new 4\n3 edge 4 2\n3 release 4\n3 stop\n4 start\n4 job 5\n4 stop\n2 start\n2 job 6\n2 stop\n1 start\n1 stop\n";
    assert_eq!(listing(&LISTED), expected);
}

#[test]
fn a_refused_listing() {
    assert_eq!(listing(&[1, 0x80, 0, 0]), "refused 2 1\n");
}

#[test]
fn refused_programs() {
    let (deep, long) = ([2; 32], [0; 4097]);
    let pairs = [[2, 0].repeat(1023), vec![0]].concat();
    let refused: [(&[u8], u32, u32); 23] = [
        (&[], 1, 0),
        (&long, 1, 0),
        (&[7], 3, 0),
        (&[5], 5, 1),
        (&[6], 5, 1),
        (&[6, 0], 43, 1),
        (&[5, 0, 6, 1, 0], 43, 3),
        (&[5, 6, 0, 0, 0], 43, 2),
        (&[5, 0, 6, 0x80, 0, 0], 2, 3),
        (&[5, 0, 6, 0xFF, 0xFF, 0xFF, 0xFF, 0x7F, 0], 7, 3),
        (&[1, 0x80, 0, 0], 2, 1),
        (&[1, 0x80, 0x80, 0x80, 0x80, 0, 0], 2, 1),
        (&[1, 0x80, 0x80, 0x80, 0x80, 0x80, 0], 2, 1),
        (&[1, 0x80, 0x80, 0x80, 0x80, 0x80, 1, 0], 2, 1),
        (&[0, 0], 6, 1),
        (&[3, 0], 5, 2),
        (&[1, 0x80], 5, 2),
        (&[1, 0x80, 0x80, 0x80, 0x80], 5, 5),
        (&[1, 0x80, 0x80, 0x80, 0x80, 0x10, 0], 7, 1),
        (&[1, 0xFF, 0xFF, 0xFF, 0xFF, 0x7F, 0], 7, 1),
        (&[0x1, 0xFF, 0xFF, 3], 5, 4),
        (&deep, 4, 31),
        (&pairs, 8, 0),
    ];
    for (program, number, place) in refused {
        assert_eq!(Machine::load(program).unwrap_err(), Refusal { number, place }, "{program:02X?}");
    }
}

#[test]
fn programs_at_the_limits() {
    let nested = [[2].repeat(31), [0].repeat(32)].concat();
    let pairs = [[2, 0].repeat(1022), vec![0]].concat();
    let forks = [[4, 0, 0].repeat(340), vec![2, 0, 2, 0, 0]].concat();
    let futures = [[5, 0].repeat(511), vec![0]].concat();
    let forces = [vec![5, 0], [6, 0].repeat(1020), vec![0]].concat();
    let jobs = [[1, 5].repeat(2047), vec![1, 0]].concat();
    assert_eq!(Machine::load(&jobs).unwrap_err(), Refusal { number: 5, place: 4096 });
    let jobs = [[1, 5].repeat(2046), vec![1, 0x80, 1, 0]].concat();
    let retunes = [[1, 0xFF, 0xFF, 0xFF, 0xFF, 0x0F].repeat(682), vec![1, 0x80, 1, 0]].concat();
    for (program, made, count) in [
        (nested, 33, 159),
        (pairs, 1024, 5114),
        (forks, 1024, 5114),
        (futures, 1024, 4603),
        (forces, 1024, 6133),
        (jobs, 2, 2051),
        (retunes, 2, 687),
    ] {
        let mut machine = Machine::load(&program).unwrap();
        assert_eq!(machine.run(u32::MAX), Run { ending: Ending::Done, last: Some(Answer::Stop), taken: count });
        assert_eq!(machine.tally().made, made);
        assert_eq!(machine.vertices().len(), VERTEX_WORDS * made as usize);
        assert!(machine.edges().is_empty());
    }
}

#[test]
fn budgets() {
    let mut machine = Machine::load(&LISTED).unwrap();
    assert_eq!(machine.run(0), Run { ending: Ending::Spent, last: None, taken: 0 });
    assert_eq!(machine.run(4), Run { ending: Ending::Spent, last: Some(Answer::Edge(3, 2)), taken: 4 });
    assert_eq!(machine.lowest(), Lowest::Vertex(0));
    assert_eq!(machine.run(17), Run { ending: Ending::Done, last: Some(Answer::Stop), taken: 17 });
    assert_eq!(machine.lowest(), Lowest::NoVertex);
}

/// What holds a vertex of a loaded program back: the listed one after five steps, and at its end.
#[test]
fn chains_of_a_program() {
    let mut machine = Machine::load(&LISTED).unwrap();
    assert_eq!(machine.chain(1, 0).unwrap(), [0, 1]);
    machine.run(5);
    assert_eq!(machine.chain(1, 3).unwrap(), [3, 2, 1]);
    assert_eq!(machine.chain(2, 2).unwrap(), [2]);
    let refused = |number| Refusal { number, place: 0 };
    assert_eq!(machine.chain(3, 1).unwrap_err(), refused(41));
    assert_eq!(machine.chain(1, 0).unwrap_err(), refused(41));
    assert_eq!(machine.chain(4, 0).unwrap_err(), refused(20));
    machine.run(STEP_LIMIT);
    assert_eq!(machine.chain(4, 4).unwrap(), [4]);
    assert_eq!(machine.chain(1, 4).unwrap_err(), refused(41));
}

#[test]
fn a_refusal_reads_well() {
    let refusal = Machine::load(&[7]).unwrap_err();
    assert_eq!(refusal.to_string(), "refused with 3 at byte 0: an item's first byte is above 6");
    assert_eq!(format!("{refusal:?}"), refusal.to_string());
    // Only 2 to 7 and 43 have a place.
    assert_eq!(Machine::load(&[6, 0]).unwrap_err().to_string(), "refused with 43 at byte 1: no such future is open");
    assert_eq!(Machine::load(&[]).unwrap_err().to_string(), "refused with 1: the program has no bytes or more than 4,096");
}
