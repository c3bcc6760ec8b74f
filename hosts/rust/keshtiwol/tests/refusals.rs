//! Refusals of lent tables, of the host's choices, of editions' numbers and of single commands; each must change nothing. (Those of
//! programs are among the examples; 99 is in the crate, below the safe functions.)

use keshtiwol::*;

/// Tables, a tally, and calls that check refusals for changes.
#[derive(Clone, PartialEq, Debug)]
struct Lent {
    vertices: Vec<u32>,
    edges: Vec<u32>,
    tally: Tally,
}

impl Lent {
    fn new(vertex_words: usize, edge_words: usize) -> Lent {
        Lent { vertices: vec![77; vertex_words], edges: vec![77; edge_words], tally: Tally { made: 9, held: 9, steps: 9 } }
    }

    /// An opened machine with vertex 0 executing.
    fn bare(vertex_rows: usize, edge_rows: usize) -> Lent {
        let mut lent = Lent::new(VERTEX_WORDS * vertex_rows, EDGE_WORDS * edge_rows);
        assert_eq!(lent.open(), Answer::Ready);
        assert_eq!(lent.command(Command::Start { vertex: 0 }), Answer::Start);
        lent
    }

    fn call(&mut self, call: impl FnOnce(&mut [u32], &mut [u32], &mut Tally) -> Answer) -> Answer {
        let before = self.clone();
        let answer = call(&mut self.vertices, &mut self.edges, &mut self.tally);
        if let Answer::Refused { .. } = answer {
            assert_eq!(*self, before, "{answer} changed something");
        }
        answer
    }

    fn open(&mut self) -> Answer {
        self.call(open)
    }

    /// In the first edition, as is a step without another.
    fn load(&mut self, program: &[u8]) -> Answer {
        self.load_in(Edition::First, program)
    }

    fn load_in(&mut self, edition: impl Into<u32>, program: &[u8]) -> Answer {
        self.call(|vertices, edges, tally| load(program, vertices, edges, tally, edition))
    }

    fn step(&mut self, program: &[u8], vertex: u32) -> Answer {
        self.step_in(Edition::First, program, vertex)
    }

    fn step_in(&mut self, edition: impl Into<u32>, program: &[u8], vertex: u32) -> Answer {
        self.call(|vertices, edges, tally| step(program, vertices, edges, tally, edition, vertex))
    }

    fn command(&mut self, what: Command) -> Answer {
        self.call(|vertices, edges, tally| command(vertices, edges, tally, what))
    }

    fn new_vertex(&mut self) -> Answer {
        self.command(Command::NewTd { caller: 0, place: 0, scope: 0 })
    }

    fn edge(&mut self, source: u32, target: u32) -> Answer {
        self.command(Command::NewEdge { caller: 0, source, target })
    }

    /// The same, where the edge is taken and no word changes.
    fn edge_held_already(&mut self, source: u32, target: u32) {
        let before = self.clone();
        assert_eq!(self.edge(source, target), Answer::Edge(source, target));
        assert_eq!(*self, before);
    }

    fn release(&mut self, vertex: u32) -> Answer {
        self.command(Command::Release { caller: 0, vertex })
    }

    fn transfer(&mut self, vertex: u32) -> Answer {
        self.command(Command::Transfer { caller: 0, vertex })
    }

    fn start(&mut self, vertex: u32) -> Answer {
        self.command(Command::Start { vertex })
    }

    fn stop(&mut self, caller: u32) -> Answer {
        self.command(Command::Stop { caller })
    }

    fn yields(&mut self, caller: u32) -> Answer {
        self.command(Command::Yield { caller })
    }
}

fn refused(number: u32) -> Answer {
    Answer::Refused { number, place: 0 }
}

#[test]
fn the_bare_example() {
    let mut lent = Lent::bare(3, 4);
    assert_eq!(lent.new_vertex(), Answer::New(1));
    assert_eq!(lent.new_vertex(), Answer::New(2));
    assert_eq!(lent.edge(1, 2), Answer::Edge(1, 2));
    assert_eq!(lent.edge(2, 1), refused(refusal::CLOSES_CYCLE));
    assert_eq!(lent.edge(1, 1), refused(refusal::CLOSES_CYCLE));
    lent.edge_held_already(1, 2);
    assert_eq!(lent.edge(0, 1), Answer::Edge(0, 1));
    assert_eq!(lent.transfer(1), refused(refusal::TRANSFER_HAS_EDGE_OUT));
    assert_eq!(lent.transfer(2), refused(refusal::CLOSES_CYCLE));
    assert_eq!(lent.edges, [1, 2, 0, 1, 0, 0, 0, 0]);
    assert_eq!(lent.tally, Tally { made: 3, held: 2, steps: 0 });
}

#[test]
fn commands() {
    let mut lent = Lent::bare(4, 1);
    for vertex in 1..4 {
        assert_eq!(lent.new_vertex(), Answer::New(vertex));
    }
    assert_eq!(lent.new_vertex(), refused(refusal::NO_VERTEX_ROW));
    assert_eq!(lent.start(1), refused(refusal::VERTEX_IS_NEW));
    assert_eq!(lent.release(1), Answer::Release(1));
    assert_eq!(lent.release(1), refused(refusal::RELEASE_NOT_NEW));
    assert_eq!(lent.transfer(1), refused(refusal::TRANSFER_NOT_NEW));
    assert_eq!(lent.edge(2, 1), Answer::Edge(2, 1));
    assert_eq!(lent.edge(2, 3), refused(refusal::NO_EDGE_ROW));
    assert_eq!(lent.edge(1, 0), refused(refusal::NO_EDGE_ROW));
    assert_eq!(lent.start(1), refused(refusal::EDGE_LEADS_IN));
    assert_eq!(lent.start(0), refused(refusal::VERTEX_IS_EXECUTING));
    assert_eq!(lent.stop(1), refused(refusal::CALLER_NOT_EXECUTING));
    assert_eq!(lent.yields(1), refused(refusal::CALLER_NOT_EXECUTING));
    assert_eq!(lent.yields(4), refused(refusal::NO_SUCH_VERTEX));
    assert_eq!(lent.edge(4, 1), refused(refusal::NO_SUCH_VERTEX));
    assert_eq!(lent.start(u32::MAX), refused(refusal::NO_SUCH_VERTEX));
    assert_eq!(lent.release(2), Answer::Release(2));
    assert_eq!(lent.start(2), Answer::Start);
    assert_eq!(lent.stop(2), Answer::Stop);
    assert_eq!(lent.start(2), refused(refusal::VERTEX_IS_FINISHED));
    // The stop freed the row; an edge from a finished vertex is accepted and takes none.
    assert_eq!(lent.tally, Tally { made: 4, held: 0, steps: 0 });
    assert_eq!(lent.edge(2, 3), Answer::Edge(2, 3));
    assert_eq!(lent.tally.held, 0);
    assert_eq!(lent.edge(1, 3), Answer::Edge(1, 3));
    assert_eq!(lent.edges, [1, 3]);
}

/// The caller waits for another vertex: an edge onto itself, a yield, and a start when the other has finished.
#[test]
fn a_caller_that_yields() {
    let mut lent = Lent::bare(3, 3);
    assert_eq!([lent.new_vertex(), lent.new_vertex()], [Answer::New(1), Answer::New(2)]);
    assert_eq!(lent.edge(1, 0), Answer::Edge(1, 0));
    lent.edge_held_already(1, 0);
    assert_eq!(lent.edge(0, 0), refused(refusal::CLOSES_CYCLE));
    assert_eq!(lent.edge(0, 1), refused(refusal::CLOSES_CYCLE));
    assert_eq!(lent.release(1), Answer::Release(1));
    let mut yielded = lent.clone();
    assert_eq!(yielded.yields(0), Answer::Yield);
    assert_eq!(Answer::Yield.to_string(), "yield");
    // Nothing but the status has changed.
    assert_eq!((lent.vertices[STATUS], yielded.vertices[STATUS]), (VERTEX_EXECUTING, VERTEX_RELEASED));
    lent.vertices[STATUS] = VERTEX_RELEASED;
    assert_eq!(lent, yielded);
    assert_eq!(lent.start(0), refused(refusal::EDGE_LEADS_IN));
    assert_eq!(lent.start(1), Answer::Start);
    // Only a caller is spared, and not another vertex that executes.
    let edge = |caller, source, target| Command::NewEdge { caller, source, target };
    assert_eq!(lent.command(edge(1, 2, 0)), Answer::Edge(2, 0));
    lent.vertices[2 * VERTEX_WORDS + STATUS] = VERTEX_EXECUTING;
    assert_eq!(lent.command(edge(2, 0, 1)), refused(refusal::TARGET_NOT_WAITING));
    assert_eq!([lent.stop(1), lent.stop(2)], [Answer::Stop; 2]);
    assert_eq!(lent.start(0), Answer::Start);
    assert_eq!(lent.edge(1, 0), Answer::Edge(1, 0));
    assert_eq!(lent.tally, Tally { made: 3, held: 0, steps: 0 });
}

/// A vertex stops, and one hands its edges on, while edges lead into it: those stay held.
#[test]
fn edges_into_a_vertex_that_stops() {
    let mut lent = Lent::bare(4, 2);
    for vertex in 1..4 {
        assert_eq!(lent.new_vertex(), Answer::New(vertex));
    }
    assert_eq!([lent.edge(1, 0), lent.edge(0, 2)], [Answer::Edge(1, 0), Answer::Edge(0, 2)]);
    let mut handed_on = lent.clone();
    assert_eq!(handed_on.transfer(3), Answer::Transfer(3));
    assert_eq!((handed_on.edges, handed_on.tally.held), (vec![1, 0, 3, 2], 2));
    assert_eq!(lent.stop(0), Answer::Stop);
    assert_eq!((&lent.edges[..], lent.tally.held, lent.vertices[IN_COUNT]), (&[1, 0, 0, 0][..], 1, 1));
}

#[test]
fn an_edge_held_already() {
    let mut lent = Lent::bare(5, 2);
    for vertex in 1..5 {
        assert_eq!(lent.new_vertex(), Answer::New(vertex));
    }
    assert_eq!(lent.edge(1, 2), Answer::Edge(1, 2));
    lent.edge_held_already(1, 2);
    assert_eq!(lent.edge(2, 3), Answer::Edge(2, 3));
    // The table is full now.
    lent.edge_held_already(1, 2);
    lent.edge_held_already(2, 3);
    assert_eq!(lent.edge(1, 3), refused(refusal::NO_EDGE_ROW));
    assert_eq!(lent.edge(3, 1), refused(refusal::CLOSES_CYCLE));
    // With a cycle lent, and a vertex that has an edge to itself.
    lent.edges.extend([3, 1, 4, 4]);
    lent.tally.held = 4;
    for (source, target) in [(1, 2), (2, 3), (3, 1), (4, 4)] {
        lent.edge_held_already(source, target);
    }
    for (source, target) in [(2, 1), (1, 3), (1, 1)] {
        assert_eq!(lent.edge(source, target), refused(refusal::CLOSES_CYCLE));
    }
    // The caller's status and the target's come first.
    let edge = Command::NewEdge { caller: 3, source: 1, target: 2 };
    assert_eq!(lent.command(edge), refused(refusal::CALLER_NOT_EXECUTING));
    for status in [VERTEX_EXECUTING, VERTEX_FINISHED] {
        lent.vertices[2 * VERTEX_WORDS + STATUS] = status;
        assert_eq!(lent.edge(1, 2), refused(refusal::TARGET_NOT_WAITING));
    }
    lent.vertices[2 * VERTEX_WORDS + STATUS] = VERTEX_RELEASED;
    lent.edge_held_already(1, 2);
    lent.vertices[VERTEX_WORDS + STATUS] = VERTEX_FINISHED;
    lent.edge_held_already(1, 2);
}

/// Steps on tables into which the edge of the step's newEdge was put before: it is said, and only the phase and the steps move on.
#[test]
fn a_step_whose_edge_is_held_already() {
    let program = [4, 0, 0, 0];
    let mut lent = Lent::new(5 * VERTEX_WORDS, 3 * EDGE_WORDS);
    assert_eq!(lent.load(&program), Answer::Ready);
    assert_eq!(lent.step(&program, 0), Answer::Start);
    for vertex in 2..5 {
        assert_eq!(lent.step(&program, 0), Answer::New(vertex));
    }
    // The fork's edges, which fill the table, without and with a cycle.
    for other in [[0, 1], [4, 2]] {
        let mut lent = lent.clone();
        lent.edges = [other, [3, 4], [2, 4]].concat();
        lent.tally.held = 3;
        for source in [2, 3] {
            let mut after = lent.clone();
            after.vertices[PHASE] += 1;
            after.tally.steps += 1;
            assert_eq!(lent.step(&program, 0), Answer::Edge(source, 4));
            assert_eq!(lent, after);
        }
        let transfer = if other == [0, 1] { Answer::Transfer(4) } else { refused(refusal::TRANSFER_HAS_EDGE_OUT) };
        assert_eq!(lent.step(&program, 0), transfer);
    }
}

#[test]
fn a_host_that_chooses_badly() {
    let program = [2, 1, 1, 0, 0];
    let mut lent = Lent::new(3 * VERTEX_WORDS, 2 * EDGE_WORDS);
    assert_eq!(lent.load(&program), Answer::Ready);
    assert_eq!(lent.step(&program, 2), refused(refusal::NO_SUCH_VERTEX));
    assert_eq!(lent.step(&program, 1), refused(refusal::EDGE_LEADS_IN));
    assert_eq!(lent.step(&program, 0), Answer::Start);
    assert_eq!(lent.step(&program, 0), Answer::New(2));
    assert_eq!(lent.step(&program, 2), refused(refusal::VERTEX_IS_NEW));
    assert_eq!(lent.step(&program, 0), Answer::Edge(2, 1));
    assert_eq!(lent.step(&program, 0), Answer::Release(2));
    assert_eq!(lent.step(&program, 0), Answer::Stop);
    assert_eq!(lent.step(&program, 0), refused(refusal::VERTEX_IS_FINISHED));
    // Another program: the bytes at vertex 2's place begin no item, or are refused as a whole.
    assert_eq!(lent.step(&program, 2), Answer::Start);
    assert_eq!(lent.step(&[0], 2), refused(refusal::NOTHING_STARTS));
    assert_eq!(lent.step(&[0, 0, 0, 0, 0], 2), refused(refusal::NOTHING_STARTS));
    assert_eq!(lent.step(&[], 2), refused(refusal::NOTHING_STARTS));
    lent.vertices[2 * VERTEX_WORDS + PHASE] = 1;
    assert_eq!(lent.step(&program, 2), refused(refusal::NOTHING_STARTS));
    lent.vertices[2 * VERTEX_WORDS + PHASE] = 0;
    assert_eq!(lent.step(&program, 2), Answer::Job { number: 1, offset: 1 });
}

/// The words that a force follows, altered: 13 where one is 0 or names no vertex made, before what its newEdge is refused for.
#[test]
fn words_for_futures_that_lead_nowhere() {
    let program = [5, 0, 5, 0, 6, 1, 0];
    let mut lent = Lent::new(7 * VERTEX_WORDS, 4 * EDGE_WORDS);
    assert_eq!(lent.load(&program), Answer::Ready);
    for _ in 0..12 {
        assert!(!matches!(lent.step(&program, 0), Answer::Refused { .. }));
    }
    assert_eq!((lent.vertices[PHASE], lent.vertices[MADE], lent.vertices[FUTURE]), (1, 6, 4));
    for vertex in [0, 4] {
        for word in [0, 7, 1024, u32::MAX] {
            for target in [6, 7, 0] {
                let mut lent = lent.clone();
                lent.vertices[VERTEX_WORDS * vertex + FUTURE] = word;
                lent.vertices[MADE] = target;
                assert_eq!(lent.step(&program, 0), refused(refusal::NOTHING_STARTS));
            }
        }
    }
    for (target, answer) in [(7, refused(refusal::NO_SUCH_VERTEX)), (2, refused(refusal::CLOSES_CYCLE)), (6, Answer::Edge(2, 6))] {
        lent.vertices[MADE] = target;
        assert_eq!(lent.step(&program, 0), answer);
    }
    // The bytes of another program that loading refuses with 43.
    assert_eq!(lent.step(&[5, 0, 5, 0, 6, 2, 0], 0), refused(refusal::NOTHING_STARTS));
    assert_eq!(lent.step(&program, 0), Answer::Transfer(6));
}

/// A vertex made has its caller's latest open future, whatever that is.
#[test]
fn a_word_for_futures_is_copied() {
    let mut lent = Lent::bare(4, 0);
    for (vertex, word) in [(1, 0), (2, 1), (3, u32::MAX)] {
        lent.vertices[FUTURE] = word;
        assert_eq!(lent.new_vertex(), Answer::New(vertex));
        assert_eq!(lent.vertices[VERTEX_WORDS * vertex as usize + FUTURE], word);
    }
}

#[test]
fn a_lender_that_lends_too_little() {
    let program = [2, 0, 0];
    assert_eq!(Lent::new(3 * VERTEX_WORDS - 1, 2 * EDGE_WORDS).load(&program), refused(refusal::TOO_FEW_VERTEX_ROWS));
    assert_eq!(Lent::new(3 * VERTEX_WORDS, 2 * EDGE_WORDS - 1).load(&program), refused(refusal::TOO_FEW_EDGE_ROWS));
    // Full rows are used, the words after them never touched.
    let mut lent = Lent::new(5 * VERTEX_WORDS - 1, 3 * EDGE_WORDS - 1);
    assert_eq!(lent.load(&program), Answer::Ready);
    let mut vertices = [0; 4 * VERTEX_WORDS];
    for (vertex, place) in [(0, 0), (1, 2)] {
        let row = &mut vertices[VERTEX_WORDS * vertex..];
        (row[STATUS], row[PLACE], row[SCOPE]) = (VERTEX_RELEASED, place, 1);
    }
    vertices[VERTEX_WORDS + IN_COUNT] = 1;
    assert_eq!(lent.vertices, [&vertices[..], &[77; VERTEX_WORDS - 1]].concat());
    assert_eq!(lent.edges, [&[0, 1], &[0; EDGE_WORDS][..], &[77; EDGE_WORDS - 1]].concat());
    assert_eq!(lent.tally, Tally { made: 2, held: 1, steps: 0 });
}

#[test]
fn more_rows_than_are_used() {
    let mut lent = Lent::new(VERTEX_TABLE + 9, EDGE_TABLE + 3);
    assert_eq!(lent.open(), Answer::Ready);
    assert_eq!(lent.vertices[..2], [VERTEX_RELEASED, 0]);
    assert_eq!(lent.vertices[VERTEX_TABLE - 1], 0);
    assert_eq!(lent.vertices[VERTEX_TABLE..], [77; 9]);
    assert_eq!(lent.edges[EDGE_TABLE - 1], 0);
    assert_eq!(lent.edges[EDGE_TABLE..], [77; 3]);
}

#[test]
fn unsound_tables() {
    let program = [0];
    let mut loaded = Lent::new(2 * VERTEX_WORDS, EDGE_WORDS);
    assert_eq!(loaded.load(&program), Answer::Ready);
    let mut sound = loaded.clone();
    assert_eq!(sound.step(&program, 0), Answer::Start);
    let spoil: [fn(&mut Lent); 7] = [
        |lent| lent.tally.made = 3,
        |lent| lent.tally.held = u32::MAX,
        |lent| lent.tally.made = u32::MAX,
        |lent| lent.vertices[STATUS] = 0,
        |lent| lent.vertices[VERTEX_WORDS + STATUS] = 5,
        |lent| lent.edges[SOURCE] = 2,
        |lent| lent.edges[TARGET] = u32::MAX,
    ];
    for spoil in spoil {
        let mut lent = sound.clone();
        spoil(&mut lent);
        let spoilt = lent.clone();
        assert_eq!(lent.step(&program, 0), refused(refusal::UNSOUND_TABLES));
        assert_eq!(lent.stop(0), refused(refusal::UNSOUND_TABLES));
        let Lent { vertices, edges, tally } = &mut lent;
        assert_eq!(lowest(&program, vertices, edges, tally, Edition::First), Lowest::Refused { number: 12, place: 0 });
        let refused = Run { ending: Ending::Refused { number: 12, place: 0 }, last: None, taken: 0 };
        assert_eq!(run(&program, vertices, edges, tally, Edition::First, 5), refused);
        let mut list = [77; 2];
        assert_eq!(chain(vertices, edges, tally, 0, 0, &mut list), Chain::Refused { number: 12, place: 0 });
        assert_eq!(list, [77; 2]);
        assert_eq!(lent, spoilt);
    }
    // Steps are counted by steps and runs only.
    loaded.tally.steps = STEP_LIMIT;
    assert_eq!(loaded.step(&program, 0), refused(refusal::UNSOUND_TABLES));
    assert_eq!(loaded.start(0), Answer::Start);
    loaded.tally.steps = STEP_LIMIT - 1;
    assert_eq!(loaded.step(&program, 0), Answer::Stop);
}

/// A start, and the step of a released vertex, look for 12 at the tally and at that vertex's row only.
#[test]
fn something_wrong_elsewhere() {
    let program = [0];
    let mut loaded = Lent::new(2 * VERTEX_WORDS, EDGE_WORDS);
    assert_eq!(loaded.load(&program), Answer::Ready);
    let elsewhere: [fn(&mut Lent); 4] = [
        |lent| lent.vertices[VERTEX_WORDS + STATUS] = 0,
        |lent| lent.vertices[VERTEX_WORDS + STATUS] = 5,
        |lent| lent.edges[SOURCE] = 2,
        |lent| lent.edges[TARGET] = u32::MAX,
    ];
    for spoil in elsewhere {
        let mut lent = loaded.clone();
        spoil(&mut lent);
        assert_eq!(lent.clone().start(0), Answer::Start);
        assert_eq!(lent.step(&program, 1), refused(if lent.vertices[VERTEX_WORDS] == VERTEX_RELEASED { 21 } else { 12 }));
        assert_eq!(lent.step(&program, 2), refused(refusal::UNSOUND_TABLES));
        assert_eq!(lent.step(&program, 0), Answer::Start);
        // It executes now, and all else looks at everything.
        assert_eq!(lent.start(0), refused(refusal::VERTEX_IS_EXECUTING));
        assert_eq!(lent.step(&program, 0), refused(refusal::UNSOUND_TABLES));
        let others = [lent.new_vertex(), lent.edge(0, 1), lent.release(1), lent.transfer(1), lent.stop(0), lent.yields(0)];
        assert_eq!(others, [refused(refusal::UNSOUND_TABLES); 6]);
    }
    // Its own row, and the tally.
    let own: [fn(&mut Lent); 5] = [
        |lent| lent.vertices[STATUS] = 0,
        |lent| lent.vertices[STATUS] = 5,
        |lent| lent.tally.made = 3,
        |lent| lent.tally.held = 2,
        |lent| lent.tally.held = u32::MAX,
    ];
    for spoil in own {
        let mut lent = loaded.clone();
        spoil(&mut lent);
        assert_eq!(lent.start(0), refused(refusal::UNSOUND_TABLES));
        assert_eq!(lent.step(&program, 0), refused(refusal::UNSOUND_TABLES));
    }
}

/// In-counts that the host has altered: they are believed, and they stop at 0 and at the largest number.
#[test]
fn altered_in_counts() {
    let word = VERTEX_WORDS + IN_COUNT;
    let mut lent = Lent::bare(3, 3);
    for vertex in 1..3 {
        assert_eq!(lent.new_vertex(), Answer::New(vertex));
    }
    assert_eq!(lent.release(1), Answer::Release(1));
    lent.vertices[word] = 5;
    assert_eq!(lent.start(1), refused(refusal::EDGE_LEADS_IN));
    assert_eq!(lent.step(&[], 1), refused(refusal::EDGE_LEADS_IN));
    for (altered, more) in [(0, 1), (5, 6), (u32::MAX, u32::MAX)] {
        let mut lent = lent.clone();
        lent.vertices[word] = altered;
        assert_eq!(lent.edge(0, 1), Answer::Edge(0, 1));
        assert_eq!(lent.vertices[word], more);
        lent.edge_held_already(0, 1);
    }
    // Two rows with one target, where a stop subtracts two.
    lent.edges[..2 * EDGE_WORDS].copy_from_slice(&[0, 1, 0, 1]);
    lent.tally.held = 2;
    for (altered, fewer) in [(0, 0), (1, 0), (2, 0), (5, 3), (u32::MAX, u32::MAX - 2)] {
        let mut lent = lent.clone();
        lent.vertices[word] = altered;
        assert_eq!(lent.stop(0), Answer::Stop);
        assert_eq!((lent.vertices[word], lent.tally.held), (fewer, 0));
    }
    lent.vertices[word] = 0;
    assert_eq!(lent.clone().step(&[], 1), Answer::Start);
    assert_eq!(lent.start(1), Answer::Start);
}

#[test]
fn tables_of_no_words() {
    let mut none = Lent::new(0, 0);
    assert_eq!(none.open(), refused(refusal::TOO_FEW_VERTEX_ROWS));
    assert_eq!(none.load(&[0]), refused(refusal::TOO_FEW_VERTEX_ROWS));
    assert_eq!(none.load(&[]), refused(refusal::LENGTH_OUTSIDE));
    assert_eq!(none.start(0), refused(refusal::UNSOUND_TABLES));
    assert_eq!(none.step(&[], 0), refused(refusal::UNSOUND_TABLES));
    // Nothing made and nothing held is sound: nothing can step, and all of nothing is finished.
    none.tally = Tally::default();
    assert_eq!(none.step(&[0], 0), refused(refusal::NO_SUCH_VERTEX));
    assert_eq!(none.start(0), refused(refusal::NO_SUCH_VERTEX));
    let Lent { vertices, edges, tally } = &mut none;
    assert_eq!(lowest(&[], vertices, edges, tally, Edition::First), Lowest::NoVertex);
    assert_eq!(chain(vertices, edges, tally, 0, 0, &mut []), Chain::Refused { number: 20, place: 0 });
    assert_eq!(run(&[], vertices, edges, tally, Edition::First, 5), Run { ending: Ending::Done, last: None, taken: 0 });
    // One row of vertices and none of edges is a machine already.
    let mut lent = Lent::bare(1, 0);
    assert_eq!(lent.new_vertex(), refused(refusal::NO_VERTEX_ROW));
    assert_eq!(lent.stop(0), Answer::Stop);
}

/// Before all else that could be wrong, and nothing changes. The numbers that editions have do as the editions.
#[test]
fn a_number_that_no_edition_has() {
    let program = [4, 0, 0, 0];
    for number in [0, 3, 98, u32::MAX] {
        let mut lent = Lent::new(4 * VERTEX_WORDS, 3 * EDGE_WORDS);
        for program in [&program[..], &[], &[7]] {
            assert_eq!(lent.load_in(number, program), refused(refusal::NO_SUCH_EDITION));
            assert_eq!(lent.step_in(number, program, 0), refused(refusal::NO_SUCH_EDITION));
            let before = lent.clone();
            let Lent { vertices, edges, tally } = &mut lent;
            assert_eq!(lowest(program, vertices, edges, tally, number), Lowest::Refused { number: 98, place: 0 });
            let refused = Run { ending: Ending::Refused { number: 98, place: 0 }, last: None, taken: 0 };
            assert_eq!(run(program, vertices, edges, tally, number, 5), refused);
            assert_eq!(lent, before);
        }
    }
    assert_eq!((u32::from(Edition::First), u32::from(Edition::Second)), (1, 2));
    let mut lent = Lent::new(4 * VERTEX_WORDS, 3 * EDGE_WORDS);
    assert_eq!(lent.load_in(1u32, &program), refused(refusal::TOO_FEW_VERTEX_ROWS));
    assert_eq!(lent.load_in(2u32, &program), Answer::Ready);
}

/// A fork begun in the second edition, and phases that it lacks: steps of either edition go by their own.
#[test]
fn a_step_of_the_other_edition() {
    let program = [4, 0, 0, 0];
    let mut lent = Lent::new(4 * VERTEX_WORDS, 3 * EDGE_WORDS);
    assert_eq!(lent.load_in(Edition::Second, &program), Answer::Ready);
    for answer in [Answer::Start, Answer::New(2), Answer::New(3)] {
        assert_eq!(lent.step_in(Edition::Second, &program, 0), answer);
    }
    assert_eq!(lent.step(&program, 0), refused(refusal::NO_VERTEX_ROW));
    assert_eq!(lent.step_in(Edition::Second, &program, 0), Answer::Edge(2, 0));
    for (phase, first, second) in [
        (6, refused(refusal::RELEASE_NOT_NEW), Answer::Yield),
        (7, Answer::Release(2), refused(refusal::NOTHING_STARTS)),
        (8, Answer::Release(3), refused(refusal::NOTHING_STARTS)),
        (9, refused(refusal::NOTHING_STARTS), refused(refusal::NOTHING_STARTS)),
    ] {
        lent.vertices[PHASE] = phase;
        assert_eq!([lent.clone().step(&program, 0), lent.clone().step_in(Edition::Second, &program, 0)], [first, second], "{phase}");
    }
}
