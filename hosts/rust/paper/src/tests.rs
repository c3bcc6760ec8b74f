use crate::graph::{Edge, Row, EDGE_WORDS, FINISHED, FUTURE, MOST_ROWS, NEW, PHASE, PLACE, SCOPE, VERTEX_WORDS};
use crate::read::{read, Counts, Item};
use crate::*;
use std::collections::BTreeSet;

mod dispatches;
mod editions;
mod futures;
mod in_counts;
mod order;

// --- Helpers -----------------------------------------------------------------------------------

/// A small generator of numbers (xorshift), so that failures repeat.
struct Dice(u64);

impl Dice {
    fn roll(&mut self) -> u64 {
        self.0 ^= self.0 << 13;
        self.0 ^= self.0 >> 7;
        self.0 ^= self.0 << 17;
        self.0.wrapping_mul(0x2545_F491_4F6C_DD1D) >> 32
    }

    fn below(&mut self, bound: usize) -> usize {
        (self.roll() % bound.max(1) as u64) as usize
    }

    fn one_in(&mut self, odds: usize) -> bool {
        self.below(odds) == 0
    }
}

const EDITIONS: [Edition; 2] = [Edition::First, Edition::Second];

/// What is lent, and the edition of the calls on it.
#[derive(Clone, PartialEq, Eq, Debug)]
struct Lent {
    edition: Edition,
    vertices: Vec<u32>,
    edges: Vec<u32>,
    tally: Tally,
}

impl Lent {
    /// In the first edition.
    fn rows(vertices: usize, edges: usize) -> Lent {
        Lent::rows_in(Edition::First, vertices, edges)
    }

    fn rows_in(edition: Edition, vertices: usize, edges: usize) -> Lent {
        let (vertices, edges) = (vec![9; VERTEX_WORDS * vertices], vec![9; EDGE_WORDS * edges]);
        Lent { edition, vertices, edges, tally: Tally { made: 9, held: 9, steps: 9 } }
    }

    /// No more rows than a program needs (docs/ENGINE.md, "Limits").
    fn rows_for(edition: Edition, program: &[u8]) -> Lent {
        let c = counts(program);
        Lent::rows_in(edition, c.vertices(edition) as usize, c.edge_rows() as usize)
    }

    fn open(&mut self) -> Answer {
        open(&mut self.vertices, &mut self.edges, &mut self.tally)
    }

    fn command(&mut self, c: Command) -> Answer {
        command(&mut self.vertices, &mut self.edges, &mut self.tally, c)
    }

    fn load(&mut self, program: &[u8]) -> Answer {
        load(program, &mut self.vertices, &mut self.edges, &mut self.tally, self.edition)
    }

    fn step(&mut self, program: &[u8], vertex: u32) -> Answer {
        step(program, &mut self.vertices, &mut self.edges, &mut self.tally, self.edition, vertex)
    }

    fn run(&mut self, program: &[u8], budget: u32) -> Run {
        run(program, &mut self.vertices, &mut self.edges, &mut self.tally, self.edition, budget)
    }

    fn lowest(&self, program: &[u8]) -> Lowest {
        lowest(program, &self.vertices, &self.edges, &self.tally, self.edition)
    }

    /// Into a list of so many words: the chain or the refusal's number. Behind the list stand words that are looked at afterwards.
    fn chain_in(&self, source: u32, target: u32, words: usize) -> Result<Vec<u32>, u32> {
        const UNTOUCHED: u32 = 0xFFFF_FF00;
        let mut list = vec![UNTOUCHED; words + 3];
        let answer = chain(&self.vertices, &self.edges, &self.tally, source, target, &mut list[..words]);
        let written = match answer {
            Chain::Written(count) => count as usize,
            Chain::Refused { .. } => 0,
        };
        assert!(list[written..].iter().all(|&word| word == UNTOUCHED), "{answer:?}: {list:?}");
        list.truncate(written);
        match answer {
            Chain::Written(_) => Ok(list),
            Chain::Refused { number, place } => {
                assert_eq!(place, 0);
                Err(number)
            }
        }
    }

    fn chain(&self, source: u32, target: u32) -> Result<Vec<u32>, u32> {
        self.chain_in(source, target, MOST_ROWS)
    }

    fn row(&self, vertex: usize) -> Row {
        self.vertices[VERTEX_WORDS * vertex..VERTEX_WORDS * (vertex + 1)].try_into().unwrap()
    }

    fn held(&self) -> Vec<(u32, u32)> {
        self.edges.chunks(EDGE_WORDS).take(self.tally.held as usize).map(|e| (e[0], e[1])).collect()
    }

    /// "the number of edges into it", for each vertex made, by looking at all of them.
    fn edges_into(&self) -> Vec<u32> {
        (0..self.tally.made).map(|vertex| self.held().iter().filter(|edge| edge.1 == vertex).count() as u32).collect()
    }

    /// The word for it of each vertex made.
    fn in_counts(&self) -> Vec<u32> {
        (0..self.tally.made as usize).map(|vertex| self.row(vertex)[IN_COUNT]).collect()
    }

    fn set_in_count(&mut self, vertex: u32, word: u32) {
        self.vertices[VERTEX_WORDS * vertex as usize + IN_COUNT] = word;
    }

    fn set_true_in_counts(&mut self) {
        for (vertex, word) in (0..).zip(self.edges_into()) {
            self.set_in_count(vertex, word);
        }
    }
}

fn refusal(number: u32, place: u32) -> Answer {
    Answer::Refused { number, place }
}

fn is_refused(answer: Answer) -> bool {
    matches!(answer, Answer::Refused { .. })
}

/// The same in either edition, of which the second refuses fewer programs.
fn counts(program: &[u8]) -> Counts {
    read(program, Edition::Second, |_, _| ()).unwrap()
}

/// 4 + w + 5a + 10f + 15k, with 9 for each future and 6 for each force
fn full_count(program: &[u8]) -> u32 {
    full_count_in(Edition::First, program)
}

/// In the second edition a fork "costs 12 steps in place of 15".
fn full_count_in(edition: Edition, program: &[u8]) -> u32 {
    let c = counts(program);
    let by_a_fork = if edition == Edition::First { 15 } else { 12 };
    4 + c.jobs + 5 * c.asyncs + 10 * c.finishes + by_a_fork * c.forks + 9 * c.futures + 6 * c.forces
}

fn loaded(program: &[u8]) -> Lent {
    loaded_in(Edition::First, program)
}

fn loaded_in(edition: Edition, program: &[u8]) -> Lent {
    let mut lent = Lent::rows_in(edition, 1024, 1024);
    assert_eq!(lent.load(program), Answer::Ready);
    lent
}

fn load_refusal(program: &[u8]) -> Answer {
    let mut lent = Lent::rows(1024, 1024);
    let answer = lent.load(program);
    assert_eq!(lent, Lent::rows(1024, 1024));
    answer
}

/// The jobs of a program in the order in which a random schedule answers them.
fn jobs_at_random(edition: Edition, program: &[u8], dice: &mut Dice) -> Vec<u32> {
    let mut lent = loaded_in(edition, program);
    let mut jobs = Vec::new();
    while lent.tally.steps < full_count_in(edition, program) {
        let vertex = dice.below(lent.tally.made as usize) as u32;
        if let Answer::Job { number, .. } = lent.step(program, vertex) {
            jobs.push(number);
        }
    }
    jobs
}

/// The lister: heading, then each step of the lowest vertex.
fn listing(edition: Edition, program: &[u8]) -> String {
    let mut lent = Lent::rows_in(edition, 1024, 1024);
    if let Answer::Refused { number, place } = lent.load(program) {
        return format!("refused {number} {place}\n");
    }
    let c = counts(program);
    let mut out = format!("vertices {} jobs {} steps {}\n", c.vertices(edition), c.jobs, full_count_in(edition, program));
    while let Lowest::Vertex(v) = lent.lowest(program) {
        out += &match lent.step(program, v) {
            Answer::Start => format!("{v} start\n"),
            Answer::New(a) => format!("{v} new {a}\n"),
            Answer::Edge(a, b) => format!("{v} edge {a} {b}\n"),
            Answer::Release(a) => format!("{v} release {a}\n"),
            Answer::Transfer(a) => format!("{v} transfer {a}\n"),
            Answer::Job { number, .. } => format!("{v} job {number}\n"),
            Answer::Stop => format!("{v} stop\n"),
            Answer::Yield => format!("{v} yield\n"),
            other => panic!("{other:?}"),
        };
    }
    out
}

/// The bytes of a number in its shortest form.
fn number_bytes(mut number: u32) -> Vec<u8> {
    let mut bytes = Vec::new();
    while number > 127 {
        bytes.push(number as u8 | 0x80);
        number >>= 7;
    }
    bytes.push(number as u8);
    bytes
}

/// A body of random items at a level, where so many futures are open.
fn random_body(dice: &mut Dice, level: usize, mut open: usize, room: &mut usize, out: &mut Vec<u8>) {
    for _ in 0..dice.below(5) {
        if *room == 0 {
            break;
        }
        *room -= 1;
        match if level < 5 { dice.below(9) } else { 0 } {
            2 => {
                out.push(2);
                random_body(dice, level + 1, open, room, out);
            }
            3 => {
                out.push(3);
                random_body(dice, level + 1, open, room, out);
            }
            4 => {
                out.push(4);
                random_body(dice, level + 1, open, room, out);
                random_body(dice, level + 1, open, room, out);
            }
            5 | 6 => {
                out.push(5);
                random_body(dice, level + 1, open, room, out);
                open += 1;
            }
            7 | 8 if open > 0 => {
                out.push(6);
                out.extend(number_bytes(dice.below(open) as u32));
            }
            _ => {
                out.push(1);
                // "one to five bytes and reach 4,294,967,295"
                let bits = [7, 14, 21, 28, 32][dice.below(5)];
                let number = if dice.one_in(8) { (1 << bits) - 1 } else { dice.below(1 << bits) };
                out.extend(number_bytes(number as u32));
            }
        }
    }
    out.push(0);
}

fn random_program(dice: &mut Dice) -> Vec<u8> {
    let mut out = Vec::new();
    let mut room = 1 + dice.below(20);
    random_body(dice, 1, 0, &mut room, &mut out);
    out
}

/// By removing vertices without an edge into them, again and again.
fn has_cycle(edges: &[(u32, u32)]) -> bool {
    let mut left = edges.to_vec();
    loop {
        let before = left.len();
        let targets: Vec<u32> = left.iter().map(|e| e.1).collect();
        left.retain(|e| targets.contains(&e.0));
        if left.len() == before {
            return before > 0;
        }
    }
}

/// Whether one or more edges lead from a to b, by growing a set.
fn leads(edges: &[(u32, u32)], a: u32, b: u32) -> bool {
    let mut met: Vec<u32> = Vec::new();
    loop {
        let before = met.len();
        for &(s, t) in edges {
            if (s == a || met.contains(&s)) && !met.contains(&t) {
                met.push(t);
            }
        }
        if met.len() == before {
            return met.contains(&b);
        }
    }
}

// --- Bench examples ----------------------------------------------------------------------------

#[test]
fn bench_examples_take_their_steps() {
    let fork = [4, 1, 1, 0, 1, 2, 0, 1, 3, 0];
    let examples: [(&[u8], u32, usize); 5] =
        [(&[0], 4, 0), (&[1, 0, 0], 5, 1), (&[2, 1, 1, 0, 1, 2, 0], 11, 2), (&fork, 22, 3), (&[3, 2, 1, 5, 0, 0, 1, 6, 0], 21, 2)];
    for (program, steps, jobs) in examples {
        assert_eq!(full_count(program), steps);
        let mut lent = loaded(program);
        let run = lent.run(program, u32::MAX);
        assert_eq!(run, Run { ending: Ending::Done, last: Some(Answer::Stop), taken: steps });
        assert_eq!(lent.tally.steps, steps);
        assert_eq!(lent.tally.held, 0);
        assert_eq!(lent.lowest(program), Lowest::NoVertex);
        assert_eq!(lent.run(program, 0), Run { ending: Ending::Done, last: None, taken: 0 });
        // A budget one too small, and one just enough.
        let mut lent = loaded(program);
        let run = lent.run(program, steps - 1);
        assert_eq!((run.ending, run.taken), (Ending::Spent, steps - 1));
        assert_eq!(lent.run(program, 1), Run { ending: Ending::Done, last: Some(Answer::Stop), taken: 1 });
        assert_eq!(jobs_at_random(Edition::First, program, &mut Dice(77)).len(), jobs);
    }
}

#[test]
fn bench_examples_order_their_jobs() {
    let mut dice = Dice(5);
    for edition in EDITIONS {
        let (mut asyncs, mut forks) = (BTreeSet::new(), BTreeSet::new());
        for _ in 0..100 {
            asyncs.insert(jobs_at_random(edition, &[2, 1, 1, 0, 1, 2, 0], &mut dice));
            forks.insert(jobs_at_random(edition, &[4, 1, 1, 0, 1, 2, 0, 1, 3, 0], &mut dice));
            assert_eq!(jobs_at_random(edition, &[3, 2, 1, 5, 0, 0, 1, 6, 0], &mut dice), [5, 6]);
        }
        assert_eq!(asyncs, [vec![1, 2], vec![2, 1]].into());
        assert_eq!(forks, [vec![1, 2, 3], vec![2, 1, 3]].into());
    }
}

#[test]
fn bench_examples_are_refused() {
    assert_eq!(load_refusal(&[]), refusal(1, 0));
    assert_eq!(load_refusal(&[7]), refusal(3, 0));
    assert_eq!(load_refusal(&[1, 0x80, 0, 0]), refusal(2, 1));
    assert_eq!(load_refusal(&[0, 0]), refusal(6, 1));
    assert_eq!(load_refusal(&[3, 0]), refusal(5, 2));
}

/// "A number may now take one to five bytes and reach 4,294,967,295."
#[test]
fn job_numbers() {
    let numbers: [(&[u8], u32); 10] = [
        (&[0], 0),
        (&[0x7f], 127),
        (&[0x80, 1], 128),
        (&[0xff, 0x7f], 16_383),
        (&[0xff, 0xff, 3], 65_535),
        (&[0x80, 0x80, 4], 65_536),
        (&[0xff, 0xff, 0xff, 0x7f], 268_435_455),
        (&[0x80, 0x80, 0x80, 0x80, 1], 268_435_456),
        (&[0x90, 0x81, 0xdb, 6], 14_074_000),
        (&[0xff, 0xff, 0xff, 0xff, 0x0f], u32::MAX),
    ];
    for (bytes, number) in numbers {
        let program = [&[1], bytes, &[0]].concat();
        let mut lent = loaded(&program);
        assert_eq!(lent.step(&program, 0), Answer::Start);
        assert_eq!(lent.step(&program, 0), Answer::Job { number, offset: 0 });
        assert_eq!(lent.row(0), row(3, 1 + bytes.len() as u32, 1));
    }
}

/// "Refusal 2 reads 'longer than five bytes or not shortest' and 7 reads 'above 4,294,967,295'"; "in a number 5, 2, 7".
#[test]
fn refused_numbers() {
    let refused: [(&[u8], (u32, u32)); 12] = [
        (&[], (5, 1)),
        (&[0x80], (5, 2)),
        (&[0x80, 0x80], (5, 3)),
        (&[0x80, 0x80, 0x80], (5, 4)),
        (&[0x80, 0x80, 0x80, 0x80], (5, 5)),
        (&[0x80, 0x80, 0x80, 0x80, 0x80], (2, 1)),
        (&[0xff, 0xff, 0xff, 0xff, 0x8f, 0], (2, 1)),
        (&[0x80, 0x80, 0x80, 0x80, 0x80, 1, 0], (2, 1)),
        (&[0x80, 0x80, 0x80, 0x80, 0, 0], (2, 1)),
        (&[0x80, 0x80, 0x80, 0, 0], (2, 1)),
        (&[0x80, 0x80, 0x80, 0x80, 0x10, 9], (7, 1)),
        (&[0xff, 0xff, 0xff, 0xff, 0x7f], (7, 1)),
    ];
    for (bytes, (number, place)) in refused {
        assert_eq!(load_refusal(&[&[1], bytes].concat()), refusal(number, place), "{bytes:02x?}");
    }
}

#[test]
fn bare_machine_example() {
    let mut lent = Lent::rows(3, 2);
    assert_eq!(lent.open(), Answer::Ready);
    assert_eq!(lent.tally, Tally { made: 1, held: 0, steps: 0 });
    assert_eq!(lent.row(0), row(2, 0, 0));
    let edge = |source, target| Command::NewEdge { caller: 0, source, target };
    let transfer = |vertex| Command::Transfer { caller: 0, vertex };
    let new = Command::NewTd { caller: 0, place: u32::MAX, scope: 77 };
    assert_eq!(lent.command(new), refusal(30, 0));
    assert_eq!(lent.command(Command::Start { vertex: 0 }), Answer::Start);
    assert_eq!(lent.command(new), Answer::New(1));
    assert_eq!(lent.command(new), Answer::New(2));
    assert_eq!(lent.row(2), row(1, u32::MAX, 77));
    assert_eq!(lent.command(new), refusal(31, 0));
    assert_eq!(lent.command(edge(1, 2)), Answer::Edge(1, 2));
    let before = lent.clone();
    assert_eq!(lent.command(edge(2, 1)), refusal(35, 0));
    assert_eq!(lent.command(edge(1, 1)), refusal(35, 0));
    // "the bare example changes there"
    assert_eq!(lent.command(edge(1, 2)), Answer::Edge(1, 2));
    assert_eq!(lent, before);
    assert_eq!(lent.command(edge(0, 1)), Answer::Edge(0, 1));
    assert_eq!(lent.command(transfer(1)), refusal(38, 0));
    assert_eq!(lent.command(transfer(2)), refusal(35, 0));
    assert_eq!(lent.command(edge(0, 2)), refusal(32, 0));
    assert_eq!(lent.tally, Tally { made: 3, held: 2, steps: 0 });
}

#[test]
fn listing_of_the_paper() {
    let expected = "vertices 5 jobs 2 steps 21\n0 start\n0 new 2\n0 new 3\n0 edge 3 2\n0 transfer 2\n\
        0 release 2\n0 release 3\n0 stop\n3 start\n3 new 4\n3 edge 4 2\n3 release 4\n3 stop\n4 start\n\
        4 job 5\n4 stop\n2 start\n2 job 6\n2 stop\n1 start\n1 stop\n";
    // "Only fork changes".
    for edition in EDITIONS {
        assert_eq!(listing(edition, &[3, 2, 1, 5, 0, 0, 1, 6, 0]), expected);
        assert_eq!(listing(edition, &[3, 0]), "refused 5 2\n");
    }
}

// --- Reading -----------------------------------------------------------------------------------

#[test]
fn levels() {
    let mut program = vec![2; 31];
    program.extend([0; 32]);
    assert_eq!(full_count(&program), 4 + 5 * 31);
    assert_eq!(loaded(&program).run(&program, 10_000).taken, 4 + 5 * 31);
    for opener in [2, 3, 4, 5] {
        let mut program = vec![opener; 32];
        assert_eq!(load_refusal(&program), refusal(4, 31));
        program.extend([0; 65]);
        assert_eq!(load_refusal(&program), refusal(4, 31));
    }
    // The right body of a fork has the level of its left one.
    let mut program = vec![2; 30];
    program.extend([4, 0, 0]);
    program.extend([0; 31]);
    assert_eq!(loaded(&program).run(&program, 10_000).taken, full_count(&program));
    let mut program = vec![2; 30];
    program.extend([4, 0, 2, 0, 0]);
    program.extend([0; 31]);
    assert_eq!(load_refusal(&program), refusal(4, 32));
}

#[test]
fn pairs() {
    let pairs = |n: usize| {
        let mut program = [2, 0].repeat(n);
        program.push(0);
        program
    };
    let program = pairs(1022);
    let mut lent = loaded(&program);
    assert_eq!(lent.run(&program, u32::MAX).taken, 4 + 5 * 1022);
    assert_eq!(lent.tally, Tally { made: 1024, held: 0, steps: 4 + 5 * 1022 });
    assert_eq!(load_refusal(&pairs(1023)), refusal(8, 0));
    // 8 comes before 10 and 11, and those in this order.
    assert_eq!(Lent::rows(0, 0).load(&pairs(1023)), refusal(8, 0));
    assert_eq!(Lent::rows(1023, 0).load(&program), refusal(10, 0));
    assert_eq!(Lent::rows(1024, 1022).load(&program), refusal(11, 0));
    assert_eq!(Lent::rows(1024, 1023).load(&program), Answer::Ready);
}

#[test]
fn reading_refuses_in_order() {
    assert_eq!(load_refusal(&vec![0; 4097]), refusal(1, 0));
    assert_eq!(load_refusal(&[1, 5]), refusal(5, 2));
    assert_eq!(load_refusal(&[2, 4, 0, 0]), refusal(5, 4));
    assert_eq!(load_refusal(&[2, 1, 1, 0, 0x81, 0]), refusal(3, 4));
    assert_eq!(load_refusal(&[0, 5]), refusal(6, 1));
    let mut longest = [1, 1].repeat(2047);
    longest.push(0);
    assert_eq!(loaded(&longest).run(&longest, u32::MAX).taken, 4 + 2047);
    let mut longest = [1, 1].repeat(2046);
    longest.extend([1, 0x80, 1, 0]);
    assert_eq!(longest.len(), 4096);
    assert_eq!(loaded(&longest).run(&longest, u32::MAX).taken, 4 + 2047);
}

#[test]
fn loading_touches_the_used_rows_only() {
    let mut lent = Lent::rows(0, 0);
    lent.vertices = vec![9; VERTEX_WORDS * (MOST_ROWS + 2) + 3];
    lent.edges = vec![9; EDGE_WORDS * (MOST_ROWS + 1) + 1];
    assert_eq!(lent.load(&[2, 0, 0]), Answer::Ready);
    assert_eq!(lent.row(0), row(2, 0, 1));
    let mut waiting = row(2, 2, 1);
    waiting[IN_COUNT] = 1;
    assert_eq!(lent.row(1), waiting);
    assert!(lent.vertices[2 * VERTEX_WORDS..VERTEX_WORDS * MOST_ROWS].iter().all(|&w| w == 0));
    assert!(lent.vertices[VERTEX_WORDS * MOST_ROWS..].iter().all(|&w| w == 9));
    assert_eq!(lent.edges[..EDGE_WORDS], [0, 1]);
    assert!(lent.edges[EDGE_WORDS..EDGE_WORDS * MOST_ROWS].iter().all(|&w| w == 0));
    assert!(lent.edges[EDGE_WORDS * MOST_ROWS..].iter().all(|&w| w == 9));
    // A row that is not full is none.
    let mut lent = Lent::rows(0, 0);
    lent.vertices = vec![9; 2 * VERTEX_WORDS - 1];
    lent.edges = vec![9; EDGE_WORDS + 1];
    assert_eq!(lent.load(&[0]), refusal(10, 0));
    lent.vertices = vec![9; 2 * VERTEX_WORDS + 1];
    assert_eq!(lent.load(&[0]), Answer::Ready);
    assert_eq!((lent.vertices[2 * VERTEX_WORDS], lent.edges[EDGE_WORDS]), (9, 9));
    lent.vertices = vec![9; VERTEX_WORDS - 1];
    assert_eq!(lent.open(), refusal(10, 0));
    assert_eq!(lent.vertices, [9; VERTEX_WORDS - 1]);
}

// --- Commands ----------------------------------------------------------------------------------

/// Rows with these statuses and true words for the edges into them, and edges.
fn graph(statuses: &[u32], edges: &[Edge], spare: usize) -> Lent {
    let mut lent = Lent::rows(0, 0);
    for &status in statuses {
        lent.vertices.push(status);
        lent.vertices.extend(1..VERTEX_WORDS as u32);
    }
    lent.edges = edges.concat();
    lent.vertices.extend(vec![7; VERTEX_WORDS * spare]);
    lent.edges.extend(vec![7; EDGE_WORDS * spare]);
    lent.tally = Tally { made: statuses.len() as u32, held: edges.len() as u32, steps: 9000 };
    lent.set_true_in_counts();
    lent
}

#[test]
fn commands_refuse_in_order() {
    let try_one = |lent: &Lent, c: Command| {
        let mut after = lent.clone();
        let answer = after.command(c);
        assert!(!is_refused(answer) || after == *lent);
        answer
    };
    let lent = graph(&[3, 1, 2, 3, 4, 1], &[[1, 2]], 0);
    let new = |caller| Command::NewTd { caller, place: 0, scope: 0 };
    let edge = |caller, source, target| Command::NewEdge { caller, source, target };
    let release = |caller, vertex| Command::Release { caller, vertex };
    let transfer = |caller, vertex| Command::Transfer { caller, vertex };
    let start = |vertex| Command::Start { vertex };
    for (c, number) in [
        (new(6), 20),
        (new(1), 30),
        (new(u32::MAX), 20),
        (new(0), 31),
        (edge(6, 0, 0), 20),
        (edge(1, 6, 0), 20),
        (edge(1, 0, 6), 20),
        (edge(1, 0, 0), 30),
        (edge(1, 0, 1), 30),
        (edge(0, 1, 3), 33),
        (edge(3, 1, 0), 33),
        (edge(0, 4, 4), 33),
        (edge(0, 2, 1), 35),
        (edge(0, 2, 2), 35),
        (edge(0, 0, 0), 35),
        (edge(0, 0, 1), 32),
        (edge(0, 1, 0), 32),
        (release(6, 1), 20),
        (release(0, 6), 20),
        (release(1, 2), 30),
        (release(0, 2), 36),
        (transfer(6, 1), 20),
        (transfer(0, 6), 20),
        (transfer(1, 2), 30),
        (transfer(0, 2), 37),
        (transfer(0, 0), 37),
        (transfer(0, 1), 38),
        (start(6), 20),
        (start(1), 22),
        (start(3), 39),
        (start(4), 23),
        (start(2), 21),
        (Command::Stop { caller: 6 }, 20),
        (Command::Stop { caller: 1 }, 30),
        (Command::Yield { caller: 6 }, 20),
        (Command::Yield { caller: u32::MAX }, 20),
        (Command::Yield { caller: 1 }, 30),
        (Command::Yield { caller: 2 }, 30),
        (Command::Yield { caller: 4 }, 30),
    ] {
        assert_eq!(try_one(&lent, c), refusal(number, 0), "{c:?}");
    }
    // A finished source needs no row, and adds nothing, onto the caller too; nor does an edge held already.
    for (source, target) in [(4, 1), (4, 0), (1, 2)] {
        let mut after = lent.clone();
        assert_eq!(after.command(edge(0, source, target)), Answer::Edge(source, target));
        assert_eq!(after, lent);
    }
    // 12 comes first, but for start (tests/in_counts.rs); the steps do not matter at a single command.
    for (word, value) in [(STATUS, 0), (STATUS, 5), (VERTEX_WORDS + STATUS, u32::MAX)] {
        let mut bad = lent.clone();
        bad.vertices[word] = value;
        assert_eq!(try_one(&bad, new(6)), refusal(12, 0));
        assert_eq!(try_one(&bad, Command::Yield { caller: 3 }), refusal(12, 0));
    }
    for word in [0, 1] {
        let mut bad = lent.clone();
        bad.edges[word] = 6;
        assert_eq!(try_one(&bad, new(6)), refusal(12, 0));
        assert_eq!(try_one(&bad, Command::Yield { caller: 3 }), refusal(12, 0));
    }
    for (made, held) in [(7, 1), (6, 2), (u32::MAX, 0), (0, u32::MAX)] {
        let mut bad = lent.clone();
        (bad.tally.made, bad.tally.held) = (made, held);
        assert_eq!(try_one(&bad, start(9)), refusal(12, 0));
    }
    // Only the first 1,024 rows count.
    let mut long = graph(&[3; 1030], &[], 1);
    assert_eq!(try_one(&long, new(0)), refusal(12, 0));
    long.tally.made = 1024;
    assert_eq!(try_one(&long, new(0)), refusal(31, 0));
}

#[test]
fn transfer_and_stop_keep_the_order() {
    let mut lent = graph(&[3, 1, 2, 2], &[[0, 2], [2, 3], [0, 3], [3, 0]], 1);
    let before = lent.clone();
    assert_eq!(lent.command(Command::Transfer { caller: 0, vertex: 1 }), Answer::Transfer(1));
    assert_eq!(lent.edges, [1, 2, 2, 3, 1, 3, 3, 0, 7, 7]);
    assert_eq!((lent.tally, &lent.vertices), (before.tally, &before.vertices));
    let mut lent = before.clone();
    assert_eq!(lent.command(Command::Stop { caller: 0 }), Answer::Stop);
    assert_eq!(lent.edges, [2, 3, 3, 0, 0, 0, 0, 0, 7, 7]);
    // Each row that went led into another vertex.
    let mut expected = before.clone();
    expected.vertices[STATUS] = FINISHED;
    expected.vertices[2 * VERTEX_WORDS + IN_COUNT] = 0;
    expected.vertices[3 * VERTEX_WORDS + IN_COUNT] = 1;
    assert_eq!(lent.vertices, expected.vertices);
    assert_eq!(lent.tally, Tally { made: 4, held: 2, steps: 9000 });
}

#[test]
fn paths_decide_cycles() {
    let mut dice = Dice(31);
    let mut seen = [0; 3];
    for _ in 0..4000 {
        let n = 2 + dice.below(9);
        let edges: Vec<Edge> = (0..dice.below(2 * n)).map(|_| [dice.below(n) as u32, dice.below(n) as u32]).collect();
        let mut statuses = vec![1; n];
        statuses[0] = 3;
        let lent = graph(&statuses, &edges, 1);
        let held = lent.held();
        let (a, b) = (dice.below(n) as u32, 1 + dice.below(n - 1) as u32);
        let cycle = a == b || leads(&held, b, a);
        let mut after = lent.clone();
        let answer = after.command(Command::NewEdge { caller: 0, source: a, target: b });
        if held.contains(&(a, b)) {
            seen[2] += u32::from(cycle);
            assert_eq!((answer, after), (Answer::Edge(a, b), lent.clone()), "{edges:?} {a} {b}");
        } else if cycle {
            seen[0] += 1;
            assert_eq!(answer, refusal(35, 0), "{edges:?} {a} {b}");
        } else {
            assert_eq!(answer, Answer::Edge(a, b), "{edges:?} {a} {b}");
            assert_eq!(after.held(), [held.clone(), vec![(a, b)]].concat());
        }
        let expected = if held.iter().any(|e| e.0 == b) {
            refusal(38, 0)
        } else if leads(&held, 0, b) {
            seen[1] += 1;
            refusal(35, 0)
        } else {
            Answer::Transfer(b)
        };
        assert_eq!(lent.clone().command(Command::Transfer { caller: 0, vertex: b }), expected, "{edges:?} {b}");
    }
    assert!(seen.iter().all(|&n| n > 100), "{seen:?}");
}

#[test]
fn long_paths() {
    let chain: Vec<Edge> = (1..1023).map(|v| [v, v + 1]).collect();
    let mut statuses = vec![1; 1024];
    statuses[0] = 3;
    let mut lent = graph(&statuses, &chain, 2);
    let edge = |source, target| Command::NewEdge { caller: 0, source, target };
    assert_eq!(lent.command(edge(1023, 1)), refusal(35, 0));
    assert_eq!(lent.command(edge(1, 1023)), Answer::Edge(1, 1023));
    assert_eq!(lent.command(edge(0, 2)), Answer::Edge(0, 2));
    assert_eq!(lent.command(Command::Transfer { caller: 0, vertex: 1023 }), refusal(35, 0));
    assert_eq!(lent.command(edge(0, 5)), refusal(32, 0));
}

// --- The same edge twice -----------------------------------------------------------------------

/// "An edge held already is now accepted and changes nothing", and so it is where it filled the last row.
#[test]
fn the_same_edge_twice() {
    let edge = |source, target| Command::NewEdge { caller: 0, source, target };
    let mut lent = graph(&[3, 1, 2, 1], &[], 2);
    assert_eq!(lent.command(edge(0, 1)), Answer::Edge(0, 1));
    let half = lent.clone();
    assert_eq!(lent.command(edge(0, 1)), Answer::Edge(0, 1));
    assert_eq!(lent, half);
    assert_eq!(lent.command(edge(1, 2)), Answer::Edge(1, 2));
    let full = lent.clone();
    assert_eq!((full.tally.held, &full.edges), (2, &vec![0, 1, 1, 2]));
    for (source, target) in [(1, 2), (0, 1), (1, 2)] {
        assert_eq!(lent.command(edge(source, target)), Answer::Edge(source, target));
        assert_eq!(lent, full);
    }
    // Another edge finds no row, and one that closes a cycle is refused for that.
    assert_eq!(lent.command(edge(1, 3)), refusal(32, 0));
    assert_eq!(lent.command(edge(2, 1)), refusal(35, 0));
    // Both ends count, and only rows that are held.
    assert_eq!(lent.command(edge(0, 2)), refusal(32, 0));
    lent.tally.held = 1;
    lent.set_true_in_counts();
    assert_eq!(lent.command(edge(1, 2)), Answer::Edge(1, 2));
    assert_eq!(lent, full);
    // All 1,024 rows are looked at, and none past them.
    let mut edges: Vec<Edge> = (0..1025).map(|row| [row % 2, 2 + row / 2]).collect();
    let mut statuses = [1; 600];
    statuses[0] = 3;
    let mut lent = graph(&statuses, &edges, 0);
    lent.tally.held = 1024;
    let full = lent.clone();
    let past = edges.pop().unwrap();
    for [source, target] in edges {
        assert_eq!(lent.command(edge(source, target)), Answer::Edge(source, target));
    }
    assert_eq!(lent.command(edge(past[0], past[1])), refusal(32, 0));
    assert_eq!(lent, full);
}

/// "tested before 35": on a held cycle, and from a vertex to itself.
#[test]
fn held_edges_of_a_cycle() {
    for spare in [0, 1] {
        let lent = graph(&[3, 1, 2, 1, 1], &[[1, 2], [2, 3], [3, 1], [4, 4]], spare);
        for (source, target, held) in [
            (1, 2, true),
            (2, 3, true),
            (3, 1, true),
            (4, 4, true),
            (2, 1, false),
            (3, 2, false),
            (1, 3, false),
            (1, 1, false),
            (3, 3, false),
        ] {
            let mut after = lent.clone();
            let answer = after.command(Command::NewEdge { caller: 0, source, target });
            assert_eq!(answer, if held { Answer::Edge(source, target) } else { refusal(35, 0) });
            assert_eq!(after, lent);
        }
    }
}

/// 12, 20, 30 and 33 come before it, and a finished source is accepted as ever.
#[test]
fn what_a_held_edge_is_refused_for() {
    let edge = |caller, source, target| Command::NewEdge { caller, source, target };
    let lent = graph(&[3, 1, 2, 3, 4], &[[1, 2], [1, 3], [1, 4], [4, 2], [3, 3]], 0);
    for (command, answer) in [
        (edge(0, 1, 2), Answer::Edge(1, 2)),
        (edge(3, 1, 2), Answer::Edge(1, 2)),
        (edge(5, 1, 2), refusal(20, 0)),
        (edge(1, 1, 2), refusal(30, 0)),
        (edge(2, 1, 2), refusal(30, 0)),
        (edge(4, 1, 2), refusal(30, 0)),
        (edge(4, 1, 4), refusal(30, 0)),
        (edge(0, 1, 3), refusal(33, 0)),
        (edge(0, 1, 4), refusal(33, 0)),
        (edge(0, 3, 3), refusal(33, 0)),
        (edge(3, 3, 3), Answer::Edge(3, 3)),
        (edge(3, 1, 3), Answer::Edge(1, 3)),
        (edge(0, 4, 2), Answer::Edge(4, 2)),
    ] {
        let mut after = lent.clone();
        assert_eq!(after.command(command), answer, "{command:?}");
        assert_eq!(after, lent);
    }
    let mut unsound = lent.clone();
    unsound.edges[9] = 5;
    assert_eq!(unsound.command(edge(0, 1, 2)), refusal(12, 0));
}

/// A step on altered tables whose newEdge names a held edge: it says edge, holds none more, and the item goes on.
#[test]
fn steps_that_name_a_held_edge() {
    let fork: &[u8] = &[4, 0, 0, 0];
    let to_its_newedge: [(&[u8], u32, Edge, Answer); 4] = [
        (&[2, 0, 0], 2, [2, 1], Answer::Release(2)),
        (&[3, 0, 0], 3, [3, 2], Answer::Transfer(2)),
        (fork, 4, [2, 4], Answer::Edge(3, 4)),
        (fork, 5, [3, 4], Answer::Transfer(4)),
    ];
    for (program, steps, [source, target], next) in to_its_newedge {
        for (spare, cycle) in [(0, false), (3, false), (0, true), (3, true)] {
            let mut lent = loaded(program);
            for _ in 0..steps {
                assert!(!is_refused(lent.step(program, 0)));
            }
            lent.edges.truncate(EDGE_WORDS * lent.tally.held as usize);
            if cycle {
                lent.edges.extend([target, source]);
            }
            lent.edges.extend([source, target]);
            lent.tally.held = (lent.edges.len() / EDGE_WORDS) as u32;
            lent.edges.extend(vec![9; EDGE_WORDS * spare]);
            let mut expected = lent.clone();
            expected.vertices[PHASE] += 1;
            expected.tally.steps += 1;
            assert_eq!(lent.step(program, 0), Answer::Edge(source, target));
            assert_eq!(lent, expected);
            // The next command, or what that one is refused for: an edge out of the target, or a row for the fork's other edge.
            let next = match next {
                Answer::Transfer(_) if cycle => refusal(38, 0),
                Answer::Edge(..) if spare == 0 => refusal(32, 0),
                _ => next,
            };
            assert_eq!(lent.step(program, 0), next);
        }
    }
    // A vertex whose scope is the one that it made, and the loop is held.
    let program = [2, 0, 0];
    let mut lent = loaded(&program);
    lent.run(&program, 2);
    lent.vertices[SCOPE] = 2;
    assert_eq!(lent.step(&program, 0), refusal(35, 0));
    lent.edges[EDGE_WORDS..2 * EDGE_WORDS].fill(2);
    lent.tally.held = 2;
    assert_eq!(lent.step(&program, 0), Answer::Edge(2, 2));
    assert_eq!(lent.tally, Tally { made: 3, held: 2, steps: 3 });
    assert_eq!(lent.step(&program, 0), Answer::Release(2));
    assert_eq!(lent.row(0), row(3, 2, 2));
}

// --- Chains ------------------------------------------------------------------------------------

/// Every chain "of held edges that leads from target back to source" and meets no vertex twice, by trying them all.
fn all_chains(edges: &[(u32, u32)], source: u32, begun: &[u32], found: &mut Vec<Vec<u32>>) {
    let last = begun[begun.len() - 1];
    if last == source {
        found.push(begun.to_vec());
        return;
    }
    for &(from, to) in edges {
        if from == last && !begun.contains(&to) {
            all_chains(edges, source, &[begun, &[to]].concat(), found);
        }
    }
}

/// Edges among so many vertices: any, with loops, repeated ones and cycles among them, or only from one layer to the next, so that many
/// chains are equally long.
fn random_edges(dice: &mut Dice, n: usize) -> Vec<Edge> {
    let layers = if dice.one_in(2) { 3 + dice.below(2) } else { 1 };
    let turn = dice.below(layers);
    let layer = |vertex: usize| (vertex + turn) % layers;
    let mut edges = Vec::new();
    for _ in 0..dice.below(if layers > 1 { 12 * n } else { 3 * n }) {
        let (a, b) = (dice.below(n), dice.below(n));
        if layers == 1 || layer(a) + 1 == layer(b) {
            edges.push([a as u32, b as u32]);
        }
    }
    edges
}

#[test]
fn chains_are_the_best_of_all() {
    let mut dice = Dice(41);
    let (mut alone, mut longer, mut none, mut chosen) = (0, 0, 0, 0);
    for _ in 0..2000 {
        let n = 1 + dice.below(9);
        let edges = random_edges(&mut dice, n);
        let statuses: Vec<u32> = (0..n).map(|_| 1 + dice.below(4) as u32).collect();
        let lent = graph(&statuses, &edges, dice.below(2));
        let mut held = lent.held();
        held.sort();
        held.dedup();
        for (source, target) in (0..n as u32).flat_map(|source| (0..n as u32).map(move |target| (source, target))) {
            let mut all = Vec::new();
            all_chains(&held, source, &[target], &mut all);
            // "No shorter chain exists, and of equal ones it is the first in vertex numbers."
            let Some(best) = all.iter().min_by_key(|chain| (chain.len(), *chain)) else {
                none += 1;
                assert_eq!(lent.chain(source, target), Err(41), "{edges:?} {source} {target}");
                assert_eq!(lent.chain_in(source, target, 0), Err(41));
                continue;
            };
            alone += u32::from(best.len() == 1);
            longer += u32::from(best.len() > 3);
            chosen += u32::from(all.iter().filter(|chain| chain.len() == best.len()).count() > 1);
            for words in [best.len(), best.len() + dice.below(5), MOST_ROWS] {
                assert_eq!(lent.chain_in(source, target, words).as_ref(), Ok(best), "{edges:?} {source} {target}");
            }
            for words in [best.len() - 1, dice.below(best.len()), 0] {
                assert_eq!(lent.chain_in(source, target, words), Err(42));
            }
        }
    }
    assert!([alone, longer, none, chosen].iter().all(|&times| times > 1000), "{alone} {longer} {none} {chosen}");
}

#[test]
fn chains_by_hand() {
    // Of two as short, which differ late, the first; the higher row does not matter.
    let two = [[1, 4], [4, 3], [4, 2], [3, 5], [2, 5]];
    assert_eq!(graph(&[1; 6], &two, 0).chain(5, 1), Ok(vec![1, 4, 2, 5]));
    // The first word that differs decides, not the last.
    let crossed = [[1, 2], [1, 3], [2, 5], [3, 4], [5, 6], [4, 6]];
    assert_eq!(graph(&[1; 7], &crossed, 0).chain(6, 1), Ok(vec![1, 2, 5, 6]));
    // A shorter one through higher vertices comes before a longer one through lower ones.
    let detour = [[5, 0], [0, 1], [1, 2], [5, 4], [4, 3], [3, 2], [5, 6], [6, 2]];
    assert_eq!(graph(&[1; 7], &detour, 0).chain(2, 5), Ok(vec![5, 6, 2]));
    // An edge from the one to the other, also where it is held twice, and not the way against it.
    let pair = graph(&[1; 2], &[[1, 0], [1, 0]], 0);
    assert_eq!(pair.chain(0, 1), Ok(vec![1, 0]));
    assert_eq!(pair.chain(1, 0), Err(41));
    // "A vertex alone is the chain from itself to itself", on a loop, in a cycle and without an edge.
    let round = graph(&[1; 4], &[[0, 0], [1, 2], [2, 1]], 0);
    for vertex in 0..4 {
        assert_eq!(round.chain_in(vertex, vertex, 1), Ok(vec![vertex]));
        assert_eq!(round.chain_in(vertex, vertex, 0), Err(42));
    }
    // Statuses and rows that are not held do not matter.
    let mut lent = graph(&[4, 4, 4], &[[0, 1], [1, 2]], 1);
    assert_eq!(lent.chain(2, 0), Ok(vec![0, 1, 2]));
    lent.tally.held = 1;
    assert_eq!(lent.chain(2, 0), Err(41));
}

#[test]
fn the_longest_chain() {
    let statuses = [1; 1024];
    let forwards: Vec<Edge> = (0..1023).map(|v| [v, v + 1]).collect();
    let backwards: Vec<Edge> = forwards.iter().rev().copied().collect();
    for edges in [forwards, backwards] {
        let lent = graph(&statuses, &edges, 3);
        assert_eq!(lent.chain_in(1023, 0, 1024), Ok((0..1024).collect()));
        assert_eq!(lent.chain_in(1023, 0, 1030), Ok((0..1024).collect()));
        assert_eq!(lent.chain_in(1023, 0, 1023), Err(42));
        assert_eq!(lent.chain_in(1022, 0, 1023), Ok((0..1023).collect()));
        assert_eq!(lent.chain(0, 1023), Err(41));
    }
}

/// "Turned away: 41 no chain, after 12 and 20; 42 list too short, after 41."
#[test]
fn chains_refuse_in_order() {
    let lent = graph(&[1, 1, 1], &[[0, 1]], 0);
    for words in [0, 1, 5] {
        for (source, target) in [(3, 0), (0, 3), (3, 3), (u32::MAX, 0), (0, u32::MAX)] {
            assert_eq!(lent.chain_in(source, target, words), Err(20));
        }
        assert_eq!(lent.chain_in(0, 1, words), Err(41));
    }
    assert_eq!(lent.chain_in(1, 0, 1), Err(42));
    let spoil: [fn(&mut Lent); 8] = [
        |lent| lent.tally.made = 4,
        |lent| lent.tally.held = 2,
        |lent| lent.tally.made = u32::MAX,
        |lent| lent.tally.held = u32::MAX,
        |lent| lent.vertices[2 * VERTEX_WORDS + STATUS] = 0,
        |lent| lent.vertices[STATUS] = 5,
        |lent| lent.edges[0] = 3,
        |lent| lent.edges[1] = u32::MAX,
    ];
    for spoil in spoil {
        let mut spoilt = lent.clone();
        spoil(&mut spoilt);
        for (source, target) in [(1, 0), (0, 1), (3, 9)] {
            for words in [0, 2] {
                assert_eq!(spoilt.chain_in(source, target, words), Err(12));
            }
        }
    }
    // The steps are not looked at.
    let mut late = lent.clone();
    late.tally.steps = u32::MAX;
    assert_eq!(late.chain(1, 0), Ok(vec![0, 1]));
    // Nothing made: sound, and no vertex is one. Only the first 1,024 rows count.
    assert_eq!(graph(&[], &[], 0).chain(0, 0), Err(20));
    let mut long = graph(&[1; 1030], &[], 1);
    assert_eq!(long.chain(0, 0), Err(12));
    long.tally.made = 1024;
    assert_eq!(long.chain(1024, 0), Err(20));
    assert_eq!(long.chain(1023, 1023), Ok(vec![1023]));
}

/// "The cycle check accepts just where this finds none." An edge held already does not come to it.
#[test]
fn chains_are_what_the_cycle_check_refuses() {
    let mut dice = Dice(350);
    let mut seen = [0; 4];
    for _ in 0..4000 {
        let n = 2 + dice.below(9);
        let edges: Vec<Edge> = (0..dice.below(2 * n)).map(|_| [dice.below(n) as u32, dice.below(n) as u32]).collect();
        let mut statuses = vec![1; n];
        statuses[0] = 3;
        let lent = graph(&statuses, &edges, 1);
        let (source, vertex) = (dice.below(n) as u32, 1 + dice.below(n - 1) as u32);
        if edges.contains(&[source, vertex]) {
            continue;
        }
        let commands = [
            (Command::NewEdge { caller: 0, source, target: vertex }, lent.chain(source, vertex)),
            (Command::Transfer { caller: 0, vertex }, lent.chain(vertex, 0)),
        ];
        for (at, (command, chain)) in commands.into_iter().enumerate() {
            let found = match lent.clone().command(command) {
                Answer::Refused { number: 35, .. } => true,
                answer if is_refused(answer) => continue,
                _ => false,
            };
            seen[2 * at + usize::from(found)] += 1;
            assert_eq!(chain.err(), if found { None } else { Some(41) }, "{edges:?} {command:?}");
        }
    }
    assert!(seen.iter().all(|&times| times > 100), "{seen:?}");
}

// --- Steps and runs ----------------------------------------------------------------------------

#[test]
fn step_refuses_in_order() {
    let program = [1, 1, 0];
    let mut lent = loaded(&program);
    assert_eq!(lent.step(&program, 2), refusal(20, 0));
    assert_eq!(lent.step(&program, u32::MAX), refusal(20, 0));
    assert_eq!(lent.step(&program, 1), refusal(21, 0));
    // A released vertex is started, whatever the bytes.
    assert_eq!(lent.step(&[], 0), Answer::Start);
    assert_eq!(lent.step(&[], 0), refusal(13, 0));
    assert_eq!(lent.run(&[], 5), Run { ending: Ending::Stuck, last: None, taken: 0 });
    assert_eq!(lent.step(&[0, 0], 0), refusal(13, 0));
    // Nothing starts at place 1, and nothing past the end; a job has one command.
    for (place, phase, answer) in [
        (1, 0, refusal(13, 0)),
        (3, 0, refusal(13, 0)),
        (u32::MAX, 0, refusal(13, 0)),
        (0, 1, refusal(13, 0)),
        (0, u32::MAX, refusal(13, 0)),
        (2, 1, refusal(13, 0)),
        (2, 0, Answer::Stop),
        (0, 0, Answer::Job { number: 1, offset: 0 }),
    ] {
        let mut lent = lent.clone();
        lent.vertices[PLACE] = place;
        lent.vertices[PHASE] = phase;
        assert_eq!(lent.step(&program, 0), answer);
    }
    let mut late = lent.clone();
    late.tally.steps = 8192;
    assert_eq!(late.step(&program, 9), refusal(12, 0));
    assert_eq!(late.lowest(&program), Lowest::Refused { number: 12, place: 0 });
    assert_eq!(late.run(&program, 0), Run { ending: Ending::Refused { number: 12, place: 0 }, last: None, taken: 0 });
    // A new or a finished vertex.
    lent.vertices[STATUS] = NEW;
    assert_eq!(lent.step(&program, 0), refusal(22, 0));
    lent.vertices[STATUS] = FINISHED;
    assert_eq!(lent.step(&program, 0), refusal(23, 0));
}

#[test]
fn runs_look_in_order() {
    // No vertex made: done.
    let mut lent = Lent::rows(0, 0);
    lent.tally = Tally::default();
    assert_eq!(lent.run(&[], 3), Run { ending: Ending::Done, last: None, taken: 0 });
    // The count reaches 8,192 inside a run: stuck, or done if that was the last step.
    let program = [0];
    let mut lent = loaded(&program);
    assert_eq!(lent.run(&program, 0), Run { ending: Ending::Spent, last: None, taken: 0 });
    lent.tally.steps = 8190;
    assert_eq!(lent.run(&program, 9), Run { ending: Ending::Stuck, last: Some(Answer::Stop), taken: 2 });
    assert_eq!(lent.tally.steps, 8192);
    let mut lent = loaded(&program);
    lent.tally.steps = 8188;
    assert_eq!(lent.run(&program, 9), Run { ending: Ending::Done, last: Some(Answer::Stop), taken: 4 });
}

#[test]
fn any_schedule_takes_the_full_count() {
    let mut dice = Dice(2024);
    let mut yields = 0;
    for round in 0..2000 {
        let edition = EDITIONS[round % 2];
        let program = random_program(&mut dice);
        let c = counts(&program);
        let mut lent = Lent::rows_for(edition, &program);
        assert_eq!(lent.load(&program), Answer::Ready);
        let (mut jobs, mut yielded) = (0, 0);
        let mut accepted = 0;
        while lent.vertices.chunks(VERTEX_WORDS).take(lent.tally.made as usize).any(|row| row[STATUS] != FINISHED) {
            assert_ne!(lent.lowest(&program), Lowest::NoVertex);
            let vertex = dice.below(lent.tally.made as usize) as u32;
            let before = lent.clone();
            let answer = lent.step(&program, vertex);
            match answer {
                Answer::Refused { number, .. } => {
                    assert!([21, 22, 23].contains(&number), "{answer:?}");
                    assert_eq!(lent, before);
                    continue;
                }
                Answer::Job { .. } => jobs += 1,
                Answer::Yield => yielded += 1,
                _ => {}
            }
            accepted += 1;
            assert_eq!(lent.tally.steps, accepted);
            if round < 400 {
                assert!(!has_cycle(&lent.held()));
            }
        }
        assert_eq!(accepted, full_count_in(edition, &program));
        assert_eq!((jobs, lent.tally.made, lent.tally.held), (c.jobs, c.vertices(edition), 0));
        assert_eq!(yielded, if edition == Edition::First { 0 } else { c.forks });
        yields += yielded;
        // So does a run, in parts of any size.
        let mut lent = loaded_in(edition, &program);
        let mut taken = 0;
        loop {
            let run = lent.run(&program, dice.below(20) as u32);
            taken += run.taken;
            match run.ending {
                Ending::Done => break,
                ending => assert_eq!(ending, Ending::Spent),
            }
        }
        assert_eq!(taken, full_count_in(edition, &program));
    }
    assert!(yields > 300, "{yields}");
}

/// A run by its words alone: try each vertex by a full step on a copy.
fn plain_lowest(lent: &Lent, program: &[u8]) -> Option<u32> {
    (0..lent.tally.made).find(|&v| !is_refused(lent.clone().step(program, v)))
}

fn plain_run(lent: &mut Lent, program: &[u8], budget: u32) -> Run {
    let mut run = Run { ending: Ending::Done, last: None, taken: 0 };
    loop {
        if lent.vertices.chunks(VERTEX_WORDS).take(lent.tally.made as usize).all(|row| row[STATUS] == FINISHED) {
            return run;
        }
        let Some(v) = plain_lowest(lent, program) else {
            return Run { ending: Ending::Stuck, ..run };
        };
        if run.taken == budget {
            return Run { ending: Ending::Spent, ..run };
        }
        run.last = Some(lent.step(program, v));
        run.taken += 1;
    }
}

/// Words that are mostly small, now and then anything.
fn word(dice: &mut Dice, bound: usize) -> u32 {
    if dice.one_in(40) {
        dice.roll() as u32
    } else {
        dice.below(bound) as u32
    }
}

#[test]
fn any_words_are_answered() {
    let mut dice = Dice(99);
    let (mut stuck, mut done, mut spent, mut unsound, mut repeated) = (0, 0, 0, 0, 0);
    let (mut refusals, mut yields) = ([0; 40], [0; 2]);
    for round in 0..8000 {
        let edition = EDITIONS[round % 2];
        let mut program = random_program(&mut dice);
        if dice.one_in(10) {
            let at = dice.below(program.len());
            program[at] = dice.roll() as u8;
        }
        // Places where something starts, the long items more often.
        let mut places = vec![0];
        let _ = read(&program, edition, |place, item| {
            let often = match item {
                Item::Job { .. } | Item::End => 1,
                Item::Fork { .. } => 10,
                _ => 5,
            };
            places.extend(vec![place as u32; often]);
        });
        let made = 1 + dice.below(8);
        let held = dice.below(8);
        let mut lent = Lent::rows_in(edition, made + dice.below(6), held + dice.below(5));
        for (i, w) in lent.vertices.iter_mut().enumerate() {
            *w = match i % VERTEX_WORDS {
                STATUS if dice.one_in(300) => dice.roll() as u32,
                STATUS => 1 + dice.below(4) as u32,
                FUTURE if dice.one_in(3) => 0,
                IN_COUNT if dice.one_in(2) => 0,
                IN_COUNT => word(&mut dice, 3),
                PLACE if dice.one_in(20) => word(&mut dice, program.len()),
                PLACE => places[dice.below(places.len())],
                PHASE => word(&mut dice, 9),
                _ if dice.one_in(10) => word(&mut dice, made + 1),
                _ => dice.below(made) as u32,
            };
        }
        for w in &mut lent.edges {
            *w = if dice.one_in(200) { dice.roll() as u32 } else { dice.below(made) as u32 };
        }
        lent.vertices.extend(vec![3; dice.below(VERTEX_WORDS)]);
        lent.edges.extend(vec![3; dice.below(EDGE_WORDS)]);
        lent.tally = Tally { made: made as u32, held: held as u32, steps: 0 };
        if dice.one_in(2) {
            lent.set_true_in_counts();
        }
        if dice.one_in(20) {
            lent.tally.steps = 8180 + dice.below(14) as u32;
        }
        if dice.one_in(50) {
            lent.tally.made = dice.roll() as u32;
        }
        if dice.one_in(50) {
            lent.tally.held = dice.roll() as u32;
        }
        // A single command and a step on copies.
        let (a, b, c) = (word(&mut dice, made + 1), word(&mut dice, made + 1), word(&mut dice, made + 1));
        let command = match dice.below(8) {
            0 => Command::NewTd { caller: a, place: b, scope: c },
            1 => Command::NewEdge { caller: a, source: b, target: c },
            2 => Command::NewEdge { caller: a, source: b, target: a },
            3 => Command::Release { caller: a, vertex: b },
            4 => Command::Transfer { caller: a, vertex: b },
            5 => Command::Start { vertex: a },
            6 => Command::Stop { caller: a },
            _ => Command::Yield { caller: a },
        };
        let mut after = lent.clone();
        let answer = after.command(command);
        yields[0] += u32::from(answer == Answer::Yield);
        assert_eq!(after.tally.steps, lent.tally.steps);
        assert!(!is_refused(answer) || after == lent);
        let mut after = lent.clone();
        for vertex in (0..=made as u32).chain([a]) {
            match after.step(&program, vertex) {
                Answer::Refused { number, place } => {
                    assert_eq!(place, 0);
                    assert_eq!(after, lent);
                    refusals[number as usize] += 1;
                }
                answer => {
                    yields[1] += u32::from(answer == Answer::Yield);
                    assert_eq!(after.tally.steps, lent.tally.steps + 1);
                    if let Answer::Edge(source, target) = answer {
                        if lent.held().contains(&(source, target)) {
                            repeated += 1;
                            assert_eq!((after.tally.held, &after.edges), (lent.tally.held, &lent.edges));
                        }
                    }
                    after.clone_from(&lent);
                }
            }
        }
        // A run is the plain run, and the lowest vertex the plain lowest.
        let budget = dice.below(40) as u32;
        let lowest = lent.lowest(&program);
        let mut after = lent.clone();
        let run = after.run(&program, budget);
        match run.ending {
            Ending::Refused { number, place } => {
                unsound += 1;
                assert_eq!((number, place, run.last, run.taken), (12, 0, None, 0));
                assert_eq!(lowest, Lowest::Refused { number: 12, place: 0 });
                assert_eq!(after, lent);
                // A step may still be a start.
                assert!([refusal(12, 0), refusal(21, 0), Answer::Start].contains(&lent.clone().step(&program, a)));
                continue;
            }
            Ending::Done => done += 1,
            Ending::Stuck => stuck += 1,
            Ending::Spent => spent += 1,
        }
        assert_eq!(lowest, plain_lowest(&lent, &program).map_or(Lowest::NoVertex, Lowest::Vertex));
        let mut plain = lent.clone();
        assert_eq!(plain_run(&mut plain, &program, budget), run);
        assert_eq!(plain, after);
    }
    assert!(stuck > 100 && done > 100 && spent > 100 && unsound > 100, "{stuck} {done} {spent} {unsound}");
    assert!(repeated > 0);
    assert!(yields.iter().all(|&times| times > 30), "{yields:?}");
    for number in [12, 13, 20, 21, 22, 23, 31, 32, 33, 35, 36, 37, 38] {
        assert!(refusals[number] > 0, "{number}: {refusals:?}");
    }
}

#[test]
fn any_bytes_are_answered() {
    let mut dice = Dice(12);
    let mut taken = 0;
    for _ in 0..20_000 {
        let program: Vec<u8> =
            (0..dice.below(14)).map(|_| if dice.one_in(12) { dice.roll() as u8 } else { dice.below(11).saturating_sub(4) as u8 }).collect();
        for edition in EDITIONS {
            let mut lent = Lent::rows_in(edition, 60, 60);
            if lent.load(&program) == Answer::Ready {
                taken += 1;
                assert_eq!(lent.run(&program, u32::MAX).taken, full_count_in(edition, &program));
            } else {
                assert_eq!(lent, Lent::rows_in(edition, 60, 60));
            }
        }
    }
    assert!(taken > 600, "{taken}");
}
