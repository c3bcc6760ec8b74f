//! Times a start, and the step of a released vertex, among 2 and among 1,024 edges: `make -C hosts start-bench` prints a table and ends with
//! a failure where the second takes the engine more than 1.3 times as long as the first. Both read a fixed number of words, so that neither
//! should take longer.

use std::hint::black_box;
use std::process::ExitCode;
use std::time::Instant;

use bench::bare;
use bench::side::{Do, Engine, Paper, Side};
use keshtiwol::Edition;

const TRIES: usize = 1001;
/// So many calls in each try, since one takes no longer than to read the clock.
const CALLS: usize = 1000;
const EDGES: [u32; 2] = [2, 1024];
const VERTICES: u32 = 1024;
const MOST: f64 = 1.3;

#[derive(Clone, Copy)]
enum Ask {
    Start,
    Step,
}

impl Ask {
    const ALL: [(Ask, &'static str); 2] = [(Ask::Start, "start"), (Ask::Step, "step")];
}

/// The released vertices: no edge leads into the last, and into the third leads that of the last row held.
const NAMED: [(u32, Result<(), u32>, &str); 2] = [(VERTICES - 1, Ok(()), "no edge in, taken"), (2, Err(21), "an edge in, 21")];

/// A machine on which a vertex is to start, again and again, and the nanoseconds that it took.
struct Starts<S> {
    side: S,
    ask: Ask,
    vertex: u32,
    said: Result<(), u32>,
    program: Vec<u8>,
    times: Vec<f64>,
}

impl<S: Side> Starts<S> {
    /// Vertices 0 and 1 have the edges, to vertices from 3 on, and one to vertex 2 in the last row.
    fn new(ask: Ask, vertex: u32, said: Result<(), u32>, held: u32) -> Starts<S> {
        let mut side: S = bare(VERTICES);
        for row in 0..held - 1 {
            side.command(Do::Edge(row % 2, 3 + row / 2)).unwrap();
        }
        side.command(Do::Edge(1, 2)).unwrap();
        side.command(Do::Release(vertex)).unwrap();
        Starts { side, ask, vertex, said, program: compare::programs::mixed(), times: Vec::with_capacity(TRIES) }
    }

    /// The calls of one try. What a start changed is set back before the next, which is timed with it: two words.
    fn again(&mut self) {
        let side = black_box(&mut self.side);
        let begun = Instant::now();
        for _ in 0..CALLS {
            let said = match self.ask {
                Ask::Start => side.command(Do::Start(self.vertex)),
                Ask::Step => side.step(&self.program, Edition::First, self.vertex),
            };
            assert_eq!(said, self.said);
            side.unstart(self.vertex);
        }
        self.times.push(begun.elapsed().as_nanos() as f64 / CALLS as f64);
    }

    fn median(mut self) -> f64 {
        self.times.sort_by(f64::total_cmp);
        self.times[TRIES / 2]
    }
}

/// The medians among 2 and among 1,024 edges, of the engine and of paper. All four are tried in turn.
fn medians(ask: Ask, vertex: u32, said: Result<(), u32>) -> [[f64; 2]; 2] {
    let mut engine = EDGES.map(|held| Starts::<Engine>::new(ask, vertex, said, held));
    let mut paper = EDGES.map(|held| Starts::<Paper>::new(ask, vertex, said, held));
    for _ in 0..TRIES {
        engine.iter_mut().for_each(Starts::again);
        paper.iter_mut().for_each(Starts::again);
    }
    [engine.map(Starts::median), paper.map(Starts::median)]
}

fn main() -> ExitCode {
    println!(
        "A start, and the step of a released vertex, among 2 and among 1,024 edges, {VERTICES} vertices made: nanoseconds, the median of\n\
         {TRIES} tries each, taken in turn, of {CALLS} calls.\n"
    );
    println!("| call  | vertex            | engine: 2 | 1,024 | ratio | paper: 2 | 1,024 | ratio |");
    println!("|:------|:------------------|----------:|------:|------:|---------:|------:|------:|");
    let mut worst: f64 = 0.0;
    for (ask, call) in Ask::ALL {
        for (vertex, said, named) in NAMED {
            let [[a, b], [c, d]] = medians(ask, vertex, said);
            worst = worst.max(b / a);
            println!("| {call:<5} | {named:<17} | {a:>9.1} | {b:>5.1} | {:>5.2} | {c:>8.1} | {d:>5.1} | {:>5.2} |", b / a, d / c);
        }
    }
    if worst > MOST {
        eprintln!("\nA start or a step among 1,024 edges takes {worst:.2} times as long as one among 2; {MOST} is the most.");
        return ExitCode::FAILURE;
    }
    ExitCode::SUCCESS
}
