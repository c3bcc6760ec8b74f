//! Times a stop among 512 and among 1,024 edges, half of them its own: `make -C hosts stop-bench` prints a table and ends with a failure
//! where the second takes the engine more than three times as long as the first. A time that grew with the square would be four times.

use std::hint::black_box;
use std::process::ExitCode;
use std::time::Instant;

use bench::bare;
use bench::side::{Do, Engine, Paper, Side};
use keshtiwol::{EDGE_WORDS, SOURCE};

const TRIES: usize = 5001;
const EDGES: [u32; 2] = [512, 1024];
const MOST: f64 = 3.0;

/// Which rows hold the edges of the vertex that stops.
#[derive(Clone, Copy)]
enum Own {
    InFront,
    Behind,
    EveryOther,
}

impl Own {
    const ALL: [(Own, &'static str); 3] = [(Own::InFront, "in front"), (Own::Behind, "behind"), (Own::EveryOther, "every other row")];

    fn stands_in(self, row: u32, held: u32) -> bool {
        match self {
            Own::InFront => row < held / 2,
            Own::Behind => row >= held / 2,
            Own::EveryOther => row % 2 == 0,
        }
    }
}

/// A machine on which vertex 0 is to stop, again and again, and the nanoseconds that it took.
struct Stops<S> {
    side: S,
    held: u32,
    before: Vec<u32>,
    after: Vec<u32>,
    times: Vec<f64>,
}

impl<S: Side> Stops<S> {
    /// Vertices 0 and 1 have half of the edges each, to vertices from 2 on.
    fn new(own: Own, held: u32, made: u32) -> Stops<S> {
        let mut side: S = bare(made);
        let mut targets = [2, 2];
        for row in 0..held {
            let source = if own.stands_in(row, held) { 0 } else { 1 };
            side.command(Do::Edge(source, targets[source as usize])).unwrap();
            targets[source as usize] += 1;
        }
        let before = side.edges().to_vec();
        let mut after: Vec<u32> = before.chunks(EDGE_WORDS).filter(|row| row[SOURCE] == 1).flatten().copied().collect();
        after.resize(before.len(), 0);
        Stops { side, held, before, after, times: Vec::with_capacity(TRIES) }
    }

    /// One stop. Before it the tables are as at first, after it they are looked at, and neither is timed.
    fn again(&mut self) {
        self.side.unstop(&self.before, self.held);
        let side = black_box(&mut self.side);
        let begun = Instant::now();
        let answer = side.command(Do::Stop(0));
        self.times.push(begun.elapsed().as_nanos() as f64);
        assert_eq!(answer, Ok(()));
        assert_eq!(side.edges(), self.after);
    }
}

fn median(mut times: Vec<f64>) -> f64 {
    times.sort_by(f64::total_cmp);
    times[times.len() / 2]
}

/// What reading the clock twice takes, which every try has in it.
fn clock() -> f64 {
    median((0..TRIES).map(|_| black_box(Instant::now()).elapsed().as_nanos() as f64).collect())
}

/// The medians of a stop among 512 and among 1,024 edges, of the engine and of paper. All four are tried in turn.
fn medians(own: Own, made: [u32; 2]) -> [[f64; 2]; 2] {
    let mut engine = [0, 1].map(|size| Stops::<Engine>::new(own, EDGES[size], made[size]));
    let mut paper = [0, 1].map(|size| Stops::<Paper>::new(own, EDGES[size], made[size]));
    for _ in 0..TRIES {
        engine.iter_mut().for_each(Stops::again);
        paper.iter_mut().for_each(Stops::again);
    }
    let clock = clock();
    [engine.map(|stops| stops.times), paper.map(|stops| stops.times)].map(|sizes| sizes.map(|times| median(times) - clock))
}

fn main() -> ExitCode {
    println!(
        "A stop among 512 and among 1,024 edges, half of them its own: nanoseconds, the median of {TRIES} tries each, taken in turn.\n"
    );
    println!("| own edges       | vertices made    | engine: 512 |  1,024 | ratio | paper: 512 |  1,024 | ratio |");
    println!("|:----------------|:-----------------|------------:|-------:|------:|-----------:|-------:|------:|");
    let mut worst: f64 = 0.0;
    for (own, rows) in Own::ALL {
        for (made, vertices) in [(EDGES, "as many as edges"), ([1024; 2], "1,024 in both")] {
            let [[a, b], [c, d]] = medians(own, made);
            worst = worst.max(b / a);
            println!("| {rows:<15} | {vertices:<16} | {a:>11.0} | {b:>6.0} | {:>5.2} | {c:>10.0} | {d:>6.0} | {:>5.2} |", b / a, d / c);
        }
    }
    if worst > MOST {
        eprintln!("\nA stop among 1,024 edges takes {worst:.2} times as long as one among 512; {MOST} is the most.");
        return ExitCode::FAILURE;
    }
    ExitCode::SUCCESS
}
