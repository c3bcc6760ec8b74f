//! Times the engine and, beside it, `paper`, the implementation not written from it: `cargo run --release -p bench` prints tables.

use std::hint::black_box;
use std::time::{Duration, Instant};

use bench::bare;
use bench::side::{Do, Engine, Paper, Side};
use keshtiwol::Edition;

const ROUNDS: usize = 11;
const ROUND: Duration = Duration::from_millis(20);

/// Nanoseconds of one unit of work: warms up, then takes the median of several rounds, the two sides in turn.
fn medians(units: f64, mut engine: impl FnMut(), mut paper: impl FnMut()) -> [f64; 2] {
    let (engine_times, paper_times) = (times_in_a_round(&mut engine), times_in_a_round(&mut paper));
    let mut rounds = [Vec::new(), Vec::new()];
    for _ in 0..ROUNDS {
        rounds[0].push(timed(engine_times, &mut engine));
        rounds[1].push(timed(paper_times, &mut paper));
    }
    rounds.map(|mut rounds| {
        rounds.sort_by(f64::total_cmp);
        rounds[ROUNDS / 2] / units
    })
}

/// How often the work is done in a round. Finding this out warms up.
fn times_in_a_round(work: &mut impl FnMut()) -> u32 {
    let begun = Instant::now();
    let mut times = 0;
    while begun.elapsed() < ROUND {
        work();
        times += 1;
    }
    times
}

fn timed(times: u32, work: &mut impl FnMut()) -> f64 {
    let begun = Instant::now();
    for _ in 0..times {
        work();
    }
    begun.elapsed().as_nanos() as f64 / f64::from(times)
}

/// A program's steps, and nanoseconds per step by `step` and inside `run`, engine and paper each.
struct Timed {
    steps: usize,
    step: [f64; 2],
    run: [f64; 2],
}

/// Which program, in which edition.
#[derive(Clone, Copy)]
struct Program<'a> {
    bytes: &'a [u8],
    edition: Edition,
}

fn program(program: Program) -> Timed {
    let (mut engine, mut paper) = (Engine::new(), Paper::new());
    let order = lowest_first(&mut engine, program);
    assert_eq!(order, lowest_first(&mut paper, program));
    let steps = order.len();
    let step = medians(steps as f64, || load_and_step(&mut engine, program, &order), || load_and_step(&mut paper, program, &order));
    let run = medians(steps as f64, || load_and_run(&mut engine, program, steps), || load_and_run(&mut paper, program, steps));
    Timed { steps, step, run }
}

/// The vertices that a run steps, in order.
fn lowest_first(side: &mut impl Side, Program { bytes, edition }: Program) -> Vec<u32> {
    side.load(bytes, edition);
    let mut order = Vec::new();
    while let Some(vertex) = side.lowest(bytes, edition) {
        side.step(bytes, edition, vertex).unwrap();
        order.push(vertex);
    }
    order
}

fn load_and_step(side: &mut impl Side, Program { bytes, edition }: Program, order: &[u32]) {
    side.load(bytes, edition);
    for &vertex in order {
        side.step(bytes, edition, vertex).unwrap();
    }
}

fn load_and_run(side: &mut impl Side, Program { bytes, edition }: Program, steps: usize) {
    side.load(bytes, edition);
    assert_eq!(side.run(bytes, edition) as usize, steps);
}

/// Nanoseconds per job of a host with so many asyncs, a job in each, that has them handed out into a list of so many.
fn dispatch(asyncs: usize, list: usize) -> [f64; 2] {
    fn side<S: Side>(asyncs: usize, list: usize) -> impl FnMut() {
        let (mut side, program) = (S::new(), compare::programs::asyncs_with_a_job(asyncs as u32));
        move || {
            side.load(&program, Edition::First);
            assert_eq!(side.dispatch(&program, Edition::First, list) as usize, asyncs);
        }
    }
    medians(asyncs as f64, side::<Engine>(asyncs, list), side::<Paper>(asyncs, list))
}

/// A chain of 1,023 edges from vertex 0 on, its edges made front to back or back to front.
fn chained<S: Side>(backwards: bool) -> S {
    let mut side: S = bare(1024);
    for n in 0..1023 {
        let source = if backwards { 1022 - n } else { n };
        side.command(Do::Edge(source, source + 1)).unwrap();
    }
    side
}

/// The edge asked for would lead from the chain's last vertex to its second (the first executes), so the search follows 1,022 edges.
fn closing_edge(backwards: bool) -> [f64; 2] {
    fn side<S: Side>(backwards: bool) -> impl FnMut() {
        let mut side: S = chained(backwards);
        move || assert_eq!(side.command(Do::Edge(1023, 1)), Err(35))
    }
    medians(1.0, side::<Engine>(backwards), side::<Paper>(backwards))
}

/// The chain from its first vertex to its last, all 1,024 of them.
fn whole_chain(backwards: bool) -> [f64; 2] {
    fn side<S: Side>(backwards: bool) -> impl FnMut() {
        let mut side: S = chained(backwards);
        assert!(side.chain(1023, 0).iter().copied().eq(0..1024));
        move || assert_eq!(black_box(side.chain(1023, 0)).len(), 1024)
    }
    medians(1.0, side::<Engine>(backwards), side::<Paper>(backwards))
}

/// The edge of row `row`, where vertices 0 and 1 have an edge to each other vertex in turn.
fn fanned_edge(row: u32) -> Do {
    Do::Edge(row % 2, 2 + row / 2)
}

/// The edge asked for is held already, in this row of 1,024.
fn held_edge(row: u32) -> [f64; 2] {
    fn side<S: Side>(row: u32) -> impl FnMut() {
        let mut side: S = bare(1024);
        for row in 0..1024 {
            side.command(fanned_edge(row)).unwrap();
        }
        move || assert_eq!(side.command(fanned_edge(row)), Ok(()))
    }
    medians(1.0, side::<Engine>(row), side::<Paper>(row))
}

/// Copies of an item, then the end.
fn repeated(item: &[u8], times: usize) -> Vec<u8> {
    [item.repeat(times), vec![0]].concat()
}

/// 31 items, each of them all of the body of the one before, and this in the innermost.
fn nested(item: u8, innermost: &[u8]) -> Vec<u8> {
    [&[item; 31], innermost, &[0; 32]].concat()
}

/// A fork in each branch of a fork, so many deep, and a job at the leaves.
fn fork_tree(depth: usize) -> Vec<u8> {
    if depth == 0 {
        return vec![1, 5];
    }
    let branch = [fork_tree(depth - 1), vec![0]].concat();
    [vec![4], branch.clone(), branch].concat()
}

fn thousands(number: usize) -> String {
    if number < 1000 {
        number.to_string()
    } else {
        format!("{},{:03}", number / 1000, number % 1000)
    }
}

fn row(cells: [String; 9]) {
    let [name, bytes, steps, rest @ ..] = cells;
    print!("| {name:<25} | {bytes:>5} | {steps:>5} |");
    for cell in rest {
        print!(" {cell:>12} |");
    }
    println!();
}

fn nanoseconds([engine, paper]: [f64; 2]) -> [String; 3] {
    [format!("{engine:.0}"), format!("{paper:.0}"), format!("{:.2}", engine / paper)]
}

fn main() {
    let repeats: [(&str, &[u8], usize); 4] =
        [("asyncs", &[2, 0], 1022), ("forks", &[4, 0, 0], 340), ("finishes", &[3, 0], 511), ("jobs", &[1, 5], 2047)];
    let mut programs = Vec::new();
    for (name, item, times) in repeats {
        for times in [times / 2, times] {
            programs.push((format!("{} {name}", thousands(times)), repeated(item, times), Edition::First));
        }
    }
    // As many forks as the first edition loads, and as many as the second does.
    for times in [340, 511] {
        programs.push((format!("{times} forks, second edition"), compare::programs::empty_forks(times), Edition::Second));
    }
    let others = [
        // Jobs whose numbers have five bytes.
        ("682 retunes", repeated(&[1, 0xA0, 0xD1, 0xA5, 0xD5, 0x0C], 682)),
        // In turn a future with a job in its body, its force, and a job behind that.
        ("200 futures", repeated(&[5, 1, 5, 0, 6, 0, 1, 5], 200)),
        ("nesting 31 deep", nested(2, &[])),
        // Eight forks deep, with a job at each of 256 leaves.
        ("255 forks in a tree", [fork_tree(8), vec![0]].concat()),
        ("16 x 31 nested finishes", [nested(3, &[])[..62].repeat(16), vec![0]].concat()),
        ("255 async{finish{async}}", repeated(&[2, 3, 2, 0, 0, 0], 255)),
        ("31 asyncs over 2,000 jobs", nested(2, &[1, 5].repeat(2000))),
        ("mixed", compare::programs::mixed()),
    ];
    programs.extend(others.map(|(name, bytes)| (name.into(), bytes, Edition::First)));

    println!("Nanoseconds per step, load counted in; the median of {ROUNDS} rounds. Ratio: engine / paper. In the first edition but where");
    println!("another is named.\n");
    row(["program", "bytes", "steps", "step: engine", "paper", "ratio", "run: engine", "paper", "ratio"].map(String::from));
    println!("|:{0:-<26}|{0:->6}:|{0:->6}:|{1}", "", format!("{:->13}:|", "").repeat(6));
    let mut timed = Vec::new();
    for (name, bytes, edition) in &programs {
        let times = program(Program { bytes, edition: *edition });
        let ([a, b, c], [d, e, f]) = (nanoseconds(times.step), nanoseconds(times.run));
        row([name.clone(), thousands(bytes.len()), thousands(times.steps), a, b, c, d, e, f]);
        timed.push(times);
    }

    println!("\nGrowth of the engine's nanoseconds per step when the program is twice as long.\n");
    println!("| {:<10} | {:>12} | {:>12} |", "program", "step", "run");
    println!("|:{0:-<11}|{0:->13}:|{0:->13}:|", "");
    for ((name, ..), times) in repeats.iter().zip(timed.chunks(2)) {
        let growth = |by: fn(&Timed) -> f64| format!("x {:.2}", by(&times[1]) / by(&times[0]));
        println!("| {name:<10} | {:>12} | {:>12} |", growth(|times| times.step[0]), growth(|times| times.run[0]));
    }

    println!("\nNanoseconds per vertex of a run, load counted in.\n");
    println!("| {:<25} | {:>8} | {:>8} | {:>8} |", "program", "vertices", "engine", "paper");
    println!("|:{0:-<26}|{0:->9}:|{0:->9}:|{0:->9}:|", "");
    for (((name, _, times), vertices_of_one), timed) in repeats.iter().zip([1, 3, 2]).zip(timed.chunks(2)) {
        let vertices = 2 + vertices_of_one * times;
        let [engine, paper] = timed[1].run.map(|per_step| per_step * timed[1].steps as f64 / vertices as f64);
        println!("| {:<25} | {:>8} | {engine:>8.0} | {paper:>8.0} |", format!("{} {name}", thousands(*times)), thousands(vertices));
    }

    println!("\nNanoseconds per job of a host with dispatch, load counted in: asyncs with a job in each, and a list of so many jobs.\n");
    println!("| {:<5} | {:>12} | {:>8} | {:>14} | {:>8} | {:>8} |", "list", "500: engine", "paper", "1,000: engine", "paper", "growth");
    println!("|:{0:-<6}|{0:->13}:|{0:->9}:|{0:->15}:|{0:->9}:|{0:->9}:|", "");
    for list in [1, 16, 64] {
        let ([few, few_paper], [many, many_paper]) = (dispatch(500, list), dispatch(1000, list));
        print!("| {list:<5} | {few:>12.0} | {few_paper:>8.0} | {many:>14.0} | {many_paper:>8.0} |");
        println!(" {:>8} |", format!("x {:.2}", many / few));
    }

    println!("\nNanoseconds per single command or chain on 1,024 vertices.\n");
    println!("| {:<56} | {:>8} | {:>8} | {:>8} |", "command", "engine", "paper", "ratio");
    println!("|:{0:-<57}|{0:->9}:|{0:->9}:|{0:->9}:|", "");
    let commands = [
        ("newEdge that would close a chain of 1,023, front to back", closing_edge(false)),
        ("newEdge that would close a chain of 1,023, back to front", closing_edge(true)),
        ("newEdge of an edge held in the first of 1,024 rows", held_edge(0)),
        ("newEdge of an edge held in the last of 1,024 rows", held_edge(1023)),
        ("chain of 1,024 vertices, front to back", whole_chain(false)),
        ("chain of 1,024 vertices, back to front", whole_chain(true)),
    ];
    for (name, times) in commands {
        let [engine, paper, ratio] = nanoseconds(times);
        println!("| {name:<56} | {engine:>8} | {paper:>8} | {ratio:>8} |");
    }
}
