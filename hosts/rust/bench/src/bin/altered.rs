//! Times runs and dispatches on tables that a host altered so that hundreds of vertices may step and are refused: `make -C hosts
//! altered-bench` prints a table. It ends with a failure where a step with 1,024 vertices takes the engine more than three times as long as
//! one with 512 (a time that grew with the square would be four times), or more than a limit. Before anything is timed, the engine must
//! answer what `paper` answers.

use std::collections::BTreeSet;
use std::hint::black_box;
use std::process::ExitCode;
use std::time::{Duration, Instant};

use bench::bare;
use bench::side::{Do, Engine, Paper, Side};
use compare::draw::Draw;
use compare::pair::{Call, Pair, Said, State};
use compare::programs;
use keshtiwol::{
    Edition, Tally, EDGE_WORDS, FUTURE, IN_COUNT, JOB_WORDS, MADE, PHASE, PLACE, SCOPE, SOURCE, STATUS, TARGET, VERTEX_EXECUTING,
    VERTEX_NEW, VERTEX_WORDS,
};

const SIZES: [u32; 2] = [512, 1024];
/// The most that a step may grow by from the first size to the second.
const MOST_GROWTH: f64 = 3.0;
/// The most nanoseconds that a step may take with the second.
const MOST_TIME: f64 = 400_000.0;
/// Each case is tried until this long has passed, but at least and at most so many times.
const ROUND: Duration = Duration::from_millis(150);
const TRIES: [usize; 2] = [5, 501];
/// `paper` is tried again while no more than this has passed.
const PAPER_ROUND: Duration = Duration::from_millis(20);

/// The steps of a longer run, the asyncs that take as many (each has five, and the vertex that does them stops), and the rows for these.
const STEPS: u32 = 100;
const ASYNCS: u32 = 20;
const SPARE_ROWS: u32 = 24;

/// A finish and an async stand at the beginning of the program, for the vertices that are refused.
const FINISH_AT: u32 = 0;
const ASYNC_AT: u32 = 2;
const HEAD: [u8; 4] = [programs::FINISH, 0, programs::ASYNC, 0];

/// What the one vertex that is not refused has to do: jobs, or asyncs, whose steps may each have changed what the others are told, or
/// nothing, so that it stops.
#[derive(Clone, Copy, PartialEq)]
enum Work {
    Jobs,
    Asyncs,
    Nothing,
}

impl Work {
    fn bytes(self) -> Vec<u8> {
        match self {
            Work::Jobs => [programs::JOB, 5].repeat(STEPS as usize + 10),
            Work::Asyncs => [programs::ASYNC, 0].repeat(ASYNCS as usize),
            Work::Nothing => Vec::new(),
        }
    }
}

/// A program and tables for it. The last vertex is the one with work. Vertex 0 is new, and the asyncs' edges lead onto it. The others are
/// for the shapes to set: those that execute ask for something and are refused.
struct Table {
    program: Vec<u8>,
    state: State,
    busy: Vec<u32>,
    most_edges: u32,
}

impl Table {
    fn new(size: u32, head: &[u8], work: Work) -> Table {
        let spare = if work == Work::Asyncs { SPARE_ROWS } else { 0 };
        let made = size - spare;
        let mut vertices = vec![0; VERTEX_WORDS * size as usize];
        vertices.chunks_exact_mut(VERTEX_WORDS).take(made as usize).for_each(|row| row[STATUS] = VERTEX_NEW);
        let edges = vec![0; EDGE_WORDS * size as usize];
        let mut table = Table {
            program: [head, &work.bytes(), &[0]].concat(),
            state: State { vertices, edges, tally: Tally { made, held: 0, steps: 0 } },
            busy: vec![0; size as usize],
            most_edges: made,
        };
        let worker = table.worker();
        table.executes(worker, head.len() as u32, 0, 0, [0; 3]);
        table
    }

    fn made(&self) -> u32 {
        self.state.tally.made
    }

    fn worker(&self) -> u32 {
        self.made() - 1
    }

    fn row(&mut self, vertex: u32) -> &mut [u32] {
        &mut self.state.vertices[VERTEX_WORDS * vertex as usize..][..VERTEX_WORDS]
    }

    fn held(&self) -> u32 {
        self.state.tally.held
    }

    fn edge(&mut self, source: u32, target: u32) {
        assert!(self.held() < self.most_edges);
        let row = &mut self.state.edges[EDGE_WORDS * self.state.tally.held as usize..][..EDGE_WORDS];
        (row[SOURCE], row[TARGET]) = (source, target);
        self.state.tally.held += 1;
        self.row(target)[IN_COUNT] += 1;
    }

    fn edges(&mut self, edges: impl IntoIterator<Item = (u32, u32)>) {
        for (source, target) in edges {
            self.edge(source, target);
        }
    }

    fn executes(&mut self, vertex: u32, place: u32, phase: u32, scope: u32, made: [u32; 3]) {
        let row = self.row(vertex);
        (row[STATUS], row[PLACE], row[PHASE], row[SCOPE]) = (VERTEX_EXECUTING, place, phase, scope);
        row[MADE..FUTURE].copy_from_slice(&made);
    }

    /// The vertex is at the newEdge of an async.
    fn asks_edge(&mut self, vertex: u32, source: u32, target: u32) {
        self.executes(vertex, ASYNC_AT, 1, target, [source, 0, 0]);
    }

    /// The vertex is at the transfer of a finish.
    fn asks_transfer(&mut self, vertex: u32, to: u32) {
        self.executes(vertex, FINISH_AT, 3, 0, [to, 0, 0]);
    }

    /// The vertex is at the release of an async.
    fn asks_release(&mut self, vertex: u32, of: u32) {
        self.executes(vertex, ASYNC_AT, 2, 0, [of, 0, 0]);
    }

    /// The vertices in this order are on a chain. Each but the first is at a newEdge onto itself that would close the chain, from a vertex
    /// between it and the chain's end.
    fn chain_of(&mut self, order: &[u32]) {
        let last = order.len() - 1;
        for at in 1..=last {
            self.asks_edge(order[at], order[at + (last - at).div_ceil(2)], order[at]);
        }
    }
}

/// The edges from each of these to the next.
fn along(order: &[u32]) -> Vec<(u32, u32)> {
    order.windows(2).map(|pair| (pair[0], pair[1])).collect()
}

fn shuffled<T>(draw: &mut Draw, mut items: Vec<T>) -> Vec<T> {
    for at in 1..items.len() {
        items.swap(at, draw.index(at + 1));
    }
    items
}

fn chain(table: &mut Table) {
    let order: Vec<u32> = (0..table.worker()).collect();
    table.edges(along(&order));
    table.chain_of(&order);
}

fn chain_rows_backwards(table: &mut Table) {
    let order: Vec<u32> = (0..table.worker()).collect();
    table.edges(along(&order).into_iter().rev());
    table.chain_of(&order);
}

fn chain_numbers_backwards(table: &mut Table) {
    let order: Vec<u32> = std::iter::once(0).chain((1..table.worker()).rev()).collect();
    table.edges(along(&order));
    table.chain_of(&order);
}

fn chain_shuffled(table: &mut Table) {
    let draw = &mut Draw::new(1);
    let mut order = vec![0];
    order.extend(shuffled(draw, (1..table.worker()).collect()));
    table.edges(shuffled(draw, along(&order)));
    table.chain_of(&order);
}

/// The first vertices of the chain are new, about as many as the root of all; the others ask for edges onto these from as many of the last,
/// so that pairs differ and each search goes along nearly all of the chain.
fn chain_far_ends(table: &mut Table) {
    let order: Vec<u32> = (0..table.worker()).collect();
    table.edges(along(&order));
    let (few, last) = (f64::from(table.worker()).sqrt() as u32, table.worker() - 1);
    (few..=last).for_each(|vertex| table.asks_edge(vertex, last - vertex % few, vertex / few % few));
}

/// Each asks for the edge from the chain's last vertex.
fn chain_one_source(table: &mut Table) {
    let order: Vec<u32> = (0..table.worker()).collect();
    table.edges(along(&order));
    let last = table.worker() - 1;
    (1..=last).for_each(|vertex| table.asks_edge(vertex, last, vertex));
}

/// On half of the vertices edges to later ones, twice as many, and the other half asks for edges between two that a way leads back between.
fn random_dag(table: &mut Table) {
    random_graph(table, |one, other| (one.min(other), one.max(other)));
}

/// The same with edges to and fro, so that most vertices are on many cycles.
fn random_cycles(table: &mut Table) {
    random_graph(table, |one, other| (one, other));
}

fn random_graph(table: &mut Table, ends: fn(u32, u32) -> (u32, u32)) {
    let draw = &mut Draw::new(2);
    let half = table.made() / 2;
    let mut held = BTreeSet::new();
    while table.held() < table.most_edges {
        let (source, target) = ends(draw.below(half), draw.below(half));
        if source != target && held.insert((source, target)) {
            table.edge(source, target);
        }
    }
    let mut targets = vec![Vec::new(); half as usize];
    held.iter().for_each(|&(source, target)| targets[source as usize].push(target));
    for vertex in half..table.worker() {
        let (source, target) = loop {
            let target = draw.below(half);
            let mut source = target;
            for _ in 0..draw.between(2, half) {
                match targets[source as usize].as_slice() {
                    [] => break,
                    next => source = draw.pick(next),
                }
            }
            if source != target && !held.contains(&(source, target)) {
                break (source, target);
            }
        };
        table.asks_edge(vertex, source, target);
    }
}

/// One cycle through all, and each asks for an edge onto itself from across it.
fn one_cycle(table: &mut Table) {
    let all = table.worker();
    table.edges((0..all).map(|vertex| (vertex, (vertex + 1) % all)));
    (1..all).for_each(|vertex| table.asks_edge(vertex, (vertex + all / 2) % all, vertex));
}

/// Half of the vertices on a chain that leads both ways; half of these and all others ask for edges between two that are far apart.
fn both_ways(table: &mut Table) {
    let half = table.most_edges / 2;
    table.edges((1..half).flat_map(|vertex| [(vertex - 1, vertex), (vertex, vertex - 1)]));
    for vertex in half / 2..table.worker() {
        table.asks_edge(vertex, vertex % (half / 4), half / 4 + vertex * 7 % (half / 4));
    }
}

/// Vertex 1 has half of the edges out of it and vertex 2 half of those into it; all others ask for the edge from 1 to 2, and a way leads
/// back.
fn star(table: &mut Table) {
    table.edges([(2, 0), (0, 1)]);
    let most = table.most_edges - 2;
    table.edges((3..3 + most / 2).map(|vertex| (1, vertex)));
    table.edges((0..most / 2).map(|row| (3 + row, 2)));
    (3..table.worker()).for_each(|vertex| table.asks_edge(vertex, 1, 2));
}

/// As many sources with edges out as each has, about, and as many targets with edges in; all others ask for an edge from one of the sources
/// to one of the targets.
fn stars(table: &mut Table) {
    let few = f64::from(table.most_edges / 4).sqrt() as u32;
    let (source, target) = (|at: u32| 1 + at % few, |at: u32| 1 + few + at % few);
    let first = 1 + 2 * few;
    table.edges((0..few).flat_map(|at| [(target(at), 0), (0, source(at))]));
    let others = table.worker() - first;
    for row in 0..(table.most_edges - table.held()) / 2 {
        table.edge(source(row), first + row % others);
        table.edge(first + (row + others / 2) % others, target(row));
    }
    (first..table.worker()).for_each(|vertex| table.asks_edge(vertex, source(vertex), target(vertex / few)));
}

/// All but the last on a chain, which ends in a new vertex that each would hand its edges on to.
fn transfers(table: &mut Table) {
    let order: Vec<u32> = (0..table.worker()).collect();
    table.edges(along(&order));
    let last = table.worker() - 1;
    (1..last).for_each(|vertex| table.asks_transfer(vertex, last));
}

/// Half of the vertices on a chain, with an edge from each to a new vertex of its own; each would hand its edges on to that of another,
/// farther on the chain.
fn transfers_on_a_comb(table: &mut Table) {
    let half = table.worker() / 2;
    table.edges((0..half).flat_map(|vertex| [(vertex, vertex + 1), (vertex, half + vertex)]).filter(|&(_, target)| target != half));
    table.edges([(0, half)]);
    (1..half).for_each(|vertex| table.asks_transfer(vertex, half + (half - 1 + vertex) / 2));
}

/// A chain that fills the edge table; each asks for an edge onto itself from farther ahead, which would close nothing.
fn no_edge_row(table: &mut Table) {
    let order: Vec<u32> = (0..table.worker()).collect();
    table.edges(along(&order));
    (3..table.worker()).for_each(|vertex| table.asks_edge(vertex, 1 + (vertex - 2) / 2, vertex));
    table.state.edges.truncate(EDGE_WORDS * table.held() as usize);
}

fn no_edge_row_shuffled(table: &mut Table) {
    let draw = &mut Draw::new(3);
    let order = shuffled(draw, (0..table.worker()).collect());
    table.edges(shuffled(draw, along(&order)));
    (3..order.len()).for_each(|at| table.asks_edge(order[at], order[1 + (at - 2) / 2], order[at]));
    table.state.edges.truncate(EDGE_WORDS * table.held() as usize);
}

fn no_vertex_row(table: &mut Table) {
    (1..table.worker()).for_each(|vertex| table.executes(vertex, ASYNC_AT, 0, 0, [0; 3]));
}

/// The futures of a program for a table of so many rows: as many as load, with the asyncs and rounded down.
fn futures(size: u32) -> u32 {
    size / 2 - SPARE_ROWS / 2
}

/// These futures, and the force of the farthest.
fn force_head(size: u32) -> Vec<u8> {
    let mut head = programs::far_force(futures(size), futures(size) - 1);
    head.pop();
    head
}

/// All are at the newEdge of the force, onto the vertex that is told; future words lead from each vertex to the next in this order.
fn forces(table: &mut Table, order: &[u32], onto: fn(vertex: u32, next: u32) -> u32) {
    // Behind the futures, which have two bytes each.
    let force_at = 2 * futures(table.busy.len() as u32);
    for (at, &vertex) in order.iter().enumerate() {
        let next = order[(at + 1) % order.len()];
        table.executes(vertex, force_at, 1, 0, [onto(vertex, next), 0, 0]);
        table.row(vertex)[FUTURE] = next;
    }
}

/// Words on a cycle; the edges would lead onto vertices that execute.
fn forces_onto_executing(table: &mut Table) {
    let order = shuffled(&mut Draw::new(4), (1..table.worker()).collect());
    forces(table, &order, |_, next| next);
}

/// Words on a chain that ends; where they lead to a future, the edge would lead onto a vertex that executes.
fn forces_to_the_end(table: &mut Table) {
    let order: Vec<u32> = (1..table.worker()).collect();
    forces(table, &order, |_, next| next);
    table.row(order[order.len() - 1])[FUTURE] = 0;
}

/// Words on a cycle; the edges would lead onto the vertices that ask for them, and close a cycle.
fn forces_that_close(table: &mut Table) {
    let order: Vec<u32> = (1..table.worker()).collect();
    table.edges(along(&order));
    table.edge(order[order.len() - 1], order[0]);
    forces(table, &order, |vertex, _| vertex);
}

fn releases(table: &mut Table) {
    let last = table.worker();
    (1..last).for_each(|vertex| table.asks_release(vertex, 1 + vertex % (last - 1)));
}

/// Places behind the program, and phases that an async does not have.
fn nothing_starts(table: &mut Table) {
    let behind = table.program.len() as u32;
    for vertex in 1..table.worker() {
        let (place, phase) = if vertex % 2 == 0 { (behind + vertex, 0) } else { (ASYNC_AT, 3) };
        table.executes(vertex, place, phase, 0, [0; 3]);
    }
}

/// Half of the vertices, to the last, on a chain, which each but the last would close by an edge from a new vertex of its own, as long as
/// the next on the chain has not stopped. So each stop opens one more vertex, which releases its new one and stops.
fn dominoes(table: &mut Table) {
    let half = (table.made() - 2) / 2;
    for at in 0..half {
        let (new, vertex) = (1 + at, 1 + half + at);
        table.edges([(vertex, vertex + 1), (vertex + 1, new)]);
        table.asks_edge(vertex, new, vertex);
    }
}

/// Refusals that take no search, in turn; vertex 1 is new and has an edge out.
fn refused_at_once(table: &mut Table) {
    let (behind, made) = (table.program.len() as u32, table.made());
    table.edges((2..table.worker()).map(|vertex| (1, vertex)));
    for vertex in 2..table.worker() {
        match vertex % 6 {
            0 => table.asks_release(vertex, vertex),
            1 => table.executes(vertex, behind, 0, 0, [0; 3]),
            2 => table.asks_edge(vertex, 0, if vertex == 2 { 3 } else { vertex - 1 }),
            3 => table.asks_transfer(vertex, vertex - 1),
            4 => table.asks_transfer(vertex, 1),
            _ => table.asks_edge(vertex, made + SPARE_ROWS * 2, 0),
        }
    }
}

struct Shape {
    name: &'static str,
    set: fn(&mut Table),
    /// The numbers with which the vertices that ask are refused.
    refused: &'static [u32],
    forces: bool,
    /// Whether it can leave rows for asyncs.
    rows_left: bool,
}

/// Also with marks, and where no vertex can step.
const CHAIN: Shape = shape("a chain", chain, &[35]);
/// Only where the one vertex stops.
const DOMINOES: Shape = shape("dominoes", dominoes, &[35]);

const SHAPES: [Shape; 24] = [
    CHAIN,
    shape("a chain, far ends", chain_far_ends, &[35]),
    shape("a chain, rows backwards", chain_rows_backwards, &[35]),
    shape("a chain, numbers backwards", chain_numbers_backwards, &[35]),
    shape("a chain, shuffled", chain_shuffled, &[35]),
    shape("a chain, one source", chain_one_source, &[35]),
    shape("two of each degree", random_dag, &[35]),
    shape("cycles", random_cycles, &[35]),
    shape("one cycle", one_cycle, &[35]),
    shape("a chain both ways", both_ways, &[35]),
    shape("a star", star, &[35]),
    shape("stars", stars, &[35]),
    shape("transfers", transfers, &[35]),
    shape("transfers on a comb", transfers_on_a_comb, &[35]),
    Shape { rows_left: false, ..shape("no edge row left", no_edge_row, &[32]) },
    Shape { rows_left: false, ..shape("no edge row left, shuffled", no_edge_row_shuffled, &[32]) },
    Shape { rows_left: false, ..shape("no vertex row left", no_vertex_row, &[31]) },
    Shape { forces: true, ..shape("forces onto executing", forces_onto_executing, &[33]) },
    Shape { forces: true, ..shape("forces to the end", forces_to_the_end, &[13, 33]) },
    Shape { forces: true, ..shape("forces that close", forces_that_close, &[35]) },
    shape("released before", releases, &[36]),
    shape("nothing starts", nothing_starts, &[13]),
    shape("refused at once", refused_at_once, &[13, 20, 33, 36, 37, 38]),
    shape("nothing refused", |_| {}, &[]),
];

const fn shape(name: &'static str, set: fn(&mut Table), refused: &'static [u32]) -> Shape {
    Shape { name, set, refused, forces: false, rows_left: true }
}

impl Shape {
    fn table(&self, size: u32, work: Work) -> Table {
        let head = if self.forces { force_head(size) } else { HEAD.to_vec() };
        let mut table = Table::new(size, &head, work);
        (self.set)(&mut table);
        self.check(&table);
        table
    }

    /// The vertices that ask are refused with the shape's numbers, and each of these occurs.
    fn check(&self, table: &Table) {
        let State { vertices, edges, tally: Tally { made, held, steps } } = &mut table.state.clone();
        let tally = &mut paper::Tally { made: *made, held: *held, steps: *steps };
        let mut numbers = BTreeSet::new();
        for vertex in (0..table.worker()).filter(|&vertex| table.state.vertices[VERTEX_WORDS * vertex as usize + STATUS] != VERTEX_NEW) {
            match paper::step(&table.program, vertices, edges, tally, paper::Edition::First, vertex) {
                paper::Answer::Refused { number, .. } => numbers.insert(number),
                other => panic!("{}: vertex {vertex} says {other:?}", self.name),
            };
        }
        assert!(numbers.iter().eq(self.refused), "{}: refused with {numbers:?}", self.name);
    }
}

/// A call on a table, which takes so many steps.
struct Case {
    table: Table,
    call: Call,
    taken: u32,
}

impl Case {
    fn run(table: Table, budget: u32, taken: u32) -> Case {
        Case { table, call: Call::Run(budget), taken }
    }

    fn dispatch(table: Table, budget: u32, taken: u32) -> Case {
        Case { table, call: Call::Dispatch { budget, words: 64 * JOB_WORDS as u32 }, taken }
    }

    /// Engine and `paper` answer the same, and leave the same.
    fn compare(&self) {
        let mut pair = Pair::new(self.table.program.clone(), Edition::First, self.table.state.clone());
        pair.set_busy(self.table.busy.clone());
        match pair.call(self.call) {
            Ok(Said::Run(run)) => assert_eq!(run.taken, self.taken),
            Ok(Said::Dispatch(dispatch)) => assert_eq!(dispatch.taken, self.taken),
            Ok(said) => panic!("{said:?}"),
            Err(difference) => panic!("engine and paper differ: {}", difference.0),
        }
    }

    /// Nanoseconds of one call per step, or of the call where it takes none. Before it the tables are put as at first, which is not timed.
    fn time<S: Side>(&self, side: &mut S) -> f64 {
        side.put(&self.table.state, &self.table.busy);
        let side = black_box(side);
        let begun = Instant::now();
        let taken = match self.call {
            Call::Run(budget) => side.run_some(&self.table.program, Edition::First, budget),
            Call::Dispatch { budget, .. } => side.dispatch_some(&self.table.program, Edition::First, budget),
            _ => unreachable!("a run or a dispatch"),
        };
        let time = begun.elapsed().as_nanos() as f64;
        assert_eq!(taken, self.taken);
        time / f64::from(taken.max(1))
    }
}

fn median(mut times: Vec<f64>) -> f64 {
    times.sort_by(f64::total_cmp);
    times[times.len() / 2]
}

/// The medians of a case in both sizes, which are tried in turn until so long has passed.
fn medians<S: Side>(cases: &[Case; 2], round: Duration, [least, most]: [usize; 2]) -> [f64; 2] {
    let mut sides = [S::new(), S::new()];
    let mut times = [Vec::new(), Vec::new()];
    let begun = Instant::now();
    while times[0].len() < least || times[0].len() < most && begun.elapsed() < round {
        for ((case, side), times) in cases.iter().zip(&mut sides).zip(&mut times) {
            times.push(case.time(side));
        }
    }
    times.map(median)
}

/// What "linear" is measured by: a newEdge that would close a chain through all vertices, as the engine does it by a single command.
fn one_search(size: u32) -> f64 {
    let mut side: Engine = bare(size);
    (1..size).for_each(|vertex| side.command(Do::Edge(vertex - 1, vertex)).unwrap());
    let one = |_| {
        let begun = Instant::now();
        assert_eq!(side.command(Do::Edge(size - 1, 1)), Err(35));
        begun.elapsed().as_nanos() as f64
    };
    median((0..1001).map(one).collect())
}

/// Prints the lines, and keeps the worst of them.
struct Report {
    search: f64,
    growth: (f64, String),
    time: (f64, String),
}

impl Report {
    fn line(&mut self, name: &str, call: &str, case: impl Fn(u32) -> Case) {
        let cases = SIZES.map(case);
        cases.iter().for_each(Case::compare);
        let [a, b] = medians::<Engine>(&cases, ROUND, TRIES);
        let [c, d] = medians::<Paper>(&cases, PAPER_ROUND, [1, TRIES[1]]);
        let growth = b / a;
        print!("| {name:<26} | {call:<23} | {a:>11.0} | {b:>8.0} | {growth:>6.2} | {:>8.1} |", b / self.search);
        println!(" {c:>10.0} | {d:>9.0} | {:>6.2} |", d / c);
        for (worst, value) in [(&mut self.growth, growth), (&mut self.time, b)] {
            if value > worst.0 {
                *worst = (value, format!("{name}, {call}"));
            }
        }
    }
}

fn main() -> ExitCode {
    let searches = SIZES.map(one_search);
    println!(
        "Runs and dispatches on altered tables of 512 and of 1,024 vertices, all but one of which are refused: nanoseconds per step, medians.\n\
         A newEdge that searches a chain through all vertices, as a single command, takes the engine {:.0} and {:.0}; \"searches\" is how many\n\
         of the latter a step with 1,024 vertices takes as long as.\n",
        searches[0], searches[1]
    );
    println!(
        "| table                      | call                    | engine: 512 |    1,024 | growth | searches | paper: 512 |     1,024 | growth |"
    );
    println!(
        "|:---------------------------|:------------------------|------------:|---------:|-------:|---------:|-----------:|----------:|-------:|"
    );
    let mut report = Report { search: searches[1], growth: (0.0, String::new()), time: (0.0, String::new()) };
    for shape in &SHAPES {
        report.line(shape.name, "run of 1 step", |size| Case::run(shape.table(size, Work::Jobs), 1, 1));
        report.line(shape.name, "run of 100 jobs", |size| Case::run(shape.table(size, Work::Jobs), STEPS, STEPS));
        if shape.rows_left {
            report.line(shape.name, "run of 100, asyncs", |size| Case::run(shape.table(size, Work::Asyncs), STEPS, STEPS));
        }
        report.line(shape.name, "dispatch of 1 step", |size| Case::dispatch(shape.table(size, Work::Jobs), 1, 1));
    }
    for budget in [1, STEPS] {
        let steps = if budget == 1 { "1 step" } else { "100 steps" };
        report.line(DOMINOES.name, &format!("run of {steps}"), |size| Case::run(DOMINOES.table(size, Work::Nothing), budget, budget));
        report.line(DOMINOES.name, &format!("dispatch of {steps}"), |size| {
            Case::dispatch(DOMINOES.table(size, Work::Nothing), budget, budget)
        });
    }
    // All vertices but so many of the last are busy, and the one with work may be able to step or not.
    let busy = |size, free: u32, able: bool| {
        let mut table = CHAIN.table(size, Work::Jobs);
        let worker = table.worker();
        table.busy[..(size - free) as usize].fill(1);
        if !able {
            table.row(worker)[STATUS] = VERTEX_NEW;
        }
        table
    };
    report.line("a chain, all but one busy", "dispatch of 1 step", |size| Case::dispatch(busy(size, 1, true), 1, 1));
    report.line("a chain, all busy", "dispatch that waits", |size| Case::dispatch(busy(size, 0, true), 1, 0));
    report.line("a chain, all busy", "dispatch that is stuck", |size| Case::dispatch(busy(size, 0, false), 1, 0));
    report.line("a chain, all refused", "run that is stuck", |size| Case::run(busy(size, 0, false), 1, 0));

    let mut passed = true;
    let ((growth, grew), (time, took)) = (report.growth, report.time);
    if growth > MOST_GROWTH {
        eprintln!("\nA step with 1,024 vertices takes {growth:.2} times as long as one with 512 ({grew}); {MOST_GROWTH} is the most.");
        passed = false;
    }
    if time > MOST_TIME {
        eprintln!("\nA step with 1,024 vertices takes {time:.0} nanoseconds ({took}); {MOST_TIME:.0} is the most.");
        passed = false;
    }
    if passed {
        ExitCode::SUCCESS
    } else {
        ExitCode::FAILURE
    }
}
