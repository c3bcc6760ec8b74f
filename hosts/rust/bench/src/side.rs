//! The two sides of the benchmark behind the same few calls, each with tables of 1,024 rows of its own.

use std::hint::black_box;

use compare::pair::State;
use keshtiwol::{
    Edition, EDGE_TABLE, EDGE_WORDS, IN_COUNT, JOB_WORDS, ROWS, SOURCE, STATUS, STEP_LIMIT, TARGET, VERTEX_EXECUTING, VERTEX_RELEASED,
    VERTEX_TABLE, VERTEX_WORDS,
};

/// A bare machine's command, as far as the benchmark needs them.
#[derive(Clone, Copy)]
pub enum Do {
    Start(u32),
    New,
    Edge(u32, u32),
    Release(u32),
    Stop(u32),
}

pub trait Side {
    fn new() -> Self;
    fn load(&mut self, program: &[u8], edition: Edition);
    /// A step, or its refusal's number.
    fn step(&mut self, program: &[u8], edition: Edition, vertex: u32) -> Result<(), u32>;
    /// Runs to the end and tells the steps taken.
    fn run(&mut self, program: &[u8], edition: Edition) -> u32;
    /// Puts tables, tally and marks into this state.
    fn put(&mut self, state: &State, busy: &[u32]);
    /// A run of so many steps at most; tells the steps taken.
    fn run_some(&mut self, program: &[u8], edition: Edition, budget: u32) -> u32;
    /// One dispatch of so many steps at most, with the marks as they are; tells the steps taken.
    fn dispatch_some(&mut self, program: &[u8], edition: Edition, budget: u32) -> u32;
    /// Has a loaded program's jobs handed out, with a list of so many, to the end, and tells how many there were. Each has ended at the next call.
    fn dispatch(&mut self, program: &[u8], edition: Edition, list: usize) -> u32;
    /// The lowest vertex that can step.
    fn lowest(&self, program: &[u8], edition: Edition) -> Option<u32>;
    fn open(&mut self);
    /// A command by vertex 0, or its refusal's number.
    fn command(&mut self, what: Do) -> Result<(), u32>;
    /// The chain from target back to source, as it stands in the list.
    fn chain(&mut self, source: u32, target: u32) -> &[u32];
    fn edges(&self) -> &[u32];
    /// Undoes a stop of vertex 0: its status, the edges and their number, and the in-counts of those that it dropped.
    fn unstop(&mut self, edges: &[u32], held: u32);
    /// Undoes a start: the vertex's status and the steps.
    fn unstart(&mut self, vertex: u32);
}

/// Both crates have the same shapes, so one text serves for both.
macro_rules! side {
    ($name:ident, $made_by:ident) => {
        pub struct $name {
            vertices: Vec<u32>,
            edges: Vec<u32>,
            busy: Vec<u32>,
            list: Vec<u32>,
            tally: $made_by::Tally,
        }

        impl $name {
            fn edition(edition: Edition) -> $made_by::Edition {
                match edition {
                    Edition::First => $made_by::Edition::First,
                    Edition::Second => $made_by::Edition::Second,
                }
            }
        }

        impl Side for $name {
            fn new() -> Self {
                $name {
                    vertices: vec![0; VERTEX_TABLE],
                    edges: vec![0; EDGE_TABLE],
                    busy: vec![0; ROWS],
                    list: vec![0; ROWS],
                    tally: Default::default(),
                }
            }

            fn load(&mut self, program: &[u8], edition: Edition) {
                let edition = Self::edition(edition);
                black_box($made_by::load(black_box(program), &mut self.vertices, &mut self.edges, &mut self.tally, edition));
            }

            fn step(&mut self, program: &[u8], edition: Edition, vertex: u32) -> Result<(), u32> {
                let edition = Self::edition(edition);
                let answer = $made_by::step(program, &mut self.vertices, &mut self.edges, &mut self.tally, edition, black_box(vertex));
                match black_box(answer) {
                    $made_by::Answer::Refused { number, .. } => Err(number),
                    _ => Ok(()),
                }
            }

            fn run(&mut self, program: &[u8], edition: Edition) -> u32 {
                let edition = Self::edition(edition);
                let run = $made_by::run(program, &mut self.vertices, &mut self.edges, &mut self.tally, edition, black_box(STEP_LIMIT));
                assert_eq!(run.ending, $made_by::Ending::Done);
                run.taken
            }

            fn put(&mut self, state: &State, busy: &[u32]) {
                self.vertices.clone_from(&state.vertices);
                self.edges.clone_from(&state.edges);
                self.busy.clear();
                self.busy.extend_from_slice(busy);
                let keshtiwol::Tally { made, held, steps } = state.tally;
                self.tally = $made_by::Tally { made, held, steps };
            }

            fn run_some(&mut self, program: &[u8], edition: Edition, budget: u32) -> u32 {
                let (edition, budget) = (Self::edition(edition), black_box(budget));
                black_box($made_by::run(program, &mut self.vertices, &mut self.edges, &mut self.tally, edition, budget)).taken
            }

            fn dispatch_some(&mut self, program: &[u8], edition: Edition, budget: u32) -> u32 {
                let (edition, budget) = (Self::edition(edition), black_box(budget));
                let (vertices, edges, tally) = (&mut self.vertices, &mut self.edges, &mut self.tally);
                black_box($made_by::dispatch(program, vertices, edges, tally, edition, budget, &mut self.busy, &mut self.list)).taken
            }

            fn dispatch(&mut self, program: &[u8], edition: Edition, list: usize) -> u32 {
                let edition = Self::edition(edition);
                let mut jobs = 0;
                loop {
                    let list = &mut self.list[..JOB_WORDS * list];
                    let budget = black_box(STEP_LIMIT);
                    let (vertices, edges, tally) = (&mut self.vertices, &mut self.edges, &mut self.tally);
                    let done = $made_by::dispatch(program, vertices, edges, tally, edition, budget, &mut self.busy, list);
                    for row in list.chunks_exact(JOB_WORDS).take(done.handed as usize) {
                        self.busy[row[0] as usize] = 0;
                    }
                    jobs += done.handed;
                    match done.ending {
                        $made_by::DispatchEnding::Done => return jobs,
                        $made_by::DispatchEnding::Full | $made_by::DispatchEnding::Waiting => {}
                        other => panic!("{other:?}"),
                    }
                }
            }

            fn lowest(&self, program: &[u8], edition: Edition) -> Option<u32> {
                match $made_by::lowest(program, &self.vertices, &self.edges, &self.tally, Self::edition(edition)) {
                    $made_by::Lowest::Vertex(vertex) => Some(vertex),
                    _ => None,
                }
            }

            fn open(&mut self) {
                $made_by::open(&mut self.vertices, &mut self.edges, &mut self.tally);
            }

            fn command(&mut self, what: Do) -> Result<(), u32> {
                let command = match black_box(what) {
                    Do::Start(vertex) => $made_by::Command::Start { vertex },
                    Do::New => $made_by::Command::NewTd { caller: 0, place: 0, scope: 0 },
                    Do::Edge(source, target) => $made_by::Command::NewEdge { caller: 0, source, target },
                    Do::Release(vertex) => $made_by::Command::Release { caller: 0, vertex },
                    Do::Stop(caller) => $made_by::Command::Stop { caller },
                };
                match black_box($made_by::command(&mut self.vertices, &mut self.edges, &mut self.tally, command)) {
                    $made_by::Answer::Refused { number, .. } => Err(number),
                    _ => Ok(()),
                }
            }

            fn chain(&mut self, source: u32, target: u32) -> &[u32] {
                let source = black_box(source);
                match black_box($made_by::chain(&self.vertices, &self.edges, &self.tally, source, target, &mut self.list)) {
                    $made_by::Chain::Written(vertices) => &self.list[..vertices as usize],
                    $made_by::Chain::Refused { number, .. } => panic!("a chain from {target} to {source} was refused: {number}"),
                }
            }

            fn edges(&self) -> &[u32] {
                &self.edges
            }

            fn unstop(&mut self, edges: &[u32], held: u32) {
                self.vertices[STATUS] = VERTEX_EXECUTING;
                self.edges.copy_from_slice(black_box(edges));
                self.tally.held = held;
                for row in edges.chunks(EDGE_WORDS).take(held as usize).filter(|row| row[SOURCE] == 0) {
                    self.vertices[VERTEX_WORDS * row[TARGET] as usize + IN_COUNT] += 1;
                }
            }

            fn unstart(&mut self, vertex: u32) {
                self.vertices[VERTEX_WORDS * vertex as usize + STATUS] = VERTEX_RELEASED;
                self.tally.steps = 0;
            }
        }
    };
}

side!(Engine, keshtiwol);
side!(Paper, paper);
