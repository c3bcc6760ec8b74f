//! The task-graph machine of docs/ENGINE.md, written from the customer's paper and notes, which it quotes, and not from the engine.
//!
//! Every function works on lent tables of 32-bit words of any length and content and never panics.
//! A refused call changes nothing. Only [`ahead`] has no tables: it tells by the bytes which job comes ahead of which.
#![forbid(unsafe_code)]

pub mod ahead;

mod chain;
mod graph;
mod read;
mod steps;
#[cfg(test)]
mod tests;

use graph::{row, Tables, View, IN_COUNT, RELEASED, STATUS};
use read::read;
use steps::{Book, Seek};

/// "The tally is lent by the caller": vertices made, edges held, steps.
#[derive(Clone, Copy, PartialEq, Eq, Debug, Default)]
pub struct Tally {
    pub made: u32,
    pub held: u32,
    pub steps: u32,
}

/// "V and the commands of a fork are counted by the edition"; all else is shared.
#[derive(Clone, Copy, PartialEq, Eq, Debug)]
pub enum Edition {
    First,
    /// "In the new edition a fork is newTd t1, newTd t2, newEdge of each to the forking vertex, release t1, release t2, yield".
    Second,
}

/// What a call answers: one of the seven things an accepted step says, or yield, which "an accepted
/// step may then also say"; `Ready` for an accepted opening or loading; or the refusal.
#[derive(Clone, Copy, PartialEq, Eq, Debug)]
pub enum Answer {
    Ready,
    Start,
    New(u32),
    Edge(u32, u32),
    Release(u32),
    Transfer(u32),
    Job { number: u32, offset: u32 },
    Stop,
    Yield,
    Refused { number: u32, place: u32 },
}

/// "A run answers done, stuck or spent", or is refused (12 only).
#[derive(Clone, Copy, PartialEq, Eq, Debug)]
pub enum Ending {
    Done,
    Stuck,
    Spent,
    Refused { number: u32, place: u32 },
}

/// "with the last accepted step and the steps taken, or 'none' and 0".
#[derive(Clone, Copy, PartialEq, Eq, Debug)]
pub struct Run {
    pub ending: Ending,
    pub last: Option<Answer>,
    pub taken: u32,
}

/// How a dispatch ends: "the list is full, only busy vertices could step (waiting), all are finished (done), none can step (stuck) or the
/// budget is used (spent)"; or it is refused (12 and 44).
#[derive(Clone, Copy, PartialEq, Eq, Debug)]
pub enum DispatchEnding {
    Done,
    Stuck,
    Waiting,
    Full,
    Spent,
    Refused { number: u32, place: u32 },
}

/// What a dispatch answers: its ending, the steps taken, and how many jobs it wrote into the list.
#[derive(Clone, Copy, PartialEq, Eq, Debug)]
pub struct Dispatch {
    pub ending: DispatchEnding,
    pub taken: u32,
    pub handed: u32,
}

/// The commands: those of the slides, and yield.
#[derive(Clone, Copy, PartialEq, Eq, Debug)]
pub enum Command {
    NewTd { caller: u32, place: u32, scope: u32 },
    NewEdge { caller: u32, source: u32, target: u32 },
    Release { caller: u32, vertex: u32 },
    Transfer { caller: u32, vertex: u32 },
    Start { vertex: u32 },
    Stop { caller: u32 },
    Yield { caller: u32 },
}

/// The lowest vertex whose step would be accepted.
#[derive(Clone, Copy, PartialEq, Eq, Debug)]
pub enum Lowest {
    Vertex(u32),
    NoVertex,
    Refused { number: u32, place: u32 },
}

/// "answer how many vertices it has", or the refusal.
#[derive(Clone, Copy, PartialEq, Eq, Debug)]
pub enum Chain {
    Written(u32),
    Refused { number: u32, place: u32 },
}

/// A refusal whose place is 0: all but 2 to 7 and 43.
fn refused(number: u32) -> Answer {
    Answer::Refused { number, place: 0 }
}

/// "Opening the bare machine clears the used rows and tally and makes vertex 0, released, other
/// words 0."
pub fn open(vertices: &mut [u32], edges: &mut [u32], tally: &mut Tally) -> Answer {
    let mut tables = Tables::new(vertices, edges, tally);
    // "10 fewer than V vertex rows (bare machine: none)"
    if tables.rows.is_empty() {
        return refused(10);
    }
    tables.clear();
    tables.rows[0][STATUS] = RELEASED;
    tables.tally.made = 1;
    Answer::Ready
}

/// One single command, called from outside. "Single commands change its first two numbers only." 12 comes first; for start it "looks at
/// the tally and that vertex's row only".
pub fn command(vertices: &mut [u32], edges: &mut [u32], tally: &mut Tally, command: Command) -> Answer {
    let mut tables = Tables::new(vertices, edges, tally);
    let view = tables.view();
    let sound = match command {
        Command::Start { .. } => view.tally_fits(),
        _ => view.sound(),
    };
    if !sound {
        return refused(12);
    }
    match view.check(command) {
        Ok(act) => tables.apply(act),
        Err(number) => refused(number),
    }
}

/// "Loading clears the used rows and the tally, then sets vertex 0 (released, place 0, scope 1),
/// vertex 1 (released, place of the last byte, scope 1) and the edge 0 to 1." So one edge leads into vertex 1.
pub fn load(program: &[u8], vertices: &mut [u32], edges: &mut [u32], tally: &mut Tally, edition: Edition) -> Answer {
    // Order: "1; the first of 2 to 7 by place [...]; 8; 10; 11"; 43 stands "by place among 2 to 7".
    let counts = match read(program, edition, |_, _| ()) {
        Ok(counts) => counts,
        Err((number, place)) => return Answer::Refused { number, place },
    };
    let mut tables = Tables::new(vertices, edges, tally);
    if tables.rows.len() < counts.vertices(edition) as usize {
        return refused(10);
    }
    if tables.edges.len() < counts.edge_rows() as usize {
        return refused(11);
    }
    tables.clear();
    // V is at least 2 and the edge rows needed at least 1; a program that reads has a last byte.
    tables.rows[0] = row(RELEASED, 0, 1);
    tables.rows[1] = row(RELEASED, program.len() as u32 - 1, 1);
    tables.rows[1][IN_COUNT] = 1;
    tables.edges[0] = [0, 1];
    *tables.tally = Tally { made: 2, held: 1, steps: 0 };
    Answer::Ready
}

/// "A step names a vertex. A released one is started. An executing one does the next command of
/// the item at its place."
pub fn step(program: &[u8], vertices: &mut [u32], edges: &mut [u32], tally: &mut Tally, edition: Edition, vertex: u32) -> Answer {
    let mut tables = Tables::new(vertices, edges, tally);
    match tables.view().step_of(program, edition, vertex) {
        Ok(due) => tables.take(vertex, due),
        Err(number) => refused(number),
    }
}

/// "A run takes a budget of steps and steps the lowest vertex whose step would be accepted."
pub fn run(program: &[u8], vertices: &mut [u32], edges: &mut [u32], tally: &mut Tally, edition: Edition, budget: u32) -> Run {
    let mut tables = Tables::new(vertices, edges, tally);
    let mut run = Run { ending: Ending::Refused { number: 12, place: 0 }, last: None, taken: 0 };
    // Accepted steps keep the tables sound, so this is asked once.
    if !tables.view().sound_to_step() {
        return run;
    }
    let book = Book::new(program, edition);
    // "Before each step it looks: done if all vertices made are finished; stuck if no step would
    // be accepted; spent if the budget is used."
    loop {
        match tables.view().seek(&book, &[]) {
            Seek::Done => run.ending = Ending::Done,
            Seek::Stuck => run.ending = Ending::Stuck,
            Seek::Found(..) if run.taken == budget => run.ending = Ending::Spent,
            Seek::Found(vertex, due) => {
                run.last = Some(tables.take(vertex, due));
                run.taken += 1;
                continue;
            }
        }
        return run;
    }
}

/// "Dispatch steps the lowest vertex that can step and is not busy, again and again; where a step answers a job, it marks that vertex busy
/// in a lent table and writes vertex, number and offset into a lent list". In the table a word that is not 0 is a mark.
#[allow(clippy::too_many_arguments)]
pub fn dispatch(
    program: &[u8],
    vertices: &mut [u32],
    edges: &mut [u32],
    tally: &mut Tally,
    edition: Edition,
    budget: u32,
    busy: &mut [u32],
    jobs: &mut [u32],
) -> Dispatch {
    let mut tables = Tables::new(vertices, edges, tally);
    let refused = |number| DispatchEnding::Refused { number, place: 0 };
    let mut done = Dispatch { ending: refused(12), taken: 0, handed: 0 };
    if !tables.view().sound_to_step() {
        return done;
    }
    // 44: the table of marks has fewer words than the vertex table has usable rows.
    if busy.len() < tables.rows.len() {
        done.ending = refused(44);
        return done;
    }
    let book = Book::new(program, edition);
    let mut list = jobs.chunks_exact_mut(3).peekable();
    // Before each step it looks, as a run does; "only busy vertices could step" comes behind "none can step".
    loop {
        done.ending = match (tables.view().seek(&book, &[]), tables.view().seek(&book, busy)) {
            (Seek::Done, _) => DispatchEnding::Done,
            (Seek::Stuck, _) => DispatchEnding::Stuck,
            (_, Seek::Done | Seek::Stuck) => DispatchEnding::Waiting,
            _ if list.peek().is_none() => DispatchEnding::Full,
            _ if done.taken == budget => DispatchEnding::Spent,
            (_, Seek::Found(vertex, due)) => {
                if let Answer::Job { number, offset } = tables.take(vertex, due) {
                    busy[vertex as usize] = 1;
                    if let Some(row) = list.next() {
                        row.copy_from_slice(&[vertex, number, offset]);
                    }
                    done.handed += 1;
                }
                done.taken += 1;
                continue;
            }
        };
        return done;
    }
}

/// The lowest vertex whose step would be accepted; refused exactly where a run is.
pub fn lowest(program: &[u8], vertices: &[u32], edges: &[u32], tally: &Tally, edition: Edition) -> Lowest {
    let view = View::new(vertices, edges, tally);
    if !view.sound_to_step() {
        return Lowest::Refused { number: 12, place: 0 };
    }
    match view.seek(&Book::new(program, edition), &[]) {
        Seek::Found(vertex, _) => Lowest::Vertex(vertex),
        Seek::Done | Seek::Stuck => Lowest::NoVertex,
    }
}

/// "For a source and a target, write into a lent list the shortest chain of held edges that leads from target back to source".
/// "A vertex alone is the chain from itself to itself. Words past the chain are untouched".
pub fn chain(vertices: &[u32], edges: &[u32], tally: &Tally, source: u32, target: u32, list: &mut [u32]) -> Chain {
    let refused = |number| Chain::Refused { number, place: 0 };
    let view = View::new(vertices, edges, tally);
    if !view.sound() {
        return refused(12);
    }
    if source >= tally.made || target >= tally.made {
        return refused(20);
    }
    // "41 no chain, after 12 and 20; 42 list too short, after 41."
    let Some(way) = view.way_back(source, target) else {
        return refused(41);
    };
    let Some(words) = list.get_mut(..way.vertices()) else {
        return refused(42);
    };
    way.write(target, words);
    Chain::Written(words.len() as u32)
}
