//! Safe calls into the task-graph engine: which job of a program may start now.
//!
//! A program is bytes: numbered jobs with async, finish, fork, future and force. A job's number takes one to five bytes and reaches
//! 4,294,967,295, so that a retune job can carry its frequency in hertz. [`Machine`] owns all that the engine needs:
//!
//! ```
//! use keshtiwol::{Answer, Lowest, Machine};
//!
//! // fork { job 1 } { job 2 }, then job 3
//! let mut machine = Machine::load(&[4, 1, 1, 0, 1, 2, 0, 1, 3, 0])?;
//! let mut jobs = Vec::new();
//! while let Lowest::Vertex(vertex) = machine.lowest() {
//!     if let Answer::Job { number, .. } = machine.step(vertex) {
//!         jobs.push(number); // run it here
//!     }
//! }
//! assert_eq!(jobs, [1, 2, 3]);
//! assert_eq!(machine.tally().steps, 22);
//! # Ok::<(), keshtiwol::Refusal>(())
//! ```
//!
//! A host with threads has the engine hand out jobs, as many as may run beside one another, and says of each when it has ended:
//!
//! ```
//! use keshtiwol::{DispatchEnding, Machine, STEP_LIMIT};
//!
//! let mut machine = Machine::load(&[4, 1, 1, 0, 1, 2, 0, 1, 3, 0])?;
//! let branches = machine.dispatch(STEP_LIMIT, 8);
//! assert_eq!(branches.ending, DispatchEnding::Waiting); // nothing more can start before one of these has ended
//! assert_eq!(branches.jobs.iter().map(|job| job.number).collect::<Vec<_>>(), [1, 2]);
//! for job in branches.jobs {
//!     machine.ended(job.vertex); // run it, and then call this
//! }
//! assert_eq!(machine.dispatch(STEP_LIMIT, 8).jobs[0].number, 3);
//! # Ok::<(), keshtiwol::Refusal>(())
//! ```
//!
//! The example `receiver` does so on four threads, with the machine behind a lock.
//!
//! [`Machine::load`] loads in the first edition, [`Machine::load_in`] in either: the order of jobs is the same, but in the second
//! [`Edition`] a fork makes no third vertex.
//!
//! Hosts that lend their own tables use the functions: [`load`], [`step`], [`run`], [`dispatch`] and [`lowest`] for programs, [`open`] and
//! [`command`] for the bare machine, [`chain`] for both. Whatever slices they are handed, a call ends in an accepted step or in a numbered refusal that
//! changed nothing. The engine keeps nothing between calls, and different tables may be used from different threads at once.
//!
//! The engine itself is the archive `libkeshtiwol.a`, linked from the folder in `KESHTIWOL_LIB` (an absolute path) or else from the
//! repository's `crates/keshtiwol/out`, where `rt lib` in `crates/keshtiwol` leaves it.

mod machine;
mod raw;

pub mod refusal;

pub use machine::Machine;
pub use refusal::Refusal;

use std::fmt;

/// Words in a vertex row.
pub const VERTEX_WORDS: usize = 9;
/// Where in a vertex row its status stands: 1 new, 2 released, 3 executing, 4 finished.
pub const STATUS: usize = 0;
/// Where its place stands, a byte offset in the program.
pub const PLACE: usize = 1;
/// Where its scope stands, a vertex.
pub const SCOPE: usize = 2;
/// Where its phase stands: the commands already done of the item at its place.
pub const PHASE: usize = 3;
/// Where the three vertices that this item made begin, 0 where none.
pub const MADE: usize = 4;
/// Where the latest open future stands, 0 where none: the vertex that finishes when that future has ended, and whose own word names the next
/// future out.
pub const FUTURE: usize = 7;
/// Where the in-count stands, the number of edges held into the vertex. While only the engine writes the tables, a released vertex with 0
/// there can start, and no other can. It must not be altered: a start, and the step of a released vertex, believe it, and for 12 they look
/// at the tally and at that vertex's row only.
pub const IN_COUNT: usize = 8;

/// Words in an edge row.
pub const EDGE_WORDS: usize = 2;
/// Where in an edge row its source stands.
pub const SOURCE: usize = 0;
/// Where its target stands.
pub const TARGET: usize = 1;

/// Words in a row of the list into which a dispatch writes the jobs that it hands out.
pub const JOB_WORDS: usize = 3;
/// Where in such a row the job's vertex stands.
pub const JOB_VERTEX: usize = 0;
/// Where its number stands.
pub const JOB_NUMBER: usize = 1;
/// Where its offset stands.
pub const JOB_OFFSET: usize = 2;

/// The statuses of a vertex.
pub const VERTEX_NEW: u32 = 1;
pub const VERTEX_RELEASED: u32 = 2;
pub const VERTEX_EXECUTING: u32 = 3;
pub const VERTEX_FINISHED: u32 = 4;

/// The longest program.
pub const PROGRAM_BYTES: usize = 4096;
/// The rows of each table that the engine uses at most.
pub const ROWS: usize = 1024;
/// Words of a vertex table that is enough for every program.
pub const VERTEX_TABLE: usize = VERTEX_WORDS * ROWS;
/// Words of an edge table that is enough for every program.
pub const EDGE_TABLE: usize = EDGE_WORDS * ROWS;
/// Steps are refused, with 12, where so many were taken. No program needs as many.
pub const STEP_LIMIT: u32 = 8192;

/// How a fork is done. A program's bytes and the order of its jobs are the same in both editions. What is promised of a program as a whole
/// is for calls of one edition; a call of the other is answered all the same, by what the tables hold.
#[repr(u32)]
#[derive(Clone, Copy, Debug, Default, PartialEq, Eq, Hash)]
pub enum Edition {
    /// The forking vertex makes a vertex for each branch and a third that goes on behind the fork, and stops: 3 vertices, 15 steps.
    #[default]
    First = raw::FIRST_EDITION,
    /// It makes the two alone, with an edge from each onto itself, yields, and starts again when both have finished: 2 vertices, 12 steps.
    Second = raw::SECOND_EDITION,
}

/// Its number in the C interface, 1 or 2.
impl From<Edition> for u32 {
    fn from(edition: Edition) -> u32 {
        edition as u32
    }
}

/// Vertices made, edges held, steps taken. Loading and opening set it.
#[repr(C)]
#[derive(Clone, Copy, Debug, Default, PartialEq, Eq)]
pub struct Tally {
    pub made: u32,
    pub held: u32,
    pub steps: u32,
}

/// What a load, an opening, a step or a command says.
#[derive(Clone, Copy, Debug, PartialEq, Eq)]
pub enum Answer {
    /// The program is loaded, or the bare machine open.
    Ready,
    /// The vertex executes now.
    Start,
    /// The vertex made.
    New(u32),
    /// Source and target.
    Edge(u32, u32),
    /// The vertex released.
    Release(u32),
    /// The vertex that has the edges now.
    Transfer(u32),
    /// The host runs this job now, and does not step its vertex again before the job has ended. The offset tells jobs apart.
    Job { number: u32, offset: u32 },
    /// The vertex is finished.
    Stop,
    /// The vertex is released, and starts again by a step when no edge leads in.
    Yield,
    /// Nothing changed. For the numbers see [`refusal`]; the place is an offset in the program, or 0.
    Refused { number: u32, place: u32 },
}

/// How a run ended.
#[derive(Clone, Copy, Debug, PartialEq, Eq)]
pub enum Ending {
    /// All vertices made are finished.
    Done,
    /// No step would be accepted.
    Stuck,
    /// The budget is used.
    Spent,
    Refused {
        number: u32,
        place: u32,
    },
}

/// A run's ending, its last accepted step, and how many steps it took.
#[derive(Clone, Copy, Debug, PartialEq, Eq)]
pub struct Run {
    pub ending: Ending,
    pub last: Option<Answer>,
    pub taken: u32,
}

/// How a dispatch ended: the first of these that was so, looked at before each step.
#[derive(Clone, Copy, Debug, PartialEq, Eq)]
pub enum DispatchEnding {
    /// All vertices made are finished.
    Done,
    /// No step would be accepted.
    Stuck,
    /// Only busy vertices could step: nothing more can start before a running job has ended.
    Waiting,
    /// The list has no row left, and more can be stepped now.
    Full,
    /// The budget is used.
    Spent,
    Refused {
        number: u32,
        place: u32,
    },
}

/// A dispatch's ending, how many steps it took, and how many jobs it handed out.
#[derive(Clone, Copy, Debug, PartialEq, Eq)]
pub struct Dispatch {
    pub ending: DispatchEnding,
    pub taken: u32,
    pub handed: u32,
}

/// A job that was handed out. The host runs it once; its vertex is busy until the host says that the job has ended. The offset tells jobs
/// apart.
#[derive(Clone, Copy, Debug, PartialEq, Eq, Hash)]
pub struct Job {
    pub vertex: u32,
    pub number: u32,
    pub offset: u32,
}

/// A machine's dispatch: its ending, how many steps it took, and the jobs that it handed out.
#[derive(Clone, Debug, PartialEq, Eq)]
pub struct HandedOut {
    pub ending: DispatchEnding,
    pub taken: u32,
    pub jobs: Vec<Job>,
}

/// The lowest vertex that can step.
#[derive(Clone, Copy, Debug, PartialEq, Eq)]
pub enum Lowest {
    Vertex(u32),
    NoVertex,
    Refused { number: u32, place: u32 },
}

/// The shortest chain of held edges that leads from a target back to a source.
#[derive(Clone, Copy, Debug, PartialEq, Eq)]
pub enum Chain {
    /// It has so many vertices, and they begin the list: the target first, the source last.
    Written(u32),
    Refused {
        number: u32,
        place: u32,
    },
}

/// A single command of the dag-calculus. The caller must be executing.
#[derive(Clone, Copy, Debug, PartialEq, Eq)]
pub enum Command {
    /// Makes the next vertex, with the caller's latest open future.
    NewTd {
        caller: u32,
        place: u32,
        scope: u32,
    },
    /// Appends the edge. Its target is new, released or the caller itself. From a finished source, or held already, it is taken as well
    /// and changes nothing.
    NewEdge {
        caller: u32,
        source: u32,
        target: u32,
    },
    Release {
        caller: u32,
        vertex: u32,
    },
    /// Hands the caller's edges out to the vertex.
    Transfer {
        caller: u32,
        vertex: u32,
    },
    /// Starts a released vertex; it has no caller.
    Start {
        vertex: u32,
    },
    /// Finishes the caller, and drops its edges out; those into it stay held.
    Stop {
        caller: u32,
    },
    /// Turns the caller released: it can start again when no edge leads in.
    Yield {
        caller: u32,
    },
}

/// The version of the engine's archive: 10,000 times its first number, 100 times its second, and its third. This crate is for archives of
/// the same first number.
pub fn version() -> u32 {
    // SAFETY: it takes nothing.
    unsafe { raw::keshtiwol_version() }
}

/// Loads a program: clears the usable rows and the tally, and sets the first two vertices and the edge between them.
///
/// Here and below `edition` is an [`Edition`], or a number for one, of which those that no edition has are refused with 98.
pub fn load(program: &[u8], vertices: &mut [u32], edges: &mut [u32], tally: &mut Tally, edition: impl Into<u32>) -> Answer {
    let (mut no_vertex, mut no_edge) = ([0], [0]);
    let (vertices, edges) = (lend(vertices, &mut no_vertex), lend(edges, &mut no_edge));
    let (program, bytes) = (start(program, &[0]), program.len());
    // SAFETY: true lengths of memory that is borrowed for the whole call; `lend` tells why nothing is null or overlaps.
    answer(unsafe { raw::keshtiwol_load(program, bytes, vertices.0, vertices.1, edges.0, edges.1, tally, edition.into()) })
}

/// One step of a vertex: starts a released one; an executing one does the next command of the item at its place.
pub fn step(program: &[u8], vertices: &mut [u32], edges: &mut [u32], tally: &mut Tally, edition: impl Into<u32>, vertex: u32) -> Answer {
    let (mut no_vertex, mut no_edge) = ([0], [0]);
    let (vertices, edges) = (lend(vertices, &mut no_vertex), lend(edges, &mut no_edge));
    let (program, bytes) = (start(program, &[0]), program.len());
    // SAFETY: as in `load`.
    answer(unsafe { raw::keshtiwol_step(program, bytes, vertices.0, vertices.1, edges.0, edges.1, tally, edition.into(), vertex) })
}

/// Steps the lowest vertex that can step until all are finished, none can step or the budget is used. Jobs count as run where they
/// are named.
pub fn run(program: &[u8], vertices: &mut [u32], edges: &mut [u32], tally: &mut Tally, edition: impl Into<u32>, budget: u32) -> Run {
    let (mut no_vertex, mut no_edge) = ([0], [0]);
    let (vertices, edges) = (lend(vertices, &mut no_vertex), lend(edges, &mut no_edge));
    let (program, bytes) = (start(program, &[0]), program.len());
    // SAFETY: as in `load`.
    let reply = unsafe { raw::keshtiwol_run(program, bytes, vertices.0, vertices.1, edges.0, edges.1, tally, edition.into(), budget) };
    Run {
        ending: match reply.ending.said {
            raw::DONE => Ending::Done,
            raw::STUCK => Ending::Stuck,
            raw::SPENT => Ending::Spent,
            raw::REFUSED => Ending::Refused { number: reply.ending.first, place: reply.ending.second },
            _ => unknown("a run's ending", reply.ending),
        },
        last: match reply.last.said {
            raw::NONE => None,
            _ => Some(answer(reply.last)),
        },
        taken: reply.taken,
    }
}

/// For hosts that run jobs on threads: steps the lowest vertex that can step and is not busy, again and again, and hands out the jobs that
/// these steps name. `busy` has a word for each vertex, 0 where it is not busy, and at least as many words as there are usable vertex rows;
/// else this is refused with 44. `jobs` has any length, in rows of [`JOB_WORDS`]. Where a step names a job, its vertex is marked with 1, and
/// vertex, number and offset go into the list's next row; other words of both are not touched.
///
/// The host lends the same marks each time, all 0 after a loading; runs each job of the list once; sets its vertex's mark to 0 when the job
/// has ended, and not before; and calls again.
#[allow(clippy::too_many_arguments)]
pub fn dispatch(
    program: &[u8],
    vertices: &mut [u32],
    edges: &mut [u32],
    tally: &mut Tally,
    edition: impl Into<u32>,
    budget: u32,
    busy: &mut [u32],
    jobs: &mut [u32],
) -> Dispatch {
    let (mut no_vertex, mut no_edge, mut no_mark, mut no_job) = ([0], [0], [0], [0]);
    let (vertices, edges) = (lend(vertices, &mut no_vertex), lend(edges, &mut no_edge));
    let (busy, jobs) = (lend(busy, &mut no_mark), lend(jobs, &mut no_job));
    let (program, bytes, edition) = (start(program, &[0]), program.len(), edition.into());
    // SAFETY: as in `load`.
    let reply = unsafe {
        raw::keshtiwol_dispatch(
            program, bytes, vertices.0, vertices.1, edges.0, edges.1, tally, edition, budget, busy.0, busy.1, jobs.0, jobs.1,
        )
    };
    let ending = match reply.ending.said {
        raw::DONE => DispatchEnding::Done,
        raw::STUCK => DispatchEnding::Stuck,
        raw::WAITING => DispatchEnding::Waiting,
        raw::FULL => DispatchEnding::Full,
        raw::SPENT => DispatchEnding::Spent,
        raw::REFUSED => DispatchEnding::Refused { number: reply.ending.first, place: reply.ending.second },
        _ => unknown("a dispatch's ending", reply.ending),
    };
    Dispatch { ending, taken: reply.taken, handed: reply.handed }
}

/// The lowest vertex that can step.
pub fn lowest(program: &[u8], vertices: &[u32], edges: &[u32], tally: &Tally, edition: impl Into<u32>) -> Lowest {
    let (no_vertex, no_edge) = ([0], [0]);
    let (vertices, vertex_words) = (start(vertices, &no_vertex), vertices.len());
    let (edges, edge_words) = (start(edges, &no_edge), edges.len());
    let (program, bytes) = (start(program, &[0]), program.len());
    // SAFETY: as in `load`. Everything is shared, so it may overlap, and other threads may ask too, but the engine only reads it.
    let reply = unsafe { raw::keshtiwol_lowest(program, bytes, vertices, vertex_words, edges, edge_words, tally, edition.into()) };
    match reply.said {
        raw::VERTEX => Lowest::Vertex(reply.first),
        raw::NONE => Lowest::NoVertex,
        raw::REFUSED => Lowest::Refused { number: reply.first, place: reply.second },
        _ => unknown("a search for the lowest vertex", reply),
    }
}

/// Opens the bare machine: clears the usable rows and the tally, and makes vertex 0, released.
pub fn open(vertices: &mut [u32], edges: &mut [u32], tally: &mut Tally) -> Answer {
    let (mut no_vertex, mut no_edge) = ([0], [0]);
    let (vertices, edges) = (lend(vertices, &mut no_vertex), lend(edges, &mut no_edge));
    // SAFETY: as in `load`.
    answer(unsafe { raw::keshtiwol_open(vertices.0, vertices.1, edges.0, edges.1, tally) })
}

/// A single command. It leaves the tally's steps alone.
pub fn command(vertices: &mut [u32], edges: &mut [u32], tally: &mut Tally, command: Command) -> Answer {
    let (number, caller, first, second) = match command {
        Command::NewTd { caller, place, scope } => (raw::DO_NEW, caller, place, scope),
        Command::NewEdge { caller, source, target } => (raw::DO_EDGE, caller, source, target),
        Command::Release { caller, vertex } => (raw::DO_RELEASE, caller, vertex, 0),
        Command::Transfer { caller, vertex } => (raw::DO_TRANSFER, caller, vertex, 0),
        Command::Start { vertex } => (raw::DO_START, vertex, 0, 0),
        Command::Stop { caller } => (raw::DO_STOP, caller, 0, 0),
        Command::Yield { caller } => (raw::DO_YIELD, caller, 0, 0),
    };
    answer(numbered(vertices, edges, tally, number, caller, first, second))
}

fn numbered(vertices: &mut [u32], edges: &mut [u32], tally: &mut Tally, number: u32, caller: u32, first: u32, second: u32) -> raw::Reply {
    let (mut no_vertex, mut no_edge) = ([0], [0]);
    let (vertices, edges) = (lend(vertices, &mut no_vertex), lend(edges, &mut no_edge));
    // SAFETY: as in `load`.
    unsafe { raw::keshtiwol_command(vertices.0, vertices.1, edges.0, edges.1, tally, number, caller, first, second) }
}

/// Shows the loop that an edge from source to target would close: writes the shortest chain of held edges that leads from target back to
/// source into the list, and of equally short ones the first in vertex numbers. [`ROWS`] words are enough for every chain; words past
/// it are not touched.
///
/// After a [`Command::NewEdge`] that was refused with 35 it tells why:
///
/// ```
/// use keshtiwol::*;
///
/// let (mut vertices, mut edges, mut tally) = ([0; 4 * VERTEX_WORDS], [0; 4 * EDGE_WORDS], Tally::default());
/// open(&mut vertices, &mut edges, &mut tally);
/// let mut call = |what| command(&mut vertices, &mut edges, &mut tally, what);
/// call(Command::Start { vertex: 0 });
/// for _ in 1..4 {
///     call(Command::NewTd { caller: 0, place: 0, scope: 0 });
/// }
/// call(Command::NewEdge { caller: 0, source: 1, target: 3 });
/// call(Command::NewEdge { caller: 0, source: 3, target: 2 });
/// let refused = Answer::Refused { number: refusal::CLOSES_CYCLE, place: 0 };
/// assert_eq!(call(Command::NewEdge { caller: 0, source: 2, target: 1 }), refused);
///
/// let mut list = [0; ROWS];
/// assert_eq!(chain(&vertices, &edges, &tally, 2, 1, &mut list), Chain::Written(3));
/// assert_eq!(list[..3], [1, 3, 2]);
/// ```
pub fn chain(vertices: &[u32], edges: &[u32], tally: &Tally, source: u32, target: u32, list: &mut [u32]) -> Chain {
    let (no_vertex, no_edge, mut no_word) = ([0], [0], [0]);
    let (vertices, vertex_words) = (start(vertices, &no_vertex), vertices.len());
    let (edges, edge_words) = (start(edges, &no_edge), edges.len());
    let list = lend(list, &mut no_word);
    // SAFETY: as in `load`. Tables and tally are shared, so they may overlap each other, but the engine only reads them.
    let reply = unsafe { raw::keshtiwol_chain(vertices, vertex_words, edges, edge_words, tally, source, target, list.0, list.1) };
    match reply.said {
        raw::CHAIN => Chain::Written(reply.first),
        raw::REFUSED => Chain::Refused { number: reply.first, place: reply.second },
        _ => unknown("a search for a chain", reply),
    }
}

/// A table as the interface wants it. Slices are never null and exclusive ones never overlap, but two empty ones may have the same
/// address, so for those a word of their own stands in.
fn lend(table: &mut [u32], spare: &mut [u32; 1]) -> (*mut u32, usize) {
    match table.len() {
        0 => (spare.as_mut_ptr(), 0),
        words => (table.as_mut_ptr(), words),
    }
}

/// Where something begins that is only read; the same stands in for nothing.
fn start<T>(lent: &[T], spare: &[T; 1]) -> *const T {
    match lent.len() {
        0 => spare.as_ptr(),
        _ => lent.as_ptr(),
    }
}

fn answer(reply: raw::Reply) -> Answer {
    let raw::Reply { said, first, second } = reply;
    match said {
        raw::REFUSED => Answer::Refused { number: first, place: second },
        raw::READY => Answer::Ready,
        raw::START => Answer::Start,
        raw::NEW => Answer::New(first),
        raw::EDGE => Answer::Edge(first, second),
        raw::RELEASE => Answer::Release(first),
        raw::TRANSFER => Answer::Transfer(first),
        raw::JOB => Answer::Job { number: first, offset: second },
        raw::STOP => Answer::Stop,
        raw::YIELD => Answer::Yield,
        _ => unknown("a step", reply),
    }
}

#[cold]
fn unknown(what: &str, reply: raw::Reply) -> ! {
    panic!("libkeshtiwol.a answered {what} with {reply:?}, which keshtiwol.h does not name: are archive and crate from the same version?")
}

/// As the lister prints it: the word, then its vertices or job number.
impl fmt::Display for Answer {
    fn fmt(&self, f: &mut fmt::Formatter) -> fmt::Result {
        match *self {
            Answer::Ready => write!(f, "ready"),
            Answer::Start => write!(f, "start"),
            Answer::New(vertex) => write!(f, "new {vertex}"),
            Answer::Edge(source, target) => write!(f, "edge {source} {target}"),
            Answer::Release(vertex) => write!(f, "release {vertex}"),
            Answer::Transfer(vertex) => write!(f, "transfer {vertex}"),
            Answer::Job { number, .. } => write!(f, "job {number}"),
            Answer::Stop => write!(f, "stop"),
            Answer::Yield => write!(f, "yield"),
            Answer::Refused { number, place } => write!(f, "refused {number} {place}"),
        }
    }
}

#[cfg(test)]
mod tests {
    use super::*;

    /// No [`Command`] has another number, so this is asked below the safe functions.
    #[test]
    fn a_command_number_that_no_command_has() {
        let (mut vertices, mut edges, mut tally) = ([0; 2 * VERTEX_WORDS], [0; 2 * EDGE_WORDS], Tally::default());
        assert_eq!(open(&mut vertices, &mut edges, &mut tally), Answer::Ready);
        for number in [0, 8, 99, u32::MAX] {
            let before = (vertices, edges, tally);
            let reply = answer(numbered(&mut vertices, &mut edges, &mut tally, number, 0, 0, 0));
            assert_eq!(reply, Answer::Refused { number: refusal::NO_SUCH_COMMAND, place: 0 });
            assert_eq!((vertices, edges, tally), before);
        }
    }

    #[test]
    #[should_panic(expected = "libkeshtiwol.a answered a step with")]
    fn an_answer_that_the_header_does_not_name() {
        answer(raw::Reply { said: 18, first: 0, second: 0 });
    }
}
