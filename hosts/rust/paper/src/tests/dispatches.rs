//! Dispatch: which steps it takes, what it marks and writes, and how it ends.

use super::*;
use crate::graph::EXECUTING;

/// fork { job 1 } { job 2 }, then job 3
const FORK: [u8; 10] = [4, 1, 1, 0, 1, 2, 0, 1, 3, 0];
/// async { job 1 } async { job 2 } job 3
const ASYNCS: [u8; 11] = [2, 1, 1, 0, 2, 1, 2, 0, 1, 3, 0];
const UNTOUCHED: u32 = 0xFFFF_FF00;

/// A host's marks, and the program that it lends beside them.
struct Host<'a> {
    program: &'a [u8],
    lent: Lent,
    busy: Vec<u32>,
}

impl Host<'_> {
    fn loaded(edition: Edition, program: &[u8]) -> Host<'_> {
        let mut lent = Lent::rows_for(edition, program);
        assert_eq!(lent.load(program), Answer::Ready);
        let busy = vec![0; lent.vertices.len() / VERTEX_WORDS];
        Host { program, lent, busy }
    }

    /// With a list of so many words: the ending, the steps taken and the jobs handed out.
    fn dispatch(&mut self, budget: u32, words: usize) -> (DispatchEnding, u32, Vec<[u32; 3]>) {
        let mut list = vec![UNTOUCHED; words];
        let Lent { edition, vertices, edges, tally } = &mut self.lent;
        let done = dispatch(self.program, vertices, edges, tally, *edition, budget, &mut self.busy, &mut list);
        let (written, rest) = list.split_at(3 * done.handed as usize);
        assert!(rest.iter().all(|&word| word == UNTOUCHED), "{list:?}");
        (done.ending, done.taken, written.chunks(3).map(|row| row.try_into().unwrap()).collect())
    }
}

/// "again and again": with room for all, one call goes as far as jobs that still run allow; "the host clears a vertex's mark when its job has
/// ended, and calls again".
#[test]
fn to_the_end() {
    let mut host = Host::loaded(Edition::First, &FORK);
    // start, the nine commands, stop; then each branch starts and names its job.
    assert_eq!(host.dispatch(100, 30), (DispatchEnding::Waiting, 15, vec![[2, 1, 1], [3, 2, 4]]));
    assert_eq!(host.busy, [0, 0, 1, 1, 0]);
    // Nothing more, until a mark is cleared; and what follows the fork waits for both.
    assert_eq!(host.dispatch(100, 30), (DispatchEnding::Waiting, 0, vec![]));
    host.busy[2] = 0;
    assert_eq!(host.dispatch(100, 30), (DispatchEnding::Waiting, 1, vec![]));
    host.busy[3] = 0;
    assert_eq!(host.dispatch(100, 30), (DispatchEnding::Waiting, 3, vec![[4, 3, 7]]));
    host.busy[4] = 0;
    assert_eq!(host.dispatch(100, 30), (DispatchEnding::Done, 3, vec![]));
    assert_eq!(host.lent.tally, Tally { made: 5, held: 0, steps: 22 });
    assert_eq!(host.dispatch(0, 0), (DispatchEnding::Done, 0, vec![]));
}

/// A dispatch takes the steps of a run, where marks are cleared at once: the same tables at the end.
#[test]
fn as_a_run() {
    for edition in EDITIONS {
        for program in [&FORK[..], &ASYNCS] {
            let mut host = Host::loaded(edition, program);
            let mut run = host.lent.clone();
            while host.dispatch(1, 3).0 != DispatchEnding::Done {
                host.busy.fill(0);
            }
            assert_eq!(run.run(program, u32::MAX).ending, Ending::Done);
            assert_eq!(host.lent, run);
        }
    }
}

/// "it ends when the list is full, only busy vertices could step (waiting), all are finished (done), none can step (stuck) or the budget is
/// used (spent)": each of them, and which comes first where two hold.
#[test]
fn endings() {
    let mut host = Host::loaded(Edition::First, &ASYNCS);
    assert_eq!(host.dispatch(0, 30), (DispatchEnding::Spent, 0, vec![]));
    // No full row: no step is taken, whatever the budget.
    assert_eq!(host.dispatch(0, 2), (DispatchEnding::Full, 0, vec![]));
    assert_eq!(host.dispatch(100, 0), (DispatchEnding::Full, 0, vec![]));
    // Vertex 0 goes on beside its asyncs: it names job 3 first, and stands behind it when the list is full.
    assert_eq!(host.dispatch(100, 5), (DispatchEnding::Full, 8, vec![[0, 3, 8]]));
    assert_eq!(host.dispatch(0, 0), (DispatchEnding::Full, 0, vec![]));
    assert_eq!(host.dispatch(100, 6), (DispatchEnding::Waiting, 4, vec![[2, 1, 1], [3, 2, 5]]));
    assert_eq!(host.dispatch(0, 0), (DispatchEnding::Waiting, 0, vec![]));
    // All that execute stand where nothing can be read: stuck, whether they are busy or not.
    for vertex in [0, 2, 3] {
        host.lent.vertices[VERTEX_WORDS * vertex + PLACE] = 99;
    }
    assert_eq!(host.dispatch(100, 30), (DispatchEnding::Stuck, 0, vec![]));
    host.busy.fill(0);
    assert_eq!(host.dispatch(0, 0), (DispatchEnding::Stuck, 0, vec![]));
}

/// "steps the lowest vertex that can step and is not busy": any word but 0 is a mark, also one that no dispatch wrote.
#[test]
fn marks() {
    let mut host = Host::loaded(Edition::First, &ASYNCS);
    host.busy[0] = 7;
    assert_eq!(host.dispatch(100, 30), (DispatchEnding::Waiting, 0, vec![]));
    host.busy[0] = 0;
    // A vertex that is not made yet.
    host.busy[2] = u32::MAX;
    assert_eq!(host.dispatch(100, 30), (DispatchEnding::Waiting, 10, vec![[0, 3, 8], [3, 2, 5]]));
    assert_eq!(host.busy, [1, 0, u32::MAX, 1]);
    assert_eq!(host.lent.row(2)[STATUS], RELEASED);
    host.busy[2] = 0;
    assert_eq!(host.dispatch(1, 30), (DispatchEnding::Spent, 1, vec![]));
    assert_eq!(host.lent.row(2)[STATUS], EXECUTING);
}

/// "Any lengths and contents of both tables end in such an ending or a numbered refusal that changed nothing": 12 as for a run, then 44.
#[test]
fn refusals() {
    let mut host = Host::loaded(Edition::First, &ASYNCS);
    let refused = |number| (DispatchEnding::Refused { number, place: 0 }, 0, vec![]);
    // As many marks as usable rows, whatever is made; more than 1,024 are not needed.
    let enough = host.busy.len();
    host.busy = vec![5; enough - 1];
    let before = host.lent.clone();
    assert_eq!(host.dispatch(100, 30), refused(44));
    host.lent.tally.steps = 8192;
    assert_eq!(host.dispatch(100, 30), refused(12));
    host.lent.tally.steps = 0;
    host.lent.vertices[STATUS] = 5;
    assert_eq!(host.dispatch(100, 30), refused(12));
    host.lent.vertices[STATUS] = RELEASED;
    assert_eq!((&host.lent, &host.busy), (&before, &vec![5; enough - 1]));
    host.lent.vertices.resize(VERTEX_WORDS * (MOST_ROWS + 7), 0);
    host.busy = vec![0; MOST_ROWS];
    assert_eq!(host.dispatch(100, 30).0, DispatchEnding::Waiting);
}
