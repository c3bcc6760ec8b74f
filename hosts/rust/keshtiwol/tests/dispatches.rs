//! Dispatches: every ending, the list and the marks word by word, refusals that change nothing, and whole programs.

use keshtiwol::*;

/// fork { job 1 } { job 2 }, then job 3
const FORK: [u8; 10] = [4, 1, 1, 0, 1, 2, 0, 1, 3, 0];
/// finish { async { job 5 } }, then job 6
const LISTED: [u8; 9] = [3, 2, 1, 5, 0, 0, 1, 6, 0];

/// All that is lent to a dispatch.
#[derive(Clone, PartialEq, Debug)]
struct Lent {
    program: Vec<u8>,
    vertices: Vec<u32>,
    edges: Vec<u32>,
    tally: Tally,
    busy: Vec<u32>,
    jobs: Vec<u32>,
}

impl Lent {
    /// A program loaded in the first edition on so many rows, with as many marks, and a list of so many words.
    fn load(program: &[u8], rows: usize, words: usize) -> Lent {
        let (vertices, edges) = (vec![77; VERTEX_WORDS * rows], vec![77; EDGE_WORDS * rows]);
        let (tally, busy, jobs) = (Tally::default(), vec![0; rows], vec![77; words]);
        let mut lent = Lent { program: program.to_vec(), vertices, edges, tally, busy, jobs };
        assert_eq!(load(program, &mut lent.vertices, &mut lent.edges, &mut lent.tally, Edition::First), Answer::Ready);
        lent
    }

    fn dispatch(&mut self, budget: u32) -> Dispatch {
        self.dispatch_in(Edition::First, budget)
    }

    /// What a refusal changed is noticed here.
    fn dispatch_in(&mut self, edition: impl Into<u32>, budget: u32) -> Dispatch {
        let before = self.clone();
        let Lent { program, vertices, edges, tally, busy, jobs } = self;
        let said = dispatch(program, vertices, edges, tally, edition, budget, busy, jobs);
        assert_eq!(self.tally.steps, before.tally.steps + said.taken);
        if let DispatchEnding::Refused { .. } = said.ending {
            assert_eq!(*self, before, "{said:?} changed something");
        }
        said
    }
}

fn ended(ending: DispatchEnding, taken: u32, handed: u32) -> Dispatch {
    Dispatch { ending, taken, handed }
}

fn refused(number: u32) -> Dispatch {
    ended(DispatchEnding::Refused { number, place: 0 }, 0, 0)
}

fn job(vertex: u32, number: u32, offset: u32) -> Job {
    Job { vertex, number, offset }
}

/// The fork's branches side by side, then what follows them: marks and list by word.
#[test]
fn a_fork() {
    let mut lent = Lent::load(&FORK, 5, 8);
    assert_eq!(lent.dispatch(STEP_LIMIT), ended(DispatchEnding::Waiting, 15, 2));
    assert_eq!(lent.jobs, [2, 1, 1, 3, 2, 4, 77, 77]);
    assert_eq!(lent.busy, [0, 0, 1, 1, 0]);
    // Nothing has ended: the list is not touched.
    assert_eq!(lent.dispatch(STEP_LIMIT), ended(DispatchEnding::Waiting, 0, 0));
    assert_eq!(lent.jobs, [2, 1, 1, 3, 2, 4, 77, 77]);
    // The second branch ends first, and its vertex stops; what follows still waits.
    lent.busy[3] = 0;
    assert_eq!(lent.dispatch(STEP_LIMIT), ended(DispatchEnding::Waiting, 1, 0));
    lent.busy[2] = 0;
    assert_eq!(lent.dispatch(STEP_LIMIT), ended(DispatchEnding::Waiting, 3, 1));
    assert_eq!(lent.jobs, [4, 3, 7, 3, 2, 4, 77, 77]);
    assert_eq!(lent.busy, [0, 0, 0, 0, 1]);
    lent.busy[4] = 0;
    assert_eq!(lent.dispatch(STEP_LIMIT), ended(DispatchEnding::Done, 3, 0));
    assert_eq!(lent.tally, Tally { made: 5, held: 0, steps: 22 });
    assert_eq!(lent.dispatch(0), ended(DispatchEnding::Done, 0, 0));
}

/// Of several endings that are due it is the first in order: done, stuck, waiting, full, spent.
#[test]
fn endings() {
    let mut lent = Lent::load(&LISTED, 5, 3);
    assert_eq!(lent.dispatch(0), ended(DispatchEnding::Spent, 0, 0));
    assert_eq!(lent.dispatch(4), ended(DispatchEnding::Spent, 4, 0));
    assert_eq!(lent.dispatch(10), ended(DispatchEnding::Spent, 10, 0));
    // The job is the budget's last step: then only its vertex could step.
    assert_eq!(lent.dispatch(1), ended(DispatchEnding::Waiting, 1, 1));
    assert_eq!(lent.dispatch(0), ended(DispatchEnding::Waiting, 0, 0));
    lent.busy.fill(0);
    assert_eq!(lent.dispatch(0), ended(DispatchEnding::Spent, 0, 0));
    assert_eq!(lent.dispatch(3), ended(DispatchEnding::Waiting, 3, 1));
    lent.busy.fill(0);
    assert_eq!(lent.dispatch(3), ended(DispatchEnding::Done, 3, 0));

    // Two jobs side by side and a list of one row: it is full where the other could be stepped.
    let mut lent = Lent::load(&FORK, 5, 5);
    assert_eq!(lent.dispatch(STEP_LIMIT), ended(DispatchEnding::Full, 13, 1));
    assert_eq!(lent.jobs, [2, 1, 1, 77, 77]);
    assert_eq!(lent.dispatch(STEP_LIMIT), ended(DispatchEnding::Waiting, 2, 1));
    assert_eq!(lent.jobs, [3, 2, 4, 77, 77]);

    // No full row: full, with no step, and spent comes after it.
    for words in 0..JOB_WORDS {
        let mut lent = Lent::load(&FORK, 5, words);
        assert_eq!(lent.dispatch(0), ended(DispatchEnding::Full, 0, 0));
        assert_eq!(lent.dispatch(STEP_LIMIT), ended(DispatchEnding::Full, 0, 0));
        lent.busy[0] = 1;
        assert_eq!(lent.dispatch(STEP_LIMIT), ended(DispatchEnding::Waiting, 0, 0));
        lent.vertices[STATUS] = VERTEX_NEW;
        assert_eq!(lent.dispatch(STEP_LIMIT), ended(DispatchEnding::Stuck, 0, 0));
        lent.tally.made = 0;
        lent.tally.held = 0;
        assert_eq!(lent.dispatch(STEP_LIMIT), ended(DispatchEnding::Done, 0, 0));
        assert_eq!(lent.jobs, vec![77; words]);
    }

    // On altered tables only: nobody releases vertex 0; and the last steps that are taken.
    let mut lent = Lent::load(&FORK, 5, 6);
    lent.vertices[STATUS] = VERTEX_NEW;
    assert_eq!(lent.dispatch(STEP_LIMIT), ended(DispatchEnding::Stuck, 0, 0));
    lent.vertices[STATUS] = VERTEX_RELEASED;
    lent.tally.steps = STEP_LIMIT - 2;
    assert_eq!(lent.dispatch(5), ended(DispatchEnding::Stuck, 2, 0));
    assert_eq!(lent.dispatch(5), refused(refusal::UNSOUND_TABLES));
}

/// Any mark but 0 is one, and stays as it is; those past the vertices made count for nothing.
#[test]
fn marks_of_any_number() {
    for mark in [1, 2, u32::MAX] {
        let mut lent = Lent::load(&FORK, 9, 6);
        lent.busy.resize(12, 0);
        lent.busy[2] = mark;
        lent.busy[7] = mark;
        lent.busy[11] = mark;
        assert_eq!(lent.dispatch(STEP_LIMIT), ended(DispatchEnding::Waiting, 13, 1));
        assert_eq!(lent.jobs, [3, 2, 4, 77, 77, 77]);
        assert_eq!(lent.busy, [0, 0, mark, 1, 0, 0, 0, mark, 0, 0, 0, mark]);
    }
}

/// 98, then 12, then 44, and nothing is changed.
#[test]
fn refusals() {
    for rows in [5, 8] {
        for marks in 0..rows {
            let mut lent = Lent::load(&FORK, rows, 6);
            lent.busy.truncate(marks);
            assert_eq!(lent.dispatch(STEP_LIMIT), refused(refusal::BUSY_TABLE_TOO_SHORT));
            lent.tally.made = 9;
            assert_eq!(lent.dispatch(STEP_LIMIT), refused(refusal::UNSOUND_TABLES));
            for edition in [0, 3, u32::MAX] {
                assert_eq!(lent.dispatch_in(edition, STEP_LIMIT), refused(refusal::NO_SUCH_EDITION));
            }
        }
    }
    // Rows past the first 1,024 are not usable, and a row that is not full is none.
    let mut lent = Lent::load(&FORK, ROWS + 3, 6);
    lent.busy.truncate(ROWS - 1);
    assert_eq!(lent.dispatch(STEP_LIMIT), refused(refusal::BUSY_TABLE_TOO_SHORT));
    lent.busy.push(0);
    assert_eq!(lent.dispatch(STEP_LIMIT).ending, DispatchEnding::Waiting);
    let mut lent = Lent::load(&FORK, 6, 6);
    lent.vertices.pop();
    lent.busy.pop();
    assert_eq!(lent.dispatch(STEP_LIMIT).ending, DispatchEnding::Waiting);
    // 44 comes before done, too.
    let mut lent = Lent::load(&FORK, 5, 6);
    lent.tally = Tally::default();
    assert_eq!(lent.dispatch(0), ended(DispatchEnding::Done, 0, 0));
    lent.busy.pop();
    assert_eq!(lent.dispatch(0), refused(refusal::BUSY_TABLE_TOO_SHORT));
    // Nothing at all is lent, and nothing made.
    let mut nothing = Lent { program: vec![], vertices: vec![], edges: vec![], tally: Tally::default(), busy: vec![], jobs: vec![] };
    assert_eq!(nothing.dispatch(STEP_LIMIT), ended(DispatchEnding::Done, 0, 0));
}

/// The same through the machine, which has marks of its own, in either edition.
#[test]
fn a_machines_jobs() {
    for (edition, last, steps) in [(Edition::First, job(4, 3, 7), 22), (Edition::Second, job(0, 3, 7), 19)] {
        let mut machine = Machine::load_in(&FORK, edition).unwrap();
        assert_eq!(machine.dispatch(STEP_LIMIT, 0), HandedOut { ending: DispatchEnding::Full, taken: 0, jobs: vec![] });
        let branches = machine.dispatch(STEP_LIMIT, usize::MAX);
        assert_eq!((branches.ending, branches.jobs), (DispatchEnding::Waiting, vec![job(2, 1, 1), job(3, 2, 4)]));
        assert_eq!([1, 2, 3, 4, u32::MAX].map(|vertex| machine.is_busy(vertex)), [false, true, true, false, false]);
        machine.ended(3);
        assert_eq!(machine.dispatch(STEP_LIMIT, 1), HandedOut { ending: DispatchEnding::Waiting, taken: 1, jobs: vec![] });
        machine.ended(2);
        assert_eq!(machine.dispatch(STEP_LIMIT, 1).jobs, [last]);
        machine.ended(last.vertex);
        assert_eq!(machine.dispatch(STEP_LIMIT, 1).ending, DispatchEnding::Done);
        assert_eq!(machine.tally().steps, steps);
    }
}

#[test]
#[should_panic(expected = "vertex 0 has no job that was handed out")]
fn an_end_of_no_job() {
    Machine::load(&FORK).unwrap().ended(0);
}

/// A host that ends each job at once, with a list of one row and any budget: the same jobs, of the same vertices, by as many steps.
#[test]
fn one_job_at_a_time() {
    let retunes = [[2, 1, 0x90, 0x81, 0xDB, 6, 0].repeat(500), vec![0]].concat();
    for program in [&FORK[..], &LISTED, &retunes, &[5, 1, 1, 0, 1, 2, 6, 0, 1, 3, 0], &[0]] {
        for budget in [1, 7, STEP_LIMIT] {
            let (mut machine, mut stepped) = (Machine::load(program).unwrap(), Machine::load(program).unwrap());
            let (mut jobs, mut expected) = (Vec::new(), Vec::new());
            loop {
                let handed_out = machine.dispatch(budget, 1);
                for job in &handed_out.jobs {
                    machine.ended(job.vertex);
                    jobs.push(*job);
                }
                if handed_out.ending == DispatchEnding::Done {
                    break;
                }
            }
            while let Lowest::Vertex(vertex) = stepped.lowest() {
                if let Answer::Job { number, offset } = stepped.step(vertex) {
                    expected.push(job(vertex, number, offset));
                }
            }
            jobs.sort_by_key(|job| job.offset);
            expected.sort_by_key(|job| job.offset);
            assert_eq!(jobs, expected);
            assert_eq!(machine.tally(), stepped.tally());
        }
    }
}
