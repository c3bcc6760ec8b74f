//! An order of jobs that is asked for: whether it is fair, and the steps that answer the jobs in it.

use std::collections::{BTreeMap, BTreeSet};
use std::fmt;

use keshtiwol::{Answer, Machine, PLACE, STATUS, VERTEX_EXECUTING, VERTEX_WORDS};

use crate::ahead::ahead;
use crate::answers::Step;
use crate::items::{items, Counts, Item};
use crate::names::{words, Names};

/// A job of a program.
#[derive(Clone, Copy, Debug, PartialEq, Eq)]
pub struct Job {
    pub number: u32,
    pub offset: usize,
}

/// Why a list of offsets is no fair order of a program's jobs.
#[derive(Debug, PartialEq, Eq)]
pub enum Unfair {
    /// No job starts at this offset.
    NoJob(usize),
    Twice(Job),
    Missing(Job),
    /// The first stands before the second, which comes ahead of it.
    WrongWayRound(Job, Job),
}

/// Why the engine was not driven to the end of a list. Where the list is fair, that contradicts what is proved of the engine.
#[derive(Debug, PartialEq, Eq)]
pub enum Stuck {
    /// No vertex stands at the job that is next in the list, at this offset, and none can take another step.
    JobNotReached { offset: usize, steps: usize },
    /// A step that a vertex can take, by its row, was answered with something else.
    Answered { vertex: u32, answer: Answer },
    /// The list is at its end, and no step can be taken but those of other jobs, if any; and these are not all steps.
    StepsMissing { steps: usize, all: usize },
}

/// Whether each job of a loaded program stands in the list once, and none before one that comes ahead of it.
pub fn judge(program: &[u8], list: &[usize]) -> Result<(), Unfair> {
    let jobs: BTreeMap<usize, Job> = jobs(program).map(|job| (job.offset, job)).collect();
    if let Some(&offset) = list.iter().find(|offset| !jobs.contains_key(offset)) {
        return Err(Unfair::NoJob(offset));
    }
    let mut listed = BTreeSet::new();
    if let Some(twice) = list.iter().find(|&&offset| !listed.insert(offset)) {
        return Err(Unfair::Twice(jobs[twice]));
    }
    if let Some(missing) = jobs.values().find(|job| !listed.contains(&job.offset)) {
        return Err(Unfair::Missing(*missing));
    }
    let ahead = ahead(program);
    for (at, job) in list.iter().enumerate() {
        if let Some(later) = list[at + 1..].iter().find(|&&later| ahead[job].contains(later)) {
            return Err(Unfair::WrongWayRound(jobs[job], jobs[later]));
        }
    }
    Ok(())
}

/// The jobs of a loaded program, by offset.
pub fn jobs(program: &[u8]) -> impl Iterator<Item = Job> + '_ {
    items(program).filter_map(|(bytes, item)| match item {
        Item::Job(number) => Some(Job { number, offset: bytes.start }),
        _ => None,
    })
}

/// Steps a machine that was just loaded so that its jobs are answered in the list's order, to the end. Whether the list is fair is not
/// asked: steps that are no jobs are taken as long as there are any, the lowest vertex first, and then that of the next job.
pub fn drive(machine: &mut Machine, list: &[usize]) -> Result<Vec<Step>, Stuck> {
    let mut steps = Vec::new();
    for &offset in list {
        take_other_steps(machine, &mut steps)?;
        let vertex = vertex_at_job(machine, offset).ok_or(Stuck::JobNotReached { offset, steps: steps.len() })?;
        match machine.step(vertex) {
            answer @ Answer::Job { offset: answered, .. } if answered as usize == offset => steps.push((vertex, answer)),
            answer => return Err(Stuck::Answered { vertex, answer }),
        }
    }
    take_other_steps(machine, &mut steps)?;
    let all = Counts::of(machine.program()).steps(machine.edition()) as usize;
    if steps.len() == all {
        Ok(steps)
    } else {
        Err(Stuck::StepsMissing { steps: steps.len(), all })
    }
}

/// Takes all steps that are no jobs.
fn take_other_steps(machine: &mut Machine, steps: &mut Vec<Step>) -> Result<(), Stuck> {
    while let Some(vertex) = lowest_before_no_job(machine) {
        match machine.step(vertex) {
            answer @ (Answer::Refused { .. } | Answer::Job { .. }) => return Err(Stuck::Answered { vertex, answer }),
            answer => steps.push((vertex, answer)),
        }
    }
    Ok(())
}

/// The lowest vertex that can step and does not stand at a job.
fn lowest_before_no_job(machine: &Machine) -> Option<u32> {
    let can_step = |row: &[u32], vertex| match row[STATUS] {
        VERTEX_EXECUTING => !stands_at_job(machine, row),
        _ => machine.may_start(vertex),
    };
    rows(machine).find(|&(row, vertex)| can_step(row, vertex)).map(|(_, vertex)| vertex)
}

/// The vertex that stands at the job at this offset.
fn vertex_at_job(machine: &Machine, offset: usize) -> Option<u32> {
    let stands_there = |row: &[u32]| row[PLACE] as usize == offset && stands_at_job(machine, row);
    rows(machine).find(|(row, _)| stands_there(row)).map(|(_, vertex)| vertex)
}

/// Whether a vertex's next step answers a job.
fn stands_at_job(machine: &Machine, row: &[u32]) -> bool {
    row[STATUS] == VERTEX_EXECUTING && matches!(Item::at(machine.program(), row[PLACE] as usize), Item::Job(_))
}

/// The rows of the vertices made, and their numbers.
fn rows(machine: &Machine) -> impl Iterator<Item = (&[u32], u32)> {
    machine.vertices().chunks(VERTEX_WORDS).zip(0..)
}

impl fmt::Display for Job {
    fn fmt(&self, f: &mut fmt::Formatter) -> fmt::Result {
        write!(f, "{} at byte {}", words(Item::Job(self.number), &Names::new()), self.offset)
    }
}

impl fmt::Display for Unfair {
    fn fmt(&self, f: &mut fmt::Formatter) -> fmt::Result {
        match self {
            Unfair::NoJob(offset) => write!(f, "no job starts at byte {offset}; 'keshtiwol show' tells where jobs start"),
            Unfair::Twice(job) => write!(f, "{job} stands in the list twice"),
            Unfair::Missing(job) => write!(f, "{job} is missing from the list"),
            Unfair::WrongWayRound(job, later) => write!(f, "{job} stands before {later}, which comes ahead of it"),
        }
    }
}

impl fmt::Display for Stuck {
    fn fmt(&self, f: &mut fmt::Formatter) -> fmt::Result {
        match self {
            Stuck::JobNotReached { offset, steps } => {
                write!(f, "after {steps} steps no vertex stands at the job at byte {offset}, and none can take another step")
            }
            Stuck::Answered { vertex, answer } => write!(f, "a step of vertex {vertex} was answered with '{answer}'"),
            Stuck::StepsMissing { steps, all } => write!(f, "after {steps} of {all} steps none can be taken"),
        }
    }
}

#[cfg(test)]
mod tests {
    use super::*;
    use keshtiwol::Edition;

    const EDITIONS: [Edition; 2] = [Edition::First, Edition::Second];

    // fork { job 1 } { job 2 }, then job 3
    const FORK: [u8; 10] = [4, 1, 1, 0, 1, 2, 0, 1, 3, 0];

    fn driven(program: &[u8], edition: Edition, list: &[usize]) -> Result<Vec<Step>, Stuck> {
        drive(&mut Machine::load_in(program, edition).unwrap(), list)
    }

    /// Judges a list to be fair, and has the engine answer the jobs in its order.
    fn answers_in_order(program: &[u8], list: &[usize]) {
        assert_eq!(judge(program, list), Ok(()));
        for edition in EDITIONS {
            let steps = driven(program, edition, list).unwrap();
            let offset = |(_, answer): &Step| match answer {
                Answer::Job { offset, .. } => Some(*offset as usize),
                _ => None,
            };
            assert!(steps.iter().filter_map(offset).eq(list.iter().copied()));
        }
    }

    #[test]
    fn fair_lists() {
        answers_in_order(&FORK, &[1, 4, 7]);
        answers_in_order(&FORK, &[4, 1, 7]);
        answers_in_order(&[0], &[]);
        // async { job 5 } async { job 5 }, told apart by offset
        answers_in_order(&[2, 1, 5, 0, 2, 1, 5, 0, 0], &[5, 1]);
    }

    #[test]
    fn what_is_wrong_with_a_list() {
        let message = |list: &[usize]| judge(&FORK, list).unwrap_err().to_string();
        // Also where all of it is wrong.
        assert_eq!(message(&[7, 7, 9, 3]), "no job starts at byte 9; 'keshtiwol show' tells where jobs start");
        assert_eq!(message(&[usize::MAX]), format!("no job starts at byte {}; 'keshtiwol show' tells where jobs start", usize::MAX));
        assert_eq!(message(&[7, 4, 4, 7]), "job 2 at byte 4 stands in the list twice");
        assert_eq!(message(&[7]), "job 1 at byte 1 is missing from the list");
        assert_eq!(message(&[]), "job 1 at byte 1 is missing from the list");
        assert_eq!(message(&[7, 4]), "job 1 at byte 1 is missing from the list");
        assert_eq!(message(&[1, 7, 4]), "job 3 at byte 7 stands before job 2 at byte 4, which comes ahead of it");
        assert_eq!(message(&[7, 4, 1]), "job 3 at byte 7 stands before job 2 at byte 4, which comes ahead of it");
        assert_eq!(message(&[7, 1, 4]), "job 3 at byte 7 stands before job 1 at byte 1, which comes ahead of it");
    }

    /// The first job that has a later one ahead of it, and not the pair that stands nearest.
    #[test]
    fn the_first_pair() {
        // job 1, job 2, job 3, job 4
        let row = [1, 1, 1, 2, 1, 3, 1, 4, 0];
        let pair = |list: &[usize]| match judge(&row, list) {
            Err(Unfair::WrongWayRound(job, later)) => (job.number, later.number),
            other => panic!("{other:?}"),
        };
        assert_eq!(pair(&[0, 6, 4, 2]), (4, 3));
        assert_eq!(pair(&[0, 4, 6, 2]), (3, 2));
        assert_eq!(pair(&[2, 4, 6, 0]), (2, 1));
        assert_eq!(pair(&[6, 2, 0, 4]), (4, 2));
    }

    /// A list that is not fair can't be driven; that is how the engine would be told to be wrong.
    #[test]
    fn where_driving_ends() {
        let message = |list: &[usize]| driven(&FORK, Edition::Second, list).unwrap_err().to_string();
        let nowhere =
            |offset, steps| format!("after {steps} steps no vertex stands at the job at byte {offset}, and none can take another step");
        assert_eq!(message(&[7, 1, 4]), nowhere(7, 10));
        assert_eq!(message(&[1, 7, 4]), nowhere(7, 12));
        assert_eq!(message(&[1, 1, 4, 7]), nowhere(1, 12));
        assert_eq!(message(&[99]), nowhere(99, 10));
        assert_eq!(message(&[1, 4]), "after 15 of 19 steps none can be taken");
        assert_eq!(message(&[]), "after 10 of 19 steps none can be taken");
        let refused = Stuck::Answered { vertex: 3, answer: Answer::Refused { number: 21, place: 0 } };
        assert_eq!(refused.to_string(), "a step of vertex 3 was answered with 'refused 21 0'");
    }

    #[test]
    fn the_most_asyncs_the_other_way_round() {
        let program = [[2, 1, 5, 0].repeat(1022), vec![0]].concat();
        answers_in_order(&program, &(0..1022).rev().map(|number| 4 * number + 1).collect::<Vec<_>>());
    }

    #[test]
    fn the_most_jobs_in_a_row() {
        let program = [[1, 5].repeat(2047), vec![0]].concat();
        let row: Vec<usize> = (0..2047).map(|number| 2 * number).collect();
        answers_in_order(&program, &row);
        let job = |offset| Job { number: 5, offset };
        let reversed: Vec<usize> = row.iter().rev().copied().collect();
        assert_eq!(judge(&program, &reversed), Err(Unfair::WrongWayRound(job(4092), job(4090))));
        // All are in order but the last two.
        let swapped = [&row[..2045], &[4092, 4090]].concat();
        assert_eq!(judge(&program, &swapped), Err(Unfair::WrongWayRound(job(4092), job(4090))));
    }

    /// As many futures, each of which forces the one before it twice, as the engine has vertices for.
    #[test]
    fn readings_that_double() {
        let program = [vec![5, 1, 1, 0], [5, 6, 0, 6, 0, 0].repeat(254), vec![6, 0, 1, 2, 0]].concat();
        let last = program.len() - 3;
        answers_in_order(&program, &[1, last]);
        let pair = Unfair::WrongWayRound(Job { number: 2, offset: last }, Job { number: 1, offset: 1 });
        assert_eq!(judge(&program, &[last, 1]), Err(pair));
        for edition in EDITIONS {
            assert!(matches!(driven(&program, edition, &[last, 1]), Err(Stuck::JobNotReached { offset, .. }) if offset == last));
        }
    }
}
