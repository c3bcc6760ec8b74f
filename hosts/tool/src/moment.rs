//! The moment that a picture shows: a loaded program after some of its steps.

use std::collections::{BTreeMap, BTreeSet};
use std::fmt;

use keshtiwol::{refusal, Answer, Lowest, Machine, STEP_LIMIT};

/// Which steps lead to the moment.
#[derive(Debug, PartialEq)]
pub struct Schedule {
    /// How many steps of the lowest vertex; where that is left open, up to the first moment with the most edges held.
    pub lowest_first: Option<u64>,
    /// The vertices that step then.
    pub then: Vec<u32>,
}

impl Schedule {
    pub fn new(lowest_first: Option<u64>, then: Option<Vec<u32>>) -> Schedule {
        match then {
            Some(then) => Schedule { lowest_first: Some(lowest_first.unwrap_or(0)), then },
            None => Schedule { lowest_first, then: Vec::new() },
        }
    }
}

pub struct Moment {
    pub machine: Machine,
    /// The vertices whose last step named a job, and its number: the host runs it until it steps the vertex again.
    pub jobs: BTreeMap<u32, u32>,
    /// The vertices whose last step was a yield: they are released, and have started before.
    pub yielded: BTreeSet<u32>,
    /// How many steps the whole program takes.
    pub all_steps: u32,
}

/// A step of the schedule that the engine refused.
#[derive(Debug, PartialEq)]
pub struct RefusedStep {
    vertex: u32,
    /// Counted from 1, with those of the lowest vertex.
    step: u32,
    number: u32,
}

impl Moment {
    /// Takes the schedule's steps with a machine that was just loaded.
    pub fn reach(machine: Machine, schedule: &Schedule) -> Result<Moment, RefusedStep> {
        let lowest_first = schedule.lowest_first.unwrap_or_else(|| steps_to_most_edges(machine.clone()));
        let all_steps = machine.clone().run(STEP_LIMIT).taken;
        let mut moment = Moment { machine, jobs: BTreeMap::new(), yielded: BTreeSet::new(), all_steps };
        for _ in 0..lowest_first {
            let Lowest::Vertex(vertex) = moment.machine.lowest() else { break };
            moment.step(vertex)?;
        }
        for &vertex in &schedule.then {
            moment.step(vertex)?;
        }
        Ok(moment)
    }

    fn step(&mut self, vertex: u32) -> Result<(), RefusedStep> {
        let answer = self.machine.step(vertex);
        if let Answer::Refused { number, .. } = answer {
            return Err(RefusedStep { vertex, step: self.machine.tally().steps + 1, number });
        }
        self.jobs.remove(&vertex);
        self.yielded.remove(&vertex);
        match answer {
            Answer::Job { number, .. } => {
                self.jobs.insert(vertex, number);
            }
            Answer::Yield => {
                self.yielded.insert(vertex);
            }
            _ => {}
        }
        Ok(())
    }
}

fn steps_to_most_edges(mut machine: Machine) -> u64 {
    let mut most = machine.tally();
    while machine.run(1).taken == 1 {
        if machine.tally().held > most.held {
            most = machine.tally();
        }
    }
    most.steps.into()
}

impl fmt::Display for RefusedStep {
    fn fmt(&self, f: &mut fmt::Formatter) -> fmt::Result {
        let RefusedStep { vertex, step, number } = self;
        write!(f, "step {step}, of vertex {vertex}, is refused with {number}: {}", refusal::text(*number))
    }
}

#[cfg(test)]
mod tests {
    use super::*;
    use keshtiwol::Edition;

    // fork { job 1 } { job 2 }, then job 3
    const FORK: [u8; 10] = [4, 1, 1, 0, 1, 2, 0, 1, 3, 0];

    fn reach(lowest_first: Option<u64>, then: Option<Vec<u32>>) -> Result<Moment, RefusedStep> {
        Moment::reach(Machine::load(&FORK).unwrap(), &Schedule::new(lowest_first, then))
    }

    #[test]
    fn steps_of_the_lowest_are_those_of_a_run() {
        for steps in 0..30 {
            let mut run = Machine::load(&FORK).unwrap();
            run.run(steps);
            let moment = reach(Some(steps.into()), None).unwrap();
            assert_eq!((moment.machine.vertices(), moment.machine.tally()), (run.vertices(), run.tally()));
            assert_eq!(moment.all_steps, 22);
        }
    }

    #[test]
    fn most_edges_for_the_first_time() {
        // Edges 2 -> 4, 3 -> 4 and 0 -> 1 are held once the fork's five first commands are done.
        let moment = reach(None, None).unwrap();
        assert_eq!((moment.machine.tally().held, moment.machine.tally().steps), (3, 6));
        // A program whose loading's edge is all that there is: nothing need step.
        let alone = Moment::reach(Machine::load(&[1, 1, 0]).unwrap(), &Schedule::new(None, None)).unwrap();
        assert_eq!((alone.machine.tally().held, alone.machine.tally().steps), (1, 0));
    }

    #[test]
    fn jobs_under_way() {
        let both = reach(Some(11), Some(vec![3, 3, 2, 2])).unwrap();
        assert_eq!(both.jobs, BTreeMap::from([(2, 1), (3, 2)]));
        let one = reach(Some(11), Some(vec![3, 3, 2, 2, 3])).unwrap();
        assert_eq!(one.jobs, BTreeMap::from([(2, 1)]));
        assert_eq!(reach(None, Some(vec![0])).unwrap().machine.tally().steps, 1);
    }

    #[test]
    fn yielded_until_they_start_again() {
        let reach = |steps| Moment::reach(Machine::load_in(&FORK, Edition::Second).unwrap(), &Schedule::new(Some(steps), None)).unwrap();
        let yielded: Vec<_> = (0..=19).filter(|&steps| reach(steps).yielded.contains(&0)).collect();
        assert_eq!(yielded, [8, 9, 10, 11, 12, 13, 14]);
        assert_eq!(reach(8).all_steps, 19);
    }

    #[test]
    fn refused_steps() {
        let message = |then| reach(Some(1), Some(then)).err().unwrap().to_string();
        assert_eq!(message(vec![0, 9]), "step 3, of vertex 9, is refused with 20: there is no such vertex");
        assert_eq!(message(vec![1]), "step 2, of vertex 1, is refused with 21: something must finish before this vertex starts");
    }
}
