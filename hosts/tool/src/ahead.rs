//! Which jobs of a program come ahead of which. The readings of forces, which can double with each future, are not gone through: what others
//! wait for in a body or a future is a set of jobs, and found once.

use std::collections::BTreeMap;

use crate::bodies::{Body, Open};
use crate::items::{items, Item};

/// Jobs, told apart by the offsets at which they start: a bit for each offset.
#[derive(Clone, Debug, Default, PartialEq, Eq)]
pub struct JobSet(Vec<u64>);

impl JobSet {
    fn of(job: usize) -> JobSet {
        let mut words = vec![0; job / 64 + 1];
        words[job / 64] = 1 << (job % 64);
        JobSet(words)
    }

    fn add(&mut self, others: &JobSet) {
        self.0.resize(self.0.len().max(others.0.len()), 0);
        for (word, others) in self.0.iter_mut().zip(&others.0) {
            *word |= others;
        }
    }

    pub fn contains(&self, job: usize) -> bool {
        self.0.get(job / 64).is_some_and(|word| word >> (job % 64) & 1 == 1)
    }
}

/// The jobs of an item, or of a body as far as it is read, that others wait for.
#[derive(Default)]
struct Awaited {
    /// By what follows a finish around it: those in asyncs too, but none in a future.
    by_finish: JobSet,
    /// By what follows it.
    by_next: JobSet,
}

impl Awaited {
    fn by_both(jobs: JobSet) -> Awaited {
        Awaited { by_finish: jobs.clone(), by_next: jobs }
    }

    fn add(&mut self, others: &Awaited) {
        self.by_finish.add(&others.by_finish);
        self.by_next.add(&others.by_next);
    }
}

/// A body that has begun and not ended.
#[derive(Default)]
struct Begun {
    /// Those ahead of a job that would stand next in it.
    ahead: JobSet,
    awaited: Awaited,
}

impl Begun {
    fn pass(&mut self, item: &Awaited) {
        self.ahead.add(&item.by_next);
        self.awaited.add(item);
    }
}

/// What is known before the next item.
struct Reading {
    /// The bodies that have begun and not ended, the innermost last.
    bodies: Vec<Begun>,
    /// For each future that was read, by its place, the jobs that a force of it waits for.
    futures: BTreeMap<usize, JobSet>,
}

impl Reading {
    /// Begins a body in the innermost one. A fork's second body goes on with what is awaited of its first.
    fn begin(&mut self, awaited: Awaited) {
        let ahead = self.innermost().ahead.clone();
        self.bodies.push(Begun { ahead, awaited });
    }

    fn innermost(&mut self) -> &mut Begun {
        self.bodies.last_mut().expect("the engine refuses bytes after the end")
    }

    /// Ends the innermost body, which is this one. The answer is what is awaited of its item, if that has ended and it is no future.
    fn end(&mut self, body: Body) -> Option<Awaited> {
        let Begun { awaited, .. } = self.bodies.pop().expect("the engine refuses bytes after the end");
        match body {
            Body::Program => None,
            Body::Async(_) => Some(Awaited { by_finish: awaited.by_finish, by_next: JobSet::default() }),
            Body::Finish(_) => Some(Awaited::by_both(awaited.by_finish)),
            Body::ForkFirst(_) => {
                self.begin(awaited);
                None
            }
            Body::ForkSecond(_) => Some(awaited),
            Body::Future(place) => {
                self.futures.insert(place, awaited.by_finish);
                None
            }
        }
    }
}

/// For each job of a loaded program, by its offset, those that come ahead of it.
pub fn ahead(program: &[u8]) -> BTreeMap<usize, JobSet> {
    let mut ahead = BTreeMap::new();
    let mut open = Open::new();
    let mut reading = Reading { bodies: vec![Begun::default()], futures: BTreeMap::new() };
    for (bytes, item) in items(program) {
        let ended = open.pass(bytes.start, item);
        let awaited = match item {
            Item::Job(_) => {
                ahead.insert(bytes.start, reading.innermost().ahead.clone());
                Some(Awaited::by_both(JobSet::of(bytes.start)))
            }
            Item::Async | Item::Finish | Item::Fork | Item::Future => {
                reading.begin(Awaited::default());
                None
            }
            Item::Force(number) => {
                let future = open.nearest_future_first().nth(number as usize).expect("the engine refuses a force of no open future");
                Some(Awaited::by_both(reading.futures[&future].clone()))
            }
            Item::End => ended.and_then(|body| reading.end(body)),
        };
        if let Some(awaited) = awaited {
            reading.innermost().pass(&awaited);
        }
    }
    ahead
}

#[cfg(test)]
mod tests {
    use super::*;
    use crate::items::Counts;
    use crate::tests::random::{program, Dice};
    use std::collections::BTreeSet;

    /// Pairs of offsets: the job at the first comes ahead of that at the second.
    fn pairs(program: &[u8]) -> BTreeSet<(usize, usize)> {
        let ahead = ahead(program);
        ahead.iter().flat_map(|(&q, before)| ahead.keys().filter(|&&p| before.contains(p)).map(move |&p| (p, q))).collect()
    }

    /// The table of docs/ENGINE.md, "Which job comes ahead".
    #[test]
    fn the_documents_examples() {
        let examples: [(&[u8], &[(usize, usize)]); 8] = [
            (&[3, 2, 1, 5, 0, 0, 1, 6, 0], &[(2, 6)]),
            (&[2, 3, 1, 1, 0, 0, 1, 2, 0], &[]),
            (&[2, 1, 1, 0, 1, 2, 0], &[]),
            (&[1, 1, 2, 1, 2, 0, 0], &[(0, 3)]),
            (&[4, 1, 1, 0, 1, 2, 0, 1, 3, 0], &[(1, 7), (4, 7)]),
            (&[4, 2, 1, 1, 0, 0, 0, 1, 3, 0], &[]),
            (&[5, 1, 1, 0, 1, 2, 6, 0, 1, 3, 0], &[(1, 8), (4, 8)]),
            (&[3, 5, 1, 1, 0, 0, 1, 2, 0], &[]),
        ];
        for (program, expected) in examples {
            assert_eq!(pairs(program), expected.iter().copied().collect(), "{program:02x?}");
        }
    }

    /// On programs with so few forces that all readings can be gone through.
    #[test]
    fn the_customers_words_agree() {
        let mut dice = Dice(3333);
        let (mut programs, mut jobs, mut forces, mut ordered, mut unordered) = (0, 0, 0, 0, 0);
        while programs < 4000 {
            let items = 10 + dice.below(50);
            let program = program(&mut dice, items);
            let counts = Counts::of(&program);
            if counts.forces > 10 || counts.forces == 0 && !dice.one_in(4) {
                continue;
            }
            let expected = paper::ahead::ahead(&program);
            assert_eq!(pairs(&program), expected, "{program:02x?}");
            programs += 1;
            jobs += counts.jobs;
            forces += counts.forces;
            ordered += expected.len();
            unordered += (0..counts.jobs as usize).sum::<usize>() - expected.len();
        }
        println!("{programs} programs with {jobs} jobs and {forces} forces; {ordered} pairs ordered, {unordered} not");
        assert!(forces > 8000 && ordered > 200_000 && unordered > 200_000, "{forces} {ordered} {unordered}");
    }

    /// Each of the futures forces the one before it twice, so that its readings are twice as many.
    #[test]
    fn readings_that_double() {
        let program = [vec![5, 1, 1, 0], [5, 6, 0, 6, 0, 0].repeat(254), vec![6, 0, 1, 2, 0]].concat();
        assert_eq!(Counts::of(&program).vertices(keshtiwol::Edition::First), 1021);
        assert_eq!(pairs(&program), [(1, program.len() - 3)].into());
    }
}
