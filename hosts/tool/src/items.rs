//! The items of a program's bytes. The engine has loaded them, or refused them for too many vertices or because the bytes run out, so no
//! limit is tested.

use std::ops::Range;

use keshtiwol::Edition;

use crate::number;

/// What starts at a place: an item, or a body's end byte.
#[derive(Clone, Copy, Debug, PartialEq, Eq)]
pub enum Item {
    End,
    Job(u32),
    Async,
    Finish,
    Fork,
    Future,
    /// With its number: 0 for the nearest future open there.
    Force(u32),
}

impl Item {
    pub fn at(program: &[u8], place: usize) -> Item {
        let number = || number::at(program, place + 1).expect("the engine refuses a number without a last byte").0 as u32;
        match program[place] {
            0 => Item::End,
            1 => Item::Job(number()),
            2 => Item::Async,
            3 => Item::Finish,
            4 => Item::Fork,
            5 => Item::Future,
            _ => Item::Force(number()),
        }
    }

    /// How many steps a vertex takes for it.
    pub fn commands(self, edition: Edition) -> u32 {
        match self {
            Item::End | Item::Job(_) => 1,
            Item::Async => 3,
            Item::Finish => 6,
            Item::Fork if edition == Edition::First => 9,
            Item::Fork => 7,
            Item::Future => 5,
            Item::Force(_) => 4,
        }
    }
}

/// The items and end bytes in order, each with its offsets, up to a job or force whose number breaks off.
pub fn items(program: &[u8]) -> impl Iterator<Item = (Range<usize>, Item)> + '_ {
    let mut start = 0;
    std::iter::from_fn(move || {
        let end = match program.get(start)? {
            1 | 6 => start + 1 + number::at(program, start + 1)?.1,
            _ => start + 1,
        };
        let item = Item::at(program, start);
        Some((std::mem::replace(&mut start, end)..end, item))
    })
}

/// How many items of each kind a program has.
#[derive(Debug, Default, PartialEq, Eq)]
pub struct Counts {
    pub jobs: u32,
    pub asyncs: u32,
    pub finishes: u32,
    pub forks: u32,
    pub futures: u32,
    pub forces: u32,
}

impl Counts {
    pub fn of(program: &[u8]) -> Counts {
        let mut counts = Counts::default();
        for (_, item) in items(program) {
            match item {
                Item::End => {}
                Item::Job(_) => counts.jobs += 1,
                Item::Async => counts.asyncs += 1,
                Item::Finish => counts.finishes += 1,
                Item::Fork => counts.forks += 1,
                Item::Future => counts.futures += 1,
                Item::Force(_) => counts.forces += 1,
            }
        }
        counts
    }

    // The formulas are those of include/keshtiwol.h, "How much to lend".

    pub fn vertices(&self, edition: Edition) -> u32 {
        2 + self.asyncs + 2 * self.finishes + vertices_of_fork(edition) * self.forks + 2 * self.futures + self.forces
    }

    pub fn edge_rows(&self) -> u32 {
        1 + self.asyncs + self.finishes + 2 * self.forks + self.futures + self.forces
    }

    pub fn steps(&self, edition: Edition) -> u32 {
        let of_fork = match edition {
            Edition::First => 15,
            Edition::Second => 12,
        };
        4 + self.jobs + 5 * self.asyncs + 10 * self.finishes + of_fork * self.forks + 9 * self.futures + 6 * self.forces
    }
}

/// How many vertices each fork makes.
pub fn vertices_of_fork(edition: Edition) -> u32 {
    match edition {
        Edition::First => 3,
        Edition::Second => 2,
    }
}

#[cfg(test)]
mod tests {
    use super::*;
    use keshtiwol::{Ending, Machine, EDGE_WORDS, STEP_LIMIT, VERTEX_WORDS};

    const EDITIONS: [Edition; 2] = [Edition::First, Edition::Second];

    // A job of five bytes, whose number's bytes look like items; a fork of an async and a finish; a future of job 5 and a force of it; job 3.
    const PROGRAM: [u8; 24] = [1, 0x84, 0x83, 0x82, 0x81, 4, 4, 2, 1, 2, 0, 0, 3, 0, 0, 5, 1, 5, 0, 6, 0, 1, 3, 0];

    #[test]
    fn items_at_their_places() {
        let program = &PROGRAM;
        let number = 4 + (3 << 7) + (2 << 14) + (1 << 21) + (4 << 28);
        let expected = [
            (0..6, Item::Job(number)),
            (6..7, Item::Fork),
            (7..8, Item::Async),
            (8..10, Item::Job(2)),
            (10..11, Item::End),
            (11..12, Item::End),
            (12..13, Item::Finish),
            (13..14, Item::End),
            (14..15, Item::End),
            (15..16, Item::Future),
            (16..18, Item::Job(5)),
            (18..19, Item::End),
            (19..21, Item::Force(0)),
            (21..23, Item::Job(3)),
            (23..24, Item::End),
        ];
        for (bytes, item) in &expected {
            assert_eq!(Item::at(program, bytes.start), *item);
        }
        assert!(items(program).eq(expected.clone()));
        for end in 1..6 {
            assert_eq!(items(&program[..end]).next(), None);
        }
        assert!(items(&program[..9]).eq(expected[..3].iter().cloned()));
        assert!(items(&program[..20]).eq(expected[..12].iter().cloned()));
        assert_eq!(Counts::of(program), Counts { jobs: 4, asyncs: 1, finishes: 1, forks: 1, futures: 1, forces: 1 });
    }

    /// Every item is met by the engine where this file says that it stands, and takes as many steps.
    #[test]
    fn the_engine_agrees() {
        let program = &PROGRAM;
        let counts = Counts::of(program);
        for edition in EDITIONS {
            let mut machine = Machine::load_in(program, edition).unwrap();
            let run = machine.run(STEP_LIMIT);
            assert_eq!((run.ending, run.taken, machine.tally().made), (Ending::Done, counts.steps(edition), counts.vertices(edition)));

            let (mut vertices, mut edges, mut tally) = ([0; VERTEX_WORDS * 32], [0; EDGE_WORDS * 32], keshtiwol::Tally::default());
            let rows = (VERTEX_WORDS * counts.vertices(edition) as usize, EDGE_WORDS * counts.edge_rows() as usize);
            let mut load = |v: usize, e: usize| keshtiwol::load(program, &mut vertices[..v], &mut edges[..e], &mut tally, edition);
            assert_eq!(load(rows.0, rows.1), keshtiwol::Answer::Ready);
            assert_eq!(load(rows.0 - 1, rows.1), keshtiwol::Answer::Refused { number: 10, place: 0 });
            assert_eq!(load(rows.0, rows.1 - 1), keshtiwol::Answer::Refused { number: 11, place: 0 });
        }
    }

    #[test]
    fn steps_are_the_commands_of_the_items() {
        // A start and a stop for each vertex made, the items' commands, and another start behind a yield.
        let one = [
            (Item::Async, Counts { asyncs: 1, ..Counts::default() }),
            (Item::Finish, Counts { finishes: 1, ..Counts::default() }),
            (Item::Fork, Counts { forks: 1, ..Counts::default() }),
            (Item::Future, Counts { futures: 1, ..Counts::default() }),
            (Item::Force(0), Counts { forces: 1, ..Counts::default() }),
        ];
        for edition in EDITIONS {
            assert_eq!((Counts::default().steps(edition), Counts::default().vertices(edition)), (4, 2));
            for (item, counts) in &one {
                let started_again = u32::from((*item, edition) == (Item::Fork, Edition::Second));
                assert_eq!(counts.steps(edition), 2 * counts.vertices(edition) + item.commands(edition) + started_again);
            }
        }
    }
}
