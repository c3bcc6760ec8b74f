//! The bodies that are open while a program is read item by item, and the futures open there.

use std::fmt;

use crate::items::Item;

/// What a body is of, and where that starts.
#[derive(Clone, Copy, Debug, PartialEq, Eq)]
pub enum Body {
    Program,
    Async(usize),
    Finish(usize),
    ForkFirst(usize),
    ForkSecond(usize),
    Future(usize),
}

/// What is open before the next item.
#[derive(Debug, PartialEq, Eq)]
pub struct Open {
    /// Those that have begun and not ended, the innermost last.
    bodies: Vec<Body>,
    /// The futures' places, the nearest last, each with the level of the body that it stands in.
    futures: Vec<(usize, usize)>,
}

impl Open {
    /// Before the first byte.
    pub fn new() -> Open {
        Open { bodies: vec![Body::Program], futures: Vec::new() }
    }

    /// Goes on past an item or an end byte. Where it ends a body, that is the answer.
    pub fn pass(&mut self, place: usize, item: Item) -> Option<Body> {
        match item {
            Item::End => return self.end(),
            Item::Job(_) | Item::Force(_) => {}
            Item::Async => self.bodies.push(Body::Async(place)),
            Item::Finish => self.bodies.push(Body::Finish(place)),
            Item::Fork => self.bodies.push(Body::ForkFirst(place)),
            Item::Future => self.bodies.push(Body::Future(place)),
        }
        None
    }

    /// Ends the innermost body, and with it the futures in it are closed. A future is open from the end of its own body on.
    fn end(&mut self) -> Option<Body> {
        let ended = self.bodies.pop();
        let level = self.level();
        self.futures.retain(|&(_, of)| of <= level);
        match ended {
            Some(Body::ForkFirst(fork)) => self.bodies.push(Body::ForkSecond(fork)),
            Some(Body::Future(future)) => self.futures.push((future, level)),
            _ => {}
        }
        ended
    }

    pub fn innermost_first(&self) -> impl Iterator<Item = Body> + '_ {
        self.bodies.iter().rev().copied()
    }

    /// The places of the open futures. A force's number counts them from 0.
    pub fn nearest_future_first(&self) -> impl Iterator<Item = usize> + '_ {
        self.futures.iter().rev().map(|&(place, _)| place)
    }

    /// How many bodies are around what comes next.
    pub fn level(&self) -> usize {
        self.bodies.len()
    }

    /// How many end bytes are still to come at least: a fork in its first body has its second one's to come too.
    pub fn ends_to_come(&self) -> usize {
        self.level() + self.bodies.iter().filter(|body| matches!(body, Body::ForkFirst(_))).count()
    }
}

impl fmt::Display for Body {
    fn fmt(&self, f: &mut fmt::Formatter) -> fmt::Result {
        match self {
            Body::Program => write!(f, "the program"),
            Body::Async(place) => write!(f, "the async at byte {place}"),
            Body::Finish(place) => write!(f, "the finish at byte {place}"),
            Body::ForkFirst(place) => write!(f, "the fork at byte {place}, in its first body"),
            Body::ForkSecond(place) => write!(f, "the fork at byte {place}, in its second body"),
            Body::Future(place) => write!(f, "the future at byte {place}"),
        }
    }
}

#[cfg(test)]
mod tests {
    use super::*;
    use crate::items::items;
    use keshtiwol::{refusal, Machine};

    fn open(program: &[u8]) -> Open {
        let mut open = Open::new();
        for (bytes, item) in items(program) {
            open.pass(bytes.start, item);
        }
        open
    }

    // finish { fork { async { job 2 } } { job 4 } } future { job 5
    const PROGRAM: [u8; 14] = [3, 4, 2, 1, 2, 0, 0, 1, 4, 0, 0, 5, 1, 5];

    #[test]
    fn open_after_each_item() {
        use Body::*;
        let expected: [(usize, &[Body], usize); 11] = [
            (0, &[Program], 1),
            (1, &[Program, Finish(0)], 2),
            (2, &[Program, Finish(0), ForkFirst(1)], 4),
            (3, &[Program, Finish(0), ForkFirst(1), Async(2)], 5),
            (5, &[Program, Finish(0), ForkFirst(1), Async(2)], 5),
            (6, &[Program, Finish(0), ForkFirst(1)], 4),
            (7, &[Program, Finish(0), ForkSecond(1)], 3),
            (10, &[Program, Finish(0)], 2),
            (11, &[Program], 1),
            (12, &[Program, Future(11)], 2),
            (14, &[Program, Future(11)], 2),
        ];
        for (length, bodies, ends) in expected {
            let open = open(&PROGRAM[..length]);
            assert_eq!((&open.bodies[..], open.ends_to_come()), (bodies, ends), "{length}");
            assert!(open.innermost_first().eq(bodies.iter().rev().copied()));
        }
    }

    // future { future { } } fork { future { } async { } } { future { } } future { }
    const FUTURES: [u8; 17] = [5, 5, 0, 0, 4, 5, 0, 2, 0, 0, 5, 0, 0, 5, 0, 6, 0];

    #[test]
    fn futures_open_after_each_item() {
        let expected: [(usize, &[usize]); 16] = [
            (0, &[]),
            (1, &[]),
            (2, &[]),
            (3, &[1]),
            (4, &[0]),
            (5, &[0]),
            (6, &[0]),
            (7, &[5, 0]),
            (8, &[5, 0]),
            (9, &[5, 0]),
            (10, &[0]),
            (12, &[10, 0]),
            (13, &[0]),
            (14, &[0]),
            (15, &[13, 0]),
            (17, &[13, 0]),
        ];
        for (length, futures) in expected {
            assert!(open(&FUTURES[..length]).nearest_future_first().eq(futures.iter().copied()), "{length}");
        }
    }

    /// Behind each item a force of the last of the open futures is accepted, and of one more it is not.
    #[test]
    fn the_engine_agrees_on_futures() {
        for length in [0, 1, 2, 3, 4, 5, 6, 7, 8, 9, 10, 11, 12, 13, 14, 15, 17] {
            let begun = open(&FUTURES[..length]);
            let futures = begun.nearest_future_first().count() as u8;
            let with = |number| Machine::load(&[&FUTURES[..length], &[6, number], &vec![0; begun.ends_to_come()]].concat());
            assert!(futures == 0 || with(futures - 1).is_ok(), "{length}");
            let refused = with(futures).unwrap_err();
            assert_eq!((refused.number, refused.place as usize), (refusal::NO_SUCH_FUTURE, length + 1), "{length}");
        }
    }

    /// With as many end bytes as are said to be missing a program loads, and with one less it does not.
    #[test]
    fn the_engine_agrees() {
        for length in [0, 1, 2, 3, 5, 6, 7, 9, 10, 11, 12, 14] {
            let begun = &PROGRAM[..length];
            let ends = open(begun).ends_to_come();
            let with = |ends| Machine::load(&[begun, &vec![0; ends]].concat());
            assert!(with(ends).is_ok(), "{length}");
            if length + ends > 1 {
                assert_eq!(with(ends - 1).unwrap_err().number, refusal::BYTES_RUN_OUT, "{length}");
            }
        }
    }
}
