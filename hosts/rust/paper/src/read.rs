//! "Program bytes": the reader. One pass, no recursion; the open bodies stand on a small stack.

use crate::Edition;

/// "A program has 1 to 4,096 bytes."
const LONGEST: usize = 4096;
/// "The main body is level 1. A body inside a body counts one level deeper, to 32": 31 openers.
const OPENERS: usize = 31;
/// "Vertices made in all: [...] at most 1,024."
const MOST_VERTICES: u32 = 1024;

/// What starts at a place: an item, or the end byte of a body. The first body of an item starts
/// one byte after its place. Offsets are at most 4,096. A force's number is below the futures open
/// at its place, so it fits as well.
#[derive(Clone, Copy, PartialEq, Eq, Debug)]
pub(crate) enum Item {
    Job { number: u32, past: u16 },
    Async { past: u16 },
    Finish { past: u16 },
    Fork { right: u16, past: u16 },
    Future { past: u16 },
    Force { number: u16, past: u16 },
    End,
}

/// The letters w, a, f and k, and the futures and forces.
#[derive(Clone, Copy, PartialEq, Eq, Debug, Default)]
pub(crate) struct Counts {
    pub jobs: u32,
    pub asyncs: u32,
    pub finishes: u32,
    pub forks: u32,
    pub futures: u32,
    pub forces: u32,
}

impl Counts {
    /// "V = 2 + a + 2f + 3k", and "A future adds 2 vertices, 1 edge and 9 steps; a force 1, 1 and 6." In the second edition a fork
    /// "makes 2 vertices and 2 edges".
    pub fn vertices(&self, edition: Edition) -> u32 {
        let by_a_fork = match edition {
            Edition::First => 3,
            Edition::Second => 2,
        };
        2 + self.asyncs + 2 * self.finishes + by_a_fork * self.forks + 2 * self.futures + self.forces
    }

    /// "Edge rows needed: 1 + a + f + 2k.", with one for each future and each force, in either edition.
    pub fn edge_rows(&self) -> u32 {
        1 + self.asyncs + self.finishes + 2 * self.forks + self.futures + self.forces
    }
}

/// A number and a place of "Refusals by who causes them".
type Refusal = (u32, u32);

/// An item whose body is being read; `right` is 0 until the right body of a fork starts. `futures` are those open at its place, and so
/// where each of its bodies starts: a future is open "in bodies inside later items", and not in its own.
#[derive(Clone, Copy, Default)]
struct Opener {
    place: usize,
    right: usize,
    futures: u32,
}

/// Reads the whole program and hands each item and end byte with its place to `found`, each when
/// it has been read to its end. Answers the counts, or the refusal of 1 to 8 or 43 that is due; of
/// these only 8 goes by the edition.
pub(crate) fn read(program: &[u8], edition: Edition, mut found: impl FnMut(usize, Item)) -> Result<Counts, Refusal> {
    if program.is_empty() || program.len() > LONGEST {
        return Err((1, 0));
    }
    let mut counts = Counts::default();
    let mut openers = [Opener::default(); OPENERS];
    let mut depth = 0;
    // The futures open where reading is.
    let mut open = 0;
    let mut at = 0;
    loop {
        // "5 bytes run out [...] (place: the length)"
        let Some(&first) = program.get(at) else {
            return Err((5, program.len() as u32));
        };
        match first {
            // "A body ends with the byte 0."
            0 => {
                found(at, Item::End);
                at += 1;
                if depth == 0 {
                    break;
                }
                let opener = &mut openers[depth - 1];
                // The futures of a body are open "to the end of its body".
                open = opener.futures;
                let past = at as u16;
                let item = match program[opener.place] {
                    2 => Item::Async { past },
                    3 => Item::Finish { past },
                    4 if opener.right == 0 => {
                        opener.right = at;
                        continue;
                    }
                    4 => Item::Fork { right: opener.right as u16, past },
                    // "A future is open after its item".
                    _ => {
                        open += 1;
                        Item::Future { past }
                    }
                };
                found(opener.place, item);
                depth -= 1;
            }
            1 => {
                let (number, past) = read_number(program, at + 1)?;
                found(at, Item::Job { number, past: past as u16 });
                counts.jobs += 1;
                at = past;
            }
            2..=5 => {
                // "4 a body at level 33 (place: its opener)"
                if depth == OPENERS {
                    return Err((4, at as u32));
                }
                match first {
                    2 => counts.asyncs += 1,
                    3 => counts.finishes += 1,
                    4 => counts.forks += 1,
                    _ => counts.futures += 1,
                }
                openers[depth] = Opener { place: at, right: 0, futures: open };
                depth += 1;
                at += 1;
            }
            // "byte 6 is a force with a number, 0 for the nearest future open there"
            6 => {
                let (number, past) = read_number(program, at + 1)?;
                // "43 a force with no such future open, at its number's first byte, [...] after 7, which holds for that number too"
                if number >= open {
                    return Err((43, at as u32 + 1));
                }
                found(at, Item::Force { number: number as u16, past: past as u16 });
                counts.forces += 1;
                at = past;
            }
            // "Refusal 3 begins above 6"
            _ => return Err((3, at as u32)),
        }
    }
    // "6 bytes after the end"
    if at < program.len() {
        return Err((6, at as u32));
    }
    // "8 V above 1,024"
    if counts.vertices(edition) > MOST_VERTICES {
        return Err((8, 0));
    }
    Ok(counts)
}

/// "A number is in groups of seven bits, lowest group first, the top bit set on every byte but its
/// last, [...] shortest form"; "A number may now take one to five bytes and reach 4,294,967,295."
/// Answers it and the place past it.
fn read_number(program: &[u8], start: usize) -> Result<(u32, usize), Refusal> {
    let mut value = 0u64;
    for group in 0..5 {
        let at = start + group;
        let Some(&byte) = program.get(at) else {
            return Err((5, program.len() as u32));
        };
        value |= u64::from(byte & 0x7f) << (7 * group);
        if byte & 0x80 == 0 {
            // "in a number 5, 2, 7"
            if byte == 0 && group > 0 {
                return Err((2, start as u32));
            }
            return match u32::try_from(value) {
                Ok(number) => Ok((number, at + 1)),
                // "7 reads 'above 4,294,967,295'"
                Err(_) => Err((7, start as u32)),
            };
        }
    }
    // "Refusal 2 reads 'longer than five bytes or not shortest'"
    Err((2, start as u32))
}
