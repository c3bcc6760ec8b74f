//! "Loading and stepping": the command that is due at a vertex, and the lowest vertex that can step.

use std::cell::OnceCell;

use crate::graph::{
    may_start, Act, Row, Tables, View, EXECUTING, FINISHED, FUTURE, MADE, MADE_WORDS, MOST_STEPS, NEW, PHASE, PLACE, RELEASED, STATUS,
};
use crate::read::{read, Item};
use crate::{Answer, Command, Edition};

/// A step that would be accepted: what it does, and what becomes of the stepping vertex's row.
#[derive(Clone, Copy)]
pub(crate) struct Due {
    act: Act,
    then: Then,
}

#[derive(Clone, Copy)]
enum Then {
    /// "A start or a stop changes no place, phase or made vertex."
    Stay,
    /// One more command of the item is done.
    Next,
    /// The same after a newTd: this made word gets the new vertex.
    Keep(usize),
    /// The item's last command is done, and the place moves.
    Move(u32),
    /// The same at a future: the latest open future is "set to t in the vertex that did the future, at that item's last command", t
    /// being the first vertex that the item made.
    Open(u32),
}

/// The items of a program by place, read at most once, when first asked for.
pub(crate) struct Book<'p> {
    program: &'p [u8],
    edition: Edition,
    items: OnceCell<Vec<Option<Item>>>,
}

impl<'p> Book<'p> {
    pub fn new(program: &'p [u8], edition: Edition) -> Book<'p> {
        Book { program, edition, items: OnceCell::new() }
    }

    /// What starts at a place; nothing anywhere in a program that loading refuses by 1 to 8 or 43 in this edition.
    pub fn item(&self, place: u32) -> Option<Item> {
        let items = self.items.get_or_init(|| {
            // A program longer than 4,096 bytes is refused before anything is found in it.
            let mut items = vec![None; self.program.len().min(4096)];
            match read(self.program, self.edition, |place, item| items[place] = Some(item)) {
                Ok(_) => items,
                Err(_) => Vec::new(),
            }
        });
        items.get(place as usize).copied().flatten()
    }
}

/// What a run finds when it looks before a step.
pub(crate) enum Seek {
    Done,
    Stuck,
    Found(u32, Due),
}

/// The next command of the item at an executing vertex's place, or nothing where the phase is "not
/// below that item's commands" or the words that a force follows lead to no future. `end` is the
/// program's last byte.
fn next_command(view: &View, edition: Edition, caller: u32, row: &Row, item: Item, end: u32) -> Option<Due> {
    let [_, place, scope, phase, first, second, third, ..] = *row;
    let new = |word, place: u32, scope| (Act::Do(Command::NewTd { caller, place, scope }), Then::Keep(word));
    let edge = |source, target| (Act::Do(Command::NewEdge { caller, source, target }), Then::Next);
    let transfer = |vertex| (Act::Do(Command::Transfer { caller, vertex }), Then::Next);
    let release = |vertex| Act::Do(Command::Release { caller, vertex });
    // An item starts at `place`, so it lies in the program and its first body one byte further.
    let body = place.saturating_add(1);
    let (act, then) = match (item, phase) {
        // "job: one step that names the job; then past the item."
        (Item::Job { number, past }, 0) => (Act::Say(Answer::Job { number, offset: place }), Then::Move(past.into())),
        // "async: newTd t' (its body, own scope); newEdge t' to own scope; release t'; then past
        // the item."
        (Item::Async { .. }, 0) => new(0, body, scope),
        (Item::Async { .. }, 1) => edge(first, scope),
        (Item::Async { past }, 2) => (release(first), Then::Move(past.into())),
        // "finish: newTd t2 (past the item, own scope); newTd t1 (its body, scope t2); newEdge t1
        // to t2; transfer to t2; release t2; release t1; then the last byte."
        (Item::Finish { past }, 0) => new(0, past.into(), scope),
        (Item::Finish { .. }, 1) => new(1, body, first),
        (Item::Finish { .. }, 2) => edge(second, first),
        (Item::Finish { .. }, 3) => transfer(first),
        (Item::Finish { .. }, 4) => (release(first), Then::Next),
        (Item::Finish { .. }, 5) => (release(second), Then::Move(end)),
        // Of either edition: "fork: newTd t1 (left), t2 (right), [...] with own scope".
        (Item::Fork { .. }, 0) => new(0, body, scope),
        (Item::Fork { right, .. }, 1) => new(1, right.into(), scope),
        (Item::Fork { past, .. }, phase) => match (edition, phase) {
            // "t (past the item), all with own scope; newEdge t1 to t; newEdge t2 to t; transfer to
            // t; release t, t1, t2; then the last byte."
            (Edition::First, 2) => new(2, past.into(), scope),
            (Edition::First, 3) => edge(first, third),
            (Edition::First, 4) => edge(second, third),
            (Edition::First, 5) => transfer(third),
            (Edition::First, 6) => (release(third), Then::Next),
            (Edition::First, 7) => (release(first), Then::Next),
            (Edition::First, 8) => (release(second), Then::Move(end)),
            // "newEdge of each to the forking vertex, release t1, release t2, yield, and then past
            // the item; the vertex starts again."
            (Edition::Second, 2) => edge(first, caller),
            (Edition::Second, 3) => edge(second, caller),
            (Edition::Second, 4) => (release(first), Then::Next),
            (Edition::Second, 5) => (release(second), Then::Next),
            (Edition::Second, 6) => (Act::Do(Command::Yield { caller }), Then::Move(past.into())),
            _ => return None,
        },
        // "newTd t (last byte, own scope), newTd t' (the future's body, scope t), newEdge t' to t, release t, release t'"; then past
        // the item.
        (Item::Future { .. }, 0) => new(0, end, scope),
        (Item::Future { .. }, 1) => new(1, body, first),
        (Item::Future { .. }, 2) => edge(second, first),
        (Item::Future { .. }, 3) => (release(first), Then::Next),
        (Item::Future { past }, 4) => (release(second), Then::Open(past.into())),
        // "newTd (past the item, own scope), newEdge from t to it, transfer to it, release it; the forcing vertex goes to the last
        // byte."
        (Item::Force { past, .. }, 0) => new(0, past.into(), scope),
        (Item::Force { number, .. }, 1) => edge(view.forced(row, number)?, first),
        (Item::Force { .. }, 2) => transfer(first),
        (Item::Force { .. }, 3) => (release(first), Then::Move(end)),
        // "end byte: stop."
        (Item::End, 0) => (Act::Do(Command::Stop { caller }), Then::Stay),
        _ => return None,
    };
    Some(Due { act, then })
}

impl View<'_> {
    /// The step of an executing vertex with the item found at its place: "13 and the command's
    /// own, 20 for the other vertices it names included".
    fn executing_step(&self, vertex: u32, row: &Row, item: Option<Item>, program: &[u8], edition: Edition) -> Result<Due, u32> {
        let item = item.ok_or(13u32)?;
        // The program reads, so it has 1 to 4,096 bytes.
        let end = program.len() as u32 - 1;
        let mut due = next_command(self, edition, vertex, row, item, end).ok_or(13u32)?;
        if let Act::Do(command) = due.act {
            due.act = self.check(command)?;
        }
        Ok(due)
    }

    /// The future that a force means: "The word of a future's t names the next future out, so a force follows its number of such
    /// words." Nothing, and so 13, "where the words followed come to 0 or to no made vertex".
    fn forced(&self, row: &Row, number: u16) -> Option<u32> {
        let made = self.made();
        let mut future = row[FUTURE];
        for _ in 0..number {
            future = made_future(made, future)?[FUTURE];
        }
        made_future(made, future).map(|_| future)
    }

    /// The row of a released vertex, if it is one and the tally does not refuse its step.
    fn released(&self, vertex: u32) -> Option<&Row> {
        if self.tally.steps >= MOST_STEPS || !self.tally_fits() {
            return None;
        }
        self.made().get(vertex as usize).filter(|row| row[STATUS] == RELEASED)
    }

    /// The step that names a vertex, or its refusal: "Step: 12, 20, 22, 23, then 21, or 13 and the
    /// command's own"; "for a step of a released vertex, 12 then looks at the tally and that
    /// vertex's row only", and any other looks at all of it.
    pub fn step_of(&self, program: &[u8], edition: Edition, vertex: u32) -> Result<Due, u32> {
        if let Some(row) = self.released(vertex) {
            may_start(row)?;
            return Ok(start(vertex));
        }
        if !self.sound_to_step() {
            return Err(12);
        }
        let row = self.made().get(vertex as usize).ok_or(20u32)?;
        match row[STATUS] {
            NEW => Err(22),
            FINISHED => Err(23),
            _ => {
                // 13 speaks of the whole program, so all of it is read.
                let mut item = None;
                let place = row[PLACE] as usize;
                read(program, edition, |at, found| {
                    if at == place {
                        item = Some(found)
                    }
                })
                .map_err(|_| 13u32)?;
                self.executing_step(vertex, row, item, program, edition)
            }
        }
    }

    /// What a run finds: done, stuck, or the lowest vertex whose step would be accepted. Vertices with a mark are passed over.
    pub fn seek(&self, book: &Book, marks: &[u32]) -> Seek {
        let rows = self.made();
        // At 8,192 steps none more is accepted (12).
        if self.tally.steps < MOST_STEPS {
            for (number, row) in rows.iter().enumerate() {
                let vertex = number as u32;
                if marks.get(number).is_some_and(|&mark| mark != 0) {
                    continue;
                }
                match row[STATUS] {
                    RELEASED if may_start(row).is_ok() => return Seek::Found(vertex, start(vertex)),
                    EXECUTING => {
                        let item = book.item(row[PLACE]);
                        if let Ok(due) = self.executing_step(vertex, row, item, book.program, book.edition) {
                            return Seek::Found(vertex, due);
                        }
                    }
                    _ => {}
                }
            }
        }
        // "done if all vertices made are finished; stuck if no step would be accepted"
        if rows.iter().all(|row| row[STATUS] == FINISHED) {
            Seek::Done
        } else {
            Seek::Stuck
        }
    }
}

/// The row of the vertex that a word for a future names: none where the word is 0 or "no made vertex".
fn made_future(made: &[Row], word: u32) -> Option<&Row> {
    match word {
        0 => None,
        vertex => made.get(vertex as usize),
    }
}

/// "A released one is started."
fn start(vertex: u32) -> Due {
    Due { act: Act::Do(Command::Start { vertex }), then: Then::Stay }
}

impl Tables<'_> {
    /// Takes an accepted step of a vertex; the tally is "kept true by each accepted step".
    pub fn take(&mut self, vertex: u32, due: Due) -> Answer {
        let answer = self.apply(due.act);
        let row = &mut self.rows[vertex as usize];
        match due.then {
            Then::Stay => {}
            Then::Next => row[PHASE] += 1,
            Then::Keep(word) => {
                row[PHASE] += 1;
                row[MADE + word] = self.tally.made - 1;
            }
            Then::Move(place) => move_on(row, place),
            Then::Open(place) => {
                row[FUTURE] = row[MADE];
                move_on(row, place);
            }
        }
        self.tally.steps += 1;
        answer
    }
}

/// "An item's last command sets phase and made vertices to 0", and the place moves.
fn move_on(row: &mut Row, place: u32) {
    row[PLACE] = place;
    row[PHASE] = 0;
    row[MADE..MADE + MADE_WORDS].fill(0);
}
