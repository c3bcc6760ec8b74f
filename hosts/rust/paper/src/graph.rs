//! The lent tables, their soundness (12) and the seven commands: what refuses them and what they do.

use crate::{Answer, Command, Tally};

/// "Vertex row, seven words: status; place [...]; scope [...]; phase [...]; three vertices". "Vertex rows gain an eighth word: the
/// latest open future [...]; 0 is none." "Give each vertex row a ninth word, the number of edges into it".
pub(crate) const VERTEX_WORDS: usize = 9;
pub(crate) type Row = [u32; VERTEX_WORDS];
pub(crate) const STATUS: usize = 0;
pub(crate) const PLACE: usize = 1;
pub(crate) const SCOPE: usize = 2;
pub(crate) const PHASE: usize = 3;
pub(crate) const MADE: usize = 4;
pub(crate) const MADE_WORDS: usize = 3;
pub(crate) const FUTURE: usize = 7;
pub(crate) const IN_COUNT: usize = 8;

/// "Edge row, two words: source, target."
pub(crate) const EDGE_WORDS: usize = 2;
pub(crate) type Edge = [u32; EDGE_WORDS];

/// "A vertex has a status: 1 new, 2 released, 3 executing, 4 finished."
pub(crate) const NEW: u32 = 1;
pub(crate) const RELEASED: u32 = 2;
pub(crate) const EXECUTING: u32 = 3;
pub(crate) const FINISHED: u32 = 4;

/// "Only full rows among the first 1,024 of each table are used."
pub(crate) const MOST_ROWS: usize = 1024;

/// "steps 8,192 or more (at a step or run only)"
pub(crate) const MOST_STEPS: u32 = 8192;

/// A row with these words "and its other words 0".
pub(crate) fn row(status: u32, place: u32, scope: u32) -> Row {
    let mut row = [0; VERTEX_WORDS];
    (row[STATUS], row[PLACE], row[SCOPE]) = (status, place, scope);
    row
}

/// The usable rows of a table of words.
fn rows<const N: usize>(words: &[u32]) -> &[[u32; N]] {
    let full = words.as_chunks().0;
    &full[..full.len().min(MOST_ROWS)]
}

fn rows_mut<const N: usize>(words: &mut [u32]) -> &mut [[u32; N]] {
    let full = words.as_chunks_mut().0;
    let used = full.len().min(MOST_ROWS);
    &mut full[..used]
}

/// The lent state to look at: all usable rows, made or held ones first.
#[derive(Clone, Copy)]
pub(crate) struct View<'a> {
    pub rows: &'a [Row],
    pub edges: &'a [Edge],
    pub tally: Tally,
}

/// The lent state to change.
pub(crate) struct Tables<'a> {
    pub rows: &'a mut [Row],
    pub edges: &'a mut [Edge],
    pub tally: &'a mut Tally,
}

/// What an accepted command does, or a step before its own vertex moves on.
#[derive(Clone, Copy)]
pub(crate) enum Act {
    Do(Command),
    /// A job, or an edge that adds nothing: it changes nothing and says this.
    Say(Answer),
}

/// "30 caller not executing"
fn executing(status: u32) -> Result<(), u32> {
    if status == EXECUTING {
        Ok(())
    } else {
        Err(30)
    }
}

/// "21 released but an edge leads in", and "Start reads that word and answers as the full search would".
pub(crate) fn may_start(row: &Row) -> Result<(), u32> {
    if row[IN_COUNT] == 0 {
        Ok(())
    } else {
        Err(21)
    }
}

impl<'a> View<'a> {
    pub fn new(vertices: &'a [u32], edges: &'a [u32], tally: &Tally) -> View<'a> {
        View { rows: rows(vertices), edges: rows(edges), tally: *tally }
    }

    /// "12 tally over the used rows": whether it is not.
    pub fn tally_fits(&self) -> bool {
        self.tally.made as usize <= self.rows.len() && self.tally.held as usize <= self.edges.len()
    }

    /// Whether 12 is not due at a single command other than start: "12 tally over the used rows, [...]
    /// a made vertex's status outside 1 to 4, or a held edge's end not a made vertex". (Inlined, it
    /// makes the runs around it a third slower.)
    #[inline(never)]
    pub fn sound(&self) -> bool {
        let Tally { made, held, .. } = self.tally;
        let Some(vertices) = self.rows.get(..made as usize) else {
            return false;
        };
        let Some(edges) = self.edges.get(..held as usize) else {
            return false;
        };
        // All rows are looked at, so that several can be at once.
        let known = |known, row: &Row| known & (NEW..=FINISHED).contains(&row[STATUS]);
        let ends_made = |ends_made, &[source, target]: &Edge| ends_made & (source < made) & (target < made);
        vertices.iter().fold(true, known) && edges.iter().fold(true, ends_made)
    }

    /// Whether 12 is not due at a run, or at a step but that of a released vertex.
    pub fn sound_to_step(&self) -> bool {
        self.tally.steps < MOST_STEPS && self.sound()
    }

    /// The rows of the vertices made. Here and below the tally fits.
    pub fn made(&self) -> &'a [Row] {
        &self.rows[..self.tally.made as usize]
    }

    /// The edges held.
    pub fn held(&self) -> &'a [Edge] {
        &self.edges[..self.tally.held as usize]
    }

    /// A vertex's status; "20 no such vertex".
    pub fn status(&self, vertex: u32) -> Result<u32, u32> {
        self.made().get(vertex as usize).map(|row| row[STATUS]).ok_or(20)
    }

    /// What a command does on sound tables, or its refusal, in the order of "Order. [...] Commands". A start needs no more than a tally
    /// that fits: "For start [...] 12 then looks at the tally and that vertex's row only".
    pub fn check(&self, command: Command) -> Result<Act, u32> {
        match command {
            // "newTd 30, 31"
            Command::NewTd { caller, .. } => {
                executing(self.status(caller)?)?;
                if self.made().len() == self.rows.len() {
                    return Err(31);
                }
            }
            // "newEdge 30, 33, (finished source accepted), 34, 35, 32", and now "Refusal 34 is never given"
            Command::NewEdge { caller, source, target } => {
                let caller_status = self.status(caller)?;
                let source_status = self.status(source)?;
                let target_status = self.status(target)?;
                executing(caller_status)?;
                // "33 target executing or finished", and now "33 spares the caller"
                if target != caller && (target_status == EXECUTING || target_status == FINISHED) {
                    return Err(33);
                }
                // "A finished t1 adds nothing and is accepted." "An edge held already is now accepted and changes nothing, tested
                // before 35."
                if source_status == FINISHED || self.held().contains(&[source, target]) {
                    return Ok(Act::Say(Answer::Edge(source, target)));
                }
                // "Cycle for newEdge: t1 is t2 or t2 reaches t1."
                if source == target || self.reaches(target, source) {
                    return Err(35);
                }
                if self.held().len() == self.edges.len() {
                    return Err(32);
                }
            }
            // "release 30, 36"
            Command::Release { caller, vertex } => {
                let caller = self.status(caller)?;
                let status = self.status(vertex)?;
                executing(caller)?;
                if status != NEW {
                    return Err(36);
                }
            }
            // "transfer 30, 37, 38, 35"
            Command::Transfer { caller, vertex } => {
                let caller_status = self.status(caller)?;
                let status = self.status(vertex)?;
                executing(caller_status)?;
                if status != NEW {
                    return Err(37);
                }
                if self.held().iter().any(|edge| edge[0] == vertex) {
                    return Err(38);
                }
                // "some target of t is t' or reaches t'": t reaches t'.
                if self.reaches(caller, vertex) {
                    return Err(35);
                }
            }
            // "start 22, 39, 23, 21", and of these 20 comes before the row's own 12, since there is none for no vertex
            Command::Start { vertex } => {
                let row = self.made().get(vertex as usize).ok_or(20u32)?;
                match row[STATUS] {
                    NEW => return Err(22),
                    EXECUTING => return Err(39),
                    FINISHED => return Err(23),
                    RELEASED => may_start(row)?,
                    _ => return Err(12),
                }
            }
            // "stop 30", and "yield meets 12, 20 and 30 only"
            Command::Stop { caller } | Command::Yield { caller } => executing(self.status(caller)?)?,
        }
        Ok(Act::Do(command))
    }

    /// Whether a path of one or more held edges leads from one made vertex to another. Linear in
    /// the edges, also where they hold a cycle.
    pub fn reaches(&self, from: u32, to: u32) -> bool {
        let edges = self.held();
        // Without an edge out of `from` or into `to` there is no path: the usual case.
        let (mut out, mut into) = (false, false);
        for edge in edges {
            out |= edge[0] == from;
            into |= edge[1] == to;
        }
        if !(out && into) {
            return false;
        }
        // The edges out of each vertex as a chain of row numbers plus one, 0 at its end.
        let mut first = [0u16; MOST_ROWS];
        let mut next = [0u16; MOST_ROWS];
        for (row, edge) in edges.iter().enumerate() {
            let head = &mut first[edge[0] as usize];
            next[row] = *head;
            *head = row as u16 + 1;
        }
        // Bytes, not bits: setting one waits for no other.
        let mut seen = [false; MOST_ROWS];
        seen[from as usize] = true;
        // Each vertex is pushed at most once.
        let mut stack = [0u16; MOST_ROWS];
        stack[0] = from as u16;
        let mut waiting = 1;
        while waiting > 0 {
            waiting -= 1;
            let mut link = first[stack[waiting] as usize];
            while link != 0 {
                let row = link as usize - 1;
                let target = edges[row][1];
                if target == to {
                    return true;
                }
                if !seen[target as usize] {
                    seen[target as usize] = true;
                    stack[waiting] = target as u16;
                    waiting += 1;
                }
                link = next[row];
            }
        }
        false
    }
}

impl<'a> Tables<'a> {
    pub fn new(vertices: &'a mut [u32], edges: &'a mut [u32], tally: &'a mut Tally) -> Tables<'a> {
        Tables { rows: rows_mut(vertices), edges: rows_mut(edges), tally }
    }

    pub fn view(&self) -> View<'_> {
        View { rows: self.rows, edges: self.edges, tally: *self.tally }
    }

    /// "clears the used rows and the tally"
    pub fn clear(&mut self) {
        self.rows.fill([0; VERTEX_WORDS]);
        self.edges.fill([0; EDGE_WORDS]);
        *self.tally = Tally::default();
    }

    /// The effect of what was accepted, and its answer.
    pub fn apply(&mut self, act: Act) -> Answer {
        let command = match act {
            Act::Do(command) => command,
            Act::Say(answer) => return answer,
        };
        match command {
            // "makes the next vertex, new, with the place and scope handed in and its other words 0", but for the latest open future,
            // which is "copied from the maker by newTd"
            Command::NewTd { caller, place, scope } => {
                let vertex = self.tally.made;
                let mut made = row(NEW, place, scope);
                made[FUTURE] = self.rows[caller as usize][FUTURE];
                self.rows[vertex as usize] = made;
                self.tally.made += 1;
                Answer::New(vertex)
            }
            // "Otherwise the edge [...] is appended", and there is one more into its target. "The word stops at 0 and at its largest
            // number."
            Command::NewEdge { source, target, .. } => {
                self.edges[self.tally.held as usize] = [source, target];
                self.tally.held += 1;
                let word = &mut self.rows[target as usize][IN_COUNT];
                *word = word.saturating_add(1);
                Answer::Edge(source, target)
            }
            // "turns a new vertex released"
            Command::Release { vertex, .. } => {
                self.rows[vertex as usize][STATUS] = RELEASED;
                Answer::Release(vertex)
            }
            // "each edge out of t gets t' as its source, in its row": its target stays
            Command::Transfer { caller, vertex } => {
                for edge in &mut self.edges[..self.tally.held as usize] {
                    if edge[0] == caller {
                        edge[0] = vertex;
                    }
                }
                Answer::Transfer(vertex)
            }
            // "turns a released vertex with no edge into it executing"
            Command::Start { vertex } => {
                self.rows[vertex as usize][STATUS] = EXECUTING;
                Answer::Start
            }
            // "finishes t and drops its edges out"; "a stop closes the gaps, keeps the order and
            // zeroes freed rows". Into the target of each row that goes there is one edge fewer.
            Command::Stop { caller } => {
                self.rows[caller as usize][STATUS] = FINISHED;
                let held = &mut self.edges[..self.tally.held as usize];
                let mut kept = 0;
                for row in 0..held.len() {
                    let edge = held[row];
                    held[kept] = edge;
                    if edge[0] == caller {
                        let word = &mut self.rows[edge[1] as usize][IN_COUNT];
                        *word = word.saturating_sub(1);
                    } else {
                        kept += 1;
                    }
                }
                held[kept..].fill([0; EDGE_WORDS]);
                self.tally.held = kept as u32;
                Answer::Stop
            }
            // "turns the executing caller released"
            Command::Yield { caller } => {
                self.rows[caller as usize][STATUS] = RELEASED;
                Answer::Yield
            }
        }
    }
}
