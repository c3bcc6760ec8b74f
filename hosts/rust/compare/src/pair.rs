//! Two machines side by side, the engine's and `paper`'s: each call is made to both, and all that came of it compared.

use std::collections::BTreeSet;
use std::fmt::Write;
use std::ops::Range;

use keshtiwol::{
    refusal, Answer, Chain, Command, Dispatch, DispatchEnding, Edition, Ending, Lowest, Run, Tally, EDGE_WORDS, FUTURE, IN_COUNT,
    JOB_WORDS, MADE, PHASE, PLACE, ROWS, SOURCE, STATUS, STEP_LIMIT, TARGET, VERTEX_EXECUTING, VERTEX_FINISHED, VERTEX_NEW,
    VERTEX_RELEASED, VERTEX_WORDS,
};

use crate::counts::{Callers, Counts, Forces, InCounts, Passes, Repeats, Starts};
use crate::programs;

#[derive(Clone, Copy, Debug, PartialEq)]
pub enum Call {
    Open,
    Load,
    Step(u32),
    Run(u32),
    /// With the pair's marks, into a list of so many words.
    Dispatch {
        budget: u32,
        words: u32,
    },
    Lowest,
    Command(Command),
    /// Into a list of so many words.
    Chain {
        source: u32,
        target: u32,
        words: u32,
    },
}

impl Call {
    pub fn names_an_edition(self) -> bool {
        matches!(self, Call::Load | Call::Step(_) | Call::Run(_) | Call::Dispatch { .. } | Call::Lowest)
    }
}

/// The edition that has a number, if one has.
pub fn edition_of(number: u32) -> Option<Edition> {
    [Edition::First, Edition::Second].into_iter().find(|&edition| u32::from(edition) == number)
}

/// The vertex that does a command.
fn caller_of(command: Command) -> u32 {
    match command {
        Command::NewTd { caller, .. }
        | Command::NewEdge { caller, .. }
        | Command::Release { caller, .. }
        | Command::Transfer { caller, .. }
        | Command::Stop { caller }
        | Command::Yield { caller } => caller,
        Command::Start { vertex } => vertex,
    }
}

#[derive(Clone, Copy, Debug, PartialEq)]
pub enum Said {
    Answer(Answer),
    Run(Run),
    Dispatch(Dispatch),
    Lowest(Lowest),
    Chain(Chain),
}

/// What differed, in full.
#[derive(Debug)]
pub struct Difference(pub String);

/// The tables and the tally.
#[derive(Clone, Debug, PartialEq)]
pub struct State {
    pub vertices: Vec<u32>,
    pub edges: Vec<u32>,
    pub tally: Tally,
}

impl State {
    /// The rows of the vertices made, as far as the table goes.
    pub fn made(&self) -> impl ExactSizeIterator<Item = &[u32]> {
        self.vertices.chunks_exact(VERTEX_WORDS).take(ROWS).take(self.tally.made as usize)
    }

    /// The rows of the edges held, likewise.
    pub fn held(&self) -> impl ExactSizeIterator<Item = &[u32]> {
        self.edges.chunks_exact(EDGE_WORDS).take(ROWS).take(self.tally.held as usize)
    }

    /// How many held edges lead into each vertex made.
    pub fn edges_into(&self) -> Vec<u32> {
        let mut into = vec![0; self.made().len()];
        for edge in self.held() {
            if let Some(number) = into.get_mut(edge[TARGET] as usize) {
                *number += 1;
            }
        }
        into
    }

    /// The vertices below this one that execute and have no mark.
    fn executing(&self, below: u32, marks: &[u32]) -> Vec<u32> {
        let is_free = |vertex: u32| marks.get(vertex as usize).is_none_or(|&mark| mark == 0);
        let executing = |(vertex, row): &(u32, &[u32])| row[STATUS] == VERTEX_EXECUTING && is_free(*vertex);
        (0..below).zip(self.made()).filter(executing).map(|(vertex, _)| vertex).collect()
    }

    /// For each vertex made its in-count, and what that should be.
    fn in_counts(&self) -> Vec<(u32, u32)> {
        self.made().map(|row| row[IN_COUNT]).zip(self.edges_into()).collect()
    }

    fn tally_fits(&self) -> bool {
        (self.made().len(), self.held().len()) == (self.tally.made as usize, self.tally.held as usize)
    }

    fn has_bad_status(&self) -> bool {
        self.made().any(|row| !is_status(row[STATUS]))
    }

    fn has_bad_edge(&self) -> bool {
        self.held().any(|row| row[SOURCE] >= self.tally.made || row[TARGET] >= self.tally.made)
    }

    /// Whether a call in an edition is refused with 12: for the tally, for its steps, or for what else it looks at.
    fn is_unsound_for(&self, call: Call) -> bool {
        let late = self.tally.steps >= STEP_LIMIT;
        let row = |vertex: u32| self.made().nth(vertex as usize);
        match call {
            Call::Open | Call::Load => false,
            _ if !self.tally_fits() => true,
            Call::Step(_) | Call::Run(_) | Call::Dispatch { .. } | Call::Lowest if late => true,
            // These two look at one row.
            Call::Command(Command::Start { vertex }) => row(vertex).is_some_and(|row| !is_status(row[STATUS])),
            Call::Step(vertex) if row(vertex).is_some_and(|row| row[STATUS] == VERTEX_RELEASED) => false,
            _ => self.has_bad_status() || self.has_bad_edge(),
        }
    }
}

fn is_status(word: u32) -> bool {
    (VERTEX_NEW..=VERTEX_FINISHED).contains(&word)
}

/// A released vertex that is about to start, on tables whose tally refuses nothing.
struct Starting {
    in_count: u32,
    edges_in: u32,
    bad_status: bool,
    bad_edge: bool,
}

/// The steps of a run or a dispatch of which it is looked at what they passed over.
const STEPS_LOOKED_AT: u32 = 6;
/// The most vertices that are asked why they were passed over.
const MOST_ASKED: usize = 200;

/// What a vertex asks for that a cycle may refuse.
#[derive(Clone, Copy, Debug, PartialEq)]
pub enum Asked {
    Edge,
    ForcedEdge,
    Transfer,
}

/// The phases of the item with this first byte at which its next command is a newEdge or a transfer.
pub fn asked_at(first: u8, edition: Edition) -> &'static [(u32, Asked)] {
    match (first, edition) {
        (programs::ASYNC, _) => &[(1, Asked::Edge)],
        (programs::FINISH, _) => &[(2, Asked::Edge), (3, Asked::Transfer)],
        (programs::FORK, Edition::First) => &[(3, Asked::Edge), (4, Asked::Edge), (5, Asked::Transfer)],
        (programs::FORK, Edition::Second) => &[(2, Asked::Edge), (3, Asked::Edge)],
        (programs::FUTURE, _) => &[(2, Asked::Edge)],
        (programs::FORCE, _) => &[(1, Asked::ForcedEdge), (2, Asked::Transfer)],
        _ => &[],
    }
}

/// The vertex whose step led from one state to the other: its place or its phase moves, or it starts, stops or yields.
fn stepped(old: &State, new: &State) -> Option<u32> {
    let moved = |(old, new): (&[u32], &[u32])| {
        old[PLACE] != new[PLACE] || old[PHASE] != new[PHASE] || old[STATUS] != VERTEX_NEW && old[STATUS] != new[STATUS]
    };
    old.made().zip(new.made()).position(moved).map(|vertex| vertex as u32)
}

/// Words around the engine's tables, marks and list that no call may touch.
const MARGIN: usize = 8;
/// These words, and those of a list before the call.
const MARK: u32 = 0xA5A5_5A5A;

pub struct Pair {
    /// Lent to both. Scenarios may change it between calls.
    pub program: Vec<u8>,
    /// The number by which calls name their edition, also one that no edition has. Scenarios may change it, too.
    pub edition: u32,
    /// `paper`'s side; the engine's was the same after each call so far.
    state: State,
    /// Its marks of busy vertices.
    paper_busy: Vec<u32>,
    /// Its list at this call; of no words where the call has none.
    paper_list: Vec<u32>,
    /// The engine's side, with margins.
    vertices: Vec<u32>,
    edges: Vec<u32>,
    busy: Vec<u32>,
    list: Vec<u32>,
    tally: Tally,
    /// The edition in which these tables were loaded, where only calls changed them since.
    loaded: Option<Edition>,
    /// The vertices that have yielded since and were not seen to start again.
    yielded: BTreeSet<u32>,
    counts: Counts,
    /// Each call with the edition's number.
    history: Vec<(u32, Call, Said)>,
}

impl Pair {
    pub fn new(program: Vec<u8>, edition: Edition, state: State) -> Pair {
        let mut pair = Pair {
            program,
            edition: edition.into(),
            state: State { vertices: Vec::new(), edges: Vec::new(), tally: Tally::default() },
            paper_busy: Vec::new(),
            paper_list: Vec::new(),
            vertices: Vec::new(),
            edges: Vec::new(),
            busy: with_margins(&[]),
            list: Vec::new(),
            tally: Tally::default(),
            loaded: None,
            yielded: BTreeSet::new(),
            counts: Counts::default(),
            history: Vec::new(),
        };
        pair.set(state);
        pair
    }

    pub fn state(&self) -> &State {
        &self.state
    }

    /// Puts both sides in a state.
    pub fn set(&mut self, state: State) {
        self.vertices = with_margins(&state.vertices);
        self.edges = with_margins(&state.edges);
        self.tally = state.tally;
        self.state = state;
        self.loaded = None;
        self.yielded.clear();
    }

    /// Gives both sides these marks.
    pub fn set_busy(&mut self, marks: Vec<u32>) {
        self.busy = with_margins(&marks);
        self.paper_busy = marks;
    }

    pub fn set_busy_word(&mut self, vertex: usize, word: u32) {
        self.paper_busy[vertex] = word;
        self.busy[MARGIN + vertex] = word;
    }

    pub fn busy(&self) -> &[u32] {
        &self.paper_busy
    }

    /// The jobs that a dispatch has just handed out: vertex, number and offset of each.
    pub fn handed_out(&self, handed: u32) -> impl Iterator<Item = [u32; JOB_WORDS]> + '_ {
        self.paper_list.chunks_exact(JOB_WORDS).take(handed as usize).map(|row| [row[0], row[1], row[2]])
    }

    pub fn set_vertex_word(&mut self, at: usize, word: u32) {
        self.state.vertices[at] = word;
        self.vertices[MARGIN + at] = word;
    }

    pub fn set_edge_word(&mut self, at: usize, word: u32) {
        self.state.edges[at] = word;
        self.edges[MARGIN + at] = word;
    }

    pub fn set_tally(&mut self, tally: Tally) {
        self.state.tally = tally;
        self.tally = tally;
    }

    /// Makes a call on both sides.
    pub fn call(&mut self, call: Call) -> Result<Said, Difference> {
        let before = self.state.tally;
        let in_counts = self.state.in_counts();
        let edition = edition_of(self.edition);
        let named = edition.is_some() || !call.names_an_edition();
        let unsound = named && self.state.is_unsound_for(call);
        let tally_fits = self.state.tally_fits();
        self.lend_lists(call);
        let paper = on_paper(call, edition, &self.program, &mut self.state, &mut self.paper_busy, &mut self.paper_list);
        let (v, e) = (inside(&self.vertices), inside(&self.edges));
        let (b, l) = (inside(&self.busy), inside(&self.list));
        let engine = by_engine(
            call,
            self.edition,
            &self.program,
            &mut self.vertices[v.clone()],
            &mut self.edges[e.clone()],
            &mut self.tally,
            &mut self.busy[b.clone()],
            &mut self.list[l.clone()],
        );
        self.counts.add(call, engine);
        self.counts.named(call, edition);
        let same = engine == paper
            && self.tally == self.state.tally
            && self.vertices[v] == self.state.vertices
            && self.edges[e] == self.state.edges
            && self.busy[b] == self.paper_busy
            && self.list[l] == self.paper_list
            && self.margins().all(|word| word == MARK);
        if !same {
            return Err(self.difference(call, engine, paper, before));
        }
        self.history.push((self.edition, call, engine));
        if named == (refusal_of(engine) == Some(refusal::NO_SUCH_EDITION)) {
            return Err(self.disagreement("98 is not given where it is due, or is given elsewhere"));
        }
        if unsound != (refusal_of(engine) == Some(refusal::UNSOUND_TABLES)) {
            return Err(self.disagreement("12 is not given where it is due, or is given elsewhere"));
        }
        let rows = (self.state.vertices.len() / VERTEX_WORDS).min(ROWS);
        let unmarked = matches!(call, Call::Dispatch { .. }) && named && !unsound && self.paper_busy.len() < rows;
        if unmarked != (refusal_of(engine) == Some(refusal::BUSY_TABLE_TOO_SHORT)) {
            return Err(self.disagreement("44 is not given where it is due, or is given elsewhere"));
        }
        if unsound && tally_fits && before.steps < STEP_LIMIT {
            self.counts.unsound(call);
        }
        self.check_in_counts(call, engine, &in_counts)?;
        self.note_edition(call, engine, edition);
        self.note_caller(call, engine, &in_counts, before.held);
        Ok(engine)
    }

    /// Notes a program that loaded, or would have in the second edition, and a step in another edition than the loading.
    fn note_edition(&mut self, call: Call, said: Said, edition: Option<Edition>) {
        let Said::Answer(answer) = said else { return };
        match (call, answer, edition) {
            (Call::Open, Answer::Ready, _) => (self.loaded, self.yielded) = (None, BTreeSet::new()),
            (Call::Load, Answer::Ready, Some(edition)) => {
                (self.loaded, self.yielded) = (Some(edition), BTreeSet::new());
                self.counts.loaded(&self.program, edition);
            }
            (Call::Load, Answer::Refused { number: refusal::TOO_MANY_VERTICES, .. }, Some(Edition::First)) => {
                if programs::needs(&self.program, Edition::Second).0 <= ROWS as u32 {
                    self.counts.second_only();
                }
            }
            (Call::Step(_), _, Some(edition)) if self.loaded.is_some_and(|loaded| loaded != edition) => self.counts.crossed(answer),
            _ => {}
        }
    }

    /// Notes what a step or a command has to do with edges into the vertex that does it, where so many were held before.
    fn note_caller(&mut self, call: Call, said: Said, before: &[(u32, u32)], held: u32) {
        let (vertex, by_step) = match call {
            Call::Step(vertex) => (vertex, true),
            Call::Command(command) => (caller_of(command), false),
            _ => return,
        };
        let Said::Answer(answer) = said else { return };
        let edges_in = before.get(vertex as usize).is_some_and(|&(_, edges_in)| edges_in > 0);
        let mut callers = Callers::default();
        *match answer {
            Answer::Yield if edges_in => &mut callers.waiting,
            Answer::Yield => &mut callers.passing,
            Answer::Start if self.yielded.remove(&vertex) => &mut callers.again,
            Answer::Edge(_, target) if target == vertex && self.state.tally.held > held => &mut callers.edges,
            Answer::Edge(_, target) if target == vertex => &mut callers.idle_edges,
            Answer::Stop if edges_in => &mut callers.stops,
            Answer::Transfer(_) if edges_in => &mut callers.transfers,
            _ => return,
        } = 1;
        if answer == Answer::Yield {
            self.yielded.insert(vertex);
        }
        self.counts.called(by_step, callers);
    }

    /// In-counts follow the edges held: where a step or a command changes how many lead into a vertex, its word changes by as much, as far as
    /// 0 and the largest number. An opening and a loading leave true words, and a run does where they were true.
    fn check_in_counts(&mut self, call: Call, said: Said, before: &[(u32, u32)]) -> Result<(), Difference> {
        let after = self.state.in_counts();
        let are_true = |in_counts: &[(u32, u32)]| in_counts.iter().all(|(word, edges_in)| word == edges_in);
        let follow = match call {
            Call::Step(_) | Call::Command(_) => {
                let old = before.iter().copied().chain(std::iter::repeat((0, 0)));
                after.iter().zip(old).all(|(&(word, edges_in), (old_word, old_edges_in))| {
                    let more = old_word.saturating_add(edges_in.saturating_sub(old_edges_in));
                    word == more.saturating_sub(old_edges_in.saturating_sub(edges_in))
                })
            }
            _ => said != Said::Answer(Answer::Ready) && !are_true(before) || are_true(&after),
        };
        if !follow {
            return Err(self.disagreement("an in-count does not follow the edges held"));
        }
        if matches!(call, Call::Step(_) | Call::Command(_)) {
            let changed = || before.iter().zip(&after).filter(|(old, new)| old.1 != new.1);
            self.counts.in_counts(InCounts {
                true_words: (changed().next().is_some() && are_true(before)).into(),
                largest: changed().any(|(old, new)| old.0 == u32::MAX && new.1 > old.1).into(),
                none: changed().any(|(old, new)| old.0 == 0 && new.1 < old.1).into(),
                several: changed().any(|(old, new)| new.1 + 1 < old.1).into(),
            });
        }
        Ok(())
    }

    /// A vertex that is about to start by a step or a command, if it is released and the tally refuses nothing.
    fn starting(&self, vertex: u32, by_step: bool) -> Option<Starting> {
        let state = &self.state;
        let row = state.made().nth(vertex as usize)?;
        let late = by_step && state.tally.steps >= STEP_LIMIT;
        (row[STATUS] == VERTEX_RELEASED && state.tally_fits() && !late).then(|| Starting {
            in_count: row[IN_COUNT],
            edges_in: state.edges_into()[vertex as usize],
            bad_status: state.has_bad_status(),
            bad_edge: state.has_bad_edge(),
        })
    }

    /// It starts exactly where its in-count is 0, whatever the edges are and whatever else is wrong with the tables.
    fn check_start(&mut self, starting: Starting, said: Said, by_step: bool) -> Result<(), Difference> {
        let Starting { in_count, edges_in, bad_status, bad_edge } = starting;
        let started = in_count == 0;
        let refused = Answer::Refused { number: refusal::EDGE_LEADS_IN, place: 0 };
        if said != Said::Answer(if started { Answer::Start } else { refused }) {
            return Err(self.disagreement("the start of a released vertex does not follow its in-count"));
        }
        let mut starts = Starts { bad_status: bad_status.into(), bad_edge: bad_edge.into(), ..Starts::default() };
        *match (started, edges_in) {
            (true, 0) => &mut starts.started,
            (true, _) => &mut starts.against_edges,
            (false, 0) => &mut starts.without_edges,
            (false, _) => &mut starts.waited,
        } = 1;
        self.counts.started(by_step, starts);
        Ok(())
    }

    /// A command on both sides. Before one with a cycle test the chain is asked for that this test is about: where the command gets as
    /// far as the test, it is refused with 35 where there was one, and passes where there was none. An edge that is held already never
    /// gets as far.
    pub fn command(&mut self, command: Command) -> Result<Said, Difference> {
        let (source, target) = match command {
            Command::Yield { caller } => return self.yields(caller),
            Command::NewEdge { source, target, .. } => (source, target),
            Command::Transfer { caller, vertex } => (vertex, caller),
            Command::Start { vertex } => {
                let starting = self.starting(vertex, false);
                let said = self.call(Call::Command(command))?;
                if let Some(starting) = starting {
                    self.check_start(starting, said, false)?;
                }
                return Ok(said);
            }
            _ => return self.call(Call::Command(command)),
        };
        let chain = self.call(Call::Chain { source, target, words: ROWS as u32 })?;
        let held = self.state.tally.held;
        let said = self.call(Call::Command(command))?;
        if let Command::NewEdge { caller, target, .. } = command {
            self.check_target(caller, target, said)?;
        }
        let closes = match said {
            Said::Answer(Answer::Refused { number: refusal::CLOSES_CYCLE, .. }) => true,
            Said::Answer(Answer::Transfer(_)) => false,
            Said::Answer(Answer::Edge(..)) if self.is_repeated(source, target, held)? => {
                self.note_repeated(false, source == target, chain);
                return Ok(said);
            }
            // An edge from a finished source is not tested, nor appended.
            Said::Answer(Answer::Edge(..)) if self.state.tally.held > held => false,
            // Refused after the test.
            Said::Answer(Answer::Refused { number: refusal::NO_EDGE_ROW, .. }) => false,
            _ => return Ok(said),
        };
        if matches!(command, Command::NewEdge { .. }) && self.stands_in(source, target, held) {
            return Err(self.disagreement("an edge that is held already was refused"));
        }
        match chain {
            Said::Chain(Chain::Written(_)) if closes => {}
            Said::Chain(Chain::Refused { number: refusal::NO_CHAIN, .. }) if !closes => {}
            _ => return Err(self.disagreement("a cycle test and the chain before it do not agree")),
        }
        self.counts.tied(closes);
        Ok(said)
    }

    /// The target of an edge that was taken is new, released or the caller, and one that was refused with 33 is none of these.
    fn check_target(&mut self, caller: u32, target: u32, said: Said) -> Result<(), Difference> {
        let status = self.state.made().nth(target as usize).map(|row| row[STATUS]);
        let waits = target == caller || matches!(status, Some(VERTEX_NEW | VERTEX_RELEASED));
        match said {
            Said::Answer(Answer::Edge(..)) if !waits => Err(self.disagreement("an edge leads onto a vertex that cannot wait")),
            Said::Answer(Answer::Refused { number: refusal::TARGET_NOT_WAITING, .. }) if waits => {
                Err(self.disagreement("33 is given for a vertex that can wait"))
            }
            Said::Answer(Answer::Refused { number: refusal::CLOSES_CYCLE, .. }) if target == caller => {
                self.counts.called(false, Callers { cycles: 1, ..Callers::default() });
                Ok(())
            }
            _ => Ok(()),
        }
    }

    /// The command yield on both sides. It is taken exactly where the caller executes and the tables are sound, and changes its status only.
    fn yields(&mut self, caller: u32) -> Result<Said, Difference> {
        let mut expected = self.state.clone();
        let status = VERTEX_WORDS * caller as usize + STATUS;
        let executes = caller < expected.tally.made && expected.vertices.get(status) == Some(&VERTEX_EXECUTING);
        let said = self.call(Call::Command(Command::Yield { caller }))?;
        match said {
            Said::Answer(Answer::Yield) if executes => expected.vertices[status] = VERTEX_RELEASED,
            Said::Answer(Answer::Refused { number: refusal::UNSOUND_TABLES, .. }) => {}
            Said::Answer(Answer::Refused { number: refusal::NO_SUCH_VERTEX | refusal::CALLER_NOT_EXECUTING, .. }) if !executes => {}
            _ => return Err(self.disagreement("a yield is taken where it is not due, or refused where it is")),
        }
        if self.state != expected {
            return Err(self.disagreement("a yield changes more than its caller's status"));
        }
        Ok(said)
    }

    /// A step on both sides. After one that took an edge held already the chain is asked for that leads back from its target.
    pub fn step(&mut self, vertex: u32) -> Result<Said, Difference> {
        let held = self.state.tally.held;
        let starting = edition_of(self.edition).and_then(|_| self.starting(vertex, true));
        let said = self.call(Call::Step(vertex))?;
        if let Some(starting) = starting {
            self.check_start(starting, said, true)?;
        }
        if said == Said::Answer(Answer::Yield) {
            let row = &self.state.vertices[VERTEX_WORDS * vertex as usize..][..VERTEX_WORDS];
            let item_is_over = row[PHASE] == 0 && row[MADE..FUTURE].iter().all(|&made| made == 0);
            if self.edition != u32::from(Edition::Second) || row[STATUS] != VERTEX_RELEASED || !item_is_over {
                return Err(self.disagreement("a step that is not the last of the second edition's fork says yield"));
            }
        }
        if let Said::Answer(Answer::Edge(source, target)) = said {
            if self.is_repeated(source, target, held)? {
                let chain = self.call(Call::Chain { source, target, words: ROWS as u32 })?;
                self.note_repeated(true, source == target, chain);
            }
        }
        Ok(said)
    }

    /// A call on both sides that may be a stop of this vertex. The gaps that it left in the edge table are noted.
    pub fn stop(&mut self, call: Call, vertex: u32) -> Result<Said, Difference> {
        let own: Vec<bool> = self.state.held().map(|row| row[SOURCE] == vertex).collect();
        let said = self.call(call)?;
        if said == Said::Answer(Answer::Stop) {
            self.counts.stopped(&own);
        }
        Ok(said)
    }

    /// A step on both sides of a vertex that stands at the newEdge of a force with this number, on sound tables and a program that loads.
    /// Where a word that the force follows names no vertex made, or is 0, it is refused with 13; where none does, it says its edge or is
    /// refused as a newEdge is.
    pub fn force(&mut self, vertex: u32, number: u32) -> Result<Said, Difference> {
        let followed = self.follow(vertex, number);
        let said = self.step(vertex)?;
        let mut forces = Forces::default();
        match (followed, said) {
            (Ok((future, words)), Said::Answer(Answer::Edge(source, _))) if source == future => {
                let finished = self.state.vertices[VERTEX_WORDS * future as usize + STATUS] == VERTEX_FINISHED;
                (forces.taken, forces.finished, forces.farthest) = (1, finished.into(), words);
            }
            (Ok(_), Said::Answer(Answer::Refused { number, .. })) if number != refusal::NOTHING_STARTS => forces.refused = 1,
            (Err((word, words)), Said::Answer(Answer::Refused { number: refusal::NOTHING_STARTS, .. })) => {
                *(if word == 0 { &mut forces.none } else { &mut forces.not_made }) = 1;
                forces.later = u64::from(words > 1);
            }
            _ => return Err(self.disagreement("a force does not say what the words that it follows lead to")),
        }
        self.counts.forced(forces);
        Ok(said)
    }

    /// The future that a force of a vertex made leads to, or the word that leads to none, and how many words were followed.
    fn follow(&self, vertex: u32, number: u32) -> Result<(u32, usize), (u32, usize)> {
        let mut at = vertex;
        for words in 1.. {
            let word = self.state.vertices[VERTEX_WORDS * at as usize + FUTURE];
            if word == 0 || word >= self.state.tally.made {
                return Err((word, words));
            }
            if words > number as usize {
                return Ok((word, words));
            }
            at = word;
        }
        unreachable!("a number is below the futures of a program")
    }

    /// A run or a dispatch on both sides. Its first steps are taken once more by `paper`, one at a time, and it is noted which vertices
    /// that may step each of them passed over.
    pub fn pass_over(&mut self, call: Call) -> Result<Said, Difference> {
        let (mut state, mut busy) = (self.state.clone(), self.paper_busy.clone());
        let said = self.call(call)?;
        let Some(edition) = edition_of(self.edition) else { return Ok(said) };
        let (taken, stuck, waiting) = match said {
            Said::Run(run) if refusal_of(said).is_none() => (run.taken, run.ending == Ending::Stuck, false),
            Said::Dispatch(Dispatch { ending, taken, .. }) if refusal_of(said).is_none() => {
                (taken, ending == DispatchEnding::Stuck, ending == DispatchEnding::Waiting)
            }
            _ => return Ok(said),
        };
        let by_dispatch = matches!(call, Call::Dispatch { .. });
        let mut passes = Passes::default();
        let mut before = Vec::new();
        for step in 0..taken.min(STEPS_LOOKED_AT) {
            let marks = if by_dispatch { busy.clone() } else { Vec::new() };
            let (old, held) = (state.clone(), state.tally.held);
            let one = if by_dispatch { Call::Dispatch { budget: 1, words: JOB_WORDS as u32 } } else { Call::Run(1) };
            on_paper(one, Some(edition), &self.program, &mut state, &mut busy, &mut [0; JOB_WORDS]);
            let Some(vertex) = stepped(&old, &state) else { return Err(self.disagreement("a step changes no vertex that may step")) };
            let passed = old.executing(vertex, &marks);
            if step == 0 {
                self.note_refusals(&old, edition, &passed, &mut passes)?;
            }
            passes.steps += 1;
            passes.two += u64::from(passed.len() >= 2);
            passes.many += u64::from(passed.len() >= 65);
            passes.most = passed.len().max(passes.most);
            passes.opened += u64::from(before.contains(&vertex));
            match self.edge_or_transfer(&old, vertex) {
                Some(Asked::Transfer) => passes.transfers += 1,
                Some(_) if state.tally.held > held => passes.appended += 1,
                Some(_) => passes.idle += 1,
                None => {}
            }
            before = passed;
        }
        if taken <= STEPS_LOOKED_AT && (stuck || waiting) {
            let passed = state.executing(u32::MAX, if waiting { &busy } else { &[] });
            if taken == 0 {
                self.note_refusals(&state, edition, &passed, &mut passes)?;
            }
            passes.last_two += u64::from(passed.len() >= 2);
            passes.last_many += u64::from(passed.len() >= 65);
            passes.most = passed.len().max(passes.most);
        }
        self.counts.passed(by_dispatch, passes);
        Ok(said)
    }

    /// Notes why vertices were passed over, where they are not too many to ask. Each is refused.
    fn note_refusals(&self, state: &State, edition: Edition, passed: &[u32], passes: &mut Passes) -> Result<(), Difference> {
        if passed.len() > MOST_ASKED {
            return Ok(());
        }
        // Refused steps change nothing.
        let mut state = state.clone();
        for &vertex in passed {
            let said = on_paper(Call::Step(vertex), Some(edition), &self.program, &mut state, &mut [], &mut []);
            *match (refusal_of(said), self.edge_or_transfer(&state, vertex)) {
                (Some(refusal::CLOSES_CYCLE), Some(Asked::Edge)) => &mut passes.cycles,
                (Some(refusal::CLOSES_CYCLE), Some(Asked::ForcedEdge)) => &mut passes.force_cycles,
                (Some(refusal::CLOSES_CYCLE), _) => &mut passes.transfer_cycles,
                (Some(refusal::NO_EDGE_ROW), _) => &mut passes.full,
                (Some(_), _) => &mut passes.others,
                (None, _) => return Err(self.disagreement(&format!("vertex {vertex} can step, and was passed over"))),
            } += 1;
        }
        Ok(())
    }

    /// Whether a vertex that executes, on a program that loads, is at a newEdge or a transfer in the edition that is named.
    fn edge_or_transfer(&self, state: &State, vertex: u32) -> Option<Asked> {
        let row = state.made().nth(vertex as usize).filter(|row| row[STATUS] == VERTEX_EXECUTING)?;
        let first = *self.program.get(row[PLACE] as usize)?;
        let edition = edition_of(self.edition)?;
        asked_at(first, edition).iter().find(|(phase, _)| *phase == row[PHASE]).map(|&(_, asked)| asked)
    }

    /// Whether an edge that was taken where so many were held is one of these. It is appended exactly where it is not, except from a
    /// finished source.
    fn is_repeated(&self, source: u32, target: u32, held: u32) -> Result<bool, Difference> {
        let finished = self.state.vertices[VERTEX_WORDS * source as usize + STATUS] == VERTEX_FINISHED;
        let repeated = !finished && self.stands_in(source, target, held);
        let appended = self.state.tally.held > held;
        if appended == (finished || repeated) {
            return Err(self.disagreement("an edge was appended though it adds nothing, or was not though it is a new one"));
        }
        Ok(repeated)
    }

    /// Whether an edge stands in one of the first so many rows.
    fn stands_in(&self, source: u32, target: u32, rows: u32) -> bool {
        self.state.edges.chunks_exact(EDGE_WORDS).take(rows as usize).any(|row| row == [source, target])
    }

    fn note_repeated(&mut self, by_step: bool, itself: bool, chain: Said) {
        let State { edges, tally, .. } = &self.state;
        let full = tally.held as usize == (edges.len() / EDGE_WORDS).min(ROWS);
        let cycle = matches!(chain, Said::Chain(Chain::Written(_)));
        self.counts.repeated(by_step, Repeats { all: 1, full: full.into(), cycle: cycle.into(), itself: itself.into() });
    }

    /// A list for each side, filled with one word.
    fn lend_lists(&mut self, call: Call) {
        let words = if let Call::Chain { words, .. } | Call::Dispatch { words, .. } = call { words as usize } else { 0 };
        self.paper_list.clear();
        self.paper_list.resize(words, MARK);
        self.list.clear();
        self.list.resize(words + 2 * MARGIN, MARK);
    }

    fn margins(&self) -> impl Iterator<Item = u32> + '_ {
        [&self.vertices, &self.edges, &self.busy, &self.list].into_iter().flat_map(|table| margins(table))
    }

    pub fn calls(&self) -> usize {
        self.history.len()
    }

    /// What is wrong though both sides say the same, with the calls that led there.
    pub fn disagreement(&self, what: &str) -> Difference {
        let mut text = format!("{what}\n");
        self.write_history(&mut text);
        Difference(text)
    }

    /// Notes an order of so many jobs that was asked for, and how many of them were answered in it.
    pub fn ordered(&mut self, answered: usize, jobs: usize) {
        self.counts.ordered(answered, jobs);
    }

    /// Notes a dispatch on marks and tables that only calls and ended jobs had changed, and whether it passed over a busy vertex.
    pub fn dispatched(&mut self, passed: bool) {
        self.counts.dispatched(passed);
    }

    pub fn into_counts(self) -> Counts {
        self.counts
    }

    fn difference(&self, call: Call, engine: Said, paper: Said, before: Tally) -> Difference {
        let mut text = String::new();
        let (vertex_words, edge_words) = (self.state.vertices.len(), self.state.edges.len());
        let (edition, number) = (self.edition, self.calls() + 1);
        let _ = writeln!(text, "{call:?} in edition {edition}, call {number} of the scenario, with {vertex_words} and {edge_words} words");
        let _ = writeln!(text, "program of {} bytes: {:02X?}", self.program.len(), self.program);
        let _ = writeln!(text, "before:  {before:?}");
        let _ = writeln!(text, "engine:  {engine:?}, {:?}", self.tally);
        let _ = writeln!(text, "paper:   {paper:?}, {:?}", self.state.tally);
        differing(&mut text, "vertex", &self.vertices, &self.state.vertices, VERTEX_WORDS);
        differing(&mut text, "edge", &self.edges, &self.state.edges, EDGE_WORDS);
        differing(&mut text, "mark", &self.busy, &self.paper_busy, 1);
        differing(&mut text, "list", &self.list, &self.paper_list, 1);
        for word in self.margins().filter(|&word| word != MARK) {
            let _ = writeln!(text, "outside the engine's tables, marks or list: {word}");
        }
        self.write_history(&mut text);
        Difference(text)
    }

    fn write_history(&self, text: &mut String) {
        let _ = writeln!(text, "calls before it, the last first:");
        for (edition, call, said) in self.history.iter().rev().take(12) {
            let _ = writeln!(text, "    {call:?} in edition {edition} said {said:?}");
        }
    }
}

fn with_margins(table: &[u32]) -> Vec<u32> {
    [&[MARK; MARGIN], table, &[MARK; MARGIN]].concat()
}

/// Where between its margins a table stands.
fn inside(table: &[u32]) -> Range<usize> {
    MARGIN..table.len() - MARGIN
}

fn margins(table: &[u32]) -> impl Iterator<Item = u32> + '_ {
    table[..MARGIN].iter().chain(&table[table.len() - MARGIN..]).copied()
}

fn differing(text: &mut String, table: &str, engine: &[u32], paper: &[u32], row_words: usize) {
    let words = engine[MARGIN..].iter().zip(paper).enumerate();
    for (at, (engine, paper)) in words.filter(|(_, (engine, paper))| engine != paper).take(20) {
        let _ = writeln!(text, "{table} row {}, word {}: engine {engine}, paper {paper}", at / row_words, at % row_words);
    }
}

/// The number of a refusal.
fn refusal_of(said: Said) -> Option<u32> {
    match said {
        Said::Answer(Answer::Refused { number, .. })
        | Said::Run(Run { ending: Ending::Refused { number, .. }, .. })
        | Said::Dispatch(Dispatch { ending: DispatchEnding::Refused { number, .. }, .. })
        | Said::Lowest(Lowest::Refused { number, .. })
        | Said::Chain(Chain::Refused { number, .. }) => Some(number),
        _ => None,
    }
}

#[allow(clippy::too_many_arguments)]
fn by_engine(
    call: Call,
    edition: u32,
    program: &[u8],
    vertices: &mut [u32],
    edges: &mut [u32],
    tally: &mut Tally,
    busy: &mut [u32],
    list: &mut [u32],
) -> Said {
    match call {
        Call::Open => Said::Answer(keshtiwol::open(vertices, edges, tally)),
        Call::Load => Said::Answer(keshtiwol::load(program, vertices, edges, tally, edition)),
        Call::Step(vertex) => Said::Answer(keshtiwol::step(program, vertices, edges, tally, edition, vertex)),
        Call::Run(budget) => Said::Run(keshtiwol::run(program, vertices, edges, tally, edition, budget)),
        Call::Dispatch { budget, .. } => Said::Dispatch(keshtiwol::dispatch(program, vertices, edges, tally, edition, budget, busy, list)),
        Call::Lowest => Said::Lowest(keshtiwol::lowest(program, vertices, edges, tally, edition)),
        Call::Command(command) => Said::Answer(keshtiwol::command(vertices, edges, tally, command)),
        Call::Chain { source, target, .. } => Said::Chain(keshtiwol::chain(vertices, edges, tally, source, target, list)),
    }
}

fn on_paper(call: Call, edition: Option<Edition>, program: &[u8], state: &mut State, busy: &mut [u32], list: &mut [u32]) -> Said {
    let State { vertices, edges, tally } = state;
    let mut own = paper::Tally { made: tally.made, held: tally.held, steps: tally.steps };
    let edition = match edition {
        Some(Edition::First) => paper::Edition::First,
        Some(Edition::Second) => paper::Edition::Second,
        None if call.names_an_edition() => return no_such_edition(call),
        // It does not look at one.
        None => paper::Edition::First,
    };
    let said = match call {
        Call::Open => Said::Answer(answer(paper::open(vertices, edges, &mut own))),
        Call::Load => Said::Answer(answer(paper::load(program, vertices, edges, &mut own, edition))),
        Call::Step(vertex) => Said::Answer(answer(paper::step(program, vertices, edges, &mut own, edition, vertex))),
        Call::Run(budget) => {
            let paper::Run { ending, last, taken } = paper::run(program, vertices, edges, &mut own, edition, budget);
            Said::Run(Run { ending: ending_of(ending), last: last.map(answer), taken })
        }
        Call::Dispatch { budget, .. } => {
            let paper::Dispatch { ending, taken, handed } =
                paper::dispatch(program, vertices, edges, &mut own, edition, budget, busy, list);
            Said::Dispatch(Dispatch { ending: dispatch_ending_of(ending), taken, handed })
        }
        Call::Lowest => Said::Lowest(match paper::lowest(program, vertices, edges, &own, edition) {
            paper::Lowest::Vertex(vertex) => Lowest::Vertex(vertex),
            paper::Lowest::NoVertex => Lowest::NoVertex,
            paper::Lowest::Refused { number, place } => Lowest::Refused { number, place },
        }),
        Call::Command(command) => Said::Answer(answer(paper::command(vertices, edges, &mut own, command_of(command)))),
        Call::Chain { source, target, .. } => Said::Chain(match paper::chain(vertices, edges, &own, source, target, list) {
            paper::Chain::Written(vertices) => Chain::Written(vertices),
            paper::Chain::Refused { number, place } => Chain::Refused { number, place },
        }),
    };
    *tally = Tally { made: own.made, held: own.held, steps: own.steps };
    said
}

/// The library's own refusal of a number that no edition has, before anything else: nothing changes.
fn no_such_edition(call: Call) -> Said {
    let (number, place) = (refusal::NO_SUCH_EDITION, 0);
    match call {
        Call::Run(_) => Said::Run(Run { ending: Ending::Refused { number, place }, last: None, taken: 0 }),
        Call::Dispatch { .. } => Said::Dispatch(Dispatch { ending: DispatchEnding::Refused { number, place }, taken: 0, handed: 0 }),
        Call::Lowest => Said::Lowest(Lowest::Refused { number, place }),
        _ => Said::Answer(Answer::Refused { number, place }),
    }
}

fn answer(answer: paper::Answer) -> Answer {
    match answer {
        paper::Answer::Ready => Answer::Ready,
        paper::Answer::Start => Answer::Start,
        paper::Answer::New(vertex) => Answer::New(vertex),
        paper::Answer::Edge(source, target) => Answer::Edge(source, target),
        paper::Answer::Release(vertex) => Answer::Release(vertex),
        paper::Answer::Transfer(vertex) => Answer::Transfer(vertex),
        paper::Answer::Job { number, offset } => Answer::Job { number, offset },
        paper::Answer::Stop => Answer::Stop,
        paper::Answer::Yield => Answer::Yield,
        paper::Answer::Refused { number, place } => Answer::Refused { number, place },
    }
}

fn ending_of(ending: paper::Ending) -> Ending {
    match ending {
        paper::Ending::Done => Ending::Done,
        paper::Ending::Stuck => Ending::Stuck,
        paper::Ending::Spent => Ending::Spent,
        paper::Ending::Refused { number, place } => Ending::Refused { number, place },
    }
}

fn dispatch_ending_of(ending: paper::DispatchEnding) -> DispatchEnding {
    match ending {
        paper::DispatchEnding::Done => DispatchEnding::Done,
        paper::DispatchEnding::Stuck => DispatchEnding::Stuck,
        paper::DispatchEnding::Waiting => DispatchEnding::Waiting,
        paper::DispatchEnding::Full => DispatchEnding::Full,
        paper::DispatchEnding::Spent => DispatchEnding::Spent,
        paper::DispatchEnding::Refused { number, place } => DispatchEnding::Refused { number, place },
    }
}

fn command_of(command: Command) -> paper::Command {
    match command {
        Command::NewTd { caller, place, scope } => paper::Command::NewTd { caller, place, scope },
        Command::NewEdge { caller, source, target } => paper::Command::NewEdge { caller, source, target },
        Command::Release { caller, vertex } => paper::Command::Release { caller, vertex },
        Command::Transfer { caller, vertex } => paper::Command::Transfer { caller, vertex },
        Command::Start { vertex } => paper::Command::Start { vertex },
        Command::Stop { caller } => paper::Command::Stop { caller },
        Command::Yield { caller } => paper::Command::Yield { caller },
    }
}
