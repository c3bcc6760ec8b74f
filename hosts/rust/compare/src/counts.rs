//! What was called and what was said, so that it shows what a comparison covered.

use std::collections::BTreeMap;
use std::fmt;

use keshtiwol::{refusal, Answer, Chain, Command, Dispatch, DispatchEnding, Edition, Ending, Lowest};

use crate::pair::{Call, Said};
use crate::programs;

const CALLS: [&str; 14] =
    ["open", "load", "step", "run", "dispatch", "lowest", "newTd", "newEdge", "release", "transfer", "start", "stop", "yield", "chain"];
/// The calls that name an edition, among these.
const OF_EDITIONS: std::ops::Range<usize> = 1..6;
pub const WORDS: [&str; 18] = [
    "refused", "ready", "start", "new", "edge", "release", "transfer", "job", "stop", "none", "vertex", "done", "stuck", "spent", "chain",
    "yield", "waiting", "full",
];

/// The numbers that a refusal can have through the safe functions.
pub const REFUSALS: [u32; 30] =
    [1, 2, 3, 4, 5, 6, 7, 8, 10, 11, 12, 13, 20, 21, 22, 23, 30, 31, 32, 33, 35, 36, 37, 38, 39, 41, 42, 43, 44, 98];

#[derive(Clone, Default)]
pub struct Counts {
    /// By call, word and refusal number (0 where not refused).
    seen: BTreeMap<(usize, usize, u32), u64>,
    /// Steps that runs took.
    taken: u64,
    dispatches: Dispatches,
    /// The largest program that loaded: bytes, vertices that it makes, levels, each for itself.
    largest: [usize; 3],
    /// Jobs that steps named, by the bytes of their numbers, 1 to 5.
    jobs: [u64; 5],
    /// The largest of these numbers.
    largest_job: u32,
    /// The vertices of the longest chain.
    longest_chain: u32,
    /// Chains that filled their list.
    lists_filled: u64,
    /// Commands whose cycle test found or found not what a chain had told before.
    ties: [u64; 2],
    /// Edges that were held already and taken again, by commands and by steps.
    repeats: [Repeats; 2],
    /// What stops dropped.
    gaps: Gaps,
    /// What the words led to that forces followed.
    forces: Forces,
    /// Released vertices that were to start, by commands and by steps.
    starts: [Starts; 2],
    /// What became of in-counts.
    in_counts: InCounts,
    /// By call, 12 for a status or an edge alone.
    unsound: [u64; CALLS.len()],
    /// What callers did with edges into themselves, by commands and by steps.
    callers: [Callers; 2],
    /// The calls that named the first edition, the second, and none, in the order of `OF_EDITIONS`.
    editions: [[u64; OF_EDITIONS.end - OF_EDITIONS.start]; 3],
    crossings: Crossings,
    orders: Orders,
    /// What runs and dispatches passed over.
    passes: [Passes; 2],
}

/// How often steps of runs, or of dispatches, had to pass over vertices that may step and are refused, on tables where many are.
#[derive(Clone, Copy, Debug, Default)]
pub struct Passes {
    /// Steps that were looked at.
    pub steps: u64,
    /// Of these, where at least two were passed over, and where at least 65 were.
    pub two: u64,
    pub many: u64,
    /// Calls that ended because all were refused, at least two and at least 65 of them.
    pub last_two: u64,
    pub last_many: u64,
    /// The most that were passed over.
    pub most: usize,
    /// What those said that were passed over at a call's first look: 35 of newEdge, of a force's newEdge and of transfer, 32, or another.
    pub cycles: u64,
    pub force_cycles: u64,
    pub transfer_cycles: u64,
    pub full: u64,
    pub others: u64,
    /// Steps that appended an edge, took one that adds nothing, or handed edges on.
    pub appended: u64,
    pub idle: u64,
    pub transfers: u64,
    /// Steps after which one that was passed over is the next.
    pub opened: u64,
}

impl Passes {
    fn add(&mut self, more: Passes) {
        self.steps += more.steps;
        self.two += more.two;
        self.many += more.many;
        self.last_two += more.last_two;
        self.last_many += more.last_many;
        self.most = more.most.max(self.most);
        self.cycles += more.cycles;
        self.force_cycles += more.force_cycles;
        self.transfer_cycles += more.transfer_cycles;
        self.full += more.full;
        self.others += more.others;
        self.appended += more.appended;
        self.idle += more.idle;
        self.transfers += more.transfers;
        self.opened += more.opened;
    }
}

/// What dispatches did.
#[derive(Clone, Copy, Debug, Default)]
pub struct Dispatches {
    /// Their steps.
    pub taken: u64,
    /// The jobs that they handed out.
    pub handed: u64,
    /// The most that one did.
    pub most: u32,
    /// They ended otherwise than refused on marks and tables that only calls and ended jobs had changed since a loading.
    pub kept: u64,
    /// Of these, by what could step: a busy vertex below one that is not, so that it was passed over.
    pub passed: u64,
}

impl Dispatches {
    fn add(&mut self, more: Dispatches) {
        self.taken += more.taken;
        self.handed += more.handed;
        self.most = more.most.max(self.most);
        self.kept += more.kept;
        self.passed += more.passed;
    }
}

/// Orders of jobs that were asked for.
#[derive(Clone, Copy, Debug, Default)]
pub struct Orders {
    /// All jobs were answered in this order.
    pub whole: u64,
    /// They were answered up to one that stands before another which comes ahead of it.
    pub cut: u64,
    /// The most jobs of an order that were all answered in it.
    pub most: usize,
}

impl Orders {
    fn add(&mut self, more: Orders) {
        self.whole += more.whole;
        self.cut += more.cut;
        self.most = more.most.max(self.most);
    }
}

/// How often a caller yielded, or did something else that edges into it have to do with.
#[derive(Clone, Copy, Debug, Default)]
pub struct Callers {
    /// It yielded where edges lead in.
    pub waiting: u64,
    /// It yielded where none does.
    pub passing: u64,
    /// It started again.
    pub again: u64,
    /// An edge onto it was appended.
    pub edges: u64,
    /// An edge onto it was taken that adds nothing.
    pub idle_edges: u64,
    /// An edge onto it was refused with 35; for commands only, since a step does not tell.
    pub cycles: u64,
    /// It stopped where edges lead in.
    pub stops: u64,
    /// It handed its edges on where edges lead in.
    pub transfers: u64,
}

impl Callers {
    fn add(&mut self, more: Callers) {
        self.waiting += more.waiting;
        self.passing += more.passing;
        self.again += more.again;
        self.edges += more.edges;
        self.idle_edges += more.idle_edges;
        self.cycles += more.cycles;
        self.stops += more.stops;
        self.transfers += more.transfers;
    }
}

/// How often it mattered which edition a call named.
#[derive(Clone, Copy, Debug, Default)]
pub struct Crossings {
    /// A step was taken on tables that were loaded in the other edition.
    pub taken: u64,
    /// It was refused with 13.
    pub nothing_starts: u64,
    /// The first edition refused a program with 8 that the second loads.
    pub second_only: u64,
}

impl Crossings {
    fn add(&mut self, more: Crossings) {
        self.taken += more.taken;
        self.nothing_starts += more.nothing_starts;
        self.second_only += more.second_only;
    }
}

/// How often an edge that was held already was taken.
#[derive(Clone, Copy, Debug, Default)]
pub struct Repeats {
    pub all: u64,
    /// On an edge table with no row left.
    pub full: u64,
    /// Where a chain leads back, so that held edges close a cycle.
    pub cycle: u64,
    /// Of these, from a vertex to itself.
    pub itself: u64,
}

impl Repeats {
    fn add(&mut self, more: Repeats) {
        self.all += more.all;
        self.full += more.full;
        self.cycle += more.cycle;
        self.itself += more.itself;
    }
}

/// How often a stop dropped which rows of the held edges.
#[derive(Clone, Copy, Debug, Default)]
pub struct Gaps {
    pub none: u64,
    pub all: u64,
    /// The first row among them, but not all: each row that is kept moves.
    pub first: u64,
    /// Only the last rows: none moves.
    pub last: u64,
    /// Rows that are kept stand before and behind one: some move.
    pub between: u64,
    /// The most rows that a stop dropped.
    pub most: usize,
}

impl Gaps {
    fn add(&mut self, more: Gaps) {
        self.none += more.none;
        self.all += more.all;
        self.first += more.first;
        self.last += more.last;
        self.between += more.between;
        self.most = more.most.max(self.most);
    }
}

/// How often a step was a force's newEdge, and what the words led to that it followed.
#[derive(Clone, Copy, Debug, Default)]
pub struct Forces {
    /// The edge was said.
    pub taken: u64,
    /// Of these, from a finished future, so that none is held.
    pub finished: u64,
    /// The most words that one followed where its edge was said.
    pub farthest: usize,
    /// The words led to a future, and the command's own refusal was given.
    pub refused: u64,
    /// A word was 0.
    pub none: u64,
    /// A word named no vertex made.
    pub not_made: u64,
    /// Of these two, a word behind the first.
    pub later: u64,
}

impl Forces {
    fn add(&mut self, more: Forces) {
        self.taken += more.taken;
        self.finished += more.finished;
        self.farthest = more.farthest.max(self.farthest);
        self.refused += more.refused;
        self.none += more.none;
        self.not_made += more.not_made;
        self.later += more.later;
    }
}

/// How often a released vertex was to start, where the tally refuses nothing, and whether its in-count was true.
#[derive(Clone, Copy, Debug, Default)]
pub struct Starts {
    /// No edge leads in, and it started.
    pub started: u64,
    /// An edge leads in, and it was refused with 21.
    pub waited: u64,
    /// An edge leads in, and it started: its in-count was 0.
    pub against_edges: u64,
    /// No edge leads in, and it was refused with 21: its in-count was not 0.
    pub without_edges: u64,
    /// Of all these, where another vertex has a status that is none.
    pub bad_status: u64,
    /// Where an edge's end is no vertex made.
    pub bad_edge: u64,
}

impl Starts {
    fn add(&mut self, more: Starts) {
        self.started += more.started;
        self.waited += more.waited;
        self.against_edges += more.against_edges;
        self.without_edges += more.without_edges;
        self.bad_status += more.bad_status;
        self.bad_edge += more.bad_edge;
    }
}

/// How often a step or a command changed how many edges lead into a vertex, and what its in-count was.
#[derive(Clone, Copy, Debug, Default)]
pub struct InCounts {
    /// All in-counts were true, and are.
    pub true_words: u64,
    /// One edge more leads in, and the word was the largest number, and is.
    pub largest: u64,
    /// An edge went, and the word was 0, and is.
    pub none: u64,
    /// Several edges went.
    pub several: u64,
}

impl InCounts {
    fn add(&mut self, more: InCounts) {
        self.true_words += more.true_words;
        self.largest += more.largest;
        self.none += more.none;
        self.several += more.several;
    }
}

/// Where in `CALLS` a call stands.
fn index(call: Call) -> usize {
    match call {
        Call::Open => 0,
        Call::Load => 1,
        Call::Step(_) => 2,
        Call::Run(_) => 3,
        Call::Dispatch { .. } => 4,
        Call::Lowest => 5,
        Call::Command(Command::NewTd { .. }) => 6,
        Call::Command(Command::NewEdge { .. }) => 7,
        Call::Command(Command::Release { .. }) => 8,
        Call::Command(Command::Transfer { .. }) => 9,
        Call::Command(Command::Start { .. }) => 10,
        Call::Command(Command::Stop { .. }) => 11,
        Call::Command(Command::Yield { .. }) => 12,
        Call::Chain { .. } => 13,
    }
}

impl Counts {
    pub fn add(&mut self, call: Call, said: Said) {
        if let (Call::Chain { words, .. }, Said::Chain(Chain::Written(vertices))) = (call, said) {
            self.longest_chain = vertices.max(self.longest_chain);
            self.lists_filled += u64::from(vertices == words);
        }
        let (word, refusal) = match said {
            Said::Answer(answer) => match answer {
                Answer::Refused { number, .. } => (0, number),
                Answer::Ready => (1, 0),
                Answer::Start => (2, 0),
                Answer::New(_) => (3, 0),
                Answer::Edge(..) => (4, 0),
                Answer::Release(_) => (5, 0),
                Answer::Transfer(_) => (6, 0),
                Answer::Job { number, .. } => {
                    self.jobs[programs::number_bytes(number).len() - 1] += 1;
                    self.largest_job = number.max(self.largest_job);
                    (7, 0)
                }
                Answer::Stop => (8, 0),
                Answer::Yield => (15, 0),
            },
            Said::Lowest(lowest) => match lowest {
                Lowest::NoVertex => (9, 0),
                Lowest::Vertex(_) => (10, 0),
                Lowest::Refused { number, .. } => (0, number),
            },
            Said::Run(run) => {
                self.taken += u64::from(run.taken);
                match run.ending {
                    Ending::Done => (11, 0),
                    Ending::Stuck => (12, 0),
                    Ending::Spent => (13, 0),
                    Ending::Refused { number, .. } => (0, number),
                }
            }
            Said::Dispatch(Dispatch { ending, taken, handed }) => {
                self.dispatches.add(Dispatches { taken: taken.into(), handed: handed.into(), most: handed, kept: 0, passed: 0 });
                match ending {
                    DispatchEnding::Done => (11, 0),
                    DispatchEnding::Stuck => (12, 0),
                    DispatchEnding::Spent => (13, 0),
                    DispatchEnding::Waiting => (16, 0),
                    DispatchEnding::Full => (17, 0),
                    DispatchEnding::Refused { number, .. } => (0, number),
                }
            }
            Said::Chain(chain) => match chain {
                Chain::Written(_) => (14, 0),
                Chain::Refused { number, .. } => (0, number),
            },
        };
        *self.seen.entry((index(call), word, refusal)).or_default() += 1;
    }

    /// Notes a dispatch on marks and tables that only calls and ended jobs had changed, and whether it passed over a busy vertex.
    pub fn dispatched(&mut self, passed: bool) {
        self.dispatches.add(Dispatches { kept: 1, passed: passed.into(), ..Dispatches::default() });
    }

    /// Notes what the steps of a run or a dispatch passed over.
    pub fn passed(&mut self, by_dispatch: bool, passes: Passes) {
        self.passes[usize::from(by_dispatch)].add(passes);
    }

    /// Notes a program that loaded.
    pub fn loaded(&mut self, program: &[u8], edition: Edition) {
        let (vertices, _, levels) = programs::needs(program, edition);
        self.enlarge([program.len(), vertices as usize, levels]);
    }

    /// Notes the edition that a call names, or that it names none by its number.
    pub fn named(&mut self, call: Call, edition: Option<Edition>) {
        if OF_EDITIONS.contains(&index(call)) {
            let row = edition.map_or(2, |edition| u32::from(edition) as usize - 1);
            self.editions[row][index(call) - OF_EDITIONS.start] += 1;
        }
    }

    /// Notes a program that the first edition refused with 8 and the second loads.
    pub fn second_only(&mut self) {
        self.crossings.second_only += 1;
    }

    /// Notes a step on tables that were loaded in the other edition.
    pub fn crossed(&mut self, answer: Answer) {
        match answer {
            Answer::Refused { number: refusal::NOTHING_STARTS, .. } => self.crossings.nothing_starts += 1,
            Answer::Refused { .. } => {}
            _ => self.crossings.taken += 1,
        }
    }

    /// Notes an order of so many jobs, and how many of them were answered in it. One of a single job is the only one.
    pub fn ordered(&mut self, answered: usize, jobs: usize) {
        self.orders.add(match answered {
            _ if jobs < 2 => Orders::default(),
            all if all == jobs => Orders { whole: 1, cut: 0, most: jobs },
            _ => Orders { whole: 0, cut: 1, most: 0 },
        });
    }

    /// Notes what a caller did with edges into itself, by a command or by a step.
    pub fn called(&mut self, by_step: bool, callers: Callers) {
        self.callers[usize::from(by_step)].add(callers);
    }

    /// Notes a command whose cycle test and the chain asked for before it agree that there is one, or none.
    pub fn tied(&mut self, chain: bool) {
        self.ties[usize::from(chain)] += 1;
    }

    /// Notes edges that were held already and taken, by commands or by steps.
    pub fn repeated(&mut self, by_step: bool, repeats: Repeats) {
        self.repeats[usize::from(by_step)].add(repeats);
    }

    /// Notes a stop, told which of the held rows were its own.
    pub fn stopped(&mut self, own: &[bool]) {
        let dropped = own.iter().filter(|&&own| own).count();
        let ahead = own.iter().take_while(|&&own| !own).count();
        let gaps = &mut self.gaps;
        gaps.most = dropped.max(gaps.most);
        *match (dropped, ahead) {
            (0, _) => &mut gaps.none,
            _ if dropped == own.len() => &mut gaps.all,
            (_, 0) => &mut gaps.first,
            _ if ahead + dropped == own.len() => &mut gaps.last,
            _ => &mut gaps.between,
        } += 1;
    }

    /// Notes a step that was a force's newEdge.
    pub fn forced(&mut self, forces: Forces) {
        self.forces.add(forces);
    }

    /// Notes a released vertex that was to start, by a command or by a step.
    pub fn started(&mut self, by_step: bool, starts: Starts) {
        self.starts[usize::from(by_step)].add(starts);
    }

    /// Notes a step or a command by the edges that it added or took away.
    pub fn in_counts(&mut self, in_counts: InCounts) {
        self.in_counts.add(in_counts);
    }

    /// Notes a call that was refused with 12 though the tally refuses nothing.
    pub fn unsound(&mut self, call: Call) {
        self.unsound[index(call)] += 1;
    }

    fn enlarge(&mut self, by: [usize; 3]) {
        for (largest, number) in self.largest.iter_mut().zip(by) {
            *largest = number.max(*largest);
        }
    }

    pub fn merge(&mut self, other: Counts) {
        for (key, count) in other.seen {
            *self.seen.entry(key).or_default() += count;
        }
        self.taken += other.taken;
        self.dispatches.add(other.dispatches);
        self.enlarge(other.largest);
        for (jobs, more) in self.jobs.iter_mut().zip(other.jobs) {
            *jobs += more;
        }
        self.largest_job = other.largest_job.max(self.largest_job);
        self.longest_chain = other.longest_chain.max(self.longest_chain);
        self.lists_filled += other.lists_filled;
        for (ties, more) in self.ties.iter_mut().zip(other.ties) {
            *ties += more;
        }
        for (repeats, more) in self.repeats.iter_mut().zip(other.repeats) {
            repeats.add(more);
        }
        self.gaps.add(other.gaps);
        self.forces.add(other.forces);
        for (starts, more) in self.starts.iter_mut().zip(other.starts) {
            starts.add(more);
        }
        self.in_counts.add(other.in_counts);
        for (unsound, more) in self.unsound.iter_mut().zip(other.unsound) {
            *unsound += more;
        }
        for (callers, more) in self.callers.iter_mut().zip(other.callers) {
            callers.add(more);
        }
        for (calls, more) in self.editions.iter_mut().flatten().zip(other.editions.iter().flatten()) {
            *calls += more;
        }
        self.crossings.add(other.crossings);
        self.orders.add(other.orders);
        for (passes, more) in self.passes.iter_mut().zip(other.passes) {
            passes.add(more);
        }
    }

    pub fn calls(&self) -> u64 {
        self.seen.values().sum()
    }

    /// How often a refusal was seen, from whatever call.
    pub fn refusals(&self, number: u32) -> u64 {
        self.seen.iter().filter(|((_, word, refusal), _)| (*word, *refusal) == (0, number)).map(|(_, count)| count).sum()
    }

    /// How often this word was said.
    pub fn said(&self, word: &str) -> u64 {
        self.seen.iter().filter(|(key, _)| WORDS[key.1] == word).map(|(_, count)| count).sum()
    }

    /// The most bytes, vertices and levels of programs that loaded.
    pub fn largest(&self) -> [usize; 3] {
        self.largest
    }

    /// How often steps named jobs with numbers of 1 to 5 bytes, and the largest of these numbers.
    pub fn jobs(&self) -> ([u64; 5], u32) {
        (self.jobs, self.largest_job)
    }

    /// The vertices of the longest chain, and how often one filled its list.
    pub fn chains(&self) -> (u32, u64) {
        (self.longest_chain, self.lists_filled)
    }

    /// How often a command's cycle test agreed with a chain asked for before it: that there is none, and that there is one.
    pub fn ties(&self) -> [u64; 2] {
        self.ties
    }

    /// How often an edge that was held already was taken, by commands and by steps.
    pub fn repeats(&self) -> [Repeats; 2] {
        self.repeats
    }

    /// What stops dropped.
    pub fn gaps(&self) -> Gaps {
        self.gaps
    }

    /// What the words led to that forces followed.
    pub fn forces(&self) -> Forces {
        self.forces
    }

    /// What came of released vertices that were to start, by commands and by steps.
    pub fn starts(&self) -> [Starts; 2] {
        self.starts
    }

    /// What became of in-counts that steps and commands changed.
    pub fn edges_in(&self) -> InCounts {
        self.in_counts
    }

    /// What callers did with edges into themselves, by commands and by steps.
    pub fn callers(&self) -> [Callers; 2] {
        self.callers
    }

    /// What dispatches did.
    pub fn dispatches(&self) -> Dispatches {
        self.dispatches
    }

    /// How often loads, steps, runs, dispatches and `lowest` named the first edition, the second, and none.
    pub fn editions(&self) -> [[u64; 5]; 3] {
        self.editions
    }

    /// How often it mattered which edition a call named.
    pub fn crossings(&self) -> Crossings {
        self.crossings
    }

    /// The orders of two jobs and more that were asked for.
    pub fn orders(&self) -> Orders {
        self.orders
    }

    /// What the steps of runs and of dispatches passed over, on tables where many vertices are refused.
    pub fn passes(&self) -> [Passes; 2] {
        self.passes
    }

    /// The calls that can be refused with 12 though the tally refuses nothing, and how often they were.
    pub fn unsound_beside_the_tally(&self) -> impl Iterator<Item = (&'static str, u64)> {
        CALLS.into_iter().zip(self.unsound).skip(2)
    }
}

impl fmt::Display for Counts {
    fn fmt(&self, f: &mut fmt::Formatter) -> fmt::Result {
        for (index, call) in CALLS.iter().enumerate() {
            let seen = || self.seen.range((index, 0, 0)..(index + 1, 0, 0));
            let sum: u64 = seen().map(|(_, count)| count).sum();
            write!(f, "{call:>8} {sum:>9}:")?;
            for (&(_, word, _), count) in seen().filter(|(key, _)| key.1 != 0) {
                write!(f, " {} {count}", WORDS[word])?;
            }
            if seen().any(|(key, _)| key.1 == 0) {
                write!(f, "; refused")?;
            }
            for (&(_, _, number), count) in seen().filter(|(key, _)| key.1 == 0) {
                write!(f, " {number}: {count}")?;
            }
            writeln!(f)?;
        }
        let [bytes, vertices, levels] = self.largest;
        writeln!(f, "runs took {} steps; programs had up to {bytes} bytes, {vertices} vertices, {levels} levels", self.taken)?;
        let Dispatches { taken, handed, most, kept, passed } = self.dispatches;
        write!(f, "dispatches took {taken} steps and handed out {handed} jobs, up to {most} in one; {kept} of them were on tables ")?;
        writeln!(f, "that only calls changed since a loading, and passed over a busy vertex {passed} times")?;
        writeln!(f, "steps named jobs with numbers of 1 to 5 bytes {:?} times, the largest {}", self.jobs, self.largest_job)?;
        let [without, with] = self.ties;
        writeln!(f, "chains had up to {} vertices and filled their list {} times", self.longest_chain, self.lists_filled)?;
        writeln!(f, "newEdge and transfer found a cycle {with} times where a chain was, and none {without} times where none was")?;
        for (by, Repeats { all, full, cycle, itself }) in ["newEdge", "a step"].iter().zip(self.repeats) {
            write!(f, "{by} took an edge held already {all} times: {full} on a full table, {cycle} where a chain was, ")?;
            writeln!(f, "{itself} of these from a vertex to itself")?;
        }
        let Gaps { none, all, first, last, between, most } = self.gaps;
        write!(f, "stops dropped no row {none} times, all {all} times, only the last {last} times, the first and others {first} times, ")?;
        writeln!(f, "rows between others {between} times; {most} rows at most")?;
        let Forces { taken, finished, farthest, refused, none, not_made, later } = self.forces;
        write!(f, "forces said their edge {taken} times, {finished} of these from a finished future, over {farthest} words at most; ")?;
        write!(f, "their newEdge was refused {refused} times, their words led to 0 {none} times, to no vertex made {not_made} times, ")?;
        writeln!(f, "{later} of these behind the first word")?;
        for (by, starts) in ["start", "a step"].iter().zip(self.starts) {
            let Starts { started, waited, against_edges, without_edges, bad_status, bad_edge } = starts;
            write!(
                f,
                "{by} of a released vertex was taken {started} times, refused with 21 {waited} times; on altered in-counts it was taken "
            )?;
            write!(
                f,
                "{against_edges} times with edges in and refused {without_edges} times with none; beside a bad status {bad_status} "
            )?;
            writeln!(f, "times, beside a bad edge {bad_edge} times")?;
        }
        let InCounts { true_words, largest, none, several } = self.in_counts;
        write!(
            f,
            "in-counts followed the edges {true_words} times from true ones, stayed the largest number {largest} times and 0 {none} "
        )?;
        writeln!(f, "times; several edges into one vertex went {several} times")?;
        for (by, callers) in ["commands", "steps"].iter().zip(self.callers) {
            let Callers { waiting, passing, again, edges, idle_edges, cycles, stops, transfers } = callers;
            write!(f, "by {by} callers yielded {waiting} times with edges in and {passing} times with none, and started again {again} ")?;
            write!(f, "times; edges onto them were appended {edges} times, added nothing {idle_edges} times, were 35 {cycles} times; ")?;
            writeln!(f, "with edges in they stopped {stops} times and handed their edges on {transfers} times")?;
        }
        for (named, calls) in ["the first edition", "the second edition", "no edition"].iter().zip(self.editions) {
            write!(f, "{named} was named by")?;
            for (call, times) in CALLS[OF_EDITIONS].iter().zip(calls) {
                write!(f, " {call} {times}")?;
            }
            writeln!(f)?;
        }
        let Crossings { taken, nothing_starts, second_only } = self.crossings;
        write!(f, "on tables loaded in the other edition steps were taken {taken} times, and 13 {nothing_starts} times; ")?;
        writeln!(f, "programs that the second edition loads were 8 in the first {second_only} times")?;
        let Orders { whole, cut, most } = self.orders;
        write!(
            f,
            "orders of jobs were asked for and kept {whole} times, with {most} jobs at most, and {cut} times kept up to a job that "
        )?;
        writeln!(f, "stands before one ahead of it")?;
        for (by, passes) in ["runs", "dispatches"].iter().zip(self.passes) {
            let Passes { steps, two, many, last_two, last_many, most, cycles, force_cycles, transfer_cycles, full, others, .. } = passes;
            let Passes { appended, idle, transfers, opened, .. } = passes;
            write!(f, "of {steps} steps of {by} where many vertices are refused {two} passed over two or more, {many} over 65 or more, ")?;
            write!(f, "{most} at most; {last_two} ended with two or more refused, {last_many} with 65 or more; of those passed over ")?;
            write!(f, "{cycles} were 35 by newEdge, {force_cycles} by that of a force, {transfer_cycles} by transfer, {full} were 32, ")?;
            write!(f, "{others} others; steps appended {appended} edges, took {idle} that add nothing, handed edges on {transfers} ")?;
            writeln!(f, "times, and {opened} times one that was passed over came next")?;
        }
        write!(f, "12 for a status or an edge:")?;
        for (call, times) in self.unsound_beside_the_tally() {
            write!(f, " {call} {times}")?;
        }
        writeln!(f)?;
        write!(f, "refusals")?;
        for number in REFUSALS {
            write!(f, " {number}: {}", self.refusals(number))?;
        }
        writeln!(f)
    }
}
