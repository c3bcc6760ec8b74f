//! The scenarios. All that one does follows from its seed.

use std::collections::BTreeSet;

use keshtiwol::{
    Answer, Chain, Command, DispatchEnding, Edition, Ending, Tally, EDGE_TABLE, EDGE_WORDS, FUTURE, IN_COUNT, JOB_WORDS, MADE, PHASE,
    PLACE, ROWS, SCOPE, SOURCE, STATUS, STEP_LIMIT, TARGET, VERTEX_EXECUTING, VERTEX_NEW, VERTEX_RELEASED, VERTEX_TABLE, VERTEX_WORDS,
};

use crate::counts::Counts;
use crate::draw::Draw;
use crate::pair::{asked_at, edition_of, Asked, Call, Difference, Pair, Said, State};
use crate::programs::{self, Size};

type Outcome = Result<(), Difference>;
type Kind = fn(&mut Scene) -> Outcome;

/// Plays the scenario of a seed: what was called and said, or the first difference.
pub fn play(seed: u64) -> Result<Counts, Difference> {
    let mut draw = Draw::new(seed);
    let kinds: [(&str, u32, Kind); 16] = [
        ("a bare machine", 3, Scene::bare),
        ("random tables", 3, Scene::random_tables),
        ("a schedule", 4, Scene::schedule),
        ("runs", 1, Scene::runs),
        ("a damaged program", 3, Scene::damaged),
        ("altered words", 4, Scene::altered),
        ("chains", 4, Scene::chains),
        ("the same edge twice", 4, Scene::repeats),
        ("gaps in the edge table", 3, Scene::gaps),
        ("futures", 4, Scene::futures),
        ("may it start", 5, Scene::starts),
        ("forks", 5, Scene::forks),
        ("callers that wait", 4, Scene::callers_that_wait),
        ("orders of jobs", 4, Scene::orders),
        ("jobs handed out", 5, Scene::dispatches),
        ("many refused", 8, Scene::many_refused),
    ];
    let (name, _, kind) = kinds[draw.weighted(&kinds.map(|kind| kind.1))];
    let size = [Size::Small, Size::Middle, Size::Large][draw.weighted(&[80, 14, 6])];
    let edition = draw.pick(&[Edition::First, Edition::Second]);
    let program = programs::valid(&mut draw, size, edition);
    let nothing = State { vertices: Vec::new(), edges: Vec::new(), tally: Tally::default() };
    let beside = if size == Size::Small { draw.pick(&[1, 2, 4]) } else { draw.pick(&[4, 20]) };
    let astray = draw.pick(&[u32::MAX, u32::MAX, 100, 20]);
    let mut scene = Scene { draw, size, beside, astray, edition, pair: Pair::new(program, edition, nothing) };
    match kind(&mut scene) {
        Ok(()) => Ok(scene.pair.into_counts()),
        Err(Difference(text)) => Err(Difference(format!("{name}: {text}"))),
    }
}

/// How the next vertex of a loaded program is picked.
#[derive(Clone, Copy)]
enum Order {
    Lowest,
    Highest,
    Any,
    /// The same again while it can step.
    Same,
}

/// A host that runs the jobs handed out to it.
#[derive(Default)]
struct Host {
    /// Vertex and offset of each job that is running.
    running: Vec<(u32, usize)>,
    /// By offset.
    ended: BTreeSet<usize>,
    handed: BTreeSet<usize>,
    /// Where it was told to wait: what was handed out, and what was running.
    waits: Vec<(BTreeSet<usize>, Vec<usize>)>,
}

struct Scene {
    draw: Draw,
    size: Size,
    /// After a call `lowest` is asked too, once in so many times, and as often for a chain.
    beside: u32,
    /// A call names the other edition, or a number that no edition has, once in so many times.
    astray: u32,
    /// The edition that calls name otherwise, and in which the program is valid.
    edition: Edition,
    pair: Pair,
}

impl Scene {
    /// Commands on an opened machine, some steps among them.
    fn bare(&mut self) -> Outcome {
        let rows = match self.size {
            Size::Small => self.draw.between(1, 12),
            Size::Middle => self.draw.between(12, 60),
            Size::Large => 1024,
        };
        let edge_rows = self.draw.below(2 * rows + 1);
        self.lend(rows, edge_rows, 8);
        if self.call(Call::Open)? != Said::Answer(Answer::Ready) {
            self.lend(rows, edge_rows, u32::MAX);
            self.call(Call::Open)?;
        }
        if !self.draw.one_in(10) {
            self.call(Call::Command(Command::Start { vertex: 0 }))?;
        }
        for _ in 0..self.draw.between(10, 20 + 8 * rows.min(60)) {
            let call = match self.draw.below(16) {
                0 => self.any_call(),
                1 => Call::Step(self.able_or_name()),
                _ if self.able().is_empty() && self.draw.one_in(4) => Call::Open,
                _ => Call::Command(self.command()),
            };
            self.call(call)?;
        }
        Ok(())
    }

    /// Anything on tables that no calls led to, also with cycles.
    fn random_tables(&mut self) -> Outcome {
        let state = self.random_state();
        self.pair.set(state);
        if self.draw.one_in(5) {
            self.alter();
        }
        for _ in 0..self.draw.between(5, 30) {
            let call = self.any_call();
            self.call(call)?;
        }
        Ok(())
    }

    /// A loaded program in any order, with refused names mixed in.
    fn schedule(&mut self) -> Outcome {
        self.load()?;
        let order = self.draw.pick(&[Order::Lowest, Order::Highest, Order::Any, Order::Same]);
        let refused_one_in = self.draw.pick(&[2, 5, 20]);
        let most = if self.size == Size::Large { 400 } else { 2000 };
        let mut same = 0;
        while self.pair.calls() < most {
            if self.size == Size::Large && self.draw.one_in(40) {
                let budget = self.draw.below(1500);
                self.call(Call::Run(budget))?;
            }
            let able = self.able();
            if able.is_empty() {
                break;
            }
            let vertex = match order {
                Order::Lowest => able[0],
                Order::Highest => able[able.len() - 1],
                Order::Same if able.contains(&same) => same,
                _ => self.draw.pick(&able),
            };
            if self.draw.one_in(refused_one_in) {
                let name = self.name();
                self.call(Call::Step(name))?;
            }
            same = vertex;
            self.call(Call::Step(vertex))?;
        }
        for _ in 0..self.draw.below(4) {
            let call = self.any_call();
            self.call(call)?;
        }
        Ok(())
    }

    /// A loaded program's jobs in orders that are asked for: the one in which steps answered them before and, of a small program, others.
    fn orders(&mut self) -> Outcome {
        if self.size == Size::Large && !self.draw.one_in(6) {
            self.size = Size::Middle; // A large one takes some thousand steps, twice.
        }
        let drawn = self.draw.pick(&[programs::valid, programs::with_futures, programs::with_forks]);
        self.pair.program = drawn(&mut self.draw, self.size, self.edition);
        let mut order = Vec::new();
        self.load_again()?;
        while let Some(vertex) = self.any_of(self.able()) {
            if let Said::Answer(Answer::Job { offset, .. }) = self.pair.step(vertex)? {
                order.push(offset as usize);
            }
        }
        self.ask_for(&order, order.len())?;
        // Each reading of a force is gone through there, so forces must be few.
        let forces = self.pair.program.iter().filter(|&&byte| byte == programs::FORCE).count();
        if self.size == Size::Small && forces <= 8 && order.len() > 1 {
            let ahead = paper::ahead::ahead(&self.pair.program);
            for _ in 0..self.draw.between(1, 6) {
                for _ in 0..self.draw.between(1, 4) {
                    let (one, other) = (self.draw.index(order.len()), self.draw.index(order.len()));
                    order.swap(one, other);
                }
                let is_early = |&at: &usize| order[at + 1..].iter().any(|&later| ahead.contains(&(later, order[at])));
                self.ask_for(&order, (0..order.len()).find(is_early).unwrap_or(order.len()))?;
            }
        }
        Ok(())
    }

    /// Asks for an order of the program's jobs of which so many can be answered in it: all, or those up to the first that stands before one
    /// that comes ahead of it.
    fn ask_for(&mut self, order: &[usize], fair: usize) -> Outcome {
        self.load_again()?;
        if self.answer_in(order)? != fair {
            return Err(self.pair.disagreement(&format!("of the jobs at {order:?} {fair} can be answered in this order, and no more")));
        }
        self.pair.ordered(fair, order.len());
        Ok(())
    }

    /// Loads the program in its edition, onto tables with any content.
    fn load_again(&mut self) -> Outcome {
        self.lend_for_program(u32::MAX);
        self.pair.call(Call::Load)?;
        Ok(())
    }

    /// Steps a program that was just loaded so that its jobs are answered in this order, as far as that goes: how many were. Steps that are no
    /// jobs are taken until there is none, and then that of the next job.
    fn answer_in(&mut self, order: &[usize]) -> Result<usize, Difference> {
        let stands_at_job = |program: &[u8], row: &[u32]| row[STATUS] == VERTEX_EXECUTING && program[row[PLACE] as usize] == programs::JOB;
        for next in 0..=order.len() {
            loop {
                let at_jobs = self.having(|row| stands_at_job(&self.pair.program, row));
                let others = self.able().into_iter().filter(|vertex| !at_jobs.contains(vertex)).collect();
                let Some(vertex) = self.any_of(others) else { break };
                if matches!(self.pair.step(vertex)?, Said::Answer(Answer::Job { .. } | Answer::Refused { .. })) {
                    return Err(self.pair.disagreement("a vertex that stands at no job answers one, or can't step"));
                }
            }
            let Some(&offset) = order.get(next) else { break };
            let there = self.having(|row| row[PLACE] as usize == offset && stands_at_job(&self.pair.program, row));
            let &[vertex] = there.as_slice() else { return Ok(next) };
            if !matches!(self.pair.step(vertex)?, Said::Answer(Answer::Job { offset: said, .. }) if said as usize == offset) {
                return Err(self.pair.disagreement("a vertex that stands at a job does not answer it"));
            }
        }
        if !self.able().is_empty() {
            return Err(self.pair.disagreement("all jobs of the order were answered, and there is another"));
        }
        Ok(order.len())
    }

    /// Any of these vertices, if there is one.
    fn any_of(&mut self, vertices: Vec<u32>) -> Option<u32> {
        (!vertices.is_empty()).then(|| self.draw.pick(&vertices))
    }

    /// A loaded program by runs, a step between them now and then.
    fn runs(&mut self) -> Outcome {
        self.load()?;
        for _ in 0..40 {
            let budget = match self.draw.below(6) {
                0 => 0,
                1 => 1,
                2 => self.draw.pick(&[8191, 8192, 8193, u32::MAX]),
                3 => self.draw.below(6000),
                _ => self.draw.below(40),
            };
            let said = self.call(Call::Run(budget))?;
            if matches!(said, Said::Run(run) if run.ending != Ending::Spent) && self.draw.one_in(2) {
                break;
            }
            let vertex = self.able_or_name();
            self.call(Call::Step(vertex))?;
        }
        Ok(())
    }

    /// A loaded program by a host that has jobs handed out, and clears marks when jobs have ended. No job is handed out twice, or before a job
    /// ahead of it has ended; and when the host must wait, every job that is not handed out yet waits for one that is running.
    fn dispatches(&mut self) -> Outcome {
        if self.size == Size::Large && !self.draw.one_in(4) {
            self.size = Size::Middle;
        }
        let drawn = self.draw.pick(&[programs::valid, programs::with_futures, programs::with_forks]);
        self.pair.program = drawn(&mut self.draw, self.size, self.edition);
        if self.size == Size::Middle && self.draw.one_in(4) {
            self.pair.program = programs::asyncs_with_a_job(self.draw.between(1, 400));
        }
        self.load_again()?;
        let rows = (self.pair.state().vertices.len() / VERTEX_WORDS).min(ROWS);
        self.pair.set_busy(vec![0; rows + self.draw.index(3)]);
        // Each reading of a force is gone through there, so forces must be few.
        let forces = self.pair.program.iter().filter(|&&byte| byte == programs::FORCE).count();
        let known = self.size == Size::Small && forces <= 8;
        let ahead = if known { paper::ahead::ahead(&self.pair.program) } else { BTreeSet::new() };
        let most = self.draw.pick(&[1, 2, 5, 64, 300]);
        let mut host = Host::default();
        loop {
            let (budget, words) = self.budget_and_list(most);
            if self.draw.one_in(40) {
                self.pair.edition = self.no_edition();
                self.pair.call(Call::Dispatch { budget, words })?;
                self.pair.edition = self.edition.into();
            }
            let marked = self.pair.busy().to_vec();
            let Said::Dispatch(said) = self.pair.call(Call::Dispatch { budget, words })? else { unreachable!("a dispatch") };
            let free = |vertex: &u32| marked[*vertex as usize] == 0;
            for [vertex, _, offset] in self.pair.handed_out(said.handed) {
                let early = ahead.iter().any(|&(first, then)| then == offset as usize && !host.ended.contains(&first));
                if !free(&vertex) || early || !host.handed.insert(offset as usize) {
                    return Err(self.pair.disagreement(&format!("the job at {offset} is handed out early, twice or by a busy vertex")));
                }
                host.running.push((vertex, offset as usize));
            }
            let able = self.able();
            let idle = able.iter().any(|&vertex| self.pair.busy()[vertex as usize] == 0);
            let as_it_ended = match said.ending {
                DispatchEnding::Done => able.is_empty() && host.running.is_empty(),
                DispatchEnding::Waiting => !idle && !host.running.is_empty(),
                DispatchEnding::Full => idle && said.handed as usize == words as usize / JOB_WORDS,
                DispatchEnding::Spent => idle && said.taken == budget,
                DispatchEnding::Stuck | DispatchEnding::Refused { .. } => false,
            };
            if !as_it_ended {
                return Err(self.pair.disagreement("a dispatch does not end as it says"));
            }
            self.pair.dispatched(host.running.iter().any(|&(vertex, _)| able.iter().any(|&other| vertex < other)));
            match said.ending {
                DispatchEnding::Done => break,
                DispatchEnding::Waiting => host.waits.push((host.handed.clone(), host.running.iter().map(|&(_, job)| job).collect())),
                _ => {}
            }
            let least = u32::from(said.ending == DispatchEnding::Waiting);
            let running = host.running.len() as u32;
            for _ in 0..self.draw.between(least.min(running), running) {
                let (vertex, job) = host.running.swap_remove(self.draw.index(host.running.len()));
                host.ended.insert(job);
                self.pair.set_busy_word(vertex as usize, 0);
            }
            if self.draw.one_in(self.beside) {
                self.pair.call(Call::Lowest)?;
            }
        }
        let needlessly = |(handed, running): &(BTreeSet<usize>, Vec<usize>)| {
            host.handed.difference(handed).any(|&job| !running.iter().any(|&first| ahead.contains(&(first, job))))
        };
        if known && host.waits.iter().any(needlessly) {
            return Err(self.pair.disagreement("a job that could start was not handed out where the host was told to wait"));
        }
        Ok(())
    }

    /// For a dispatch: a budget, and the words of a list for so many jobs at most, now and then with some words too many for its rows.
    fn budget_and_list(&mut self, most: u32) -> (u32, u32) {
        let budget = match self.draw.below(4) {
            0 => self.draw.below(30),
            _ => self.draw.pick(&[STEP_LIMIT, u32::MAX]),
        };
        (budget, JOB_WORDS as u32 * self.draw.between(1, most) + self.draw.below(JOB_WORDS as u32))
    }

    /// Marks of any length and content: mostly enough of them, and mostly with few vertices busy.
    fn any_marks(&mut self) {
        let rows = (self.pair.state().vertices.len() / VERTEX_WORDS).min(ROWS);
        let length = match self.draw.below(6) {
            0 => self.draw.index(rows + 1),
            1 => rows + self.draw.index(40),
            _ => rows,
        };
        let one_in = self.draw.pick(&[u32::MAX, 8, 2, 1]);
        let marks = (0..length).map(|_| if self.draw.one_in(one_in) { self.draw.pick(&[1, 1, 2, u32::MAX]) } else { 0 }).collect();
        self.pair.set_busy(marks);
    }

    /// A dispatch with any marks, or with those of the last one, and any list, also one without a row.
    fn any_dispatch(&mut self) -> Call {
        if self.pair.busy().is_empty() || self.draw.one_in(2) {
            self.any_marks();
        }
        let words = match self.draw.below(4) {
            0 => self.draw.below(3),
            1 => 3 * ROWS as u32,
            _ => self.draw.below(24),
        };
        Call::Dispatch { budget: self.draw.pick(&[0, 1, 2, 5, 20, 200, 8192, u32::MAX]), words }
    }

    /// The same with this budget.
    fn any_dispatch_of(&mut self, budget: u32) -> Call {
        match self.any_dispatch() {
            Call::Dispatch { words, .. } => Call::Dispatch { budget, words },
            other => other,
        }
    }

    /// Runs and dispatches on tables where many vertices execute at a newEdge or a transfer, with few ends for their edges, so that most
    /// are refused, some take an edge that is held already, and steps that are taken close or open the way for others.
    fn many_refused(&mut self) -> Outcome {
        // With more vertices each step takes longer.
        let (vertices, tables, budgets): (u32, u32, &[u32]) = match self.draw.weighted(&[240, 100, 2]) {
            0 => (self.draw.between(8, 40), 6, &[0, 1, 1, 2, 5, 5, STEP_LIMIT]),
            1 => (self.draw.between(64, 200), 6, &[0, 1, 1, 2, 5, 5, 200]),
            _ => (ROWS as u32, 1, &[0, 1, 2]),
        };
        let sound = self.loaded_or_new(vertices)?;
        for _ in 0..self.draw.between(1, tables) {
            let mut state = sound.clone();
            self.crowd(&mut state);
            self.pair.set(state);
            self.pair.set_busy(Vec::new());
            for _ in 0..self.draw.between(2, 6) {
                let budget = self.draw.pick(budgets);
                let call = match self.draw.below(10) {
                    0..4 => Call::Run(budget),
                    4..8 => self.any_dispatch_of(budget),
                    8 => Call::Step(self.able_or_name()),
                    _ => Call::Lowest,
                };
                match call {
                    Call::Run(_) | Call::Dispatch { .. } => self.pair.pass_over(call)?,
                    _ => self.call(call)?,
                };
                if self.draw.one_in(10) {
                    self.alter();
                }
            }
        }
        Ok(())
    }

    /// Tables with about so many vertices made, for a program with items of every kind: as a loading and a run left them, or with all new.
    fn loaded_or_new(&mut self, vertices: u32) -> Result<State, Difference> {
        if vertices < ROWS as u32 && self.draw.one_in(3) {
            // A future makes two vertices, in five steps.
            self.pair.program = programs::one_of_each(&mut self.draw, vertices / 2);
            self.load_again()?;
            let budget = self.draw.between(2 * vertices, 4 * vertices);
            self.pair.call(Call::Run(budget))?;
            return Ok(self.pair.state().clone());
        }
        let futures = self.draw.between(1, 6);
        self.pair.program = programs::one_of_each(&mut self.draw, futures);
        let (rows, edge_rows) = (vertices + self.draw.below(4), vertices / 2 + self.draw.below(vertices));
        let mut words = vec![0; VERTEX_WORDS * rows as usize];
        words.chunks_exact_mut(VERTEX_WORDS).take(vertices as usize).for_each(|row| row[STATUS] = VERTEX_NEW);
        let tally = Tally { made: vertices, held: 0, steps: self.draw.below(100) };
        Ok(State { vertices: words, edges: vec![0; EDGE_WORDS * edge_rows as usize], tally })
    }

    /// Has most vertices made execute at a newEdge or a transfer. Few vertices are the ends of what they ask for and of most edges held:
    /// new ones with hardly an edge out, others that wait, and others that may stop or yield.
    fn crowd(&mut self, state: &mut State) {
        let (draw, program, made) = (&mut self.draw, &self.pair.program, state.tally.made);
        let (mut asking, mut others) = (Vec::new(), Vec::new());
        // Steps that may open the way for others: a stop, the last of the future that the program begins with, and yields.
        let mut leaving = vec![(program.len() as u32 - 1, 0), (0, 4)];
        for (at, _) in programs::starts(program) {
            if program[at] == programs::FORK && self.edition == Edition::Second {
                leaving.push((at as u32, 6));
            }
            asking.extend(asked_at(program[at], self.edition).iter().map(|&(phase, asked)| (at as u32, phase, asked)));
            others.push(at as u32);
        }
        // Either nearly all ask for the same edge, which closes a cycle until a vertex stops that is among the last, or for anything.
        let firm = made > 200 || draw.one_in(3);
        let (count, late) = (draw.between(4, 9), firm || draw.one_in(2));
        let last = |draw: &mut Draw| made - 1 - draw.below(made / 8 + 1);
        let ends: Vec<u32> = (0..count).map(|at| if late && at >= 2 * count / 3 { last(draw) } else { draw.below(made) }).collect();
        let (new, ring) = ends.split_at(ends.len() / 3);
        let (waiting, stopping) = ring.split_at(ends.len() / 3);
        let targets = if draw.one_in(3) { ring } else { waiting };
        let ring_rows = if firm || draw.one_in(2) { ring.len() } else { 0 };
        let (source, target) = if firm { (ring[ring.len() - 2], ring[0]) } else { (draw.pick(&ends), draw.pick(waiting)) };
        let kinds: Vec<_> = asking.iter().copied().filter(|&(_, _, asked)| !firm || asked != Asked::Transfer).collect();
        let usual = draw.pick(&kinds);
        // One in so many asks for something else, and has other ends, which are any vertices once in so many times; and from some vertex on
        // one in so many does something else.
        let (unlike, strays) = match firm {
            true if made > 200 || draw.one_in(2) => (u32::MAX, 400),
            true => (20, 60),
            false => (draw.pick(&[1, 3, 20]), draw.pick(&[1, 1, 60])),
        };
        let far = draw.pick(&[3, 16, 16]);
        let others_from = if firm { made - made / 8 } else { draw.pick(&[0, made / 2, made - made / 8]) };
        let other = draw.pick(&[2, 5, 20]);
        for (vertex, row) in (0..made).zip(state.vertices.chunks_exact_mut(VERTEX_WORDS)) {
            let stray = draw.one_in(strays);
            let near = |draw: &mut Draw, usual: u32, ends: &[u32]| match draw.below(far) {
                _ if !stray => usual,
                0 => vertex,
                1 => draw.below(made),
                _ => draw.pick(ends),
            };
            let (place, phase, asked) = if draw.one_in(unlike) { draw.pick(&asking) } else { usual };
            let target = match asked {
                Asked::Transfer => near(draw, new[0], new),
                _ if stray && draw.one_in(4) => vertex,
                _ => near(draw, target, targets),
            };
            let sources = [near(draw, source, &ends), near(draw, source, &ends)];
            row[SCOPE] = target;
            row[MADE..FUTURE].copy_from_slice(&match program[place as usize] {
                programs::ASYNC | programs::FORK => [sources[0], sources[1], target],
                _ => [target, sources[0], sources[1]],
            });
            row[FUTURE] = if stray && draw.one_in(20) { future_word(draw, vertex, made) } else { near(draw, source, &ends).max(1) };
            (row[STATUS], row[PLACE], row[PHASE]) = match vertex {
                _ if new.contains(&vertex) => (VERTEX_NEW, draw.pick(&others), 0),
                _ if waiting.contains(&vertex) => (draw.pick(&[VERTEX_NEW, VERTEX_NEW, VERTEX_RELEASED]), draw.pick(&others), 0),
                _ if stopping.contains(&vertex) => {
                    let (place, phase) = if draw.one_in(2) { draw.pick(&leaving) } else { (draw.pick(&others), 0) };
                    (VERTEX_EXECUTING, place, phase)
                }
                _ if vertex >= others_from && draw.one_in(other) => (1 + draw.below(4), draw.pick(&others), 0),
                _ => (VERTEX_EXECUTING, place, phase),
            };
        }
        let rows = (state.edges.len() / EDGE_WORDS).min(ROWS);
        let held = match draw.below(3) {
            0 => (ring_rows + draw.index(2 * ends.len())).min(rows),
            1 => rows.saturating_sub(draw.index(4)),
            _ => draw.index(rows + 1),
        };
        state.tally.held = held as u32;
        for (at, row) in state.edges.chunks_exact_mut(EDGE_WORDS).take(held).enumerate() {
            if at < ring_rows {
                (row[SOURCE], row[TARGET]) = (ring[at], ring[(at + 1) % ring_rows]);
                continue;
            }
            let source = if draw.one_in(2) { draw.below(made) } else { draw.pick(&ends) };
            row[SOURCE] = if new.contains(&source) { draw.pick(stopping) } else { source };
            row[TARGET] = if draw.one_in(6) { draw.below(made) } else { draw.pick(&ends) };
        }
        if !firm && self.draw.one_in(3) {
            self.shape_edges(state);
        }
        if self.draw.one_in(4) {
            self.fill(state);
        }
        self.count_edges(state);
    }

    /// Programs that loading refuses, mostly; then lent to tables that a sound program led to.
    fn damaged(&mut self) -> Outcome {
        let sound = self.pair.program.clone();
        self.lend_for_program(3);
        for _ in 0..self.draw.between(1, 6) {
            self.pair.program = programs::damaged(&mut self.draw, self.size, self.edition);
            if self.call(Call::Load)? == Said::Answer(Answer::Ready) {
                let budget = self.draw.below(100);
                self.call(Call::Run(budget))?;
            }
        }
        self.pair.program = sound.clone();
        self.load()?;
        for _ in 0..self.draw.between(1, 6) {
            self.pair.program = sound.clone();
            let budget = self.draw.below(20);
            self.call(Call::Run(budget))?;
            self.pair.program = match self.draw.below(3) {
                0 => sound[..self.draw.index(sound.len())].to_vec(),
                1 => programs::valid(&mut self.draw, self.size, self.edition),
                _ => programs::damaged(&mut self.draw, self.size, self.edition),
            };
            for _ in 0..self.draw.between(1, 5) {
                let vertex = self.able_or_name();
                self.call(Call::Step(vertex))?;
            }
            if self.draw.one_in(3) {
                let budget = self.draw.below(20);
                self.call(Call::Run(budget))?;
            }
            if self.draw.one_in(3) {
                let dispatch = self.any_dispatch();
                self.call(dispatch)?;
            }
        }
        Ok(())
    }

    /// A loaded program, and on its way words and tallies that no step wrote.
    fn altered(&mut self) -> Outcome {
        self.load()?;
        for _ in 0..self.draw.between(2, 12) {
            let most = self.draw.pick(&[5, 30, 30, 300]);
            let budget = self.draw.below(most);
            self.call(Call::Run(budget))?;
            let sound = self.pair.state().clone();
            for _ in 0..self.draw.pick(&[1, 1, 2, 4]) {
                self.alter();
            }
            for _ in 0..self.draw.between(1, 8) {
                let call = match self.draw.below(4) {
                    0 | 1 => Call::Step(self.able_or_name()),
                    2 => self.any_call(),
                    _ if self.draw.one_in(2) => self.any_dispatch(),
                    _ => self.any_call(),
                };
                self.call(call)?;
            }
            if !self.draw.one_in(3) {
                self.pair.set(sound);
            }
        }
        Ok(())
    }

    /// Chains on tables that no calls led to, and commands that meet them.
    fn chains(&mut self) -> Outcome {
        let mut state = self.random_state();
        if self.size == Size::Large && self.draw.one_in(2) {
            make_all(&mut state);
        }
        let ends = self.shape_edges(&mut state);
        self.count_edges(&mut state);
        self.pair.set(state);
        if let Some((source, target)) = ends {
            self.chain_between(source, target)?;
        }
        for _ in 0..self.draw.between(5, 25) {
            self.chain()?;
            if self.draw.one_in(4) {
                let command = self.command();
                self.call(Call::Command(command))?;
            }
            if self.draw.one_in(8) {
                let sound = self.pair.state().clone();
                self.alter();
                self.chain()?;
                if !self.draw.one_in(3) {
                    self.pair.set(sound);
                }
            }
        }
        Ok(())
    }

    /// Edges that are held already, named again.
    fn repeats(&mut self) -> Outcome {
        if self.draw.one_in(2) {
            self.repeats_by_commands()
        } else {
            self.repeats_by_steps()
        }
    }

    /// By commands, on tables that no calls led to.
    fn repeats_by_commands(&mut self) -> Outcome {
        let mut state = self.random_state();
        self.shape_edges(&mut state);
        let made = state.tally.made;
        let more = if made > 0 { self.draw.below(3) } else { 0 };
        for _ in 0..more {
            let (source, target) = (self.draw.below(made), self.draw.below(made));
            self.hold(&mut state, source, target);
            match self.draw.below(3) {
                0 => self.hold(&mut state, source, source),
                1 => self.hold_way_back(&mut state, source, target),
                _ => {}
            }
        }
        if self.draw.one_in(2) {
            self.fill(&mut state);
        }
        self.count_edges(&mut state);
        self.pair.set(state);
        for _ in 0..self.draw.between(5, 25) {
            let command = match (self.caller(), self.held_edge()) {
                (Some(caller), Some((source, target))) if !self.draw.one_in(3) => Command::NewEdge { caller, source, target },
                _ => self.command(),
            };
            self.call(Call::Command(command))?;
        }
        Ok(())
    }

    /// By steps of a loaded program, into whose table the edge was put before.
    fn repeats_by_steps(&mut self) -> Outcome {
        self.load()?;
        for _ in 0..self.draw.between(2, 12) {
            let Some((vertex, ends)) = self.step_to_an_edge()? else { break };
            let sound = self.pair.state().clone();
            self.hold_next_edge(ends);
            let call = if self.draw.one_in(6) { Call::Run(self.draw.between(1, 4)) } else { Call::Step(vertex) };
            self.call(call)?;
            for _ in 0..self.draw.below(4) {
                let call = if self.draw.one_in(2) { Call::Step(vertex) } else { self.any_call() };
                self.call(call)?;
            }
            if !self.draw.one_in(3) {
                self.pair.set(sound);
            }
        }
        Ok(())
    }

    /// Steps vertices in any order until the next command of one is a newEdge, if that comes soon: the vertex, where in the table the edge's
    /// source stands, and its target.
    fn step_to_an_edge(&mut self) -> Result<Option<(u32, (usize, u32))>, Difference> {
        for _ in 0..self.draw.between(1, 60) {
            let able = self.able();
            if able.is_empty() {
                break;
            }
            let vertex = self.draw.pick(&able);
            self.call(Call::Step(vertex))?;
            if let Some(ends) = self.next_edge(vertex) {
                return Ok(Some((vertex, ends)));
            }
        }
        Ok(None)
    }

    /// Where in the vertex table the source stands that a vertex's next step's newEdge names, and the target, if it is one.
    fn next_edge(&self, vertex: u32) -> Option<(usize, u32)> {
        let vertices = &self.pair.state().vertices;
        let row = VERTEX_WORDS * vertex as usize;
        let place = vertices[row + PLACE] as usize;
        let made = |word: usize| row + MADE + word;
        match (*self.pair.program.get(place)?, vertices[row + PHASE], self.edition) {
            (programs::ASYNC, 1, _) => Some((made(0), vertices[row + SCOPE])),
            (programs::FINISH | programs::FUTURE, 2, _) => Some((made(1), vertices[made(0)])),
            (programs::FORK, 3, Edition::First) => Some((made(0), vertices[made(2)])),
            (programs::FORK, 4, Edition::First) => Some((made(1), vertices[made(2)])),
            (programs::FORK, 2, Edition::Second) => Some((made(0), vertex)),
            (programs::FORK, 3, Edition::Second) => Some((made(1), vertex)),
            (programs::FORCE, 1, _) => {
                let mut source = row + FUTURE;
                for _ in 0..programs::number_at(&self.pair.program, place + 1) {
                    source = VERTEX_WORDS * *vertices.get(source)? as usize + FUTURE;
                }
                // Words that an altered row leads to may lead nowhere.
                (source < vertices.len()).then_some((source, vertices[made(0)]))
            }
            _ => None,
        }
    }

    /// Puts that edge into the table, often so that no row is left or a way leads back. Now and then it is made one from a vertex to
    /// itself.
    fn hold_next_edge(&mut self, (source, target): (usize, u32)) {
        let mut state = self.pair.state().clone();
        let words = &mut state.vertices;
        if self.draw.one_in(8) {
            words[source] = target;
        }
        let source = words[source];
        if self.draw.one_in(3) {
            self.hold_way_back(&mut state, source, target);
        }
        self.hold(&mut state, source, target);
        if self.draw.one_in(2) {
            self.fill(&mut state);
        }
        self.count_edges(&mut state);
        self.pair.set(state);
    }

    /// Puts edges into a table that lead from target back to source: one, or two over any vertex made.
    fn hold_way_back(&mut self, state: &mut State, source: u32, target: u32) {
        if self.draw.one_in(3) {
            let between = self.draw.below(state.tally.made);
            self.hold(state, target, between);
            self.hold(state, between, source);
        } else {
            self.hold(state, target, source);
        }
    }

    /// Programs with futures and forces: on the way to the newEdge of a force, or on tables that no calls led to, the words that it
    /// follows are altered.
    fn futures(&mut self) -> Outcome {
        self.pair.program = programs::with_futures(&mut self.draw, self.size, self.edition);
        match self.draw.below(16) {
            0 => self.far_force(),
            1..5 => self.forces_on_random_tables(),
            _ => self.forces_of_a_schedule(),
        }
    }

    /// A force of a future behind many others.
    fn far_force(&mut self) -> Outcome {
        let futures = self.draw.between(100, 400);
        let number = self.draw.to_the_edges(0, futures - 1);
        self.pair.program = programs::far_force(futures, number);
        self.load()?;
        // Vertex 0 starts, takes five steps for each future, and does the force's newTd.
        self.pair.call(Call::Run(2 + 5 * futures))?;
        if self.draw.one_in(2) {
            self.alter_future(0, number);
        }
        self.pair.force(0, number)?;
        Ok(())
    }

    fn forces_of_a_schedule(&mut self) -> Outcome {
        self.load()?;
        for _ in 0..self.draw.between(4, 20) {
            let Some((vertex, number)) = self.step_to_a_force()? else {
                self.call(Call::Load)?;
                continue;
            };
            let sound = self.pair.state().clone();
            for _ in 0..self.draw.pick(&[0, 1, 1, 2, 4]) {
                self.alter_future(vertex, number);
            }
            if self.draw.one_in(8) {
                let target = self.name();
                self.pair.set_vertex_word(VERTEX_WORDS * vertex as usize + MADE, target);
            }
            self.pair.force(vertex, number)?;
            for _ in 0..self.draw.below(4) {
                let call = if self.draw.one_in(2) { Call::Step(vertex) } else { self.any_call() };
                self.call(call)?;
            }
            if !self.draw.one_in(3) {
                self.pair.set(sound);
                self.call(Call::Step(vertex))?;
            }
        }
        Ok(())
    }

    fn forces_on_random_tables(&mut self) -> Outcome {
        let starts = programs::starts(&self.pair.program);
        let is_force = |&(at, _): &(usize, u32)| self.pair.program[at] == programs::FORCE;
        let forces: Vec<u32> = starts.into_iter().filter(is_force).map(|(at, _)| at as u32).collect();
        if forces.is_empty() {
            return Ok(());
        }
        for _ in 0..self.draw.between(2, 10) {
            let mut state = self.random_state();
            let made = state.tally.made;
            if made == 0 {
                continue;
            }
            let vertex = self.draw.below(made);
            let row = &mut state.vertices[VERTEX_WORDS * vertex as usize..][..VERTEX_WORDS];
            (row[STATUS], row[PLACE], row[PHASE]) = (VERTEX_EXECUTING, self.draw.pick(&forces), self.draw.pick(&[0, 1, 1, 1, 1, 2, 3, 4]));
            self.pair.set(state);
            match self.force_due(vertex) {
                Some(number) => self.pair.force(vertex, number)?,
                None => self.call(Call::Step(vertex))?,
            };
            if self.draw.one_in(3) {
                let call = self.any_call();
                self.call(call)?;
            }
        }
        Ok(())
    }

    /// Steps vertices in any order, runs among them, until the next command of one is a force's newEdge, if that comes soon: the vertex and
    /// the force's number.
    fn step_to_a_force(&mut self) -> Result<Option<(u32, u32)>, Difference> {
        for _ in 0..self.draw.between(1, 80) {
            if self.draw.one_in(10) {
                let most = if self.size == Size::Small { 20 } else { 400 };
                let budget = self.draw.below(most);
                self.call(Call::Run(budget))?;
            }
            let able = self.able();
            if able.is_empty() {
                break;
            }
            let at_a_force: Vec<u32> = able.iter().copied().filter(|&vertex| self.at(programs::FORCE, vertex)).collect();
            let vertex = if at_a_force.is_empty() || self.draw.one_in(4) { self.draw.pick(&able) } else { self.draw.pick(&at_a_force) };
            self.call(Call::Step(vertex))?;
            if let Some(number) = self.force_due(vertex) {
                return Ok(Some((vertex, number)));
            }
        }
        Ok(None)
    }

    /// Whether a vertex executes and this byte stands at its place.
    fn at(&self, first: u8, vertex: u32) -> bool {
        let place = self.pair.state().vertices[VERTEX_WORDS * vertex as usize + PLACE] as usize;
        self.status(vertex) == VERTEX_EXECUTING && self.pair.program.get(place) == Some(&first)
    }

    /// The number of the force whose newEdge is the next step of a vertex made, if it is one, on sound tables and a program that loads.
    fn force_due(&self, vertex: u32) -> Option<u32> {
        let State { vertices, tally, .. } = self.pair.state();
        let row = &vertices[VERTEX_WORDS * vertex as usize..][..VERTEX_WORDS];
        let program = &self.pair.program;
        let at = row[PLACE] as usize;
        let due = tally.steps < STEP_LIMIT
            && self.at(programs::FORCE, vertex)
            && row[PHASE] == 1
            && programs::starts(program).iter().any(|&(start, _)| start == at);
        due.then(|| programs::number_at(program, at + 1))
    }

    /// Alters one of the words for futures that a force of a vertex follows: its own or one behind it, or the first that is not followed.
    fn alter_future(&mut self, vertex: u32, number: u32) {
        let State { vertices, tally, .. } = self.pair.state();
        let word = |vertex: u32| VERTEX_WORDS * vertex as usize + FUTURE;
        let mut at = vertex;
        for _ in 0..self.draw.below(number + 2) {
            match vertices[word(at)] {
                next if next < tally.made => at = next,
                _ => break,
            }
        }
        let altered = future_word(&mut self.draw, at, tally.made);
        self.pair.set_vertex_word(word(at), altered);
    }

    /// Stops on tables that no calls led to, by commands and by steps, also where a word was altered. Small tables have few gaps, so most are
    /// larger.
    fn gaps(&mut self) -> Outcome {
        self.size = self.draw.pick(&[Size::Small, Size::Middle, Size::Middle, Size::Large]);
        let mut sound = self.random_state();
        if sound.tally.made == 0 {
            make_all(&mut sound);
            self.count_edges(&mut sound);
        }
        let end = self.pair.program.len() as u32 - 1;
        for _ in 0..self.draw.between(4, 12) {
            let mut state = sound.clone();
            let vertex = self.draw.below(state.tally.made);
            self.own_edges(&mut state, vertex);
            let row = &mut state.vertices[VERTEX_WORDS * vertex as usize..][..VERTEX_WORDS];
            (row[STATUS], row[PLACE], row[PHASE]) = (VERTEX_EXECUTING, end, 0);
            self.pair.set(state);
            if self.draw.one_in(4) {
                self.alter();
            }
            let call = if self.draw.one_in(2) { Call::Step(vertex) } else { Call::Command(Command::Stop { caller: vertex }) };
            self.pair.stop(call, vertex)?;
            if self.draw.one_in(4) {
                let call = self.any_call();
                self.call(call)?;
            }
        }
        Ok(())
    }

    /// Programs with forks, by steps of one edition or of both, with yields and edges onto callers put between them.
    fn forks(&mut self) -> Outcome {
        if self.draw.one_in(16) {
            return self.many_forks();
        }
        self.pair.program = programs::with_forks(&mut self.draw, self.size, self.edition);
        self.load()?;
        if self.draw.one_in(4) {
            // The other edition may want more rows, or load it as well.
            self.pair.edition = self.another_edition();
            self.call(Call::Load)?;
        }
        self.astray = self.draw.pick(&[u32::MAX, 20, 5, 2]);
        let meddling = self.draw.one_in(2);
        for _ in 0..self.draw.between(10, 150) {
            let able = self.able();
            if able.is_empty() {
                break;
            }
            // Mostly on with a fork that is begun.
            let at_a_fork: Vec<u32> = able.iter().copied().filter(|&vertex| self.at(programs::FORK, vertex)).collect();
            let vertex = if at_a_fork.is_empty() || self.draw.one_in(3) { self.draw.pick(&able) } else { self.draw.pick(&at_a_fork) };
            if meddling && self.draw.one_in(10) {
                self.meddle(vertex)?;
            }
            self.call(Call::Step(vertex))?;
            if self.draw.one_in(30) {
                let most = if self.size == Size::Small { 20 } else { 400 };
                let budget = self.draw.below(most);
                self.call(Call::Run(budget))?;
            }
        }
        Ok(())
    }

    /// As many forks as make about 1,024 vertices in one edition or the other, loaded in both, then begun.
    fn many_forks(&mut self) -> Outcome {
        let forks = self.draw.pick(&[340, 341, 400, 511, 512]);
        self.pair.program = programs::empty_forks(forks);
        for _ in 0..4 {
            self.lend_for_program(6);
            for number in [self.edition.into(), self.another_edition()] {
                self.pair.edition = number;
                self.call(Call::Load)?;
                self.call(Call::Step(0))?;
                self.call(Call::Step(0))?;
            }
        }
        Ok(())
    }

    /// Between the steps of a vertex: a command that it calls for itself, a phase at which editions differ, another made vertex, or anything.
    fn meddle(&mut self, vertex: u32) -> Outcome {
        let row = VERTEX_WORDS * vertex as usize;
        match self.draw.below(6) {
            0 => {
                self.call(Call::Command(Command::Yield { caller: vertex }))?;
            }
            1 => {
                let source = self.name();
                self.call(Call::Command(Command::NewEdge { caller: vertex, source, target: vertex }))?;
            }
            2 if self.at(programs::FORK, vertex) => {
                let phase = self.draw.between(2, 9);
                self.pair.set_vertex_word(row + PHASE, phase);
            }
            3 => {
                let (word, made) = (self.draw.index(FUTURE - MADE), self.name());
                self.pair.set_vertex_word(row + MADE + word, made);
            }
            4 => {
                let scope = if self.draw.one_in(2) { vertex } else { self.name() };
                self.pair.set_vertex_word(row + SCOPE, scope);
            }
            _ => self.alter(),
        }
        Ok(())
    }

    /// Callers that take edges onto themselves, yield and start again, or stop or hand their edges on with edges in: on an opened machine, on
    /// tables that no calls led to, or between the steps of a program.
    fn callers_that_wait(&mut self) -> Outcome {
        match self.draw.below(3) {
            0 => {
                self.lend(12, 24, u32::MAX);
                self.pair.call(Call::Open)?;
                self.call(Call::Command(Command::Start { vertex: 0 }))?;
                for _ in 0..self.draw.between(2, 8) {
                    let place = self.draw.below(self.pair.program.len() as u32);
                    self.call(Call::Command(Command::NewTd { caller: 0, place, scope: 0 }))?;
                }
            }
            1 => {
                let state = self.random_state();
                self.pair.set(state);
            }
            _ => {
                self.load()?;
                let budget = self.draw.below(30);
                self.call(Call::Run(budget))?;
            }
        }
        for _ in 0..self.draw.between(10, 40) {
            if self.draw.one_in(12) {
                self.alter();
            }
            let Some(caller) = self.caller() else {
                let vertex = self.able_or_name();
                let call = if self.draw.one_in(2) { Call::Step(vertex) } else { Call::Command(Command::Start { vertex }) };
                self.call(call)?;
                continue;
            };
            let command = match self.draw.weighted(&[8, 3, 1, 2, 3, 4]) {
                0 => Command::NewEdge { caller, source: self.source_for(caller), target: caller },
                1 => Command::Yield { caller },
                2 => Command::Stop { caller },
                3 => Command::Transfer { caller, vertex: self.new_or_name() },
                4 => Command::Release { caller, vertex: self.new_or_name() },
                _ => self.command(),
            };
            self.call(Call::Command(command))?;
        }
        Ok(())
    }

    /// A vertex that an edge onto the caller may come from: one that has such an edge already, the caller itself, or any.
    fn source_for(&mut self, caller: u32) -> u32 {
        let sources: Vec<u32> = self.pair.state().held().filter(|row| row[TARGET] == caller).map(|row| row[SOURCE]).collect();
        match self.draw.below(8) {
            0 => caller,
            1 | 2 if !sources.is_empty() => self.draw.pick(&sources),
            _ => self.name(),
        }
    }

    /// A new vertex if there is one, now and then another.
    fn new_or_name(&mut self) -> u32 {
        let new = self.having(|row| row[STATUS] == VERTEX_NEW);
        if new.is_empty() || self.draw.one_in(6) {
            self.name()
        } else {
            self.draw.pick(&new)
        }
    }

    /// May it start? In-counts are altered, and something is made wrong elsewhere in the tables; then released vertices are started and
    /// stepped, and edges come and go.
    fn starts(&mut self) -> Outcome {
        let loaded = self.draw.one_in(2);
        if loaded {
            self.load()?;
        } else {
            let mut state = self.random_state();
            self.shape_edges(&mut state);
            self.count_edges(&mut state);
            self.pair.set(state);
        }
        for _ in 0..self.draw.between(4, 16) {
            if loaded {
                let most = self.draw.pick(&[5, 30, 200]);
                let budget = self.draw.below(most);
                self.call(Call::Run(budget))?;
            }
            let sound = self.pair.state().clone();
            match (self.draw.below(4), loaded) {
                (0, true) => self.step_to_the_ends()?,
                (0, false) => self.command_to_the_ends()?,
                _ => self.start_one()?,
            }
            if !self.draw.one_in(4) {
                self.pair.set(sound);
            }
        }
        Ok(())
    }

    /// Calls for a released vertex whose in-count is altered, or beside which something is wrong.
    fn start_one(&mut self) -> Outcome {
        let vertex = self.released_or_name();
        if self.draw.one_in(2) {
            self.alter_in_count(vertex);
        }
        if self.draw.one_in(2) {
            self.spoil_beside(vertex);
        }
        for _ in 0..self.draw.between(1, 5) {
            let call = match self.draw.below(8) {
                0..3 => Call::Command(Command::Start { vertex }),
                3..6 => Call::Step(vertex),
                _ => self.any_call(),
            };
            self.call(call)?;
        }
        Ok(())
    }

    /// A newEdge, or a stop, where the in-count of the edge's target is at one of its ends or near.
    fn command_to_the_ends(&mut self) -> Outcome {
        let mut state = self.pair.state().clone();
        let made = state.made().len() as u32;
        if made < 2 {
            return Ok(());
        }
        let source = self.draw.below(made);
        let target = (source + 1 + self.draw.below(made - 1)) % made;
        let command = if self.draw.one_in(2) {
            for _ in 0..self.draw.between(1, 3) {
                self.hold(&mut state, source, target);
            }
            Command::Stop { caller: source }
        } else {
            let one_more = EDGE_WORDS * (state.held().len() + 1);
            state.edges.resize(state.edges.len().max(one_more), 0);
            Command::NewEdge { caller: source, source, target }
        };
        state.vertices[VERTEX_WORDS * source as usize + STATUS] = VERTEX_EXECUTING;
        state.vertices[VERTEX_WORDS * target as usize + STATUS] = VERTEX_RELEASED;
        state.vertices[VERTEX_WORDS * target as usize + IN_COUNT] = self.draw.pick(&IN_COUNT_ENDS);
        self.pair.set(state);
        self.call(Call::Command(command))?;
        self.call(Call::Command(Command::Start { vertex: target }))?;
        Ok(())
    }

    /// The step of a loaded program that is a newEdge, likewise.
    fn step_to_the_ends(&mut self) -> Outcome {
        if let Some((vertex, (_, target))) = self.step_to_an_edge()? {
            let at = VERTEX_WORDS * target as usize + IN_COUNT;
            // An altered row may name no vertex.
            if at < self.pair.state().vertices.len() {
                let word = self.draw.pick(&IN_COUNT_ENDS);
                self.pair.set_vertex_word(at, word);
            }
            self.call(Call::Step(vertex))?;
        }
        Ok(())
    }

    /// A released vertex, whatever its in-count, often one that edges lead into; any where there is none.
    fn released_or_name(&mut self) -> u32 {
        let released = self.having(|row| row[STATUS] == VERTEX_RELEASED);
        let into = self.pair.state().edges_into();
        let waiting: Vec<u32> = released.iter().copied().filter(|&vertex| into[vertex as usize] > 0).collect();
        match (released.is_empty(), waiting.is_empty()) {
            (true, _) => self.name(),
            (_, false) if self.draw.one_in(2) => self.draw.pick(&waiting),
            _ => self.draw.pick(&released),
        }
    }

    /// Gives a vertex another in-count, if it was made.
    fn alter_in_count(&mut self, vertex: u32) {
        if let Some(&edges_in) = self.pair.state().edges_into().get(vertex as usize) {
            let word = in_count_word(&mut self.draw, edges_in);
            self.pair.set_vertex_word(VERTEX_WORDS * vertex as usize + IN_COUNT, word);
        }
    }

    /// Puts what is no status into the row of another vertex, or what is no vertex made into a held edge, where there is one.
    fn spoil_beside(&mut self, vertex: u32) {
        let state = self.pair.state();
        let (made, held) = (state.made().len() as u32, state.held().len());
        if made > 1 && self.draw.one_in(2) {
            let other = (vertex % made + 1 + self.draw.below(made - 1)) % made;
            let word = self.draw.pick(&[0, 5, u32::MAX]);
            self.pair.set_vertex_word(VERTEX_WORDS * other as usize + STATUS, word);
        } else if held > 0 {
            let word = self.draw.pick(&[made, made + 1, u32::MAX]);
            self.pair.set_edge_word(self.draw.index(EDGE_WORDS * held), word);
        }
    }

    /// Gives the vertices made in-counts: true ones, true but for a few, or any.
    fn count_edges(&mut self, state: &mut State) {
        let altered_one_in = self.draw.pick(&[u32::MAX, u32::MAX, 6, 1]);
        let into = state.edges_into();
        for (row, edges_in) in state.vertices.chunks_exact_mut(VERTEX_WORDS).zip(into) {
            row[IN_COUNT] = if self.draw.one_in(altered_one_in) { in_count_word(&mut self.draw, edges_in) } else { edges_in };
        }
    }

    /// Makes held edges those of a vertex: none, all, the first, the last, one in so many, every other stretch, or any.
    fn own_edges(&mut self, state: &mut State, vertex: u32) {
        let draw = &mut self.draw;
        let State { edges, tally: Tally { made, held, .. }, .. } = state;
        let (cut, stretch, kind) = (draw.below(*held + 1), draw.between(2, 5), draw.below(7));
        for (row, words) in (0..*held).zip(edges.chunks_exact_mut(EDGE_WORDS)) {
            let own = match kind {
                0 => false,
                1 => true,
                2 => row < cut,
                3 => row >= cut,
                4 => (row + cut) % stretch == 0,
                5 => (row + cut) / stretch % 2 == 0,
                _ => draw.one_in(stretch),
            };
            if own {
                words[SOURCE] = vertex;
            } else if words[SOURCE] == vertex {
                words[SOURCE] = (vertex + 1) % *made;
            }
        }
    }

    /// Puts an edge into a table, after those held or between them. Where all 1,024 rows are held, the last of them goes.
    fn hold(&mut self, state: &mut State, source: u32, target: u32) {
        let State { edges, tally, .. } = state;
        tally.held = tally.held.min(ROWS as u32 - 1);
        let row = if self.draw.one_in(2) { tally.held } else { self.draw.below(tally.held + 1) };
        let at = EDGE_WORDS * row as usize;
        edges.splice(at..at, [source, target]);
        tally.held += 1;
    }

    /// Ends the edge table after the edges held, so that no row is left.
    fn fill(&mut self, state: &mut State) {
        state.edges.truncate(EDGE_WORDS * state.tally.held as usize + self.draw.index(EDGE_WORDS));
    }

    /// A call, now and then in another edition, and others beside it.
    fn call(&mut self, call: Call) -> Result<Said, Difference> {
        if call.names_an_edition() && self.draw.one_in(self.astray) {
            self.pair.edition = self.another_edition();
        }
        let said = match call {
            Call::Step(vertex) => self.pair.step(vertex)?,
            Call::Command(command) => self.pair.command(command)?,
            _ => self.pair.call(call)?,
        };
        if self.draw.one_in(self.beside) {
            self.pair.call(Call::Lowest)?;
        }
        self.pair.edition = self.edition.into();
        if self.draw.one_in(self.beside) {
            self.chain()?;
        }
        Ok(said)
    }

    /// The other edition's number, mostly, or one that no edition has.
    fn another_edition(&mut self) -> u32 {
        match self.draw.below(3) {
            0 => self.no_edition(),
            _ => match self.edition {
                Edition::First => Edition::Second.into(),
                Edition::Second => Edition::First.into(),
            },
        }
    }

    /// A number that no edition has.
    fn no_edition(&mut self) -> u32 {
        loop {
            let number = self.draw.wild();
            if edition_of(number).is_none() {
                return number;
            }
        }
    }

    /// A chain between any two vertices, or between two that have one.
    fn chain(&mut self) -> Outcome {
        let (source, target) = match self.walk() {
            Some(ends) if self.draw.one_in(2) => ends,
            _ => (self.name(), self.name()),
        };
        self.chain_between(source, target)
    }

    /// A chain into a list of any length. Where it is written, also into one that is exactly long enough or one word short.
    fn chain_between(&mut self, source: u32, target: u32) -> Outcome {
        let words = match self.draw.below(8) {
            0 => 0,
            1 => self.draw.below(6),
            2 => self.draw.below(self.pair.state().tally.made.min(ROWS as u32) + 2),
            3 => self.draw.between(1020, 1030),
            _ => 1024,
        };
        if let Said::Chain(Chain::Written(vertices)) = self.pair.call(Call::Chain { source, target, words })? {
            let words = vertices - self.draw.below(2);
            self.pair.call(Call::Chain { source, target, words })?;
        }
        Ok(())
    }

    /// From the source of a held edge along a few edges: where that ended, and where it began.
    fn walk(&mut self) -> Option<(u32, u32)> {
        let State { edges, tally, .. } = self.pair.state();
        let held = (tally.held as usize).min(edges.len() / EDGE_WORDS);
        let edge = |row: usize| (edges[EDGE_WORDS * row + SOURCE], edges[EDGE_WORDS * row + TARGET]);
        let (target, mut at) = (held > 0).then(|| edge(self.draw.index(held)))?;
        for _ in 0..self.draw.below(6) {
            let from = self.draw.index(held);
            match (from..held).chain(0..from).map(edge).find(|&(source, _)| source == at) {
                Some((_, next)) => at = next,
                None => break,
            }
        }
        Some((at, target))
    }

    /// An edge that is held, often that of the first row or the last.
    fn held_edge(&mut self) -> Option<(u32, u32)> {
        let mut rows = self.pair.state().held();
        let at = match self.draw.below(4) {
            0 => 0,
            1 => rows.len().saturating_sub(1),
            _ => self.draw.index(rows.len()),
        };
        rows.nth(at).map(|row| (row[SOURCE], row[TARGET]))
    }

    /// Lends tables and loads the program. Where they were too short, some calls are made on them as they are, then others are lent.
    fn load(&mut self) -> Outcome {
        self.lend_for_program(10);
        if self.call(Call::Load)? != Said::Answer(Answer::Ready) {
            for _ in 0..self.draw.below(6) {
                let call = self.any_call();
                self.call(call)?;
            }
            self.lend_for_program(u32::MAX);
            self.pair.call(Call::Load)?;
        }
        Ok(())
    }

    fn lend_for_program(&mut self, short_one_in: u32) {
        let (rows, edge_rows, _) = programs::needs(&self.pair.program, self.edition);
        self.lend(rows, edge_rows, short_one_in);
    }

    /// Tables with any content, for so many rows or, now and then, for fewer.
    fn lend(&mut self, rows: u32, edge_rows: u32, short_one_in: u32) {
        let draw = &mut self.draw;
        let vertex_words = words(draw, rows as usize, VERTEX_WORDS, short_one_in);
        let edge_words = words(draw, edge_rows as usize, EDGE_WORDS, short_one_in);
        let mut fill = |words| if draw.one_in(2) { vec![0; words] } else { (0..words).map(|_| draw.wild()).collect::<Vec<_>>() };
        let (vertices, edges) = (fill(vertex_words), fill(edge_words));
        let tally = Tally { made: draw.wild(), held: draw.wild(), steps: draw.wild() };
        self.pair.set(State { vertices, edges, tally });
    }

    /// Sound tables, with rows as they might be.
    fn random_state(&mut self) -> State {
        let bytes = self.pair.program.len() as u32;
        let draw = &mut self.draw;
        let rows = match self.size {
            Size::Small => draw.below(13),
            Size::Middle => draw.between(20, 100),
            Size::Large => draw.between(1000, 1030),
        };
        let edge_rows = if rows > 999 { draw.between(1000, 1030) } else { draw.below(2 * rows + 1) };
        let vertex_words = words(draw, rows as usize, VERTEX_WORDS, 10);
        let edge_words = words(draw, edge_rows as usize, EDGE_WORDS, 10);
        let (rows, edge_rows) = ((vertex_words / VERTEX_WORDS).min(ROWS) as u32, (edge_words / EDGE_WORDS).min(ROWS) as u32);
        // Often nearly all rows are made and held, so that rows run out.
        let made = if draw.one_in(2) { rows.saturating_sub(draw.below(3)) } else { draw.below(rows + 1) };
        let held = match made {
            0 => 0,
            _ if draw.one_in(2) => edge_rows.saturating_sub(draw.below(3)),
            _ => draw.below(edge_rows + 1),
        };
        let junk = draw.one_in(2);
        let mut vertices: Vec<u32> = (0..vertex_words).map(|_| if junk { draw.wild() } else { 0 }).collect();
        let mut edges: Vec<u32> = (0..edge_words).map(|_| if junk { draw.wild() } else { 0 }).collect();
        for (vertex, row) in (0..made).zip(vertices.chunks_exact_mut(VERTEX_WORDS)) {
            row[STATUS] = 1 + draw.weighted(&[4, 3, 5, 2]) as u32;
            row[PLACE] = draw.below(bytes + 1);
            row[SCOPE] = draw.below(made);
            row[PHASE] = if draw.one_in(2) { 0 } else { draw.below(10) };
            for word in &mut row[MADE..FUTURE] {
                *word = if draw.one_in(30) { draw.wild() } else { draw.below(made) };
            }
            row[FUTURE] = future_word(draw, vertex, made);
        }
        let acyclic = draw.one_in(2);
        for row in edges.chunks_exact_mut(EDGE_WORDS).take(held as usize) {
            let (a, b) = (draw.below(made), draw.below(made));
            (row[SOURCE], row[TARGET]) = if acyclic { (a.min(b), a.max(b)) } else { (a, b) };
        }
        let steps = if draw.one_in(8) { draw.between(8189, 8193) } else { draw.below(8192) };
        let mut state = State { vertices, edges, tally: Tally { made, held, steps } };
        self.count_edges(&mut state);
        state
    }

    /// Gives sound tables other edges, where there are vertices: one line through all of them, whose source and target are answered;
    /// layers, so that many chains are equally short; few ends, so that edges are repeated and loops; or leaves them as they are.
    fn shape_edges(&mut self, state: &mut State) -> Option<(u32, u32)> {
        let draw = &mut self.draw;
        let made = state.tally.made;
        let rows = (state.edges.len() / EDGE_WORDS).min(ROWS) as u32;
        if made == 0 {
            return None;
        }
        // The vertices in any order.
        let mut order: Vec<u32> = (0..made).collect();
        for at in 1..order.len() {
            order.swap(at, draw.index(at + 1));
        }
        let mut edges = Vec::new();
        let mut ends = None;
        match draw.below(4) {
            0 => return None,
            1 => {
                let line = order.len().min(rows as usize + 1);
                edges.extend(order[..line].windows(2).map(|pair| (pair[0], pair[1])));
                ends = Some((order[line - 1], order[0]));
                match draw.below(3) {
                    0 => edges.reverse(),
                    1 => {
                        let turn = draw.index(edges.len());
                        edges.rotate_left(turn);
                    }
                    _ => {}
                }
            }
            2 => {
                let width = draw.between(2, 4);
                for _ in 0..rows {
                    let from = draw.below(made);
                    let layer = from / width;
                    // Now and then back to an earlier layer, and past the last one to the first.
                    let to = if draw.one_in(20) { draw.below(layer + 1) } else { layer + 1 } * width + draw.below(width);
                    edges.push((order[from as usize], order[(to % made) as usize]));
                }
            }
            _ => {
                let few = draw.between(1, 5).min(made);
                edges.extend((0..rows).map(|_| (order[draw.index(few as usize)], order[draw.index(few as usize)])));
                edges.truncate(draw.index(3 * few as usize + 1));
            }
        }
        state.tally.held = edges.len() as u32;
        for (row, (source, target)) in state.edges.chunks_exact_mut(EDGE_WORDS).zip(edges) {
            (row[SOURCE], row[TARGET]) = (source, target);
        }
        ends
    }

    /// Changes a word of a table or a number of the tally.
    fn alter(&mut self) {
        let bytes = self.pair.program.len() as u32;
        let draw = &mut self.draw;
        let state = self.pair.state();
        let tally = state.tally;
        let (vertex_words, edge_words) = (state.vertices.len(), state.edges.len());
        // Mostly rows in use.
        let mut row = |used: u32, words: usize, row_words: usize| {
            let used = if draw.one_in(6) { used.saturating_add(3) } else { used };
            draw.index(words.min(row_words.saturating_mul(used as usize)))
        };
        let vertex_at = row(tally.made, vertex_words, VERTEX_WORDS);
        let edge_at = row(tally.held, edge_words, EDGE_WORDS);
        let near = |draw: &mut Draw, number: u32| match draw.below(4) {
            0 => number.wrapping_add(1),
            1 => number.wrapping_sub(1),
            2 => draw.pick(&[0, 1, 1024, 1025, 8190, 8191, 8192, u32::MAX]),
            _ => draw.wild(),
        };
        match draw.below(16) {
            0 => self.pair.set_tally(Tally { made: near(draw, tally.made), ..tally }),
            1 => self.pair.set_tally(Tally { held: near(draw, tally.held), ..tally }),
            2 => self.pair.set_tally(Tally { steps: near(draw, tally.steps), ..tally }),
            3 | 4 if edge_words > 0 => {
                let word = if draw.one_in(4) { draw.wild() } else { draw.below(tally.made.saturating_add(1)) };
                self.pair.set_edge_word(edge_at, word);
            }
            5 | 6 if vertex_words >= VERTEX_WORDS => {
                let vertex = (vertex_at / VERTEX_WORDS).min(vertex_words / VERTEX_WORDS - 1);
                let word = future_word(draw, vertex as u32, tally.made);
                self.pair.set_vertex_word(VERTEX_WORDS * vertex + FUTURE, word);
            }
            7 | 8 => self.alter_in_count((vertex_at / VERTEX_WORDS) as u32),
            _ if vertex_words > 0 => {
                let word = match vertex_at % VERTEX_WORDS {
                    _ if draw.one_in(8) => draw.wild(),
                    STATUS => draw.below(6),
                    PLACE => draw.below(bytes + 2),
                    PHASE => draw.below(10),
                    _ => draw.below(tally.made.saturating_add(1)),
                };
                self.pair.set_vertex_word(vertex_at, word);
            }
            _ => {}
        }
    }

    fn any_call(&mut self) -> Call {
        match self.draw.weighted(&[16, 16, 3, 3, 1, 1, 4]) {
            0 => Call::Step(self.able_or_name()),
            1 => Call::Command(self.command()),
            2 => Call::Run(self.draw.pick(&[0, 1, 2, 3, 5, 20, 8192])),
            3 => Call::Lowest,
            4 => Call::Load,
            5 => Call::Open,
            _ => self.any_dispatch(),
        }
    }

    /// A command that is not far from being accepted, mostly.
    fn command(&mut self) -> Command {
        let caller = match self.caller() {
            Some(caller) => caller,
            None if self.draw.one_in(8) => self.name(),
            None => return Command::Start { vertex: self.able_or_name() },
        };
        match self.draw.weighted(&[6, 12, 4, 3, 4, 1, 2]) {
            0 => {
                let bytes = self.pair.program.len() as u32;
                let place = if self.draw.one_in(8) { self.draw.wild() } else { self.draw.below(bytes + 1) };
                Command::NewTd { caller, place, scope: self.name() }
            }
            1 => {
                let (source, target) = match self.held_edge() {
                    Some(ends) if self.draw.one_in(3) => ends,
                    _ if self.draw.one_in(3) => (self.name(), caller),
                    _ => (self.name(), self.name()),
                };
                Command::NewEdge { caller, source, target }
            }
            2 => Command::Release { caller, vertex: self.name() },
            3 => Command::Transfer { caller, vertex: self.name() },
            4 => Command::Start { vertex: self.able_or_name() },
            5 => Command::Stop { caller },
            _ => Command::Yield { caller },
        }
    }

    /// An executing vertex if there is one, now and then another.
    fn caller(&mut self) -> Option<u32> {
        let executing = self.having(|row| row[STATUS] == VERTEX_EXECUTING);
        if executing.is_empty() {
            return None;
        }
        Some(if self.draw.one_in(20) { self.name() } else { self.draw.pick(&executing) })
    }

    /// A vertex, mostly one that was made.
    fn name(&mut self) -> u32 {
        let made = self.pair.state().tally.made;
        match self.draw.below(40) {
            0 => self.draw.wild(),
            1 => made,
            _ => self.draw.below(made),
        }
    }

    fn able_or_name(&mut self) -> u32 {
        let able = self.able();
        if able.is_empty() || self.draw.one_in(6) {
            self.name()
        } else {
            self.draw.pick(&able)
        }
    }

    /// The vertices that execute, or are released with the in-count 0.
    fn able(&self) -> Vec<u32> {
        self.having(|row| row[STATUS] == VERTEX_EXECUTING || row[STATUS] == VERTEX_RELEASED && row[IN_COUNT] == 0)
    }

    /// The vertices made with such rows.
    fn having(&self, is: impl Fn(&[u32]) -> bool) -> Vec<u32> {
        (0..).zip(self.pair.state().made()).filter(|(_, row)| is(row)).map(|(vertex, _)| vertex).collect()
    }

    fn status(&self, vertex: u32) -> u32 {
        self.pair.state().vertices[VERTEX_WORDS * vertex as usize + STATUS]
    }
}

/// A word for the latest open future of a vertex: none, the vertex itself, one not made, or any, so that words lead round as well.
fn future_word(draw: &mut Draw, vertex: u32, made: u32) -> u32 {
    match draw.below(10) {
        0 => 0,
        1 => vertex,
        2 => made,
        3 => draw.wild(),
        _ => draw.below(made),
    }
}

/// In-counts that one or two edges more or fewer bring to an end.
const IN_COUNT_ENDS: [u32; 6] = [0, 1, 2, u32::MAX - 1, u32::MAX, u32::MAX];

/// An in-count for a vertex that so many edges lead into: that number, one more or fewer, 0, 1, 5, the largest number, or any.
fn in_count_word(draw: &mut Draw, edges_in: u32) -> u32 {
    match draw.below(8) {
        0 => edges_in,
        1 => edges_in + 1,
        2 => edges_in.saturating_sub(1),
        3 => draw.wild(),
        _ => draw.pick(&[0, 0, 1, 5, u32::MAX]),
    }
}

/// Makes sound tables larger where they are not full size, and all 1,024 vertices.
fn make_all(state: &mut State) {
    let State { vertices, edges, tally } = state;
    vertices.resize(vertices.len().max(VERTEX_TABLE), 0);
    edges.resize(edges.len().max(EDGE_TABLE), 0);
    for row in vertices.chunks_exact_mut(VERTEX_WORDS).take(ROWS).skip(tally.made as usize) {
        row[STATUS] = VERTEX_NEW;
    }
    tally.made = ROWS as u32;
}

/// How many words to lend where so many rows are wanted.
fn words(draw: &mut Draw, rows: usize, row_words: usize, short_one_in: u32) -> usize {
    let spare = draw.index(row_words);
    if draw.one_in(short_one_in) {
        return match draw.below(4) {
            0 => 0,
            1 => spare,
            2 => (rows * row_words).saturating_sub(1),
            _ => draw.index(rows * row_words + 1),
        };
    }
    match draw.weighted(&[8, 4, 1, 1]) {
        0 => rows * row_words,
        1 => (rows + draw.index(4)) * row_words + spare,
        2 => ROWS.max(rows) * row_words,
        _ => (ROWS.max(rows) + draw.index(6)) * row_words + spare,
    }
}
