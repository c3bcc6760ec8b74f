//! The orders of small programs' jobs: those that the customer's words allow, those that come of all schedules of the engine, and those in
//! which this tool drives it are the same.

use std::collections::{BTreeSet, HashMap, HashSet};

use keshtiwol::refusal::{EDGE_LEADS_IN, VERTEX_IS_FINISHED};
use keshtiwol::{Answer, Edition, Machine, Tally, EDGE_WORDS, VERTEX_WORDS};
use paper::ahead::ahead;

use super::random::{program, Dice};
use crate::bodies::{Body, Open};
use crate::items::{items, Counts, Item};
use crate::order::{drive, jobs, judge, Job, Unfair};

const EDITIONS: [Edition; 2] = [Edition::First, Edition::Second];

/// The offsets of jobs, in an order.
type Order = Vec<usize>;

/// Pairs of offsets: the job at the first comes ahead of that at the second.
type Pairs = BTreeSet<(usize, usize)>;

/// Programs are drawn until so many were explored in each edition.
const EXPLORED: usize = 350;

/// Programs that need more steps, in the first edition, are drawn anew.
const MOST_STEPS: u32 = 56;

/// Where a program has more states than these, it is given up.
const MOST_STATES: usize = 12_000;

// --- What the engine does ----------------------------------------------------------------------

/// What is lent to the engine, but for the tally's steps.
#[derive(Clone, PartialEq, Eq, Hash)]
struct State {
    vertices: Vec<u32>,
    edges: Vec<u32>,
    made: u32,
    held: u32,
}

impl State {
    /// Loads a program, with no more rows than it needs.
    fn loaded(program: &[u8], edition: Edition) -> State {
        let counts = Counts::of(program);
        let mut vertices = vec![0; VERTEX_WORDS * counts.vertices(edition) as usize];
        let mut edges = vec![0; EDGE_WORDS * counts.edge_rows() as usize];
        let mut tally = Tally::default();
        assert_eq!(keshtiwol::load(program, &mut vertices, &mut edges, &mut tally, edition), Answer::Ready);
        State { vertices, edges, made: tally.made, held: tally.held }
    }

    /// A vertex's step, after so many others.
    fn step(&mut self, program: &[u8], edition: Edition, steps: u32, vertex: u32) -> Answer {
        let mut tally = Tally { made: self.made, held: self.held, steps };
        let answer = keshtiwol::step(program, &mut self.vertices, &mut self.edges, &mut tally, edition, vertex);
        (self.made, self.held) = (tally.made, tally.held);
        answer
    }
}

/// All orders of jobs that steps lead to, and how many states there are: every step that is accepted in every state is taken. None where
/// there are too many. The states after the same number of steps are looked at together, each once, with all orders in which jobs were
/// answered on the ways to it.
fn reached(program: &[u8], edition: Edition) -> Option<(BTreeSet<Order>, usize)> {
    let all_steps = Counts::of(program).steps(edition);
    let (mut steps, mut states) = (0, 0);
    let mut now = HashMap::from([(State::loaded(program, edition), BTreeSet::from([Order::new()]))]);
    loop {
        states += now.len();
        if states > MOST_STATES {
            return None;
        }
        let mut next: HashMap<State, BTreeSet<Order>> = HashMap::new();
        for (state, orders) in &now {
            let mut after = state.clone();
            let mut accepted = 0;
            for vertex in 0..state.made {
                let job = match after.step(program, edition, steps, vertex) {
                    Answer::Refused { number: EDGE_LEADS_IN..=VERTEX_IS_FINISHED, .. } => continue,
                    refused @ Answer::Refused { .. } => panic!("{refused}: {program:02x?}"),
                    Answer::Job { offset, .. } => Some(offset as usize),
                    _ => None,
                };
                accepted += 1;
                let answered = |order: &Order| order.iter().copied().chain(job).collect::<Order>();
                next.entry(std::mem::replace(&mut after, state.clone())).or_default().extend(orders.iter().map(answered));
            }
            // To the full count, and no further.
            assert_eq!(accepted > 0, steps < all_steps, "{program:02x?}");
        }
        if next.is_empty() {
            return Some((now.into_values().flatten().collect(), states));
        }
        now = next;
        steps += 1;
    }
}

// --- What the driver does ----------------------------------------------------------------------

/// Whether the driver finds steps for a list. Those that it lists are taken again, with the same answers.
fn is_driven(program: &[u8], edition: Edition, list: &[usize]) -> bool {
    let mut machine = Machine::load_in(program, edition).unwrap();
    let Ok(steps) = drive(&mut machine, list) else { return false };
    assert_eq!(steps.len(), Counts::of(program).steps(edition) as usize, "{program:02x?}");
    let mut state = State::loaded(program, edition);
    let mut order = Order::new();
    for (&(vertex, listed), taken) in steps.iter().zip(0..) {
        let answer = state.step(program, edition, taken, vertex);
        assert_eq!(answer, listed, "{program:02x?} {list:?}");
        if let Answer::Job { offset, .. } = answer {
            order.push(offset as usize);
        }
    }
    assert_eq!(order, list, "{program:02x?}");
    true
}

// --- What the customer says --------------------------------------------------------------------

/// What is to be said of a list. It is fair "exactly if each job stands in it once and no job before one that comes ahead of it".
fn verdict(jobs: &[Job], pairs: &Pairs, list: &[usize]) -> Result<(), Unfair> {
    let job = |offset: usize| *jobs.iter().find(|job| job.offset == offset).unwrap();
    for &offset in list {
        if jobs.iter().all(|job| job.offset != offset) {
            return Err(Unfair::NoJob(offset));
        }
    }
    for (at, &offset) in list.iter().enumerate() {
        if list[..at].contains(&offset) {
            return Err(Unfair::Twice(job(offset)));
        }
    }
    for &job in jobs {
        if !list.contains(&job.offset) {
            return Err(Unfair::Missing(job));
        }
    }
    for (at, &offset) in list.iter().enumerate() {
        for &later in &list[at + 1..] {
            if pairs.contains(&(later, offset)) {
                return Err(Unfair::WrongWayRound(job(offset), job(later)));
            }
        }
    }
    Ok(())
}

fn permutations(list: &[usize]) -> Vec<Order> {
    if list.is_empty() {
        return vec![Order::new()];
    }
    let mut all = Vec::new();
    for (at, &first) in list.iter().enumerate() {
        let others = [&list[..at], &list[at + 1..]].concat();
        all.extend(permutations(&others).into_iter().map(|order| [&[first], &order[..]].concat()));
    }
    all
}

// --- One against the other ---------------------------------------------------------------------

#[test]
fn all_fair_orders_can_happen_and_no_others() {
    for edition in EDITIONS {
        let mut dice = Dice(1111);
        let mut drawn = HashSet::new();
        let mut seen = Seen::default();
        while seen.programs < EXPLORED {
            let program = small_program(&mut dice);
            if !drawn.insert(program.clone()) {
                continue;
            }
            let Some((reached, states)) = reached(&program, edition) else {
                seen.given_up += 1;
                continue;
            };
            seen.note(&program, states, reached.len());
            compare(&program, edition, reached);
        }
        println!("{edition:?}: {seen:#?}");
        seen.assert_varied();
    }
}

/// Programs whose fair orders were counted by hand.
#[test]
fn counted_by_hand() {
    let programs: [(&[u8], usize); 8] = [
        (&[0], 1),
        // fork { job 1 } { job 2 } job 3
        (&[4, 1, 1, 0, 1, 2, 0, 1, 3, 0], 2),
        // fork { async { job 1 } job 2 } { job 3 } job 4: of the last three two orders, and job 1 anywhere
        (&[4, 2, 1, 1, 0, 1, 2, 0, 1, 3, 0, 1, 4, 0], 8),
        // finish { async { job 1 } async { job 2 } } job 3
        (&[3, 2, 1, 1, 0, 2, 1, 2, 0, 0, 1, 3, 0], 2),
        // async { job 1 job 2 } async { job 3 job 4 }: where the first two stand
        (&[2, 1, 1, 1, 2, 0, 2, 1, 3, 1, 4, 0, 0], 6),
        // five asyncs of a job each
        (&[2, 1, 1, 0, 2, 1, 2, 0, 2, 1, 3, 0, 2, 1, 4, 0, 2, 1, 5, 0, 0], 120),
        // finish { future { job 1 } } job 2
        (&[3, 5, 1, 1, 0, 0, 1, 2, 0], 2),
        // future { job 1 } future { job 2 } future { job 3 } force 0 job 4: half of all orders
        (&[5, 1, 1, 0, 5, 1, 2, 0, 5, 1, 3, 0, 6, 0, 1, 4, 0], 12),
    ];
    for (program, orders) in programs {
        for edition in EDITIONS {
            let (reached, states) = reached(program, edition).unwrap();
            println!("{edition:?}: {states} states of {program:02x?}");
            assert_eq!(reached.len(), orders, "{edition:?}: {program:02x?}");
            compare(program, edition, reached);
        }
    }
}

fn compare(program: &[u8], edition: Edition, reached: BTreeSet<Order>) {
    let (jobs, pairs): (Vec<Job>, Pairs) = (jobs(program).collect(), ahead(program));
    let offsets: Order = jobs.iter().map(|job| job.offset).collect();
    let (mut allowed, mut driven) = (BTreeSet::new(), BTreeSet::new());
    for order in permutations(&offsets) {
        let verdict = verdict(&jobs, &pairs, &order);
        assert_eq!(judge(program, &order), verdict, "{program:02x?} {order:?}");
        if is_driven(program, edition, &order) {
            driven.insert(order.clone());
        }
        if verdict.is_ok() {
            allowed.insert(order);
        }
    }
    assert_eq!(allowed, reached, "{edition:?}: {program:02x?}");
    assert_eq!(allowed, driven, "{edition:?}: {program:02x?}");
}

/// A program with at most 6 jobs, and with a fork, an async in a finish or a force. Mostly it has 3 to 5 jobs, and some come ahead of others.
fn small_program(dice: &mut Dice) -> Vec<u8> {
    loop {
        // How many jobs, and whether so many pairs of them may be ordered, of so many that there are.
        let (jobs, ordered): (_, fn(usize, usize) -> bool) = match dice.below(32) {
            0 => (6..=6, |_, _| true),
            1 | 2 => (0..=2, |_, _| true),
            3..=10 => (3..=5, |pairs, _| pairs == 0),
            11..=14 => (3..=5, |pairs, all| pairs == all),
            _ => (3..=5, |pairs, all| 0 < pairs && pairs < all),
        };
        let has_it = [has_fork, has_async_in_finish, has_force, has_force_that_counts][dice.below(4)];
        // Not all of these go together: then others are drawn.
        for _ in 0..5000 {
            let items = 2 + dice.below(9);
            let program = program(dice, items);
            let counts = Counts::of(&program);
            let all_pairs = (0..counts.jobs as usize).sum();
            if jobs.contains(&counts.jobs)
                && counts.steps(Edition::First) <= MOST_STEPS
                && has_it(&program)
                && ordered(ahead(&program).len(), all_pairs)
            {
                return program;
            }
        }
    }
}

/// Of the programs explored.
#[derive(Debug, Default)]
struct Seen {
    programs: usize,
    given_up: usize,
    states: usize,
    fair_orders: usize,
    other_orders: usize,
    most_fair_orders: usize,
    // How many programs of several jobs have so many fair orders.
    one_order: usize,
    all_orders: usize,
    some_orders: usize,
    // How many programs have what.
    six_jobs: usize,
    equal_numbers: usize,
    forks: usize,
    async_in_finish: usize,
    forces: usize,
    /// Without which other jobs would come ahead.
    forces_that_count: usize,
    empty_bodies: usize,
}

impl Seen {
    fn note(&mut self, program: &[u8], states: usize, orders: usize) {
        let jobs: Vec<Job> = jobs(program).collect();
        let all: usize = (1..=jobs.len()).product();
        let numbers: BTreeSet<u32> = jobs.iter().map(|job| job.number).collect();
        self.programs += 1;
        self.states += states;
        self.fair_orders += orders;
        self.other_orders += all - orders;
        self.most_fair_orders = self.most_fair_orders.max(orders);
        let several = jobs.len() > 1;
        self.one_order += usize::from(several && orders == 1);
        self.all_orders += usize::from(several && orders == all);
        self.some_orders += usize::from(1 < orders && orders < all);
        self.six_jobs += usize::from(jobs.len() == 6);
        self.equal_numbers += usize::from(numbers.len() < jobs.len());
        self.forks += usize::from(has_fork(program));
        self.async_in_finish += usize::from(has_async_in_finish(program));
        self.forces += usize::from(has_force(program));
        self.forces_that_count += usize::from(has_force_that_counts(program));
        self.empty_bodies += usize::from(has_empty_body(program));
    }

    fn assert_varied(&self) {
        let Seen { one_order, all_orders, some_orders, six_jobs, equal_numbers, .. } = *self;
        assert!(one_order >= 40 && all_orders >= 30 && some_orders >= 200, "{self:?}");
        assert!(six_jobs >= 8 && equal_numbers >= 100, "{self:?}");
        let Seen { forks, async_in_finish, forces, forces_that_count, empty_bodies, .. } = *self;
        assert!(forks >= 120 && async_in_finish >= 80 && empty_bodies >= 120, "{self:?}");
        assert!(forces >= 120 && forces_that_count >= 40, "{self:?}");
    }
}

fn has_fork(program: &[u8]) -> bool {
    Counts::of(program).forks > 0
}

fn has_force(program: &[u8]) -> bool {
    Counts::of(program).forces > 0
}

/// Whether other jobs come ahead where an empty async is in place of each force, whose number has one byte.
fn has_force_that_counts(program: &[u8]) -> bool {
    let mut without = program.to_vec();
    for (bytes, item) in items(program) {
        if let Item::Force(_) = item {
            without[bytes].copy_from_slice(&[2, 0]);
        }
    }
    ahead(&without) != ahead(program)
}

fn has_async_in_finish(program: &[u8]) -> bool {
    let mut open = Open::new();
    items(program).any(|(bytes, item)| {
        open.pass(bytes.start, item);
        item == Item::Async && open.innermost_first().any(|body| matches!(body, Body::Finish(_)))
    })
}

fn has_empty_body(program: &[u8]) -> bool {
    let begins_body = |item| !matches!(item, Item::End | Item::Job(_) | Item::Force(_));
    items(program).zip(items(program).skip(1)).any(|((_, item), (_, next))| begins_body(item) && next == Item::End)
}

/// Lists with jobs that are missing or stand twice, with offsets of no job, and often several of these.
#[test]
fn lists_that_are_no_orders() {
    let mut dice = Dice(2222);
    let (mut fair, mut no_job, mut twice, mut missing, mut wrong_way_round) = (0, 0, 0, 0, 0);
    for round in 0..2000 {
        let program = small_program(&mut dice);
        let (jobs, pairs): (Vec<Job>, Pairs) = (jobs(&program).collect(), ahead(&program));
        let mut list: Order = jobs.iter().map(|job| job.offset).collect();
        if dice.one_in(2) {
            dice.shuffle(&mut list);
        }
        for _ in 0..dice.below(3) {
            let at = dice.below(list.len() + 1);
            match dice.below(4) {
                0 => list.insert(at, dice.below(program.len() + 2)),
                1 if !list.is_empty() => list.insert(at, list[dice.below(list.len())]),
                _ if at < list.len() => {
                    list.remove(at);
                }
                _ => {}
            }
        }
        let verdict = verdict(&jobs, &pairs, &list);
        assert_eq!(judge(&program, &list), verdict, "{program:02x?} {list:?}");
        let edition = EDITIONS[round % 2];
        assert_eq!(is_driven(&program, edition, &list), verdict.is_ok(), "{edition:?}: {program:02x?} {list:?}");
        match verdict {
            Ok(()) => fair += 1,
            Err(Unfair::NoJob(_)) => no_job += 1,
            Err(Unfair::Twice(_)) => twice += 1,
            Err(Unfair::Missing(_)) => missing += 1,
            Err(Unfair::WrongWayRound(..)) => wrong_way_round += 1,
        }
    }
    println!("{fair} fair, {no_job} with no job, {twice} twice, {missing} missing, {wrong_way_round} the wrong way round");
    assert!(fair >= 200 && no_job >= 200 && twice >= 200 && missing >= 200 && wrong_way_round >= 200);
}
