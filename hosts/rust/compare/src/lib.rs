//! Differential tests: the engine beside `paper`, which was not written from it. After each call the answer, every word of
//! both tables and of the list and the tally must be the same.

pub mod counts;
pub mod draw;
pub mod pair;
pub mod programs;
pub mod scenarios;

use counts::Counts;
use pair::Difference;

/// A difference, and the seed of the scenario that showed it.
#[derive(Debug)]
pub struct Failure {
    pub seed: u64,
    pub difference: Difference,
}

/// Plays scenarios with the seeds `seed`, `seed` + 1 and so on, until at least so many calls were made: what was called and said and
/// the number of scenarios, or the first difference.
pub fn compare(calls: u64, seed: u64) -> Result<(Counts, u64), Failure> {
    let mut counts = Counts::default();
    let (mut made, mut scenarios) = (0, 0);
    while made < calls {
        let seed = seed.wrapping_add(scenarios);
        let guard = Guard(seed);
        let played = scenarios::play(seed).map_err(|difference| Failure { seed, difference })?;
        drop(guard);
        made += played.calls();
        counts.merge(played);
        scenarios += 1;
    }
    Ok((counts, scenarios))
}

/// Tells the seed also where a scenario panics.
struct Guard(u64);

impl Drop for Guard {
    fn drop(&mut self) {
        if std::thread::panicking() {
            eprintln!("the scenario of seed {} panicked; again: compare 1 {}", self.0, self.0);
        }
    }
}
