//! compare [calls] [seed]: scenarios from this seed on, until so many calls were compared. A failure tells its scenario's seed, and
//! `compare 1 <that seed>` plays that scenario alone.

use std::process::ExitCode;
use std::time::Instant;

fn main() -> ExitCode {
    let numbers: Option<Vec<u64>> = std::env::args().skip(1).map(|word| word.replace('_', "").parse().ok()).collect();
    let (calls, seed) = match numbers.as_deref() {
        Some([]) => (1_000_000, 1),
        Some([calls]) => (*calls, 1),
        Some([calls, seed]) => (*calls, *seed),
        _ => {
            eprintln!("usage: compare [calls] [seed]");
            return ExitCode::from(2);
        }
    };
    let begun = Instant::now();
    match compare::compare(calls, seed) {
        Ok((counts, scenarios)) => {
            print!("{counts}");
            let seconds = begun.elapsed().as_secs_f64();
            println!("no difference in {} calls of {scenarios} scenarios from seed {seed} on, {seconds:.1} s", counts.calls());
            ExitCode::SUCCESS
        }
        Err(failure) => {
            print!("{}", failure.difference.0);
            println!("DIFFERENCE; again: compare 1 {}", failure.seed);
            ExitCode::FAILURE
        }
    }
}
