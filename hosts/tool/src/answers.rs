//! The answers that are plain text: the steps to the end, what a program holds and needs, a job's bytes, and the versions.

use keshtiwol::{Answer, Edition, Lowest, Machine};

use crate::hex;
use crate::items::Counts;
use crate::number;

/// A vertex that stepped, and what its step said.
pub type Step = (u32, Answer);

/// Takes all steps, the lowest vertex first.
pub fn lowest_first(machine: &mut Machine) -> Vec<Step> {
    let mut steps = Vec::new();
    while let Lowest::Vertex(vertex) = machine.lowest() {
        steps.push((vertex, machine.step(vertex)));
    }
    steps
}

/// The lines of the proved lister for a machine that has taken these steps since loading: a heading, then for each step the stepping
/// vertex, the word, and its vertices or job number.
pub fn listing(machine: &Machine, steps: &[Step]) -> String {
    let jobs = steps.iter().filter(|(_, answer)| matches!(answer, Answer::Job { .. })).count();
    let lines: String = steps.iter().map(|(vertex, answer)| format!("{vertex} {answer}\n")).collect();
    format!("vertices {} jobs {jobs} steps {}\n{lines}", machine.tally().made, machine.tally().steps)
}

/// The tool's version, and that of the engine in it.
pub fn versions() -> String {
    let engine = keshtiwol::version();
    format!("keshtiwol {}, engine {}.{}.{}\n", env!("CARGO_PKG_VERSION"), engine / 10_000, engine / 100 % 100, engine % 100)
}

/// A loaded program's items, and what it needs.
pub fn summary(machine: &Machine) -> String {
    let (program, edition) = (machine.program(), machine.edition());
    let counts = Counts::of(program);
    let items = [
        counted(counts.jobs, "job", "jobs"),
        counted(counts.asyncs, "async", "asyncs"),
        counted(counts.finishes, "finish", "finishes"),
        counted(counts.forks, "fork", "forks"),
        counted(counts.futures, "future", "futures"),
        counted(counts.forces, "force", "forces"),
    ];
    format!(
        "accepted: {} with {}\nneeds {}, {} and {}{}\n",
        counted(program.len() as u32, "byte", "bytes"),
        items.join(", "),
        counted(counts.vertices(edition), "vertex row", "vertex rows"),
        counted(counts.edge_rows(), "edge row", "edge rows"),
        counted(counts.steps(edition), "step", "steps"),
        in_edition(edition),
    )
}

/// Behind what goes by the edition. The first, which is the usual one, is not told.
pub fn in_edition(edition: Edition) -> &'static str {
    match edition {
        Edition::First => "",
        Edition::Second => ", in the second edition",
    }
}

/// The bytes of a job with this number.
pub fn job(number: u32) -> String {
    format!("01 {}\n", hex::text(&number::bytes(number.into())))
}

fn counted(number: u32, one: &str, several: &str) -> String {
    format!("{number} {}", if number == 1 { one } else { several })
}
