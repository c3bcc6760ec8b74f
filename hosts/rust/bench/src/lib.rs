//! What the benchmarks share: the engine and `paper` behind the same few calls, and a machine to begin with.

pub mod side;

use side::{Do, Side};

/// A bare machine with so many vertices, vertex 0 executing.
pub fn bare<S: Side>(made: u32) -> S {
    let mut side = S::new();
    side.open();
    side.command(Do::Start(0)).unwrap();
    for _ in 1..made {
        side.command(Do::New).unwrap();
    }
    side
}
