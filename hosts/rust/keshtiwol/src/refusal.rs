//! The numbers of refusals, by who causes them.

use std::{error, fmt};

// The program's writer.
pub const LENGTH_OUTSIDE: u32 = 1;
pub const NUMBER_MALFORMED: u32 = 2;
pub const BYTE_UNKNOWN: u32 = 3;
pub const LEVEL_TOO_DEEP: u32 = 4;
pub const BYTES_RUN_OUT: u32 = 5;
pub const BYTES_AFTER_END: u32 = 6;
pub const JOB_TOO_LARGE: u32 = 7;
pub const TOO_MANY_VERTICES: u32 = 8;
pub const NO_SUCH_FUTURE: u32 = 43;
// The lender.
pub const TOO_FEW_VERTEX_ROWS: u32 = 10;
pub const TOO_FEW_EDGE_ROWS: u32 = 11;
pub const UNSOUND_TABLES: u32 = 12;
pub const NOTHING_STARTS: u32 = 13;
// The host, choosing.
pub const NO_SUCH_VERTEX: u32 = 20;
pub const EDGE_LEADS_IN: u32 = 21;
pub const VERTEX_IS_NEW: u32 = 22;
pub const VERTEX_IS_FINISHED: u32 = 23;
pub const VERTEX_IS_EXECUTING: u32 = 39;
// The caller of single commands.
pub const CALLER_NOT_EXECUTING: u32 = 30;
pub const NO_VERTEX_ROW: u32 = 31;
pub const NO_EDGE_ROW: u32 = 32;
pub const TARGET_NOT_WAITING: u32 = 33;
pub const CLOSES_CYCLE: u32 = 35;
pub const RELEASE_NOT_NEW: u32 = 36;
pub const TRANSFER_NOT_NEW: u32 = 37;
pub const TRANSFER_HAS_EDGE_OUT: u32 = 38;
// Whoever asks for a chain.
pub const NO_CHAIN: u32 = 41;
pub const LIST_TOO_SHORT: u32 = 42;
// A host that has jobs handed out.
pub const BUSY_TABLE_TOO_SHORT: u32 = 44;
// A host that names an edition or a command by number.
pub const NO_SUCH_EDITION: u32 = 98;
pub const NO_SUCH_COMMAND: u32 = 99;

/// A refusal, for hosts that want it as an error. It is shown in words, also by `{:?}`, which is how a `main` that returns it is answered.
#[derive(Clone, Copy, PartialEq, Eq)]
pub struct Refusal {
    pub number: u32,
    /// An offset in the program for the numbers 2 to 7 and 43, else 0.
    pub place: u32,
}

/// A few words on a refusal's number.
pub fn text(number: u32) -> &'static str {
    match number {
        LENGTH_OUTSIDE => "the program has no bytes or more than 4,096",
        NUMBER_MALFORMED => "a number is longer than five bytes or not in its shortest form",
        BYTE_UNKNOWN => "an item's first byte is above 6",
        LEVEL_TOO_DEEP => "a body is at level 33",
        BYTES_RUN_OUT => "the bytes run out",
        BYTES_AFTER_END => "bytes come after the end",
        JOB_TOO_LARGE => "a number is above 4,294,967,295",
        TOO_MANY_VERTICES => "the program makes more than 1,024 vertices",
        NO_SUCH_FUTURE => "no such future is open",
        TOO_FEW_VERTEX_ROWS => "too few vertex rows are lent",
        TOO_FEW_EDGE_ROWS => "too few edge rows are lent",
        UNSOUND_TABLES => "tally and tables don't fit together, or 8,192 steps were taken",
        NOTHING_STARTS => "no item can be read at the vertex's place, its phase is past the item, or its words lead to no future",
        NO_SUCH_VERTEX => "there is no such vertex",
        EDGE_LEADS_IN => "something must finish before this vertex starts",
        VERTEX_IS_NEW => "the vertex is not released yet",
        VERTEX_IS_FINISHED => "the vertex is finished",
        VERTEX_IS_EXECUTING => "the vertex executes already",
        CALLER_NOT_EXECUTING => "the caller is not executing",
        NO_VERTEX_ROW => "no vertex row is left",
        NO_EDGE_ROW => "no edge row is left",
        TARGET_NOT_WAITING => "the edge's target executes or is finished",
        CLOSES_CYCLE => "this would close a cycle",
        RELEASE_NOT_NEW => "only a new vertex is released",
        TRANSFER_NOT_NEW => "edges are handed to a new vertex only",
        TRANSFER_HAS_EDGE_OUT => "the vertex that would get the edges has one already",
        NO_CHAIN => "no chain of held edges leads from the target back to the source",
        LIST_TOO_SHORT => "the chain has more vertices than the list has words",
        BUSY_TABLE_TOO_SHORT => "the table of marks has fewer words than the vertex table has rows",
        NO_SUCH_EDITION => "no edition has this number",
        NO_SUCH_COMMAND => "no command has this number",
        _ => "unknown",
    }
}

impl fmt::Display for Refusal {
    fn fmt(&self, f: &mut fmt::Formatter) -> fmt::Result {
        let Refusal { number, place } = *self;
        match number {
            NUMBER_MALFORMED..=JOB_TOO_LARGE | NO_SUCH_FUTURE => write!(f, "refused with {number} at byte {place}: {}", text(number)),
            _ => write!(f, "refused with {number}: {}", text(number)),
        }
    }
}

impl fmt::Debug for Refusal {
    fn fmt(&self, f: &mut fmt::Formatter) -> fmt::Result {
        fmt::Display::fmt(self, f)
    }
}

impl error::Error for Refusal {}
