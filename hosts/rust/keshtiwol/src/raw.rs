//! The C interface as `include/keshtiwol.h` declares it. A test compares the constants; nothing checks the structs and functions, so
//! read them side by side.

use crate::Tally;

#[repr(C)]
#[derive(Clone, Copy, Debug)]
pub struct Reply {
    pub said: u32,
    pub first: u32,
    pub second: u32,
}

#[repr(C)]
#[derive(Clone, Copy, Debug)]
pub struct RunReply {
    pub ending: Reply,
    pub last: Reply,
    pub taken: u32,
}

#[repr(C)]
#[derive(Clone, Copy, Debug)]
pub struct DispatchReply {
    pub ending: Reply,
    pub taken: u32,
    pub handed: u32,
}

// The editions.
pub const FIRST_EDITION: u32 = 1;
pub const SECOND_EDITION: u32 = 2;

// What is said.
pub const REFUSED: u32 = 0;
pub const READY: u32 = 1;
pub const START: u32 = 2;
pub const NEW: u32 = 3;
pub const EDGE: u32 = 4;
pub const RELEASE: u32 = 5;
pub const TRANSFER: u32 = 6;
pub const JOB: u32 = 7;
pub const STOP: u32 = 8;
pub const NONE: u32 = 9;
pub const VERTEX: u32 = 10;
pub const DONE: u32 = 11;
pub const STUCK: u32 = 12;
pub const SPENT: u32 = 13;
pub const CHAIN: u32 = 14;
pub const YIELD: u32 = 15;
pub const WAITING: u32 = 16;
pub const FULL: u32 = 17;

// The commands.
pub const DO_NEW: u32 = 1;
pub const DO_EDGE: u32 = 2;
pub const DO_RELEASE: u32 = 3;
pub const DO_TRANSFER: u32 = 4;
pub const DO_START: u32 = 5;
pub const DO_STOP: u32 = 6;
pub const DO_YIELD: u32 = 7;

extern "C" {
    pub fn keshtiwol_version() -> u32;

    pub fn keshtiwol_load(
        program: *const u8,
        program_bytes: usize,
        vertices: *mut u32,
        vertex_words: usize,
        edges: *mut u32,
        edge_words: usize,
        tally: *mut Tally,
        edition: u32,
    ) -> Reply;

    pub fn keshtiwol_step(
        program: *const u8,
        program_bytes: usize,
        vertices: *mut u32,
        vertex_words: usize,
        edges: *mut u32,
        edge_words: usize,
        tally: *mut Tally,
        edition: u32,
        vertex: u32,
    ) -> Reply;

    pub fn keshtiwol_run(
        program: *const u8,
        program_bytes: usize,
        vertices: *mut u32,
        vertex_words: usize,
        edges: *mut u32,
        edge_words: usize,
        tally: *mut Tally,
        edition: u32,
        budget: u32,
    ) -> RunReply;

    pub fn keshtiwol_dispatch(
        program: *const u8,
        program_bytes: usize,
        vertices: *mut u32,
        vertex_words: usize,
        edges: *mut u32,
        edge_words: usize,
        tally: *mut Tally,
        edition: u32,
        budget: u32,
        busy: *mut u32,
        busy_words: usize,
        jobs: *mut u32,
        job_words: usize,
    ) -> DispatchReply;

    pub fn keshtiwol_lowest(
        program: *const u8,
        program_bytes: usize,
        vertices: *const u32,
        vertex_words: usize,
        edges: *const u32,
        edge_words: usize,
        tally: *const Tally,
        edition: u32,
    ) -> Reply;

    pub fn keshtiwol_open(vertices: *mut u32, vertex_words: usize, edges: *mut u32, edge_words: usize, tally: *mut Tally) -> Reply;

    pub fn keshtiwol_command(
        vertices: *mut u32,
        vertex_words: usize,
        edges: *mut u32,
        edge_words: usize,
        tally: *mut Tally,
        command: u32,
        caller: u32,
        first: u32,
        second: u32,
    ) -> Reply;

    pub fn keshtiwol_chain(
        vertices: *const u32,
        vertex_words: usize,
        edges: *const u32,
        edge_words: usize,
        tally: *const Tally,
        source: u32,
        target: u32,
        list: *mut u32,
        list_words: usize,
    ) -> Reply;
}

#[cfg(test)]
mod tests {
    use super::*;
    use crate::{refusal::*, *};

    macro_rules! named {
        ($($name:ident)*) => { vec![$((stringify!($name), $name as u32)),*] };
    }

    /// Every constant of the header stands in this crate with the same value.
    #[test]
    fn constants_are_the_headers() {
        let header = include_str!("../../../../include/keshtiwol.h");
        let mut in_header: Vec<(&str, u32)> = Vec::new();
        for line in header.lines() {
            let Some((name, value)) = line.trim().strip_prefix("KESHTIWOL_").and_then(|line| line.split_once(" = ")) else { continue };
            // A number, or a product of constants that stand before it.
            let factor = |text: &str| match text.strip_prefix("KESHTIWOL_") {
                Some(earlier) => in_header.iter().find(|constant| constant.0 == earlier).unwrap().1,
                None => text.parse().unwrap(),
            };
            let end = value.find(" /*").unwrap_or(value.len());
            in_header.push((name, value[..end].trim_end_matches([',', ' ']).split(" * ").map(factor).product()));
        }
        let here = named![
            VERTEX_WORDS STATUS PLACE SCOPE PHASE MADE FUTURE IN_COUNT
            EDGE_WORDS SOURCE TARGET
            JOB_WORDS JOB_VERTEX JOB_NUMBER JOB_OFFSET
            VERTEX_NEW VERTEX_RELEASED VERTEX_EXECUTING VERTEX_FINISHED
            FIRST_EDITION SECOND_EDITION
            PROGRAM_BYTES ROWS VERTEX_TABLE EDGE_TABLE STEP_LIMIT
            REFUSED READY START NEW EDGE RELEASE TRANSFER JOB STOP NONE VERTEX DONE STUCK SPENT CHAIN YIELD
            WAITING FULL
            LENGTH_OUTSIDE NUMBER_MALFORMED BYTE_UNKNOWN LEVEL_TOO_DEEP BYTES_RUN_OUT BYTES_AFTER_END JOB_TOO_LARGE TOO_MANY_VERTICES
            NO_SUCH_FUTURE
            TOO_FEW_VERTEX_ROWS TOO_FEW_EDGE_ROWS UNSOUND_TABLES NOTHING_STARTS
            NO_SUCH_VERTEX EDGE_LEADS_IN VERTEX_IS_NEW VERTEX_IS_FINISHED VERTEX_IS_EXECUTING
            CALLER_NOT_EXECUTING NO_VERTEX_ROW NO_EDGE_ROW TARGET_NOT_WAITING CLOSES_CYCLE RELEASE_NOT_NEW
            TRANSFER_NOT_NEW TRANSFER_HAS_EDGE_OUT
            NO_CHAIN LIST_TOO_SHORT
            BUSY_TABLE_TOO_SHORT
            NO_SUCH_EDITION NO_SUCH_COMMAND
            DO_NEW DO_EDGE DO_RELEASE DO_TRANSFER DO_START DO_STOP DO_YIELD
        ];
        assert_eq!(here, in_header);
    }
}
