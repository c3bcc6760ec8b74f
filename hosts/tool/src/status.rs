//! A vertex's status, in words and colours.

use keshtiwol::{VERTEX_EXECUTING, VERTEX_FINISHED, VERTEX_NEW, VERTEX_RELEASED};

#[derive(Clone, Copy, Debug, PartialEq, Eq)]
pub enum Status {
    New,
    Released,
    Executing,
    Finished,
}

/// Of a box: its inside, its outline and its text, as SVG and Graphviz both write them.
pub struct Colours {
    pub fill: &'static str,
    pub outline: &'static str,
    pub text: &'static str,
}

impl Status {
    pub const ALL: [Status; 4] = [Status::New, Status::Released, Status::Executing, Status::Finished];

    /// The status that a vertex row holds.
    pub fn of(word: u32) -> Status {
        match word {
            VERTEX_NEW => Status::New,
            VERTEX_RELEASED => Status::Released,
            VERTEX_EXECUTING => Status::Executing,
            VERTEX_FINISHED => Status::Finished,
            _ => unreachable!("the engine has no status {word}"),
        }
    }

    pub fn word(self) -> &'static str {
        match self {
            Status::New => "new",
            Status::Released => "released",
            Status::Executing => "executing",
            Status::Finished => "finished",
        }
    }

    /// For a legend.
    pub fn meaning(self) -> &'static str {
        match self {
            Status::New => "made, and not released yet",
            Status::Released => "may start once no arrow leads to it",
            Status::Executing => "has started and not stopped",
            Status::Finished => "has stopped; its arrows are gone",
        }
    }

    pub fn colours(self) -> Colours {
        let (fill, outline, text) = match self {
            Status::New => ("#ffffff", "#57606a", "#1f2328"),
            Status::Released => ("#cfe4ff", "#0a4fa3", "#1f2328"),
            Status::Executing => ("#b4f0c0", "#116329", "#1f2328"),
            Status::Finished => ("#eceef0", "#afb8c1", "#57606a"),
        };
        Colours { fill, outline, text }
    }
}

/// For a legend.
pub const ARROW: &str = "arrow: its head waits until its tail has finished";
