//! A model in readable lines, turned into the words of document 01 and back.
//!
//! The command writes what the lines say and judges no model: a transition from a state to itself, probabilities that don't sum to 1, or a pruned state
//! that has exits, go into words as they stand, and the library refuses them. What it refuses is what words cannot hold: a quantity of more than six
//! digits or of too great a scale, which it never rounds, and a number that its field has no room for or document 01 no use for.
//!
//! - [`quantity`]: decimal quantities
//! - [`text`]: lines to words
//! - [`words`]: words to lines, and words to and from bytes and hexadecimal digits

pub mod quantity;
pub mod text;
pub mod words;

/// Why a text or a list of words was refused: the line (counted from 1) or the word (counted from 0), and the reason.
#[derive(Clone, Debug, PartialEq, Eq)]
pub struct Fault {
    pub at: usize,
    pub why: String,
}

impl Fault {
    pub fn new(at: usize, why: impl Into<String>) -> Fault {
        Fault { at, why: why.into() }
    }
}

/// The kinds of words.
pub mod kind {
    pub const HEAD: u32 = 1;
    pub const TIME: u32 = 2;
    pub const PRUNE: u32 = 3;
    pub const CAPS: u32 = 4;
    pub const SLOW: u32 = 5;
    pub const RATE: u32 = 6;
    pub const FAST: u32 = 7;
    pub const MEAN: u32 = 8;
    pub const DEVIATION: u32 = 9;
    pub const PROBABILITY: u32 = 10;
    /// Names a state that the generator of the model pruned.
    pub const PRUNED_STATE: u32 = 12;
    pub const END: u32 = 15;
}

/// The greatest number of states, and the greatest step and entry limit.
pub const MOST_STATES: u32 = 1_000;
pub const MOST_STEPS: u32 = 24;
pub const MOST_ENTRIES: u32 = 24;
