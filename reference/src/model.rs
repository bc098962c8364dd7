//! A model as the words describe it, and the reasons to turn one away.

use std::fmt;

/// A quantity of the words: coefficient / 10^scale.
#[derive(Clone, Copy, Debug, PartialEq, Eq)]
pub struct Quantity {
    pub coefficient: u32,
    pub scale: u32,
}

/// What a transition's quantities say.
#[derive(Clone, Copy, Debug, PartialEq, Eq)]
pub enum Law {
    Slow { rate: Quantity },
    Fast { mean: Quantity, deviation: Quantity, probability: Quantity },
}

#[derive(Clone, Copy, Debug, PartialEq, Eq)]
pub struct Transition {
    pub from: usize,
    pub to: usize,
    pub law: Law,
}

impl Transition {
    pub fn is_fast(&self) -> bool {
        matches!(self.law, Law::Fast { .. })
    }
}

/// A model whose words have all been accepted. States are numbered from 1.
#[derive(Clone, Debug, PartialEq, Eq)]
pub struct Model {
    pub states: usize,
    pub start: usize,
    /// T
    pub time: Quantity,
    /// P
    pub prune: Quantity,
    /// L
    pub step_limit: u32,
    /// V
    pub entry_limit: u32,
    /// The generator's states, as the words name them: in rising order.
    pub named: Vec<usize>,
    /// In table order.
    pub transitions: Vec<Transition>,
    /// For each state the numbers of its transitions, in table order; entry 0 is unused.
    pub exits: Vec<Vec<usize>>,
}

impl Model {
    /// Whether a state is one of the generator's.
    pub fn is_named(&self, state: usize) -> bool {
        self.named.binary_search(&state).is_ok()
    }

    /// Whether a state has a fast exit.
    pub fn has_fast_exit(&self, state: usize) -> bool {
        self.exits[state].iter().any(|&exit| self.transitions[exit].is_fast())
    }
}

/// Why a model is turned away: the documents' number, and the place.
#[derive(Clone, Copy, Debug, PartialEq, Eq)]
pub struct Refusal {
    pub number: u32,
    pub place: usize,
}

impl Refusal {
    pub fn new(number: u32, place: usize) -> Refusal {
        Refusal { number, place }
    }
}

impl fmt::Display for Refusal {
    fn fmt(&self, out: &mut fmt::Formatter<'_>) -> fmt::Result {
        writeln!(out, "refused {} at {}", self.number, self.place)
    }
}
