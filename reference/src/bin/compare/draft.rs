//! A model on its way to words. Nothing in it needs to be right.

use crate::quantities::{probabilities, quantity, Taste};
use crate::random::Random;
use reference::model::{Law, Quantity, Transition};

#[derive(Clone, Debug)]
pub struct Draft {
    pub edition: u32,
    pub states: usize,
    pub start: usize,
    pub time: Quantity,
    pub prune: Quantity,
    pub step_limit: u32,
    pub entry_limit: u32,
    /// The bodies of the words that name the generator's states: a state, and maybe bits above it.
    pub named: Vec<u32>,
    pub transitions: Vec<Transition>,
}

/// The kinds of words, as the bits 31 to 28.
pub const SLOW: u32 = 5;
pub const FAST: u32 = 7;
pub const NAMED: u32 = 12;
pub const END_WORD: u32 = 0xF000_0000;

fn quantity_word(kind: u32, of: Quantity) -> u32 {
    kind << 28 | (of.scale & 0xFF) << 20 | of.coefficient & 0xF_FFFF
}

/// A word that names a state of the generator's.
pub fn named_word(body: u32) -> u32 {
    NAMED << 28 | body & 0xFFF_FFFF
}

/// Two twelve-bit fields under a kind.
pub fn pair_word(kind: u32, high: usize, low: usize) -> u32 {
    kind << 28 | (high as u32 & 0xFFF) << 12 | low as u32 & 0xFFF
}

impl Draft {
    /// No transitions yet; step limit 24, entry limit 1, nothing pruned, no state named.
    pub fn new(states: usize, time: Quantity) -> Draft {
        Draft {
            edition: 1,
            states,
            start: 1,
            time,
            prune: quantity(0, 0),
            step_limit: 24,
            entry_limit: 1,
            named: Vec::new(),
            transitions: Vec::new(),
        }
    }

    pub fn words(&self) -> Vec<u32> {
        let mut words = vec![
            pair_word(1, self.states, self.start) | (self.edition & 0xF) << 24,
            quantity_word(2, self.time),
            quantity_word(3, self.prune),
            4 << 28 | (self.step_limit & 0xFF) << 20 | (self.entry_limit & 0xFF) << 12,
        ];
        words.extend(self.named.iter().copied().map(named_word));
        for transition in &self.transitions {
            let Transition { from, to, law } = *transition;
            match law {
                Law::Slow { rate } => {
                    words.extend([pair_word(SLOW, from, to), quantity_word(6, rate)]);
                }
                Law::Fast { mean, deviation, probability } => words.extend([
                    pair_word(FAST, from, to),
                    quantity_word(8, mean),
                    quantity_word(9, deviation),
                    quantity_word(10, probability),
                ]),
            }
        }
        words.push(END_WORD);
        words
    }

    pub fn slow(&mut self, from: usize, to: usize, rate: Quantity) {
        self.transitions.push(Transition { from, to, law: Law::Slow { rate } });
    }

    pub fn fast(&mut self, from: usize, to: usize, law: [Quantity; 3]) {
        let [mean, deviation, probability] = law;
        let law = Law::Fast { mean, deviation, probability };
        self.transitions.push(Transition { from, to, law });
    }

    /// Slow exits of a state to the first targets, fast ones to the others.
    pub fn add_exits(
        &mut self,
        random: &mut Random,
        taste: Taste,
        from: usize,
        slow_to: &[usize],
        fast_to: &[usize],
    ) {
        for &to in slow_to {
            let rate = taste.rate(random, self.time);
            self.slow(from, to, rate);
        }
        if fast_to.is_empty() {
            return;
        }
        let shares = probabilities(random, taste, fast_to.len());
        for (&to, share) in fast_to.iter().zip(shares) {
            let mean = taste.mean(random, self.time);
            let deviation = taste.deviation(random, mean);
            self.fast(from, to, [mean, deviation, share]);
        }
    }
}
