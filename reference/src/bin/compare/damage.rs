//! Damage to models: to the draft, and to the words.

use crate::draft::{named_word, pair_word, Draft, END_WORD, FAST, NAMED, SLOW};
use crate::named;
use crate::quantities::{quantity, Taste};
use crate::random::Random;
use reference::model::{Law, Quantity, Transition};

/// Damages a draft once.
pub fn damage_draft(random: &mut Random, draft: &mut Draft) {
    match random.size(0, 8) {
        0 => damage_head(random, draft),
        1 => {
            let start = draft.start;
            draft.transitions.retain(|transition| transition.from != start);
        }
        2 => seventeenth_exit(random, draft),
        3 => change_probability(random, draft),
        4 | 5 => change_states(random, draft),
        6 => named::damage(random, draft),
        _ => repeat_transition(random, draft),
    }
}

/// Edition, number of states, start, step limit or entry limit out of range.
fn damage_head(random: &mut Random, draft: &mut Draft) {
    match random.size(0, 4) {
        0 => draft.edition = random.pick(&[0, 2, 15]),
        1 => draft.states = random.pick(&[0, 1_001, 4_095, 1]),
        2 => draft.start = random.pick(&[0, draft.states + 1, 4_095]),
        3 => draft.step_limit = random.pick(&[0, 25, 255]),
        _ => draft.entry_limit = random.pick(&[0, 25, 255]),
    }
}

/// Slow exits of one state until it has seventeen, or some more.
fn seventeenth_exit(random: &mut Random, draft: &mut Draft) {
    let from = random.size(1, draft.states);
    draft.transitions.retain(|earlier| earlier.from != from || earlier.is_fast());
    let mut exits = draft.transitions.iter().filter(|earlier| earlier.from == from).count();
    let mut to = 0;
    draft.states = draft.states.max(20);
    let wanted = random.size(16, 18);
    while exits < wanted {
        to += 1;
        if to != from {
            let rate = Taste::Tame.rate(random, draft.time);
            draft.slow(from, to, rate);
            exits += 1;
        }
    }
    if random.once_in(2) {
        random.shuffle(&mut draft.transitions);
    }
}

fn change_probability(random: &mut Random, draft: &mut Draft) {
    let mut shares: Vec<&mut Quantity> = draft
        .transitions
        .iter_mut()
        .filter_map(|transition| match &mut transition.law {
            Law::Fast { probability, .. } => Some(probability),
            Law::Slow { .. } => None,
        })
        .collect();
    if shares.is_empty() {
        return;
    }
    let place = random.size(0, shares.len() - 1);
    let share = &mut shares[place];
    match random.size(0, 2) {
        0 => share.coefficient = (share.coefficient + 1).min(999_999),
        1 => share.coefficient = share.coefficient.max(2) - 1,
        _ => **share = quantity(random.word(1, 999_999), random.word(0, 12)),
    }
}

/// A transition to itself, or from or to a state that doesn't exist.
fn change_states(random: &mut Random, draft: &mut Draft) {
    let beyond = draft.states + 1;
    let last = draft.transitions.len().saturating_sub(1);
    let place = random.size(0, last);
    if let Some(transition) = draft.transitions.get_mut(place) {
        match random.size(0, 3) {
            0 => transition.to = random.pick(&[0, beyond, 4_095]),
            1 => transition.from = random.pick(&[0, beyond, 4_095]),
            2 => (transition.from, transition.to) = (beyond, beyond),
            _ => transition.to = transition.from,
        }
    }
}

/// The same kind, from and to a second time, with the same or with other quantities.
fn repeat_transition(random: &mut Random, draft: &mut Draft) {
    if draft.transitions.is_empty() {
        return;
    }
    let mut again: Transition = random.pick(&draft.transitions);
    let place = random.size(0, draft.transitions.len());
    if let (Law::Slow { rate }, true) = (&mut again.law, random.once_in(2)) {
        *rate = quantity(random.word(1, 999_999), random.word(0, 20));
    }
    draft.transitions.insert(place, again);
}

/// Damages words once.
pub fn damage_words(random: &mut Random, words: &mut Vec<u32>) {
    let place = random.size(0, words.len().saturating_sub(1));
    match random.size(0, 11) {
        0 => words.truncate(place),
        1 => words.insert(place, random_word(random)),
        2 => words.push(random_word(random)),
        3 => {
            words.extend([END_WORD; 2]);
            words.truncate(random.size(1, words.len()));
        }
        _ if words.is_empty() => {}
        4 => {
            words.remove(place);
        }
        5 => {
            let other = random.size(0, words.len() - 1);
            words.swap(place, other);
        }
        6 => words[place] = random_word(random),
        7 => set_zero_bit(random, words),
        8 => words[place] = words[place] & 0xF00F_FFFF | random.pick(&[12, 13, 20, 21, 255]) << 20,
        9 => words[place] = words[place] & 0xFFF0_0000 | random.pick(&[0, 1_000_000, 1_048_575]),
        10 => words[place] = words[place] & 0x0FFF_FFFF | random.word(0, 15) << 28,
        _ => words[place] ^= 1 << random.word(0, 31),
    }
}

/// Sets a bit that must be zero, in the caps, a transition, the name of a state or the end.
fn set_zero_bit(random: &mut Random, words: &mut [u32]) {
    let place = match random.size(0, 2) {
        0 => 3.min(words.len() - 1),
        1 => words.len() - 1,
        _ => random.size(0, words.len() - 1),
    };
    words[place] |= match words[place] >> 28 {
        4 => 1 << random.word(0, 11),
        5 | 7 => 1 << random.word(24, 27),
        NAMED => 1 << random.word(12, 27),
        _ => 1 << random.word(0, 27),
    };
}

/// A word that looks like one of a model, or any word.
pub fn random_word(random: &mut Random) -> u32 {
    let kind = random.word(0, 15);
    match kind {
        1 | 5 | 7 if random.once_in(2) => {
            pair_word(random.pick(&[SLOW, FAST]), random.size(0, 5), random.size(0, 5))
        }
        2 | 3 | 6 | 8..=10 => kind << 28 | random.word(0, 21) << 20 | random.word(0, 1_000_000),
        NAMED => named_word(random.word(0, 8)),
        15 => END_WORD,
        _ => random.next() as u32,
    }
}
