//! Valid models of several shapes.

use crate::draft::Draft;
use crate::quantities::{quantity, Taste};
use crate::random::Random;

pub type Shape = fn(&mut Random, Taste) -> Draft;

pub const SHAPES: [(&str, Shape); 9] = [
    ("graph", graph),
    ("no loops", no_loops),
    ("chain of up to 24 steps", chain),
    ("loops, entry limits", loops),
    ("sixteen exits", sixteen_exits),
    ("slow and fast in parallel", parallel),
    ("computer", computer),
    ("many states", many_states),
    ("ways to fail", ways_to_fail),
];

/// States, drawn without repetition, to which a state may lead.
fn targets(random: &mut Random, allowed: &[usize], number: usize) -> Vec<usize> {
    let mut list = allowed.to_vec();
    random.shuffle(&mut list);
    list.truncate(number);
    list
}

/// Gives a state some exits to the allowed states, at most so many, slow and fast.
/// Both kinds may lead to the same state.
fn random_exits(
    draft: &mut Draft,
    random: &mut Random,
    taste: Taste,
    from: usize,
    allowed: &[usize],
    most: usize,
) {
    let most = most.min(16);
    let (slow, fast) = match random.size(0, 5) {
        0 | 1 => (random.size(1, most), 0),
        2 => (0, random.size(1, most)),
        _ => {
            let slow = random.size(1, most.max(2) - 1);
            (slow, random.size(1, most.max(slow + 1) - slow))
        }
    };
    let slow_to = targets(random, allowed, slow);
    let fast_to = targets(random, allowed, fast);
    draft.add_exits(random, taste, from, &slow_to, &fast_to);
}

fn others(states: usize, but: usize) -> Vec<usize> {
    (1..=states).filter(|&state| state != but).collect()
}

/// A prune level that is zero, or somewhere among the uppers.
fn random_prune(draft: &mut Draft, random: &mut Random) {
    draft.prune = match random.size(0, 3) {
        0 => quantity(random.word(1, 999_999), random.word(3, 20)),
        _ => quantity(0, random.word(0, 20)),
    };
}

/// Any transitions between a few states.
pub fn graph(random: &mut Random, taste: Taste) -> Draft {
    let states = random.size(2, 9);
    let mut draft = Draft::new(states, taste.time(random));
    draft.start = random.size(1, states);
    for from in 1..=states {
        if from == draft.start || !random.once_in(3) {
            random_exits(&mut draft, random, taste, from, &others(states, from), 4);
        }
    }
    random_prune(&mut draft, random);
    draft.step_limit = random.pick(&[1, 2, 4, 8, 24]);
    random.shuffle(&mut draft.transitions);
    draft
}

/// Transitions to greater states alone, so that most paths end by death.
pub fn no_loops(random: &mut Random, taste: Taste) -> Draft {
    let states = random.size(3, 9);
    let mut draft = Draft::new(states, taste.time(random));
    for from in 1..states {
        let later: Vec<usize> = (from + 1..=states).collect();
        if from == 1 || !random.once_in(3) {
            random_exits(&mut draft, random, taste, from, &later, 4);
        }
    }
    random_prune(&mut draft, random);
    random.shuffle(&mut draft.transitions);
    draft
}

/// A chain of up to 24 steps and one more, with deaths beside it.
pub fn chain(random: &mut Random, taste: Taste) -> Draft {
    let length = random.pick(&[8, 16, 22, 23, 24, 24, 25]);
    let states = length + 2;
    let mut draft = Draft::new(states, taste.time(random));
    let aside = states;
    for from in 1..=length {
        let both = [from + 1, aside];
        let (one, beside) = ([from + 1], [aside]);
        let (slow, fast): (&[usize], &[usize]) = match random.size(0, 5) {
            0 => (&both, &[]),
            1 => (&one, &[]),
            2 => (&[], &one),
            3 => (&one, &both),
            4 => (&[], &both),
            _ => (&beside, &one),
        };
        draft.add_exits(random, taste, from, slow, fast);
    }
    draft.step_limit = random.pick(&[8, 23, 24, 24, 24]);
    draft
}

/// Loops under all entry limits.
pub fn loops(random: &mut Random, taste: Taste) -> Draft {
    let states = random.size(2, 5);
    let mut draft = Draft::new(states, taste.time(random));
    for from in 1..states {
        let next = from + 1;
        let back = random.size(1, states);
        let slow_to = if back == from || back == next { vec![next] } else { vec![next, back] };
        let fast_to = if random.once_in(3) { others(states, from) } else { Vec::new() };
        draft.add_exits(random, taste, from, &slow_to, &fast_to);
    }
    if random.once_in(2) {
        draft.add_exits(random, taste, states, &[1], &[]);
    }
    draft.entry_limit = random.pick(&[1, 2, 3, 8, 23, 24]);
    draft.step_limit = random.pick(&[3, 6, 12, 23, 24]);
    random_prune(&mut draft, random);
    random.shuffle(&mut draft.transitions);
    draft
}

/// States with exactly sixteen exits.
pub fn sixteen_exits(random: &mut Random, taste: Taste) -> Draft {
    let states = random.size(17, 20);
    let mut draft = Draft::new(states, taste.time(random));
    let levels = random.size(1, 2);
    for from in 1..=levels {
        let slow = random.size(0, 16);
        let allowed = others(states, from);
        let slow_to = targets(random, &allowed, slow);
        let fast_to = targets(random, &allowed, 16 - slow);
        draft.add_exits(random, taste, from, &slow_to, &fast_to);
    }
    draft.entry_limit = random.pick(&[1, 1, 2]);
    random.shuffle(&mut draft.transitions);
    draft
}

/// Slow and fast transitions between the same two states.
pub fn parallel(random: &mut Random, taste: Taste) -> Draft {
    let states = random.size(2, 6);
    let mut draft = Draft::new(states, taste.time(random));
    for from in 1..states {
        let next = [from + 1];
        let also = targets(random, &others(states, from), 2);
        let fast_to = if also.contains(&next[0]) { also } else { next.to_vec() };
        draft.add_exits(random, taste, from, &next, &fast_to);
    }
    random.shuffle(&mut draft.transitions);
    draft
}

/// Parts that fail, are noticed and taken out, as in the papers' fault-tolerant computers.
pub fn computer(random: &mut Random, taste: Taste) -> Draft {
    let parts = random.size(2, 6);
    let mut draft = Draft::new(3 * parts, taste.time(random));
    for part in 0..parts {
        let (whole, failed, dead) = (3 * part + 1, 3 * part + 2, 3 * part + 3);
        draft.add_exits(random, taste, whole, &[failed], &[]);
        let next = if part + 1 < parts { 3 * part + 4 } else { 1 };
        let fast_to = if random.once_in(3) { vec![next, dead] } else { vec![next] };
        draft.add_exits(random, taste, failed, &[dead], &fast_to);
    }
    draft.entry_limit = random.pick(&[1, 1, 2]);
    random.shuffle(&mut draft.transitions);
    draft
}

/// Hundreds of states.
pub fn many_states(random: &mut Random, taste: Taste) -> Draft {
    let states = random.pick(&[100, 999, 1_000]);
    let mut draft = Draft::new(states, taste.time(random));
    draft.start = random.pick(&[1, states, states / 2]);
    for _ in 0..random.size(1, 60) {
        let from = if random.once_in(3) { draft.start } else { random.size(1, states) };
        if !draft.transitions.iter().any(|earlier| earlier.from == from) {
            let mut near = others(states, from);
            near.truncate(20);
            random_exits(&mut draft, random, taste, from, &near, 3);
        }
    }
    let start = draft.start;
    if !draft.transitions.iter().any(|earlier| earlier.from == start) {
        let allowed = others(states, start);
        random_exits(&mut draft, random, taste, start, &allowed, 16);
    }
    draft.step_limit = random.pick(&[2, 5, 24]);
    draft
}

/// Several states without exits in any order of their numbers: some where paths die, some to which
/// only states lead that are never reached, and some to which nothing leads.
pub fn ways_to_fail(random: &mut Random, taste: Taste) -> Draft {
    let (walked, aside, dead) = (random.size(1, 4), random.size(0, 2), random.size(1, 9));
    let states = walked + aside + dead;
    let mut draft = Draft::new(states, taste.time(random));
    let mut order = others(states, 0);
    random.shuffle(&mut order);
    let (live, ends) = order.split_at(walked + aside);
    draft.start = live[0];
    for (place, &from) in live.iter().enumerate() {
        let onward = if place < walked { &live[..walked] } else { live };
        let mut to: Vec<usize> = onward.iter().copied().filter(|&state| state != from).collect();
        to.extend(targets(random, ends, 4));
        random_exits(&mut draft, random, taste, from, &to, 6);
    }
    random_prune(&mut draft, random);
    draft.step_limit = random.pick(&[1, 2, 3, 5, 24]);
    draft.entry_limit = random.pick(&[1, 1, 2]);
    random.shuffle(&mut draft.transitions);
    draft
}
