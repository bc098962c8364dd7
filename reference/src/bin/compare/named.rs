//! Words that name the generator's states: right ones, and such that are turned away.

use crate::draft::{Draft, NAMED};
use crate::quantities::{quantity, Taste, TASTES};
use crate::random::Random;
use crate::shapes::{self, Shape, SHAPES};
use reference::words::MOST_NAMED;

/// The states of a draft without exits, or those with exits.
fn states(draft: &Draft, with_exits: bool) -> Vec<usize> {
    let mut exits = vec![false; draft.states + 1];
    for transition in &draft.transitions {
        if let Some(has) = exits.get_mut(transition.from) {
            *has = true;
        }
    }
    (1..=draft.states).filter(|&state| exits[state] == with_exits).collect()
}

/// Names so many of the states, if there are as many, in rising order.
fn name(random: &mut Random, draft: &mut Draft, mut states: Vec<usize>, number: usize) {
    random.shuffle(&mut states);
    states.truncate(number);
    states.sort_unstable();
    draft.named = states.into_iter().map(|state| state as u32).collect();
}

/// Names some states without exits: reached or not, the target of a transition or of none.
pub fn name_some(random: &mut Random, draft: &mut Draft) {
    let dead = states(draft, false);
    let number = match random.size(0, 7) {
        0 => MOST_NAMED,
        1 | 2 => random.size(1, dead.len().min(MOST_NAMED)),
        _ => random.size(1, 3),
    };
    name(random, draft, dead, number);
}

/// The same once in a while, unless states are named already.
pub fn name_maybe(random: &mut Random, draft: &mut Draft) {
    if draft.named.is_empty() && random.once_in(8) {
        name_some(random, draft);
    }
}

/// Any shape, most often one with several states without exits.
pub fn shaped(random: &mut Random) -> Draft {
    let often: [Shape; 4] =
        [shapes::ways_to_fail, shapes::no_loops, shapes::computer, shapes::sixteen_exits];
    let (_, any) = random.pick(&SHAPES);
    let shape = if random.once_in(3) { any } else { random.pick(&often) };
    let taste = random.pick(&TASTES);
    let mut draft = shape(random, taste);
    name_some(random, &mut draft);
    draft
}

/// About as many named states as there may be, in a model of hundreds of states, and maybe
/// something wrong with the one after the last that may be, or with the last.
pub fn about_a_hundred(random: &mut Random) -> Draft {
    let mut draft = shapes::many_states(random, Taste::Tame);
    draft.states = draft.states.max(2 * MOST_NAMED);
    let dead = states(&draft, false);
    let number = MOST_NAMED + random.size(0, 3) - 1;
    name(random, &mut draft, dead, number);
    let place = MOST_NAMED.min(draft.named.len() - 1);
    let before = draft.named[place - 1];
    let body = &mut draft.named[place];
    match random.size(0, 6) {
        0 => *body = before,
        1 => *body = random.word(1, before),
        2 => *body = random.pick(&[0, draft.states as u32 + 1]),
        3 => *body |= 1 << random.word(12, 27),
        _ => {}
    }
    draft
}

/// As many named states as there may be, or one more.
pub fn name_many(random: &mut Random, draft: &mut Draft) {
    let dead = states(draft, false);
    let number = MOST_NAMED + usize::from(random.once_in(3));
    name(random, draft, dead, number);
}

/// A model with one or two things wrong about its named states.
pub fn wrong(random: &mut Random) -> Draft {
    let mut draft = shaped(random);
    for _ in 0..random.size(1, 2) {
        damage(random, &mut draft);
    }
    draft
}

/// Does one thing wrong to the named states, or to what they may not have.
pub fn damage(random: &mut Random, draft: &mut Draft) {
    let states_with_exits = states(draft, true);
    let place = random.size(0, draft.named.len());
    let beyond = draft.states as u32 + 1;
    match random.size(0, 7) {
        0 | 1 if !states_with_exits.is_empty() => {
            let state = random.pick(&states_with_exits) as u32;
            draft.named.push(state);
            draft.named.sort_unstable();
        }
        2 => name_all(draft),
        3 => draft.named.insert(place, random.pick(&[0, beyond, 4_095])),
        4 => set_bit(random, draft),
        5 => random.shuffle(&mut draft.named),
        6 => draft.start = states(draft, false).first().copied().unwrap_or(draft.start),
        _ => {
            let state = draft.named.get(place).or(draft.named.first()).copied();
            draft.named.insert(place, state.unwrap_or(random.word(1, beyond)));
        }
    }
}

/// Names every state, as long as there are not many.
fn name_all(draft: &mut Draft) {
    draft.named = (1..=draft.states.min(2 * MOST_NAMED) as u32).collect();
}

/// Sets a bit that must be zero, often the lowest.
fn set_bit(random: &mut Random, draft: &mut Draft) {
    let last = draft.named.len().saturating_sub(1);
    let place = random.size(0, last);
    let bit = if random.once_in(2) { 12 } else { random.word(12, 27) };
    if let Some(body) = draft.named.get_mut(place) {
        *body |= 1 << bit;
    }
}

/// Puts one of the words that name states elsewhere: before the caps, or after a transition's word.
pub fn misplace(random: &mut Random, words: &mut Vec<u32>) {
    let Some(from) = words.iter().position(|word| word >> 28 == NAMED) else {
        return;
    };
    let word = words.remove(from);
    let to = random.size(0, words.len());
    words.insert(to, word);
}

/// Fast exits whose probabilities do not sum to 1, of a named state or of any other.
pub fn with_a_wrong_sum(random: &mut Random) -> Draft {
    let mut draft = wrong(random);
    let from = random.size(1, draft.states);
    let to = from % draft.states + 1;
    let mean = Taste::Tame.mean(random, draft.time);
    draft.fast(from, to, [mean, mean, quantity(random.word(1, 9), 1)]);
    draft
}
