//! Words to a model, with refusals 1 to 11, 15 and 16 in the documents' order.

use crate::faults::{planted, Fault};
use crate::model::{Law, Model, Quantity, Refusal, Transition};
use crate::MOST_STEPS;

/// Of 4,000 fast transitions and 100 named states.
pub const MOST_WORDS: usize = 16_105;
/// How many states may be named as the generator's.
pub const MOST_NAMED: usize = 100;
const MOST_TRANSITIONS: usize = 4_000;
const MOST_EXITS: usize = 16;
const MOST_STATES: u32 = 1_000;
/// The greatest step limit and the greatest entry limit.
const MOST_LIMIT: u32 = 24;
const MOST_COEFFICIENT: u32 = 999_999;
const MOST_SCALE: u32 = 20;
const MOST_PROBABILITY_SCALE: u32 = 12;
/// The power of ten in which probabilities are summed.
const PROBABILITY_UNIT: u128 = 1_000_000_000_000;

const HEAD: u32 = 1;
const TIME: u32 = 2;
const PRUNE: u32 = 3;
const CAPS: u32 = 4;
const SLOW: u32 = 5;
const RATE: u32 = 6;
const FAST: u32 = 7;
const MEAN: u32 = 8;
const DEVIATION: u32 = 9;
const PROBABILITY: u32 = 10;
const NAMED: u32 = 12;
const END: u32 = 15;

/// The model that the words describe, if neither they nor the budget are to be turned away.
pub fn read(words: &[u32], budget: u64) -> Result<Model, Refusal> {
    if words.len() > MOST_WORDS - usize::from(planted(Fault::WordTooFew)) {
        return Err(Refusal::new(1, 0));
    }
    if !(1..=MOST_STEPS).contains(&budget) {
        return Err(Refusal::new(2, 0));
    }
    let mut reader = Reader { words, place: 0 };
    let mut model = read_preamble(&mut reader)?;
    read_named(&mut reader, &mut model)?;
    while read_transition(&mut reader, &mut model)? {
        if planted(Fault::NamedAfterTransition) {
            read_named(&mut reader, &mut model)?;
        }
    }
    if reader.place < words.len() {
        return Err(Refusal::new(3, reader.place));
    }
    check_probabilities(&model)?;
    let named = check_named(&model);
    if !planted(Fault::NamedExitsAfterStart) {
        named?;
    }
    if model.exits[model.start].is_empty() {
        return Err(Refusal::new(11, model.start));
    }
    named?;
    Ok(model)
}

/// The field of a word from bit `low` up to bit `high`, both included.
fn bits(word: u32, high: u32, low: u32) -> u32 {
    (word << (31 - high)) >> (31 - high + low)
}

fn kind(word: u32) -> u32 {
    bits(word, 31, 28)
}

/// The words and the place of the next one to read.
struct Reader<'a> {
    words: &'a [u32],
    place: usize,
}

impl Reader<'_> {
    /// The next word, which must be of one of the kinds, and its place.
    fn next(&mut self, kinds: &[u32]) -> Result<(u32, usize), Refusal> {
        let place = self.place;
        match self.words.get(place) {
            Some(&word) if kinds.contains(&kind(word)) => {
                self.place += 1;
                Ok((word, place))
            }
            _ if planted(Fault::PlaceOffByOne) && place > 0 => Err(Refusal::new(3, place - 1)),
            _ => Err(Refusal::new(3, place)),
        }
    }

    /// The next word and its place, if it is of the kind.
    fn next_if(&mut self, wanted: u32) -> Option<(u32, usize)> {
        let word = self.words.get(self.place).copied().filter(|&word| kind(word) == wanted)?;
        self.place += 1;
        Some((word, self.place - 1))
    }

    /// The next word as a quantity of a kind.
    fn quantity(&mut self, wanted: u32) -> Result<Quantity, Refusal> {
        let (word, place) = self.next(&[wanted])?;
        let scale = bits(word, 27, 20);
        let coefficient = bits(word, 19, 0);
        let most_scale = if wanted == PROBABILITY { MOST_PROBABILITY_SCALE } else { MOST_SCALE };
        let least = u32::from(wanted != PRUNE && wanted != DEVIATION);
        if scale > most_scale || !(least..=MOST_COEFFICIENT).contains(&coefficient) {
            return Err(Refusal::new(5, place));
        }
        Ok(Quantity { coefficient, scale })
    }
}

/// The four words that every model begins with.
fn read_preamble(reader: &mut Reader<'_>) -> Result<Model, Refusal> {
    let (head, place) = reader.next(&[HEAD])?;
    let (edition, states, start) = (bits(head, 27, 24), bits(head, 23, 12), bits(head, 11, 0));
    if edition != 1 || !(1..=MOST_STATES).contains(&states) || !(1..=states).contains(&start) {
        return Err(Refusal::new(6, place));
    }
    let time = reader.quantity(TIME)?;
    let prune = reader.quantity(PRUNE)?;
    let (caps, place) = reader.next(&[CAPS])?;
    if bits(caps, 11, 0) != 0 {
        return Err(Refusal::new(4, place));
    }
    let (step_limit, entry_limit) = (bits(caps, 27, 20), bits(caps, 19, 12));
    let limits = 1..=MOST_LIMIT;
    if !limits.contains(&step_limit) || !limits.contains(&entry_limit) {
        return Err(Refusal::new(6, place));
    }
    Ok(Model {
        states: states as usize,
        start: start as usize,
        time,
        prune,
        step_limit,
        entry_limit,
        named: Vec::new(),
        transitions: Vec::new(),
        exits: vec![Vec::new(); states as usize + 1],
    })
}

/// Reads the words that name the generator's states into the model, as many as follow.
fn read_named(reader: &mut Reader<'_>, model: &mut Model) -> Result<(), Refusal> {
    while let Some((word, place)) = reader.next_if(NAMED) {
        let lowest = if planted(Fault::BitTwelveIgnored) { 13 } else { 12 };
        if bits(word, 27, lowest) != 0 {
            return Err(Refusal::new(4, place));
        }
        let state = bits(word, 11, 0) as usize;
        check_name(model, state).map_err(|number| Refusal::new(number, place))?;
        model.named.push(state);
    }
    Ok(())
}

/// Refusals 6, 15 and 9 of a word that names a state, as their number.
fn check_name(model: &Model, state: usize) -> Result<(), u32> {
    if !(1..=model.states).contains(&state) {
        return Err(6);
    }
    let most = MOST_NAMED + usize::from(planted(Fault::NamedTooMany));
    let one_more = model.named.len() >= most;
    if one_more && planted(Fault::NumberBeforeOrder) {
        return Err(9);
    }
    let greater = |&before: &usize| state > before || state == before && planted(Fault::NamedTwice);
    if !model.named.last().is_none_or(greater) {
        return Err(15);
    }
    if one_more {
        return Err(9);
    }
    Ok(())
}

/// Reads one transition into the model, or the end; says whether it was a transition.
fn read_transition(reader: &mut Reader<'_>, model: &mut Model) -> Result<bool, Refusal> {
    let (word, place) = reader.next(&[SLOW, FAST, END])?;
    if kind(word) == END {
        return if bits(word, 27, 0) == 0 { Ok(false) } else { Err(Refusal::new(4, place)) };
    }
    let fast = kind(word) == FAST;
    let (from, to) = (bits(word, 23, 12) as usize, bits(word, 11, 0) as usize);
    let checked = check_transition(model, fast, from, to);
    if bits(word, 27, 24) != 0 && !(planted(Fault::BitAfterStates) && checked.is_err()) {
        return Err(Refusal::new(4, place));
    }
    checked.map_err(|number| Refusal::new(number, place))?;
    let law = if fast {
        Law::Fast {
            mean: reader.quantity(MEAN)?,
            deviation: reader.quantity(DEVIATION)?,
            probability: reader.quantity(PROBABILITY)?,
        }
    } else {
        Law::Slow { rate: reader.quantity(RATE)? }
    };
    model.exits[from].push(model.transitions.len());
    model.transitions.push(Transition { from, to, law });
    Ok(true)
}

/// Refusals 6 to 9 of a transition's word, as their number.
fn check_transition(model: &Model, fast: bool, from: usize, to: usize) -> Result<(), u32> {
    let known = 1..=model.states;
    if !known.contains(&from) || !known.contains(&to) {
        return Err(6);
    }
    if from == to {
        return Err(7);
    }
    let exits = &model.exits[from];
    let stood_earlier = exits.iter().any(|&exit| {
        let earlier = &model.transitions[exit];
        earlier.to == to && (earlier.is_fast() == fast || planted(Fault::SlowAndFastAreTheSame))
    });
    if stood_earlier {
        return Err(8);
    }
    let most_exits = MOST_EXITS + usize::from(planted(Fault::SeventeenthExit));
    let most = MOST_TRANSITIONS + usize::from(planted(Fault::TransitionTooMany));
    if exits.len() >= most_exits || model.transitions.len() >= most {
        return Err(9);
    }
    Ok(())
}

/// Refusal 16: the lowest state that is named as the generator's and has exits.
fn check_named(model: &Model) -> Result<(), Refusal> {
    let mut with_exits = model.named.iter().filter(|&&state| !model.exits[state].is_empty());
    let found =
        if planted(Fault::HighestWithExits) { with_exits.next_back() } else { with_exits.next() };
    found.map_or(Ok(()), |&state| Err(Refusal::new(16, state)))
}

/// Refusal 10: the lowest state that has fast exits whose probabilities don't sum to exactly 1.
fn check_probabilities(model: &Model) -> Result<(), Refusal> {
    for state in 1..=model.states {
        let mut sum = None;
        for &exit in &model.exits[state] {
            if let Law::Fast { probability, .. } = model.transitions[exit].law {
                let unit = 10u128.pow(MOST_PROBABILITY_SCALE - probability.scale);
                sum = Some(sum.unwrap_or(0) + u128::from(probability.coefficient) * unit);
            }
        }
        let off = sum.map_or(0, |sum: u128| sum.abs_diff(PROBABILITY_UNIT));
        if off > u128::from(planted(Fault::SumNearOne)) {
            return Err(Refusal::new(10, state));
        }
    }
    Ok(())
}
