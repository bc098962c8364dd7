//! Words to a model: refusals 1 to 11, 15 and 16.

use super::figure::{Figure, UP};
use super::Refusal;

#[derive(Clone, Copy)]
pub struct Transition {
    pub from: u16,
    pub to: u16,
    pub fast: bool,
    /// The rate of a slow transition, the probability of a fast one.
    pub share: Figure,
    pub mean: Figure,
    pub deviation: Figure,
}

pub struct Model {
    pub states: usize,
    pub start: usize,
    pub time: Figure,
    pub level: Figure,
    pub steps: usize,
    pub entries: u8,
    /// Whether a state is named as the generator's.
    pub named: [bool; 1001],
    pub transitions: Vec<Transition>,
    /// For each state the numbers of its exits, in table order.
    pub exits: Vec<Vec<u16>>,
}

impl Model {
    /// The states without exits to which a transition leads, in order, but for the generator's.
    pub fn dead(&self) -> impl Iterator<Item = usize> + '_ {
        let mut target = [false; 1001];
        for transition in &self.transitions {
            target[transition.to as usize] = true;
        }
        (1..=self.states).filter(move |&state| {
            target[state] && self.exits[state].is_empty() && !self.named[state]
        })
    }
}

struct Reader<'a> {
    words: &'a [u32],
    at: usize,
}

fn refused<T>(number: u64, place: usize) -> Result<T, Refusal> {
    Err(Refusal { number, place })
}

impl Reader<'_> {
    fn next(&mut self, kind: u32) -> Result<u32, Refusal> {
        match self.words.get(self.at) {
            Some(&word) if word >> 28 == kind => {
                self.at += 1;
                Ok(word)
            }
            _ => refused(3, self.at),
        }
    }

    fn quantity(&mut self, kind: u32, most_scale: u32, least: u32) -> Result<Quantity, Refusal> {
        let word = self.next(kind)?;
        let (scale, coefficient) = (word >> 20 & 0xFF, word & 0xFFFFF);
        if scale > most_scale || coefficient < least || coefficient > 999_999 {
            return refused(5, self.at - 1);
        }
        Ok(Quantity { coefficient, scale })
    }
}

#[derive(Clone, Copy)]
struct Quantity {
    coefficient: u32,
    scale: u32,
}

impl Quantity {
    fn figure(self) -> Figure {
        Figure::fitted::<UP>(u64::from(self.coefficient), -(self.scale as i32))
    }
}

pub fn read(words: &[u32], budget: u64) -> Result<Model, Refusal> {
    if words.len() > 16_105 {
        return refused(1, 0);
    }
    if !(1..=1_000_000).contains(&budget) {
        return refused(2, 0);
    }
    let mut reader = Reader { words, at: 0 };
    let mut model = head(&mut reader)?;
    named(&mut reader, &mut model)?;
    let mut sums = vec![None; model.states + 1];
    transitions(&mut reader, &mut model, &mut sums)?;
    if reader.at < words.len() {
        return refused(3, reader.at);
    }
    if let Some(state) =
        sums.iter().position(|&sum| sum.is_some_and(|s: u64| s != 1_000_000_000_000))
    {
        return refused(10, state);
    }
    if let Some(state) =
        (1..=model.states).find(|&state| model.named[state] && !model.exits[state].is_empty())
    {
        return refused(16, state);
    }
    if model.exits[model.start].is_empty() {
        return refused(11, model.start);
    }
    Ok(model)
}

fn head(reader: &mut Reader) -> Result<Model, Refusal> {
    let head = reader.next(1)?;
    let (states, start) = (head as usize >> 12 & 0xFFF, head as usize & 0xFFF);
    if head >> 24 & 15 != 1 || !(1..=1_000).contains(&states) || !(1..=states).contains(&start) {
        return refused(6, 0);
    }
    let time = reader.quantity(2, 20, 1)?.figure();
    let level = reader.quantity(3, 20, 0)?.figure();
    let caps = reader.next(4)?;
    if caps & 0xFFF != 0 {
        return refused(4, 3);
    }
    let (steps, entries) = (caps >> 20 & 0xFF, caps >> 12 & 0xFF);
    if !(1..=24).contains(&steps) || !(1..=24).contains(&entries) {
        return refused(6, 3);
    }
    Ok(Model {
        states,
        start,
        time,
        level,
        steps: steps as usize,
        entries: entries as u8,
        named: [false; 1001],
        transitions: Vec::new(),
        exits: vec![Vec::new(); states + 1],
    })
}

/// Reads the words that name the generator's states, which rise.
fn named(reader: &mut Reader, model: &mut Model) -> Result<(), Refusal> {
    let (mut last, mut count) = (0, 0);
    while let Ok(word) = reader.next(12) {
        let (at, state) = (reader.at - 1, word as usize & 0xFFF);
        if word >> 12 & 0xFFFF != 0 {
            return refused(4, at);
        }
        if !(1..=model.states).contains(&state) {
            return refused(6, at);
        }
        if state <= last {
            return refused(15, at);
        }
        if count == 100 {
            return refused(9, at);
        }
        (last, count) = (state, count + 1);
        model.named[state] = true;
    }
    Ok(())
}

/// Reads the transitions to the end word; `sums` has the sum of the probabilities of each state with fast exits, in units of 10^-12.
fn transitions(
    reader: &mut Reader,
    model: &mut Model,
    sums: &mut [Option<u64>],
) -> Result<(), Refusal> {
    loop {
        let at = reader.at;
        let Some(&word) = reader.words.get(at) else {
            return refused(3, at);
        };
        match word >> 28 {
            15 if word << 4 != 0 => return refused(4, at),
            15 => {
                reader.at += 1;
                return Ok(());
            }
            5 | 7 => {}
            _ => return refused(3, at),
        }
        let (from, to, fast) = ends(model, word, at)?;
        reader.at += 1;
        let mut transition = Transition {
            from: from as u16,
            to: to as u16,
            fast,
            share: Figure::ZERO,
            mean: Figure::ZERO,
            deviation: Figure::ZERO,
        };
        if fast {
            transition.mean = reader.quantity(8, 20, 1)?.figure();
            transition.deviation = reader.quantity(9, 20, 0)?.figure();
            let probability = reader.quantity(10, 12, 1)?;
            let units = u64::from(probability.coefficient) * 10u64.pow(12 - probability.scale);
            sums[from] = Some(sums[from].unwrap_or(0) + units);
            transition.share = probability.figure();
        } else {
            transition.share = reader.quantity(6, 20, 1)?.figure();
        }
        model.exits[from].push(model.transitions.len() as u16);
        model.transitions.push(transition);
    }
}

/// The two states of a transition's word and whether it is fast, or why it is refused.
fn ends(model: &Model, word: u32, at: usize) -> Result<(usize, usize, bool), Refusal> {
    let (from, to, fast) = (word as usize >> 12 & 0xFFF, word as usize & 0xFFF, word >> 28 == 7);
    if word >> 24 & 15 != 0 {
        return refused(4, at);
    }
    let states = 1..=model.states;
    if !states.contains(&from) || !states.contains(&to) {
        return refused(6, at);
    }
    if from == to {
        return refused(7, at);
    }
    let stood = |&exit: &u16| {
        let other = &model.transitions[exit as usize];
        other.to as usize == to && other.fast == fast
    };
    if model.exits[from].iter().any(stood) {
        return refused(8, at);
    }
    if model.exits[from].len() == 16 || model.transitions.len() == 4_000 {
        return refused(9, at);
    }
    Ok((from, to, fast))
}
