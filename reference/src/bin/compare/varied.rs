//! The small models of `tests/data` in which one operation alone loses something, varied.

use crate::draft::Draft;
use crate::lossless::one_long_quantity;
use crate::random::Random;
use reference::model::{Law, Quantity};
use reference::{words, MOST_STEPS};
use std::sync::OnceLock;

const DATA: &str = include_str!("../../../tests/data/models.txt");

/// The words of the models for Item 2 of document 02 and of those made like them for Item 3, as
/// hexadecimal digits.
fn templates() -> &'static [&'static str] {
    static TEMPLATES: OnceLock<Vec<&'static str>> = OnceLock::new();
    TEMPLATES.get_or_init(|| {
        let chosen = |line: &&str| line.starts_with("02-") || line.starts_with("single-");
        DATA.lines().filter(chosen).filter_map(|line| line.split(' ').nth(2)).collect()
    })
}

fn draft_of(digits: &str) -> Option<Draft> {
    let digits = digits.as_bytes().chunks(8).map(|word| std::str::from_utf8(word).ok());
    let list = digits.map(|word| u32::from_str_radix(word?, 16).ok());
    let model = words::read(&list.collect::<Option<Vec<u32>>>()?, MOST_STEPS).ok()?;
    let mut draft = Draft::new(model.states, model.time);
    (draft.start, draft.prune) = (model.start, model.prune);
    (draft.step_limit, draft.entry_limit) = (model.step_limit, model.entry_limit);
    draft.named = model.named.iter().map(|&state| state as u32).collect();
    draft.transitions = model.transitions;
    Some(draft)
}

/// Another unit of time, by a power of ten: every figure keeps its digits, and each operation
/// loses what it lost. Nothing is changed where a scale would be out of range.
fn in_other_unit(draft: &Draft, power: i32) -> Option<Draft> {
    let scaled = |of: Quantity, by: i32| {
        let scale = u32::try_from(of.scale as i32 + by).ok().filter(|&scale| scale <= 20)?;
        Some(Quantity { coefficient: of.coefficient, scale })
    };
    let mut other = draft.clone();
    other.time = scaled(draft.time, power)?;
    for transition in &mut other.transitions {
        match &mut transition.law {
            Law::Slow { rate } => *rate = scaled(*rate, -power)?,
            Law::Fast { mean, deviation, .. } => {
                *mean = scaled(*mean, power)?;
                if deviation.coefficient > 0 {
                    *deviation = scaled(*deviation, power)?;
                }
            }
        }
    }
    Some(other)
}

/// One of the models, in another unit of time, and maybe with another order, limit or quantity.
pub fn varied(random: &mut Random) -> Draft {
    let template = random.pick(templates());
    let mut draft =
        draft_of(template).unwrap_or(Draft::new(2, Quantity { coefficient: 1, scale: 0 }));
    let power = random.between(-3, 3) as i32;
    draft = in_other_unit(&draft, power).unwrap_or(draft);
    match random.size(0, 7) {
        0 => random.shuffle(&mut draft.transitions),
        1 => draft.step_limit = random.word(1, 4),
        2 => one_long_quantity(random, &mut draft),
        _ => {}
    }
    draft
}
