//! The kinds of models that are compared, and which kind the model of a number is.

use crate::damage::{damage_draft, damage_words, random_word};
use crate::draft::Draft;
use crate::edges;
use crate::lossless;
use crate::named;
use crate::quantities::{Taste, TASTES};
use crate::random::Random;
use crate::shapes::SHAPES;
use crate::varied;
use reference::stream::Record;
use reference::words::MOST_WORDS;
use reference::{assess, rows, words, Answer, MOST_STEPS, ROWS_LENT};

pub struct Case {
    pub kind: &'static str,
    pub record: Record,
}

/// A model before the rows are lent.
struct Asked {
    budget: u64,
    words: Vec<u32>,
}

type Maker = fn(&mut Random) -> Asked;

/// How often each kind comes, in thousandths or so; the shapes share what is left.
const KINDS: [(u64, &str, Maker); 21] = [
    (120, "budget at, one below, one above", at_budget),
    (60, "quantities at both ends", |random| shaped(random, Some(Taste::Ends))),
    (80, "prune level at or near U", |random| usual(random, edges::prune_near_upper)),
    (30, "grains at a cube or square", |random| usual(random, edges::sharp_grains)),
    (10, "carries", |random| usual(random, edges::carries)),
    (10, "totals at an edge", |random| usual(random, edges::totals_at_an_edge)),
    (20, "factors near zero", |random| usual(random, edges::factors_near_zero)),
    (30, "sums within 10^-12 of 1", |random| usual(random, edges::sums_near_one)),
    (150, "damaged once", |random| damaged(random, 1)),
    (120, "damaged twice", |random| damaged(random, 2)),
    (20, "random words", random_words),
    (10, "budget out of range", out_of_range_budget),
    (5, "4,000 transitions and one more", full_table),
    (1, "budget of 1,000,000", whole_budget),
    (60, "nearly lossless", |random| usual(random, lossless::nearly_lossless)),
    (30, "one operation loses", |random| usual(random, lossless::one_loss)),
    (70, "one operation loses, from data", |random| usual(random, varied::varied)),
    (2, "hundreds of rows", |random| usual(random, edges::hundreds_of_rows)),
    (40, "generator's states", |random| usual(random, named::shaped)),
    (40, "generator's states, wrong", wrongly_named),
    (8, "a hundred generator's states", |random| usual(random, named::about_a_hundred)),
];

const OUT_OF: u64 = 1_000;

/// The model of a number, under a seed, and how many rows are lent with it.
pub fn case(seed: u64, number: u64) -> Case {
    let (kind, Asked { budget, words }) = model(&mut Random::new(seed, number));
    let rows = rows_lent(&mut Random::new(!seed, number), &words);
    Case { kind, record: Record { budget, rows, words } }
}

fn model(random: &mut Random) -> (&'static str, Asked) {
    let mut draw = random.next() % OUT_OF;
    for (weight, kind, maker) in KINDS {
        if draw < weight {
            return (kind, maker(random));
        }
        draw -= weight;
    }
    let (kind, shape) = random.pick(&SHAPES);
    let taste = random.pick(&TASTES);
    (kind, usual(random, |random| shape(random, taste)))
}

/// As many rows as the model needs, or about as many, or none, or those of the report program.
fn rows_lent(random: &mut Random, list: &[u32]) -> u32 {
    let needed = words::read(list, 1).map_or(2, |model| rows::states_of(&model).len());
    let lent = match random.size(0, 15) {
        0 => 0,
        1 | 2 => needed.saturating_sub(1),
        3..=6 => needed,
        7 | 8 => needed + 1,
        9 => random.size(0, needed + 3),
        10 => random.size(0, ROWS_LENT + 100),
        _ => ROWS_LENT,
    };
    lent as u32
}

/// A budget that keeps most trees whole, and the others short.
fn usual_budget(random: &mut Random) -> u64 {
    match random.size(0, 9) {
        0 => random.next() % 40 + 1,
        1 => random.next() % 20_000 + 1,
        _ => 2_000,
    }
}

fn usual(random: &mut Random, shape: impl Fn(&mut Random) -> Draft) -> Asked {
    let mut draft = shape(random);
    named::name_maybe(random, &mut draft);
    Asked { words: draft.words(), budget: usual_budget(random) }
}

fn random_draft(random: &mut Random, taste: Option<Taste>) -> Draft {
    let (_, shape) = random.pick(&SHAPES);
    let taste = taste.unwrap_or(random.pick(&TASTES));
    let mut draft = shape(random, taste);
    named::name_maybe(random, &mut draft);
    draft
}

fn shaped(random: &mut Random, taste: Option<Taste>) -> Asked {
    usual(random, |random| random_draft(random, taste))
}

/// A budget of the number of steps, or one off.
fn at_budget(random: &mut Random) -> Asked {
    let words = random_draft(random, None).words();
    let steps = match assess(&words, 5_000) {
        Answer::Report(report) => report.counts.steps,
        Answer::Refused(_) => 5_000,
    };
    Asked { budget: steps + 1 - random.next() % 3, words }
}

fn damaged(random: &mut Random, times: usize) -> Asked {
    let mut draft = random_draft(random, None);
    let on_draft = random.size(0, times);
    for _ in 0..on_draft {
        damage_draft(random, &mut draft);
    }
    let mut words = draft.words();
    for _ in on_draft..times {
        damage_words(random, &mut words);
    }
    let budget = if times > 1 && random.once_in(20) { 0 } else { usual_budget(random) };
    Asked { budget, words }
}

/// Words that name states where they may not, or otherwise than they may.
fn wrongly_named(random: &mut Random) -> Asked {
    match random.size(0, 3) {
        0 => usual(random, named::with_a_wrong_sum),
        1 => {
            let mut asked = usual(random, named::shaped);
            named::misplace(random, &mut asked.words);
            asked
        }
        _ => usual(random, named::wrong),
    }
}

fn random_words(random: &mut Random) -> Asked {
    let mut words = random_draft(random, None).words();
    words.truncate(random.size(0, 8));
    for _ in 0..random.size(0, 12) {
        words.push(random_word(random));
    }
    Asked { budget: usual_budget(random), words }
}

fn out_of_range_budget(random: &mut Random) -> Asked {
    let words = random_draft(random, None).words();
    let large = [0, MOST_STEPS + 1, u64::from(u32::MAX) + 2, 1 << 63, u64::MAX];
    Asked { budget: random.pick(&large), words }
}

/// 4,000 transitions, or one too many; with 100 named states as many words as there may be, and
/// some more.
fn full_table(random: &mut Random) -> Asked {
    let mut draft = edges::full_table(random);
    match random.size(0, 4) {
        0 => {
            let rate = Taste::Tame.rate(random, draft.time);
            draft.slow(draft.states, 1, rate);
        }
        1 => draft.transitions.extend(draft.transitions.first().copied()),
        _ => {}
    }
    if random.once_in(2) {
        named::name_many(random, &mut draft);
    }
    let mut words = draft.words();
    if random.once_in(5) {
        words.resize(random.size(MOST_WORDS - 1, MOST_WORDS + 2), 0);
    }
    Asked { budget: random.pick(&[1, 1_000, 4_000]), words }
}

/// Trees of thousands to a million steps, and larger ones than any budget allows.
fn whole_budget(random: &mut Random) -> Asked {
    Asked { budget: MOST_STEPS, words: edges::large_tree(random).words() }
}
