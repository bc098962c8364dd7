//! The kinds of lists of pairs that are compared, and which kind the list of a number is.

use crate::damage::{damage, damage_digits, damage_power};
use crate::figures::{about, above_one, around, billionths, moved, pair, share};
use reference::comparing::random::Random;
use reference::figure::Figure;
use reference::orprob::{Pair, MOST_PAIRS};

pub struct Case {
    pub kind: &'static str,
    pub pairs: Vec<Pair>,
}

type Maker = fn(&mut Random) -> Vec<Pair>;

/// How often each kind comes, in thousandths or so; lists of a few pairs take what is left.
const KINDS: [(u64, &str, Maker); 17] = [
    (100, "up to 16 pairs", |random| usual(random, 1, 16)),
    (60, "15 or 16 pairs", |random| usual(random, 15, 16)),
    (10, "no pair", |_| Vec::new()),
    (50, "17 pairs or more", too_many),
    (60, "figures near 1", near_one),
    (80, "tiny and large figures", tiny_and_large),
    (60, "s passes 1 by rounding", passing_one),
    (40, "uppers above 1", |random| list(random, 5, above_one)),
    (60, "figures of one digit", |random| list(random, 16, plain)),
    (60, "one operation loses", one_loss),
    (50, "figures nearly alike", alike),
    (40, "powers at both ends", ends),
    (50, "a lower beside its upper", |random| with_one(random, beside_upper)),
    (50, "a lower beside 1", |random| with_one(random, beside_one)),
    (60, "digits of no figure", |random| damaged(random, 1, damage_digits)),
    (50, "a power out of range", |random| damaged(random, 1, damage_power)),
    (40, "several bad pairs", several_bad),
];

const OUT_OF: u64 = 1_000;

/// The list of a number, under a seed.
pub fn case(seed: u64, number: u64) -> Case {
    let mut random = Random::new(seed, number);
    let mut draw = random.next() % OUT_OF;
    for (weight, kind, maker) in KINDS {
        if draw < weight {
            return Case { kind, pairs: maker(&mut random) };
        }
        draw -= weight;
    }
    Case { kind: "a few pairs", pairs: usual(&mut random, 1, 4) }
}

/// Figures as subsystems have them, in pairs.
fn usual(random: &mut Random, fewest: usize, most: usize) -> Vec<Pair> {
    let (least, most_exponent) = random.pick(&[(-1, -1), (-3, -1), (-10, -1), (-10, -3), (-6, -5)]);
    let number = random.size(fewest, most);
    let draw = |random: &mut Random| share(random, least, most_exponent);
    (0..number).map(|_| around_with(random, draw)).collect()
}

fn around_with(random: &mut Random, draw: impl Fn(&mut Random) -> Figure) -> Pair {
    let figure = draw(random);
    around(random, figure)
}

/// Pairs around figures that are drawn so, and now and then around others.
fn list(random: &mut Random, most: usize, draw: impl Fn(&mut Random) -> Figure) -> Vec<Pair> {
    let number = random.size(1, most);
    let others = random.once_in(2);
    let one = |random: &mut Random| {
        if others && random.once_in(3) {
            around_with(random, |random| share(random, -10, -1))
        } else {
            around_with(random, &draw)
        }
    };
    (0..number).map(|_| one(random)).collect()
}

/// 17 pairs, 18, a few more or many (272 is 16 in eight bits); bad ones among them half the time,
/// and sometimes most of them.
fn too_many(random: &mut Random) -> Vec<Pair> {
    let number = random.pick(&[17, 17, 17, 18, 19, 25, 32, 33, 40, 272]);
    let mut pairs = usual(random, number, number);
    let bad = random.pick(&[0, 0, 0, 1, 2, number]);
    for _ in 0..bad {
        let place = random.size(0, number - 1);
        damage(random, &mut pairs[place]);
    }
    pairs
}

fn near_one(random: &mut Random) -> Vec<Pair> {
    list(random, 16, |random| match random.size(0, 3) {
        0 => Figure::ONE,
        1 => billionths(999_999_999 - random.next() % 3),
        2 => billionths(999_999_999 - random.next() % 1_000),
        _ => billionths(990_000_000 + random.next() % 10_000_000),
    })
}

/// Tiny figures first, or large ones, or mixed.
fn tiny_and_large(random: &mut Random) -> Vec<Pair> {
    let least = random.pick(&[-19, -30, -30, -300]);
    let tiny = |random: &mut Random| {
        let exponent = random.between(least, -9) as i32;
        about(random, exponent)
    };
    let number = random.size(1, 4);
    let mut pairs: Vec<Pair> = (0..number).map(|_| around_with(random, tiny)).collect();
    let large: Vec<Pair> = (0..random.size(1, 4))
        .map(|_| around_with(random, |random| share(random, -2, -1)))
        .collect();
    match random.size(0, 2) {
        0 => pairs.extend(large),
        1 => pairs = [large, pairs].concat(),
        _ => {
            pairs.extend(large);
            random.shuffle(&mut pairs);
        }
    }
    pairs
}

/// An s below 0.1 of which 1 − s is no figure, then 1 or what is next to it, then maybe others.
fn passing_one(random: &mut Random) -> Vec<Pair> {
    let exponent = random.between(-20, -2) as i32;
    let mut figures = vec![moved(about(random, exponent), 1)];
    if random.once_in(3) {
        figures.push(share(random, -5, -1));
    }
    figures.push(if random.once_in(2) {
        Figure::ONE
    } else {
        billionths(999_999_999 - random.next() % 5)
    });
    for _ in 0..random.size(0, 3) {
        figures.push(share(random, -10, -1));
    }
    figures.into_iter().map(|figure| around(random, figure)).collect()
}

/// Zero, 1, or one digit behind some zeros: many operations lose nothing.
fn plain(random: &mut Random) -> Figure {
    match random.size(0, 7) {
        0 => Figure::ZERO,
        1 => Figure::ONE,
        2 => Figure::small(5).shifted(-1),
        3 => Figure::small(1).shifted(-random.between(1, 12) as i32),
        _ => Figure::small(1 + random.next() % 9).shifted(-random.between(1, 4) as i32),
    }
}

/// A figure and a second one with which the difference alone loses, the product alone or the sum
/// alone, in lowers as in uppers.
fn one_loss(random: &mut Random) -> Vec<Pair> {
    let (first, second) = match random.size(0, 4) {
        0 => {
            let exponent = random.between(-14, -2) as i32;
            (moved(about(random, exponent), 1), Figure::ZERO)
        }
        1 => {
            let exponent = random.pick(&[-3, -4, -5]);
            let power = |exponent| Figure::small(1).shifted(exponent);
            (power(exponent - 9), power(exponent))
        }
        2 => (about(random, -1), about(random, -1)),
        3 => {
            let exponent = random.between(-14, -9) as i32;
            (billionths(500_000_000), about(random, exponent))
        }
        _ => {
            let few = Figure::small(1_001 + random.next() % 9_000);
            let s = Figure::small(1 + random.next() % 9).shifted(-1);
            (s, few.shifted(-random.between(9, 12) as i32))
        }
    };
    let mut pairs = vec![pair(first, first), pair(second, second)];
    if random.once_in(3) {
        pairs.push(around_with(random, |random| share(random, -10, -1)));
    }
    pairs
}

/// Figures within some units of the last digit of each other.
fn alike(random: &mut Random) -> Vec<Pair> {
    let exponent = random.between(-9, -1) as i32;
    let figure = about(random, exponent);
    let near = |random: &mut Random| moved(figure, random.between(-9, 9));
    let number = random.size(1, 16);
    let one = |random: &mut Random| {
        let (one, other) = (near(random), near(random));
        pair(one.min(other), one.max(other))
    };
    (0..number).map(|_| one(random)).collect()
}

/// Powers of −2,000 and 2,000, and a little inside; now and then 16 of the least.
fn ends(random: &mut Random) -> Vec<Pair> {
    if random.once_in(8) {
        return (0..MOST_PAIRS).map(|_| least(random)).collect();
    }
    let one = |random: &mut Random| match random.size(0, 4) {
        0 => {
            let exponent = random.between(1_999, 2_008) as i32;
            around_with(random, |random| about(random, exponent))
        }
        1 => around_with(random, |random| share(random, -3, -1)),
        2 => {
            let lower = about(random, -1_992);
            pair(lower, lower.max(share(random, -3, -1)))
        }
        _ => least(random),
    };
    (0..random.size(1, 5)).map(|_| one(random)).collect()
}

/// A lower with the power −2,000, and an upper with that or a little more.
fn least(random: &mut Random) -> Pair {
    let (one, other) = (about(random, -1_992), about(random, -1_992));
    pair(one.min(other), one.max(other).shifted(random.between(0, 9) as i32))
}

/// A usual list with one pair that is drawn so, anywhere in it.
fn with_one(random: &mut Random, draw: fn(&mut Random) -> Pair) -> Vec<Pair> {
    let mut pairs = usual(random, 1, 16);
    let place = random.size(0, pairs.len() - 1);
    pairs[place] = draw(random);
    pairs
}

/// A lower at its upper, one unit of the last digit below it, or one above it.
fn beside_upper(random: &mut Random) -> Pair {
    let exponent = random.between(-12, -1) as i32;
    let upper = about(random, exponent);
    let lower = match random.size(0, 3) {
        0 => upper,
        1 => moved(upper, -1),
        2 => moved(upper, 1),
        // The digits are in another order than the figures.
        _ => Figure::small(999_999_999).shifted(upper.power() - 1),
    };
    pair(lower, upper)
}

/// A lower of 1, next to 1 on either side, or further above; its upper is not below it.
fn beside_one(random: &mut Random) -> Pair {
    let lower = match random.size(0, 4) {
        0 | 1 => Figure::ONE,
        2 => moved(Figure::ONE, -1),
        3 => moved(Figure::ONE, 1),
        _ => above_one(random),
    };
    let upper = if random.once_in(2) { lower } else { above_one(random) };
    pair(lower, lower.max(upper))
}

/// A usual list of which so many pairs at most are damaged.
fn damaged(random: &mut Random, times: usize, how: fn(&mut Random, &mut Pair)) -> Vec<Pair> {
    let mut pairs = usual(random, 1, 16);
    for _ in 0..times {
        let place = random.size(0, pairs.len() - 1);
        how(random, &mut pairs[place]);
    }
    pairs
}

fn several_bad(random: &mut Random) -> Vec<Pair> {
    let times = random.size(2, 4);
    damaged(random, times, damage)
}
