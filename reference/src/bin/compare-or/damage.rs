//! Pairs that are turned away, and why.

use crate::figures::{above_one, moved, pair, share};
use reference::comparing::random::Random;
use reference::figure::Figure;
use reference::orprob::{Pair, Parts, WIDEST_POWER};

/// Digits that are no figure's; the lower 32 bits of the last two are.
const NO_DIGITS: [u64; 14] = [
    1,
    9,
    10_000_000,
    12_345_678,
    99_999_999,
    99_999_999,
    1_000_000_000,
    1_000_000_000,
    1_234_567_890,
    9_999_999_999,
    u64::MAX,
    1 << 63,
    (1 << 32) + 123_456_789,
    (7 << 32) + 999_999_999,
];

/// Powers out of range; the lower 16 bits of two are in range.
const NO_POWERS: [i32; 14] = [
    -2_001,
    -2_001,
    -2_001,
    -2_002,
    -2_008,
    -65_545,
    i32::MIN,
    2_001,
    2_001,
    2_001,
    2_008,
    65_527,
    i32::MAX - 7,
    i32::MAX,
];

/// The lower or the upper of a pair.
fn one_of<'a>(random: &mut Random, pair: &'a mut Pair) -> &'a mut Parts {
    if random.once_in(2) {
        &mut pair.lower
    } else {
        &mut pair.upper
    }
}

/// Digits that are no figure's, or a zero with a power.
pub fn damage_digits(random: &mut Random, pair: &mut Pair) {
    let zero = random.once_in(3);
    let digits = if zero { 0 } else { random.pick(&NO_DIGITS) };
    let power = random.pick(&[1, -1, 8, -8, -9, 2_000, -2_000, 2_001]);
    let parts = one_of(random, pair);
    parts.digits = digits;
    if zero {
        parts.power = power;
    }
}

/// A power out of range, of a figure that isn't zero. Below a tiny upper the lower is sometimes 0,
/// so that nothing else is wrong.
pub fn damage_power(random: &mut Random, pair: &mut Pair) {
    let power = random.pick(&NO_POWERS);
    let parts = one_of(random, pair);
    *parts = Parts { digits: parts.digits.max(100_000_000), power };
    if random.once_in(2) && pair.upper.power < -WIDEST_POWER {
        pair.lower = Figure::ZERO.into();
    }
}

/// Any damage.
pub fn damage(random: &mut Random, damaged: &mut Pair) {
    match random.size(0, 4) {
        0 | 1 => damage_digits(random, damaged),
        2 => damage_power(random, damaged),
        3 => {
            let lower = moved(Figure::ONE, 1);
            *damaged = pair(lower, above_one(random).max(lower));
        }
        _ => {
            let upper = share(random, -10, -1);
            let lower = if upper.is_zero() { Figure::ONE } else { moved(upper, 1) };
            *damaged = pair(lower, upper);
        }
    }
}

/// The reasons for refusal 18 that can stand alone. (A lower with a power above 2,000 is above 1
/// too.)
pub const REASONS: [&str; 11] = [
    "too few digits in a lower",
    "too few digits in an upper",
    "too many digits in a lower",
    "too many digits in an upper",
    "a zero with a power in a lower",
    "a zero with a power in an upper",
    "a power below -2,000 in a lower",
    "a power below -2,000 in an upper",
    "a power above 2,000 in an upper",
    "a lower above 1",
    "a lower above its upper",
];

/// Which of the reasons hold for a pair.
pub fn reasons(pair: &Pair) -> [bool; 11] {
    let few = |parts: Parts| (1..=99_999_999).contains(&parts.digits);
    let many = |parts: Parts| parts.digits > 999_999_999;
    let zero = |parts: Parts| parts.digits == 0 && parts.power != 0;
    let deep = |parts: Parts| parts.digits > 0 && parts.power < -WIDEST_POWER;
    let (lower, upper) = (pair.lower, pair.upper);
    let figures =
        (Figure::held(lower.digits, lower.power), Figure::held(upper.digits, upper.power));
    [
        few(lower),
        few(upper),
        many(lower),
        many(upper),
        zero(lower),
        zero(upper),
        deep(lower),
        deep(upper),
        upper.digits > 0 && upper.power > WIDEST_POWER,
        figures.0.is_some_and(|lower| lower > Figure::ONE),
        matches!(figures, (Some(lower), Some(upper)) if lower > upper),
    ]
}
