//! Random figures, and pairs of them.

use reference::comparing::random::Random;
use reference::figure::Figure;
use reference::orprob::Pair;

/// 10^-9 times a number of at most nine digits; from 100,000,000 on these are all figures from 0.1
/// to 1.
pub fn billionths(number: u64) -> Figure {
    Figure::small(number).shifted(-9)
}

/// Nine digits: plain ones, nines, and ones beside a power of ten more often than chance has them.
fn digits(random: &mut Random) -> u64 {
    let few = |random: &mut Random| random.next() % 10;
    match random.size(0, 9) {
        0 => 100_000_000,
        1 => 999_999_999,
        2 => 100_000_000 * (1 + random.next() % 9),
        3 => 100_000_000 + few(random),
        4 => 999_999_999 - few(random),
        5 => 1_000_000 * (100 + random.next() % 900),
        _ => 100_000_000 + random.next() % 900_000_000,
    }
}

/// A figure that prints with this exponent.
pub fn about(random: &mut Random, exponent: i32) -> Figure {
    Figure::small(digits(random)).shifted(exponent - 8)
}

/// A figure that prints with an exponent from least to most; zero now and then.
pub fn share(random: &mut Random, least: i32, most: i32) -> Figure {
    if random.once_in(25) {
        return Figure::ZERO;
    }
    let exponent = random.between(i64::from(least), i64::from(most)) as i32;
    about(random, exponent)
}

/// A figure above 1, near it or far above.
pub fn above_one(random: &mut Random) -> Figure {
    match random.size(0, 5) {
        0 | 1 => Figure::small(100_000_001 + random.next() % 9).shifted(-8),
        2 => about(random, 2_008),
        3 => {
            let exponent = random.between(1, 2_008) as i32;
            about(random, exponent)
        }
        _ => {
            let exponent = random.between(0, 9) as i32;
            moved(about(random, exponent), 1)
        }
    }
}

/// A figure that isn't zero, so many units of the last digit further up or down; at the next power
/// of ten it ends.
pub fn moved(figure: Figure, units: i64) -> Figure {
    let (digits, power) = (figure.digits() as i64 + units, figure.power());
    if digits > 999_999_999 {
        return Figure::small(1).shifted(power + 9);
    }
    if digits < 100_000_000 {
        return Figure::small(999_999_999).shifted(power - 1);
    }
    Figure::small(digits as u64).shifted(power)
}

pub fn pair(lower: Figure, upper: Figure) -> Pair {
    Pair { lower: lower.into(), upper: upper.into() }
}

/// A pair with this figure as its lower or its upper; as the lower only if it is at most 1.
pub fn around(random: &mut Random, figure: Figure) -> Pair {
    if figure <= Figure::ONE && random.once_in(2) {
        let upper = above(random, figure);
        return pair(figure, upper);
    }
    let lower = below(random, figure);
    pair(lower, figure)
}

/// An upper for a lower.
fn above(random: &mut Random, lower: Figure) -> Figure {
    if lower.is_zero() {
        return if random.once_in(3) { lower } else { share(random, -12, -1) };
    }
    match random.size(0, 39) {
        0 => Figure::ONE,
        1 => above_one(random),
        2..=4 => lower.shifted(random.between(1, 3) as i32),
        5..=20 => moved(lower, random.between(1, 9)),
        _ => lower,
    }
}

/// A lower for an upper.
fn below(random: &mut Random, upper: Figure) -> Figure {
    let most = upper.min(Figure::ONE);
    if most.is_zero() {
        return most;
    }
    match random.size(0, 9) {
        0 => Figure::ZERO,
        1..=4 => most,
        5 | 6 => moved(most, -random.between(1, 9)),
        // Not below the least power that is allowed.
        _ if most.power() < -1_990 => most,
        _ => most.shifted(-random.between(1, 5) as i32),
    }
}
