//! Random quantities of several tastes, and probabilities that sum to exactly 1.

use crate::random::Random;
use reference::model::Quantity;

/// What sort of quantities a model has.
#[derive(Clone, Copy, Debug, PartialEq, Eq)]
pub enum Taste {
    /// Rates and means for which lower bounds are mostly above zero.
    Tame,
    /// As tame, but with one digit each, so that many results are exact.
    Round,
    /// One digit or a few, means in a plain ratio to the mission time, deviations mostly 0: most
    /// operations lose nothing.
    Plain,
    /// Means about as long as the mission, so that the grains run out.
    Coarse,
    /// Any coefficient and any scale.
    Wild,
    /// The least and the greatest coefficients and scales.
    Ends,
}

pub const TASTES: [Taste; 8] = [
    Taste::Tame,
    Taste::Tame,
    Taste::Tame,
    Taste::Round,
    Taste::Plain,
    Taste::Coarse,
    Taste::Wild,
    Taste::Ends,
];

pub fn quantity(coefficient: u32, scale: u32) -> Quantity {
    Quantity { coefficient, scale }
}

/// A coefficient of 1 to 6 digits, long ones and nines more often than chance has them.
fn coefficient(random: &mut Random, length: u32) -> u32 {
    let least = 10u32.pow(length - 1);
    match random.size(0, 9) {
        0 => least,
        1 => 10 * least - 1,
        _ => random.word(least, 10 * least - 1),
    }
}

/// About 10^exponent, if a scale of 0 to 20 has it.
fn about(random: &mut Random, exponent: i32, most_length: u32) -> Quantity {
    let fewest = (exponent + 1).clamp(1, 6) as u32;
    let length = random.word(fewest, most_length.max(fewest));
    let scale = (length as i32 - 1 - exponent).clamp(0, 20) as u32;
    quantity(coefficient(random, length), scale)
}

fn wild(random: &mut Random) -> Quantity {
    let length = random.word(1, 6);
    quantity(coefficient(random, length), random.word(0, 20))
}

fn ends(random: &mut Random) -> Quantity {
    quantity(random.pick(&[1, 999_999]), random.pick(&[0, 20]))
}

/// The power of ten of a quantity that isn't zero.
fn magnitude(of: Quantity) -> i32 {
    of.coefficient.max(1).ilog10() as i32 - of.scale as i32
}

impl Taste {
    fn digits(self, random: &mut Random) -> u32 {
        match self {
            Taste::Round => 1,
            _ => random.pick(&[1, 3, 6, 6]),
        }
    }

    /// T
    pub fn time(self, random: &mut Random) -> Quantity {
        match self {
            Taste::Ends => ends(random),
            Taste::Wild => wild(random),
            Taste::Plain => plain_time(random),
            _ => {
                let (exponent, digits) = (random.between(-2, 4) as i32, self.digits(random));
                about(random, exponent, digits)
            }
        }
    }

    /// A rate, with the mission time known.
    pub fn rate(self, random: &mut Random, time: Quantity) -> Quantity {
        match self {
            Taste::Ends => ends(random),
            Taste::Wild => wild(random),
            Taste::Plain => {
                let exponent = random.pick(&[-5, -4, -3, -2, -2, -1, 0, 1]) - magnitude(time);
                plain(random.pick(&[1, 1, 2, 3, 4, 5, 6, 8, 9]), exponent)
            }
            _ => {
                let exponent = random.between(-7, -1) as i32 - magnitude(time);
                let digits = self.digits(random);
                about(random, exponent, digits)
            }
        }
    }

    /// A conditional mean, with the mission time known.
    pub fn mean(self, random: &mut Random, time: Quantity) -> Quantity {
        let (low, high) = match self {
            Taste::Ends => return ends(random),
            Taste::Wild => return wild(random),
            Taste::Plain => {
                let times = random.pick(&[1, 1, 2, 3, 4, 5, 7]);
                let exponent = -random.pick(&[0, 2, 4, 5, 8, 9, 9, 10, 12]);
                return plain(times * time.coefficient, exponent - time.scale as i32);
            }
            Taste::Coarse => (-2, 0),
            _ => (-9, -3),
        };
        let exponent = random.between(low, high) as i32 + magnitude(time);
        let digits = self.digits(random);
        about(random, exponent, digits)
    }

    /// A conditional standard deviation, with the mean known.
    pub fn deviation(self, random: &mut Random, mean: Quantity) -> Quantity {
        match (random.size(0, 3), self) {
            (0, _) => quantity(0, random.word(0, 20)),
            (1, Taste::Plain) => quantity(0, 0),
            (2, Taste::Plain) if mean.coefficient < 500_000 => {
                quantity(2 * mean.coefficient, mean.scale)
            }
            (1, Taste::Ends) => ends(random),
            (1, Taste::Wild) => wild(random),
            (1, _) => {
                let exponent = magnitude(mean) + random.between(-3, 1) as i32;
                let digits = self.digits(random);
                about(random, exponent, digits)
            }
            _ => mean,
        }
    }
}

/// coefficient × 10^exponent, if a scale of 0 to 20 and six digits have it, or about that.
fn plain(coefficient: u32, exponent: i32) -> Quantity {
    let (mut coefficient, mut exponent) = (coefficient.min(999_999), exponent);
    while exponent > 0 && coefficient < 100_000 {
        coefficient *= 10;
        exponent -= 1;
    }
    quantity(coefficient, exponent.clamp(-20, 0).unsigned_abs())
}

/// A power of ten most of the time, one digit, or four whose square fits a figure.
fn plain_time(random: &mut Random) -> Quantity {
    let coefficient = match random.size(0, 7) {
        0 => random.word(2, 9),
        1 => random.pick(&[16, 25, 64, 125, 625, 1_024, 1_234, 2_048]),
        _ => 1,
    };
    plain(coefficient, random.between(-3, 2) as i32)
}

/// So many probabilities (1 to 16) that sum to exactly 1, in random order.
pub fn probabilities(random: &mut Random, taste: Taste, number: usize) -> Vec<Quantity> {
    if number == 1 {
        let scale = random.word(0, 5);
        return vec![quantity(10u32.pow(scale), scale)];
    }
    let mut parts = if taste == Taste::Plain && number < 10 {
        parts_of(random, 10, number, 1)
    } else if number > 2 && random.once_in(3) {
        // The last part of a millionth is parted once more, to twelve places.
        let mut parts = parts_of(random, 999_999, number - 2, 6);
        parts.extend(parts_of(random, 1_000_000, 2, 12));
        parts
    } else {
        let least = if number > 9 { 2 } else { 1 };
        let scale = random.word(least, 6);
        parts_of(random, 10u32.pow(scale), number, scale)
    };
    random.shuffle(&mut parts);
    parts
}

/// A whole number parted into so many positive whole numbers, each over 10^scale.
fn parts_of(random: &mut Random, whole: u32, number: usize, scale: u32) -> Vec<Quantity> {
    let mut left = whole;
    let mut parts = Vec::new();
    for still in (0..number as u32).rev() {
        let most = if still == 0 { left } else { (left - still).min(2 * left / (still + 1)) };
        let least = if still == 0 { left } else { 1 };
        let part = random.word(least, most.max(least));
        left -= part;
        parts.push(quantity(part, scale));
    }
    parts
}
