use crate::{double, library, Error};
use core::cmp::Ordering;
use core::fmt;

const LEAST: u64 = 100_000_000;
const GREATEST: u64 = 999_999_999;

/// digits × 10^power: zero (held with power 0), or nine digits from 100,000,000 to 999,999,999.
#[derive(Clone, Copy, Debug, Default, PartialEq, Eq, Hash)]
#[repr(C)]
pub struct Figure {
    digits: u64,
    power: i32,
}

impl Figure {
    pub(crate) const ZERO: Figure = Figure { digits: 0, power: 0 };
    pub(crate) const ONE: Figure = Figure { digits: LEAST, power: -8 };
    /// The greatest of all.
    pub(crate) const MOST: Figure = Figure { digits: GREATEST, power: i32::MAX };

    /// The figure digits × 10^power, if they are one.
    pub const fn new(digits: u64, power: i32) -> Option<Figure> {
        let zero = digits == 0 && power == 0;
        if zero || (LEAST <= digits && digits <= GREATEST) {
            Some(Figure { digits, power })
        } else {
            None
        }
    }

    /// The figure digits × 10^power of at most nine digits, if its power is held in 32 bits.
    pub(crate) fn of(mut digits: u64, mut power: i64) -> Option<Figure> {
        while 0 < digits && digits < LEAST {
            digits *= 10;
            power = power.saturating_sub(1);
        }
        Figure::new(digits, power.try_into().ok()?)
    }

    /// Digits and a power that nobody has looked at, as the library may hand them over.
    #[cfg(test)]
    pub(crate) const fn unlooked(digits: u64, power: i32) -> Figure {
        Figure { digits, power }
    }

    pub const fn digits(self) -> u64 {
        self.digits
    }

    pub const fn power(self) -> i32 {
        self.power
    }

    /// Whether the figure is at or below a limit, as the proved library says. `<=` says the same and cannot fail; it is tested, not proved.
    pub fn at_or_below(self, limit: Figure) -> Result<bool, Error> {
        library::at_or_below(self, limit)
    }

    /// The least double that is not below the figure: for upper figures and for the cut part. Infinity where there is none.
    pub fn above(self) -> f64 {
        double::of(self.digits, self.power, true)
    }

    /// The greatest double that is not above the figure: for lower figures.
    pub fn below(self) -> f64 {
        double::of(self.digits, self.power, false)
    }
}

/// By value. All figures but zero have nine digits, so that the power decides before the digits do.
impl Ord for Figure {
    fn cmp(&self, other: &Figure) -> Ordering {
        match (self.digits, other.digits) {
            (0, _) | (_, 0) => self.digits.cmp(&other.digits),
            _ => (self.power, self.digits).cmp(&(other.power, other.digits)),
        }
    }
}

impl PartialOrd for Figure {
    fn partial_cmp(&self, other: &Figure) -> Option<Ordering> {
        Some(self.cmp(other))
    }
}

/// One digit, point, eight digits, E, exponent; zero as 0.
impl fmt::Display for Figure {
    fn fmt(&self, out: &mut fmt::Formatter<'_>) -> fmt::Result {
        if self.digits == 0 {
            return write!(out, "0");
        }
        let exponent = i64::from(self.power) + 8;
        write!(out, "{}.{:08}E{exponent}", self.digits / LEAST, self.digits % LEAST)
    }
}
