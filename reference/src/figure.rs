//! Figures: zero, or a whole number of a fixed length times a power of ten. Each operation rounds
//! once, and tells whether it kept the number as it was (document 02, Item 2).

use crate::faults::{planted, present, Fault};
use crate::model::Quantity;
use std::cmp::Ordering;
use std::fmt;

/// To which side an operation rounds.
#[derive(Clone, Copy, Debug, PartialEq, Eq)]
pub enum Side {
    Up,
    Down,
}

use Side::{Down, Up};

/// Zero (digits 0, power 0), or digits × 10^power where digits has exactly `LENGTH` decimal digits.
#[derive(Clone, Copy, Debug, PartialEq, Eq)]
pub struct Decimal<const LENGTH: u32> {
    digits: u64,
    power: i32,
}

/// A figure of document 01.
pub type Figure = Decimal<9>;

/// A running total of document 01.
pub type Total = Decimal<18>;

/// A rounded number, and whether nothing was lost: by the operation, and where [`crate::marked`]
/// puts operations together, by any of them.
#[derive(Clone, Copy, Debug, PartialEq, Eq)]
pub struct Marked<const LENGTH: u32> {
    pub value: Decimal<LENGTH>,
    pub kept: bool,
}

/// The widest gap of powers at which two numbers are brought to one power: 18 + 20 digits fit 128
/// bits.
const WIDEST_GAP: u32 = 20;

impl<const LENGTH: u32> Decimal<LENGTH> {
    pub const ZERO: Self = Decimal { digits: 0, power: 0 };
    pub const ONE: Self = Decimal { digits: 10u64.pow(LENGTH - 1), power: 1 - LENGTH as i32 };

    pub fn is_zero(self) -> bool {
        self.digits == 0
    }

    pub fn digits(self) -> u64 {
        self.digits
    }

    pub fn power(self) -> i32 {
        self.power
    }

    /// value × 10^power on one side. With `more`, what is rounded lies strictly between value and
    /// value + 1; the value then has at least `LENGTH` digits.
    fn rounded(value: u128, power: i32, more: bool, side: Side) -> Marked<LENGTH> {
        if value == 0 {
            return Self::ZERO.kept();
        }
        let length = length_of(value);
        if length <= LENGTH {
            let lift = LENGTH - length;
            let digits = value as u64 * ten_to(lift) as u64;
            let value = Self::carried(digits, more && side == Up, power - lift as i32);
            return Marked { value, kept: !more };
        }
        let drop = length - LENGTH;
        let (digits, rest) = divided(value, ten_to(drop));
        let kept = !more && rest == 0;
        let value = Self::carried(digits as u64, !kept && side == Up, power + drop as i32);
        Marked { value, kept }
    }

    /// This number, with nothing lost.
    pub fn kept(self) -> Marked<LENGTH> {
        Marked { value: self, kept: true }
    }

    /// The digits, one more if asked for, with the carry into the power when they become too long.
    fn carried(digits: u64, one_more: bool, power: i32) -> Self {
        let digits = digits + u64::from(one_more);
        if digits < const { 10u64.pow(LENGTH) } {
            return Decimal { digits, power };
        }
        let carry = i32::from(!planted(Fault::CarryLost));
        Decimal { digits: digits / 10, power: power + carry }
    }

    /// A whole number, rounded.
    pub fn whole(number: u64, side: Side) -> Marked<LENGTH> {
        Self::rounded(u128::from(number), 0, false, side)
    }

    pub fn times(self, other: Self, side: Side) -> Marked<LENGTH> {
        let product = u128::from(self.digits) * u128::from(other.digits);
        let power = self.power + other.power;
        Self::faulty_product(product, power, side)
            .unwrap_or_else(|| Self::rounded(product, power, false, side))
    }

    /// The product by a planted fault, if it is one of these and spoils this product.
    fn faulty_product(product: u128, power: i32, side: Side) -> Option<Marked<LENGTH>> {
        let fault = present()?;
        let (least_long, gain_of_short) = (ten_to(2 * LENGTH - 1), LENGTH as i32 - 1);
        match fault {
            Fault::EdgeProductShort if product == least_long => {
                // The quotient has a digit too many, and drops it without a carry.
                let digits = ten_to(LENGTH - 1) as u64;
                Some(Decimal { digits, power: power + gain_of_short }.kept())
            }
            Fault::ShortProductCut if (1..least_long).contains(&product) => {
                // The quotient has a digit too few, and a zero makes up for it.
                let (digits, rest) = divided(product, ten_to(LENGTH));
                let digits = digits as u64 + u64::from(rest != 0 && side == Up);
                let value = Self::carried(10 * digits, false, power + gain_of_short);
                Some(Marked { value, kept: rest == 0 })
            }
            Fault::LongProductLow if product >= least_long => {
                Some(Self::rounded(product, power - 1, false, side))
            }
            _ => None,
        }
    }

    /// The quotient; the divisor is not zero.
    pub fn over(self, divisor: Self, side: Side) -> Marked<LENGTH> {
        let lift = LENGTH + 1;
        let lifted = u128::from(self.digits) * ten_to(lift);
        let (quotient, rest) = divided(lifted, u128::from(divisor.digits));
        Self::rounded(quotient, self.power - divisor.power - lift as i32, rest != 0, side)
    }

    pub fn plus(self, other: Self, side: Side) -> Marked<LENGTH> {
        if self.is_zero() || other.is_zero() {
            return if self.is_zero() { other } else { self }.kept();
        }
        let (high, low) = if self.power >= other.power { (self, other) } else { (other, self) };
        let gap = high.power.abs_diff(low.power);
        if gap > WIDEST_GAP {
            let more = !planted(Fault::TinyTermLost);
            return Self::rounded(u128::from(high.digits), high.power, more, side);
        }
        let sum = u128::from(high.digits) * ten_to(gap) + u128::from(low.digits);
        Self::rounded(sum, low.power, false, side)
    }

    /// The difference; 0 where it isn't positive, which loses nothing.
    pub fn minus(self, other: Self, side: Side) -> Marked<LENGTH> {
        if other.is_zero() {
            return self.kept();
        }
        if self <= other {
            let kept = self == other || !planted(Fault::NegativeCounted);
            return Marked { value: Self::ZERO, kept };
        }
        let gap = self.power.abs_diff(other.power);
        if gap > WIDEST_GAP && planted(Fault::TinyDifferenceLost) {
            return self.kept();
        }
        if gap > WIDEST_GAP {
            let just_below = u128::from(self.digits) * 10 - 1;
            return Self::rounded(just_below, self.power - 1, true, side);
        }
        let difference = u128::from(self.digits) * ten_to(gap) - u128::from(other.digits);
        Self::rounded(difference, other.power, false, side)
    }

    /// Times a power of ten, which is exact.
    pub fn shifted(self, by: i32) -> Self {
        if self.is_zero() {
            return self;
        }
        Decimal { digits: self.digits, power: self.power + by }
    }
}

/// The powers of ten that 128 bits hold.
const POWERS: [u128; 39] = {
    let mut powers = [1; 39];
    let mut exponent = 1;
    while exponent < powers.len() {
        powers[exponent] = 10 * powers[exponent - 1];
        exponent += 1;
    }
    powers
};

fn ten_to(exponent: u32) -> u128 {
    POWERS[exponent as usize]
}

/// The number of decimal digits of a number that isn't zero.
fn length_of(value: u128) -> u32 {
    match u64::try_from(value) {
        Ok(short) => short.ilog10() + 1,
        Err(_) => value.ilog10() + 1,
    }
}

/// Quotient and rest; the short division where the numbers are short, since it is much faster.
fn divided(value: u128, by: u128) -> (u128, u128) {
    match (u64::try_from(value), u64::try_from(by)) {
        (Ok(value), Ok(by)) => (u128::from(value / by), u128::from(value % by)),
        _ => (value / by, value % by),
    }
}

impl Figure {
    /// digits × 10^power as a figure is held: zero with power 0, or nine digits. None where it is
    /// held otherwise.
    pub fn held(digits: u64, power: i32) -> Option<Figure> {
        let zero = digits == 0 && power == 0;
        let nine = (100_000_000..=999_999_999).contains(&digits);
        (zero || nine).then_some(Decimal { digits, power })
    }

    /// A whole number of at most nine digits, which is exact.
    pub fn small(number: u64) -> Figure {
        debug_assert!(number < 1_000_000_000);
        Figure::whole(number, Down).value
    }

    /// A quantity of the words; six digits always fit.
    pub fn of(quantity: Quantity) -> Figure {
        Figure::small(u64::from(quantity.coefficient)).shifted(-(quantity.scale as i32))
    }

    /// The same number as a total.
    pub fn widened(self) -> Total {
        Total::rounded(u128::from(self.digits), self.power, false, Down).value
    }
}

impl Total {
    /// The total on one side, to nine digits.
    pub fn narrowed(self, side: Side) -> Marked<9> {
        Figure::rounded(u128::from(self.digits), self.power, false, side)
    }
}

impl<const LENGTH: u32> PartialOrd for Decimal<LENGTH> {
    fn partial_cmp(&self, other: &Self) -> Option<Ordering> {
        Some(self.cmp(other))
    }
}

impl<const LENGTH: u32> Ord for Decimal<LENGTH> {
    fn cmp(&self, other: &Self) -> Ordering {
        match (self.is_zero(), other.is_zero()) {
            (false, false) => (self.power, self.digits).cmp(&(other.power, other.digits)),
            (own, others) => others.cmp(&own),
        }
    }
}

impl fmt::Display for Figure {
    fn fmt(&self, out: &mut fmt::Formatter<'_>) -> fmt::Result {
        if self.is_zero() {
            return write!(out, "0");
        }
        let (first, rest) = (self.digits / 100_000_000, self.digits % 100_000_000);
        write!(out, "{first}.{rest:08}E{}", self.power + 8)
    }
}
