//! Document 02, Item 2: numbers with a mark that tells whether any operation on the way to them
//! lost something. The mark is over the operations and not over the values: what a lost digit was
//! multiplied with, zero even, is no matter.

use crate::figure::{Decimal, Figure, Marked, Side, Total};
use crate::model::Quantity;

/// A figure with its mark.
pub type MarkedFigure = Marked<9>;

/// A running total with its mark.
pub type MarkedTotal = Marked<18>;

impl<const LENGTH: u32> Marked<LENGTH> {
    pub const ZERO: Self = Marked { value: Decimal::ZERO, kept: true };
    pub const ONE: Self = Marked { value: Decimal::ONE, kept: true };

    /// This number, resting on others too if the mark says so.
    pub fn and(self, kept: bool) -> Self {
        Marked { value: self.value, kept: self.kept && kept }
    }

    /// A whole number, rounded.
    pub fn whole(number: u64, side: Side) -> Self {
        Decimal::whole(number, side)
    }

    pub fn times(self, other: Self, side: Side) -> Self {
        self.value.times(other.value, side).and(self.kept && other.kept)
    }

    /// The quotient; the divisor is not zero.
    pub fn over(self, divisor: Self, side: Side) -> Self {
        self.value.over(divisor.value, side).and(self.kept && divisor.kept)
    }

    pub fn plus(self, other: Self, side: Side) -> Self {
        self.value.plus(other.value, side).and(self.kept && other.kept)
    }

    /// The difference; 0 where it isn't positive, which loses nothing.
    pub fn minus(self, other: Self, side: Side) -> Self {
        self.value.minus(other.value, side).and(self.kept && other.kept)
    }

    /// Times a power of ten, which is exact.
    pub fn shifted(self, by: i32) -> Self {
        self.value.shifted(by).kept().and(self.kept)
    }
}

impl MarkedFigure {
    /// A whole number of at most nine digits, which is exact.
    pub fn small(number: u64) -> MarkedFigure {
        Figure::small(number).kept()
    }

    /// A quantity of the words, which is exact.
    pub fn of(quantity: Quantity) -> MarkedFigure {
        Figure::of(quantity).kept()
    }

    /// The same number as a total.
    pub fn widened(self) -> MarkedTotal {
        self.value.widened().kept().and(self.kept)
    }
}

impl MarkedTotal {
    /// The total on one side, to nine digits.
    pub fn narrowed(self, side: Side) -> MarkedFigure {
        Total::narrowed(self.value, side).and(self.kept)
    }
}
