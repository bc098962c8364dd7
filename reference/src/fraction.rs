//! Fractions of two whole numbers: the denominator positive, the numerator signed.
//!
//! A denominator is held as a product of powers of small bases. Two denominators have a common
//! multiple at hand then (the greater exponent of each base), so that sums stay short.

use crate::bigint::{Integer, Natural};
use crate::figure::Figure;
use crate::model::Quantity;
use std::cmp::Ordering;
use std::collections::BTreeMap;

/// A product of powers: bases above 1 with their exponents. The bases need not be prime.
#[derive(Clone, Debug, Default, PartialEq, Eq)]
struct Product {
    powers: BTreeMap<u64, u32>,
}

impl Product {
    fn multiply_by_power(&mut self, base: u64, exponent: u32) {
        if base > 1 && exponent > 0 {
            *self.powers.entry(base).or_insert(0) += exponent;
        }
    }

    fn times(&self, other: &Product) -> Product {
        let mut product = self.clone();
        for (&base, &exponent) in &other.powers {
            product.multiply_by_power(base, exponent);
        }
        product
    }

    /// A product that both divide.
    fn common_multiple(&self, other: &Product) -> Product {
        let mut multiple = self.clone();
        for (&base, &exponent) in &other.powers {
            let own = multiple.powers.entry(base).or_insert(0);
            *own = exponent.max(*own);
        }
        multiple
    }

    /// A number times multiple / this product, which divides the multiple.
    fn scale_to(&self, multiple: &Product, number: &mut Natural) {
        for (base, exponent) in &multiple.powers {
            let own = self.powers.get(base).copied().unwrap_or(0);
            number.multiply_by_power(*base, exponent - own);
        }
    }

    fn value(&self) -> Natural {
        let mut value = Natural::one();
        Product::default().scale_to(self, &mut value);
        value
    }
}

#[derive(Clone, Debug)]
pub struct Fraction {
    top: Integer,
    bottom: Product,
}

impl Fraction {
    pub fn zero() -> Fraction {
        Fraction::whole(0)
    }

    pub fn whole(number: u64) -> Fraction {
        let top = Integer::from(Natural::from(number));
        Fraction { top, bottom: Product::default() }
    }

    /// number × 10^power
    pub fn decimal(number: u64, power: i32) -> Fraction {
        let mut fraction = Fraction::whole(number);
        if power >= 0 {
            fraction.top.size.multiply_by_power(10, power.unsigned_abs());
        } else {
            fraction.bottom.multiply_by_power(10, power.unsigned_abs());
        }
        fraction
    }

    pub fn of_quantity(quantity: Quantity) -> Fraction {
        Fraction::decimal(u64::from(quantity.coefficient), -(quantity.scale as i32))
    }

    pub fn of_figure(figure: Figure) -> Fraction {
        Fraction::decimal(figure.digits(), figure.power())
    }

    pub fn is_positive(&self) -> bool {
        !self.top.negative && !self.top.size.is_zero()
    }

    pub fn plus(&self, other: &Fraction) -> Fraction {
        let bottom = self.bottom.common_multiple(&other.bottom);
        let (mut left, mut right) = (self.top.clone(), other.top.clone());
        self.bottom.scale_to(&bottom, &mut left.size);
        other.bottom.scale_to(&bottom, &mut right.size);
        Fraction { top: left.plus(&right), bottom }
    }

    pub fn minus(&self, other: &Fraction) -> Fraction {
        self.plus(&Fraction { top: other.top.negated(), bottom: other.bottom.clone() })
    }

    pub fn times(&self, other: &Fraction) -> Fraction {
        Fraction { top: self.top.times(&other.top), bottom: self.bottom.times(&other.bottom) }
    }

    pub fn to_power(&self, exponent: u32) -> Fraction {
        (0..exponent).fold(Fraction::whole(1), |product, _| product.times(self))
    }

    /// Divided by base^exponent; the base is not zero.
    pub fn over_power(&self, base: u64, exponent: u32) -> Fraction {
        let mut quotient = self.clone();
        quotient.bottom.multiply_by_power(base, exponent);
        quotient
    }
}

impl PartialEq for Fraction {
    fn eq(&self, other: &Fraction) -> bool {
        self.cmp(other) == Ordering::Equal
    }
}

impl Eq for Fraction {}

impl PartialOrd for Fraction {
    fn partial_cmp(&self, other: &Fraction) -> Option<Ordering> {
        Some(self.cmp(other))
    }
}

impl Ord for Fraction {
    /// Two fractions are compared by multiplying crosswise.
    fn cmp(&self, other: &Fraction) -> Ordering {
        let left = self.top.times(&Integer::from(other.bottom.value()));
        let right = other.top.times(&Integer::from(self.bottom.value()));
        left.cmp(&right)
    }
}

/// A sum of many fractions. Terms are added in pairs, pairs in pairs and so on, so that most
/// additions are among the few bases that neighbouring paths share.
#[derive(Default)]
pub struct Sum {
    /// Sums of 2^level terms each, the levels falling.
    parts: Vec<(u32, Fraction)>,
}

impl Sum {
    pub fn add(&mut self, term: Fraction) {
        let (mut level, mut sum) = (0, term);
        while let Some((_, part)) = self.parts.pop_if(|part| part.0 == level) {
            sum = part.plus(&sum);
            level += 1;
        }
        self.parts.push((level, sum));
    }

    /// The sum; over no terms it is 0.
    pub fn total(&self) -> Fraction {
        self.parts.iter().rev().fold(Fraction::zero(), |sum, (_, part)| part.plus(&sum))
    }
}

#[cfg(test)]
mod tests {
    use super::*;

    #[test]
    fn thirds_and_sixths() {
        let third = Fraction::whole(1).over_power(3, 1);
        let sixth = Fraction::whole(1).over_power(6, 1);
        let half = Fraction::decimal(5, -1);
        assert_eq!(third.plus(&sixth), half);
        assert_eq!(half.minus(&third), sixth);
        assert!(sixth.minus(&third) < Fraction::zero());
        assert!(!sixth.minus(&third).is_positive());
        assert!(third.times(&third) < sixth);
        assert_eq!(half.to_power(3), Fraction::whole(1).over_power(2, 3));
    }

    #[test]
    fn a_sum_of_many_terms() {
        // 1/2 + 1/6 + 1/12 + ... + 1/(n(n + 1)) is n/(n + 1).
        let mut sum = Sum::default();
        assert_eq!(sum.total(), Fraction::zero());
        for n in 1..100 {
            sum.add(Fraction::whole(1).over_power(n, 1).over_power(n + 1, 1));
            assert_eq!(sum.total(), Fraction::whole(n).over_power(n + 1, 1));
        }
    }
}
