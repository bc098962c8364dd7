//! Whole numbers of any size: natural numbers, and numbers with a sign.

use std::cmp::Ordering;

/// A natural number, least significant limb first, without zero limbs at the top.
#[derive(Clone, Debug, Default, PartialEq, Eq)]
pub struct Natural {
    limbs: Vec<u64>,
}

impl From<u64> for Natural {
    fn from(value: u64) -> Natural {
        Natural { limbs: vec![value] }.trimmed()
    }
}

impl Natural {
    pub fn zero() -> Natural {
        Natural::default()
    }

    pub fn one() -> Natural {
        Natural::from(1)
    }

    pub fn is_zero(&self) -> bool {
        self.limbs.is_empty()
    }

    fn trimmed(mut self) -> Natural {
        while self.limbs.last() == Some(&0) {
            self.limbs.pop();
        }
        self
    }

    pub fn plus(&self, other: &Natural) -> Natural {
        let (long, short) =
            if self.limbs.len() >= other.limbs.len() { (self, other) } else { (other, self) };
        let mut limbs = long.limbs.clone();
        let mut carry = false;
        for (place, limb) in limbs.iter_mut().enumerate() {
            let addend = short.limbs.get(place).copied().unwrap_or(0);
            let (sum, over) = limb.overflowing_add(addend);
            let (sum, over_again) = sum.overflowing_add(u64::from(carry));
            *limb = sum;
            carry = over || over_again;
            if !carry && place >= short.limbs.len() {
                break;
            }
        }
        if carry {
            limbs.push(1);
        }
        Natural { limbs }
    }

    /// The difference; the other must not be greater.
    pub fn minus(&self, other: &Natural) -> Natural {
        let mut limbs = self.limbs.clone();
        let mut borrow = false;
        for (place, limb) in limbs.iter_mut().enumerate() {
            let subtrahend = other.limbs.get(place).copied().unwrap_or(0);
            let (rest, under) = limb.overflowing_sub(subtrahend);
            let (rest, under_again) = rest.overflowing_sub(u64::from(borrow));
            *limb = rest;
            borrow = under || under_again;
        }
        debug_assert!(!borrow, "the other is greater");
        Natural { limbs }.trimmed()
    }

    /// Multiplies in place by a number of one limb.
    pub fn multiply_by(&mut self, factor: u64) {
        let mut carry = 0u128;
        for limb in &mut self.limbs {
            let product = u128::from(*limb) * u128::from(factor) + carry;
            *limb = product as u64;
            carry = product >> 64;
        }
        if carry != 0 {
            self.limbs.push(carry as u64);
        }
        if factor == 0 {
            self.limbs.clear();
        }
    }

    pub fn times(&self, other: &Natural) -> Natural {
        let mut limbs = vec![0u64; self.limbs.len() + other.limbs.len()];
        for (offset, &factor) in self.limbs.iter().enumerate() {
            let mut carry = 0u128;
            for (place, &limb) in other.limbs.iter().enumerate() {
                let target = &mut limbs[offset + place];
                let sum = u128::from(factor) * u128::from(limb) + u128::from(*target) + carry;
                *target = sum as u64;
                carry = sum >> 64;
            }
            limbs[offset + other.limbs.len()] = carry as u64;
        }
        Natural { limbs }.trimmed()
    }

    /// base^exponent times this number.
    pub fn multiply_by_power(&mut self, base: u64, exponent: u32) {
        // As many factors as fit one limb are multiplied together first.
        let (mut chunk, mut rest) = (1u64, exponent);
        while rest > 0 {
            match chunk.checked_mul(base) {
                Some(larger) => {
                    chunk = larger;
                    rest -= 1;
                }
                None => {
                    self.multiply_by(chunk);
                    chunk = 1;
                }
            }
        }
        if chunk != 1 {
            self.multiply_by(chunk);
        }
    }
}

impl PartialOrd for Natural {
    fn partial_cmp(&self, other: &Natural) -> Option<Ordering> {
        Some(self.cmp(other))
    }
}

impl Ord for Natural {
    fn cmp(&self, other: &Natural) -> Ordering {
        let by_length = self.limbs.len().cmp(&other.limbs.len());
        by_length.then_with(|| self.limbs.iter().rev().cmp(other.limbs.iter().rev()))
    }
}

/// A whole number with a sign; zero is not negative.
#[derive(Clone, Debug, PartialEq, Eq)]
pub struct Integer {
    pub negative: bool,
    pub size: Natural,
}

impl From<Natural> for Integer {
    fn from(size: Natural) -> Integer {
        Integer { negative: false, size }
    }
}

impl Integer {
    pub fn new(negative: bool, size: Natural) -> Integer {
        Integer { negative: negative && !size.is_zero(), size }
    }

    pub fn plus(&self, other: &Integer) -> Integer {
        if self.negative == other.negative {
            return Integer::new(self.negative, self.size.plus(&other.size));
        }
        match self.size.cmp(&other.size) {
            Ordering::Less => Integer::new(other.negative, other.size.minus(&self.size)),
            _ => Integer::new(self.negative, self.size.minus(&other.size)),
        }
    }

    pub fn negated(&self) -> Integer {
        Integer::new(!self.negative, self.size.clone())
    }

    pub fn times(&self, other: &Integer) -> Integer {
        Integer::new(self.negative != other.negative, self.size.times(&other.size))
    }
}

impl PartialOrd for Integer {
    fn partial_cmp(&self, other: &Integer) -> Option<Ordering> {
        Some(self.cmp(other))
    }
}

impl Ord for Integer {
    fn cmp(&self, other: &Integer) -> Ordering {
        match (self.negative, other.negative) {
            (false, false) => self.size.cmp(&other.size),
            (true, true) => other.size.cmp(&self.size),
            (own, others) => others.cmp(&own),
        }
    }
}

#[cfg(test)]
mod tests {
    use super::*;

    fn natural(value: u128) -> Natural {
        Natural { limbs: vec![value as u64, (value >> 64) as u64] }.trimmed()
    }

    #[test]
    fn agrees_with_128_bits() {
        let mut seed = 1u64;
        let mut next = || {
            seed = seed.wrapping_mul(6364136223846793005).wrapping_add(1442695040888963407);
            seed >> (seed % 61)
        };
        for _ in 0..10_000 {
            let (a, b) = (next(), next());
            let (x, y) = (u128::from(a) * u128::from(b), u128::from(next()));
            assert_eq!(natural(x), Natural::from(a).times(&Natural::from(b)));
            assert_eq!(natural(x + y), natural(x).plus(&natural(y)));
            assert_eq!(natural(x.max(y) - x.min(y)), natural(x.max(y)).minus(&natural(x.min(y))));
            assert_eq!(x.cmp(&y), natural(x).cmp(&natural(y)));
        }
    }

    #[test]
    fn products_of_long_numbers_distribute() {
        let mut long = Natural::from(3);
        long.multiply_by_power(10, 400);
        let other = long.plus(&Natural::from(u64::MAX));
        let square = other.times(&other);
        let mut by_parts = other.times(&long);
        let mut rest = other.clone();
        rest.multiply_by(u64::MAX);
        by_parts = by_parts.plus(&rest);
        assert_eq!(square, by_parts);
        assert_eq!(square.minus(&by_parts), Natural::zero());
        assert!(Integer::new(true, square) < Integer::from(Natural::one()));
    }
}
