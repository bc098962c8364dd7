//! Figures of nine digits and totals of eighteen. `UP` is the side to which an operation rounds.

#[derive(Clone, Copy, Debug, Default, PartialEq, Eq)]
pub struct Figure {
    pub digits: u64,
    pub power: i32,
}

pub const UP: bool = true;
pub const DOWN: bool = false;

const TENS: [u64; 20] = {
    let mut tens = [1; 20];
    let mut i = 1;
    while i < 20 {
        tens[i] = tens[i - 1] * 10;
        i += 1;
    }
    tens
};

/// A quotient at a power, with one more where something was left and the side is up; `WIDTH` digits.
fn rounded<const SIDE: bool, const WIDTH: usize>(whole: u64, left: bool, power: i32) -> Figure {
    if SIDE && left {
        if whole + 1 == TENS[WIDTH] {
            return Figure { digits: TENS[WIDTH - 1], power: power + 1 };
        }
        return Figure { digits: whole + 1, power };
    }
    Figure { digits: whole, power }
}

/// The same for a number that may have one digit too many.
fn trimmed<const SIDE: bool, const WIDTH: usize>(whole: u64, left: bool, power: i32) -> Figure {
    if whole < TENS[WIDTH] {
        return rounded::<SIDE, WIDTH>(whole, left, power);
    }
    rounded::<SIDE, WIDTH>(whole / 10, left || whole % 10 != 0, power + 1)
}

/// The first, with what of the second reaches its last digit, and whether something of the second was left.
fn aligned(large: Figure, small: Figure) -> (u64, bool) {
    let gap = (large.power - small.power) as usize;
    if gap > 18 {
        return (large.digits, true);
    }
    let part = small.digits / TENS[gap];
    (large.digits + part, part * TENS[gap] != small.digits)
}

fn ordered(a: Figure, b: Figure) -> (Figure, Figure) {
    if b.power <= a.power {
        (a, b)
    } else {
        (b, a)
    }
}

fn sum<const SIDE: bool, const WIDTH: usize>(a: Figure, b: Figure) -> Figure {
    if a.digits == 0 {
        return b;
    }
    if b.digits == 0 {
        return a;
    }
    let (large, small) = ordered(a, b);
    let (whole, left) = aligned(large, small);
    trimmed::<SIDE, WIDTH>(whole, left, large.power)
}

impl Figure {
    pub const ZERO: Figure = Figure { digits: 0, power: 0 };
    pub const ONE: Figure = Figure { digits: 100_000_000, power: -8 };

    /// n × 10^power.
    pub fn fitted<const SIDE: bool>(n: u64, power: i32) -> Figure {
        if n == 0 {
            return Figure::ZERO;
        }
        let count = n.ilog10() as usize + 1;
        if count <= 9 {
            return Figure { digits: n * TENS[9 - count], power: power - (9 - count) as i32 };
        }
        let ten = TENS[count - 9];
        rounded::<SIDE, 9>(n / ten, n % ten != 0, power + (count - 9) as i32)
    }

    pub fn whole(n: u64) -> Figure {
        Figure::fitted::<DOWN>(n, 0)
    }

    pub fn times<const SIDE: bool>(self, other: Figure) -> Figure {
        let product = self.digits * other.digits;
        if product == 0 {
            return Figure::ZERO;
        }
        // one division, its divisor worked out from the comparison, as in the proved library (document 02, Item 5)
        let extra = product >= TENS[17];
        let divisor = TENS[8] + 9 * TENS[8] * u64::from(extra);
        let power = self.power + other.power + 8 + i32::from(extra);
        let whole = product / divisor;
        rounded::<SIDE, 9>(whole, whole * divisor != product, power)
    }

    pub fn over<const SIDE: bool>(self, other: Figure) -> Figure {
        if self.digits == 0 {
            return self;
        }
        let zeros = if other.digits <= self.digits { 8 } else { 9 };
        let n = self.digits * TENS[zeros];
        let power = self.power - other.power - zeros as i32;
        rounded::<SIDE, 9>(n / other.digits, n % other.digits != 0, power)
    }

    pub fn plus<const SIDE: bool>(self, other: Figure) -> Figure {
        sum::<SIDE, 9>(self, other)
    }

    /// Zero where the difference isn't positive; rounds down.
    pub fn minus(self, other: Figure) -> Figure {
        if other.digits == 0 || self.digits == 0 {
            return self;
        }
        if self.power < other.power {
            return Figure::ZERO;
        }
        let gap = (self.power - other.power) as usize;
        if gap > 9 {
            if self.digits == TENS[8] {
                return Figure { digits: TENS[9] - 1, power: self.power - 1 };
            }
            return Figure { digits: self.digits - 1, power: self.power };
        }
        let n = self.digits * TENS[gap];
        if n <= other.digits {
            return Figure::ZERO;
        }
        Figure::fitted::<DOWN>(n - other.digits, other.power)
    }

    pub fn times_ten(self, power: i32) -> Figure {
        if self.digits == 0 {
            return self;
        }
        Figure { digits: self.digits, power: self.power + power }
    }

    pub fn at_or_below(self, other: Figure) -> bool {
        self.digits == 0
            || other.digits != 0 && (self.power, self.digits) <= (other.power, other.digits)
    }

    /// A total with a figure added.
    pub fn total<const SIDE: bool>(self, figure: Figure) -> Figure {
        let wide = if figure.digits == 0 {
            figure
        } else {
            Figure { digits: figure.digits * TENS[9], power: figure.power - 9 }
        };
        sum::<SIDE, 18>(self, wide)
    }

    /// A total, to nine digits.
    pub fn to_nine<const SIDE: bool>(self) -> Figure {
        if self.digits == 0 {
            return self;
        }
        rounded::<SIDE, 9>(self.digits / TENS[9], self.digits % TENS[9] != 0, self.power + 9)
    }

    /// The sum of two totals, to nine digits, up.
    pub fn sum_to_nine(self, other: Figure) -> Figure {
        if self.digits == 0 || other.digits == 0 {
            return sum::<UP, 18>(self, other).to_nine::<UP>();
        }
        let (large, small) = ordered(self, other);
        let (whole, left) = aligned(large, small);
        trimmed::<UP, 9>(whole / TENS[9], left || whole % TENS[9] != 0, large.power + 9)
    }
}
