//! Document 02, Item 4: one figure for several subsystems. The answer encloses 1 minus the product
//! of (1 − p), once over the lowers of the pairs and once over the uppers.

use crate::faults::{planted, Fault};
use crate::figure::Figure;
use crate::figure::Side::{self, Down, Up};
use crate::model::Refusal;
use std::fmt;

/// The most pairs; a 17th is refused.
pub const MOST_PAIRS: usize = 16;

/// Powers of ten go from −2,000 to 2,000, those of the nine-digit whole number.
pub const WIDEST_POWER: i32 = 2_000;

/// What a caller hands in for a figure, digits × 10^power. It may be none.
#[derive(Clone, Copy, Debug, PartialEq, Eq)]
pub struct Parts {
    pub digits: u64,
    pub power: i32,
}

impl From<Figure> for Parts {
    fn from(figure: Figure) -> Parts {
        Parts { digits: figure.digits(), power: figure.power() }
    }
}

#[derive(Clone, Copy, Debug, PartialEq, Eq)]
pub struct Pair {
    pub lower: Parts,
    pub upper: Parts,
}

/// The figures of a pair that is allowed, or of the answer.
#[derive(Clone, Copy, Debug, PartialEq, Eq)]
pub struct Enclosure {
    pub lower: Figure,
    pub upper: Figure,
}

impl fmt::Display for Enclosure {
    fn fmt(&self, out: &mut fmt::Formatter<'_>) -> fmt::Result {
        writeln!(out, "lower {}", self.lower)?;
        writeln!(out, "upper {}", self.upper)
    }
}

/// The figures of the pairs, an upper above 1 taken as 1; or refusal 17, or 18.
pub fn read(pairs: &[Pair]) -> Result<Vec<Enclosure>, Refusal> {
    let number = right_number(pairs.len());
    if !planted(Fault::PairsTestedFirst) {
        number?;
    }
    let used = if planted(Fault::SeventeenthPair) { MOST_PAIRS } else { pairs.len() };
    let mut read = Vec::new();
    let mut refused = Ok(());
    for (index, pair) in pairs.iter().take(used).enumerate() {
        let place = index + usize::from(planted(Fault::IndexFromOne));
        match allowed(pair) {
            Some(figures) => read.push(figures),
            None if refused.is_ok() || planted(Fault::LastBadPair) => {
                refused = Err(Refusal::new(18, place));
            }
            None => {}
        }
    }
    refused.and(number).map(|()| read)
}

/// Refusal 17: no pair, or a 17th. Its place is 0.
fn right_number(pairs: usize) -> Result<(), Refusal> {
    let least = usize::from(!planted(Fault::NoPairLetThrough));
    let most = MOST_PAIRS - usize::from(planted(Fault::SixteenRefused));
    let place = if planted(Fault::PlaceOfPairs) { pairs } else { 0 };
    if pairs < least || pairs > most && !planted(Fault::SeventeenthPair) {
        return Err(Refusal::new(17, place));
    }
    Ok(())
}

/// The figures of a pair; none where refusal 18 is due.
fn allowed(pair: &Pair) -> Option<Enclosure> {
    let (lower, upper) = (figure_of(pair.lower)?, upper_of(pair.upper)?);
    let one = Figure::ONE;
    let above_one = lower > one && !planted(Fault::LowerAboveOne);
    let above_upper = lower > upper && !planted(Fault::LowerAboveUpper);
    let refused_by_fault = planted(Fault::LowerOneRefused) && lower == one
        || planted(Fault::EqualRefused) && lower == upper
        || planted(Fault::UpperAboveOneRefused) && upper > one;
    if above_one || above_upper || refused_by_fault {
        return None;
    }
    Some(Enclosure { lower, upper: upper.min(one) })
}

/// An upper as it stands, which may be above 1.
fn upper_of(parts: Parts) -> Option<Figure> {
    // A planted fault: taken as 1 before its power is tested.
    if planted(Fault::TakenAsOneFirst) && parts.power > WIDEST_POWER {
        return figure_of(Parts { power: 0, ..parts });
    }
    figure_of(parts)
}

/// The figure that is handed in, if it is one and its power is in range.
fn figure_of(parts: Parts) -> Option<Figure> {
    let Parts { digits, power } = parts;
    let widest = WIDEST_POWER + i32::from(planted(Fault::PowerOneFurther));
    let tested = if planted(Fault::PowerAsPrinted) { power.saturating_add(8) } else { power };
    if !(-widest..=widest).contains(&tested) {
        return None;
    }
    let length = digits.max(1).ilog10() + 1;
    let let_through = planted(Fault::ZeroWithPower) && digits == 0
        || planted(Fault::EightDigits) && digits > 0 && length < 9
        || planted(Fault::TenDigits) && length > 9;
    if let_through {
        return Some(Figure::whole(digits, Down).value.shifted(power)); // planted
    }
    Figure::held(digits, power)
}

/// The answer to the pairs, or the first reason to turn them away.
pub fn answer(pairs: &[Pair]) -> Result<Enclosure, Refusal> {
    let mut pairs = read(pairs)?;
    if planted(Fault::PairsReversed) {
        pairs.reverse();
    }
    if planted(Fault::LastPairLeftOut) && pairs.len() > 1 {
        pairs.pop();
    }
    if planted(Fault::ByComplements) {
        return Ok(by_complements(&pairs));
    }
    let start = Enclosure { lower: Figure::ZERO, upper: Figure::ZERO };
    Ok(pairs.iter().fold(start, |s, p| Enclosure {
        lower: lower_after(s.lower, p.lower),
        upper: upper_after(s.upper, p.upper),
    }))
}

/// The lowers' s + p × (1 − s), each operation rounded down.
fn lower_after(s: Figure, p: Figure) -> Figure {
    let rest = Figure::ONE.minus(s, turned(Down, Fault::LowerDifferenceUp)).value;
    let part = p.times(rest, turned(Down, Fault::LowerProductUp)).value;
    let sum = s.plus(part, turned(Down, Fault::LowerSumUp)).value;
    at_most_one(faulty_sum(s, p, rest, false).unwrap_or(sum))
}

/// The uppers' s + p × (1 − s), each operation rounded up.
fn upper_after(s: Figure, p: Figure) -> Figure {
    let rest = Figure::ONE.minus(s, turned(Up, Fault::UpperDifferenceDown)).value;
    let part = p.times(rest, turned(Up, Fault::UpperProductDown)).value;
    let sum = s.plus(part, turned(Up, Fault::UpperSumDown)).value;
    at_most_one(faulty_sum(s, p, rest, true).unwrap_or(sum))
}

/// An s above 1 is set to 1.
fn at_most_one(s: Figure) -> Figure {
    if planted(Fault::AboveOneKept) {
        return s;
    }
    s.min(Figure::ONE)
}

/// The side, or the other one if the fault is there.
fn turned(side: Side, fault: Fault) -> Side {
    match side {
        Up if planted(fault) => Down,
        Down if planted(fault) => Up,
        _ => side,
    }
}

/// The new s by a planted fault, if it is one of these.
fn faulty_sum(s: Figure, p: Figure, rest: Figure, upper: bool) -> Option<Figure> {
    let side = if upper { Up } else { Down };
    if planted(Fault::PlainSum) {
        return Some(s.plus(p, side).value);
    }
    if planted(Fault::LongProduct) {
        let part = p.widened().times(rest.widened(), side).value;
        return Some(s.widened().plus(part, side).value.narrowed(side).value);
    }
    None
}

/// A planted fault: the product of (1 − p) first, and its difference to 1 last.
fn by_complements(pairs: &[Enclosure]) -> Enclosure {
    let one = Figure::ONE;
    let (mut most, mut least) = (one, one);
    for p in pairs {
        most = most.times(one.minus(p.lower, Up).value, Up).value; // planted
        least = least.times(one.minus(p.upper, Down).value, Down).value; // planted
    }
    let lower = one.minus(most, Down).value; // planted
    Enclosure { lower, upper: one.minus(least, Up).value } // planted
}
