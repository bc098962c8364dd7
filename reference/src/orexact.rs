//! The exact values of document 02, Item 4, and its rule: each s lies outward of its exact value
//! and within one part in 1,000,000 of it.

use crate::figure::Figure;
use crate::fraction::Fraction;
use crate::orprob::Enclosure;
use std::fmt;

/// The parts of the rule.
#[derive(Clone, Copy, Debug, PartialEq, Eq)]
pub enum Breach {
    LowerAboveExact,
    LowerTooLow,
    UpperBelowExact,
    UpperTooHigh,
}

impl fmt::Display for Breach {
    fn fmt(&self, out: &mut fmt::Formatter<'_>) -> fmt::Result {
        out.write_str(match self {
            Breach::LowerAboveExact => "the lower figure is above its exact value",
            Breach::LowerTooLow => {
                "the lower figure is below the exact value × 999,999 / 1,000,000"
            }
            Breach::UpperBelowExact => "the upper figure is below its exact value",
            Breach::UpperTooHigh => {
                "the upper figure is above the exact value × 1,000,001 / 1,000,000"
            }
        })
    }
}

/// 1 minus the product of (1 − p).
pub fn exact(figures: impl Iterator<Item = Figure>) -> Fraction {
    let one = Fraction::whole(1);
    let product = figures.fold(one.clone(), |product, p| {
        let rest = one.minus(&Fraction::of_figure(p));
        product.times(&rest)
    });
    one.minus(&product)
}

/// Checks the rule on an answer to pairs that were read. Hands back whether the lower and the upper
/// are their exact values.
pub fn check(pairs: &[Enclosure], answer: &Enclosure) -> Result<[bool; 2], Breach> {
    let (lower, upper) = (Fraction::of_figure(answer.lower), Fraction::of_figure(answer.upper));
    let exact_lower = exact(pairs.iter().map(|pair| pair.lower));
    if lower > exact_lower {
        return Err(Breach::LowerAboveExact);
    }
    if lower < exact_lower.times(&Fraction::decimal(999_999, -6)) {
        return Err(Breach::LowerTooLow);
    }
    let exact_upper = exact(pairs.iter().map(|pair| pair.upper));
    if upper < exact_upper {
        return Err(Breach::UpperBelowExact);
    }
    if upper > exact_upper.times(&Fraction::decimal(1_000_001, -6)) {
        return Err(Breach::UpperTooHigh);
    }
    Ok([lower == exact_lower, upper == exact_upper])
}
