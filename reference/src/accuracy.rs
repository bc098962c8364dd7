//! Demand 3, the accuracy rule, checked on one report and on each of its rows; and what a digit 1
//! of the report's last line means, that the figure equals its exact sum.

use crate::answer::Report;
use crate::exact::{exact_tree, ExactSums};
use crate::figure::Figure;
use crate::fraction::Fraction;
use crate::model::Model;
use crate::rows::Row;
use std::fmt;

/// The parts of the accuracy rule, and the two digits.
#[derive(Clone, Copy, Debug, PartialEq, Eq)]
pub enum Part {
    UpperBelowSum,
    UpperTooHigh,
    LowerAboveSum,
    LowerTooLow,
    LowerNotExact,
    UpperNotExact,
    /// The cut tree has more steps than the report says.
    TreeIsLarger,
}

/// The part that is broken, and the state of the row where it is a row's.
#[derive(Clone, Copy, Debug, PartialEq, Eq)]
pub struct Breach {
    pub part: Part,
    pub row: Option<u64>,
}

impl fmt::Display for Breach {
    fn fmt(&self, out: &mut fmt::Formatter<'_>) -> fmt::Result {
        if let Some(state) = self.row {
            write!(out, "in the row of state {state} ")?;
        }
        out.write_str(match self.part {
            Part::UpperBelowSum => "the upper figure is below the exact upper sum",
            Part::UpperTooHigh => "the upper figure is above the exact sum × 100,001 / 100,000",
            Part::LowerAboveSum => "the lower figure is above the exact lower sum",
            Part::LowerTooLow => "the lower figure is below what the accuracy rule allows",
            Part::LowerNotExact => "the lower figure is not its exact sum, but the digit is 1",
            Part::UpperNotExact => "the upper figure is not its exact sum, but the digit is 1",
            Part::TreeIsLarger => "the cut tree has more steps than the report says",
        })
    }
}

/// Checks the rule on the report of a model and on each row, and the report's digits.
pub fn check(model: &Model, report: &Report, rows: &[Row]) -> Result<(), Breach> {
    let whole = |part| Breach { part, row: None };
    let Ok(tree) = exact_tree(model, report.counts.steps) else {
        return Err(whole(Part::TreeIsLarger));
    };
    check_sums(&tree.whole, report.lower, report.upper).map_err(whole)?;
    check_digits(&tree.whole, report).map_err(whole)?;
    for row in rows {
        let sums = tree.of_state(row.state as usize);
        check_sums(&sums, row.lower, row.upper)
            .map_err(|part| Breach { part, row: Some(row.state) })?;
    }
    Ok(())
}

/// Checks that a digit 1 stands beside the very sum. A digit 0 says nothing of the figure.
fn check_digits(sums: &ExactSums, report: &Report) -> Result<(), Part> {
    if report.lower_exact && Fraction::of_figure(report.lower) != sums.lower {
        return Err(Part::LowerNotExact);
    }
    if report.upper_exact && Fraction::of_figure(report.upper) != sums.upper {
        return Err(Part::UpperNotExact);
    }
    Ok(())
}

/// Checks the rule on figures, given the exact sums.
fn check_sums(sums: &ExactSums, lower: Figure, upper: Figure) -> Result<(), Part> {
    let (lower, upper) = (Fraction::of_figure(lower), Fraction::of_figure(upper));
    if upper < sums.upper {
        return Err(Part::UpperBelowSum);
    }
    if upper > sums.upper.times(&Fraction::decimal(100_001, -5)) {
        return Err(Part::UpperTooHigh);
    }
    if lower > sums.lower {
        return Err(Part::LowerAboveSum);
    }
    if lower < sums.lower.minus(&sums.deaths_upper.times(&Fraction::decimal(1, -4))) {
        return Err(Part::LowerTooLow);
    }
    Ok(())
}
