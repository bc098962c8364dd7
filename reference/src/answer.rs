//! The answer to a model, and how it prints.

use crate::figure::Figure;
use crate::model::Refusal;
use std::fmt;

/// How many steps the cut tree has, and how its paths ended.
#[derive(Clone, Copy, Debug, Default, PartialEq, Eq)]
pub struct Counts {
    pub deaths: u64,
    pub cuts: u64,
    pub steps: u64,
    /// How many of the cuts were in a state of the generator's; it isn't printed.
    pub in_generators_states: u64,
}

#[derive(Clone, Copy, Debug, PartialEq, Eq)]
pub struct Report {
    pub lower: Figure,
    pub upper: Figure,
    /// The cut paths' part of the upper figure.
    pub cut: Figure,
    pub counts: Counts,
    /// Whether no operation that the lower figure rests on lost anything; it is the very sum then.
    pub lower_exact: bool,
    /// The same of the upper figure.
    pub upper_exact: bool,
}

#[derive(Clone, Copy, Debug, PartialEq, Eq)]
pub enum Answer {
    Report(Report),
    Refused(Refusal),
}

impl Answer {
    /// The two digits, lower then upper; in a refusal both are 0.
    pub fn exact(&self) -> [bool; 2] {
        match self {
            Answer::Report(report) => [report.lower_exact, report.upper_exact],
            Answer::Refused(_) => [false; 2],
        }
    }
}

impl fmt::Display for Report {
    fn fmt(&self, out: &mut fmt::Formatter<'_>) -> fmt::Result {
        writeln!(out, "lower {}", self.lower)?;
        writeln!(out, "upper {}", self.upper)?;
        writeln!(out, "cut {}", self.cut)?;
        writeln!(out, "deaths {}", self.counts.deaths)?;
        writeln!(out, "cuts {}", self.counts.cuts)?;
        writeln!(out, "steps {}", self.counts.steps)?;
        writeln!(out, "exact {}{}", u8::from(self.lower_exact), u8::from(self.upper_exact))
    }
}

impl fmt::Display for Answer {
    fn fmt(&self, out: &mut fmt::Formatter<'_>) -> fmt::Result {
        match self {
            Answer::Report(report) => report.fmt(out),
            Answer::Refused(refusal) => refusal.fmt(out),
        }
    }
}
