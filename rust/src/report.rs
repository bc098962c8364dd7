use crate::Figure;
use core::fmt;

/// What is reported on a model that was not refused. Later versions add to it.
#[derive(Clone, Copy, Debug, PartialEq, Eq)]
#[non_exhaustive]
pub struct Report {
    /// Not above the exact lower sum.
    pub lower: Figure,
    /// Not below the exact upper sum.
    pub upper: Figure,
    /// The cut paths' part of the upper figure.
    pub cut: Figure,
    pub deaths: u64,
    pub cuts: u64,
    pub steps: u64,
    /// `lower` equals the exact lower sum, since no rounding that it rests on lost anything. `false` claims nothing: the two may still be equal.
    pub lower_exact: bool,
    /// The same of `upper` and the exact upper sum.
    pub upper_exact: bool,
}

/// The report program's seven lines, without a newline behind the last.
impl fmt::Display for Report {
    fn fmt(&self, out: &mut fmt::Formatter<'_>) -> fmt::Result {
        writeln!(out, "lower {}", self.lower)?;
        writeln!(out, "upper {}", self.upper)?;
        writeln!(out, "cut {}", self.cut)?;
        writeln!(out, "deaths {}", self.deaths)?;
        writeln!(out, "cuts {}", self.cuts)?;
        writeln!(out, "steps {}", self.steps)?;
        write!(out, "exact {}{}", u8::from(self.lower_exact), u8::from(self.upper_exact))
    }
}
