//! Counts of what was compared, by kind of model and by answer.

use reference::{Answer, Report, Row};
use std::collections::BTreeMap;
use std::fmt;

/// The columns: reports, then refusals by number.
const REFUSALS: [u32; 15] = [1, 2, 3, 4, 5, 6, 7, 8, 9, 10, 11, 13, 14, 15, 16];

#[derive(Default)]
pub struct Tally {
    /// For each kind, how many answers of each number; 0 stands for a report.
    rows: BTreeMap<&'static str, BTreeMap<u32, u64>>,
    /// Reports on which the accuracy rule was checked.
    pub accurate: u64,
    /// Rows of these reports.
    pub accurate_rows: u64,
    /// Reports of too many paths for that.
    pub too_many_paths: u64,
    /// Ended paths in the reports that were checked.
    pub exact_paths: u64,
    pub lower_above_zero: u64,
    /// Paths that were cut in a generator's state, and the reports with such a path.
    generators: [u64; 2],
    /// Reports by their two digits: 00, 01, 10 and 11.
    digits: [u64; 4],
    /// Digits 1 that were found to stand beside the exact sum: of lowers, of lowers above zero, and
    /// of uppers.
    pub exact_digits: [u64; 3],
    pub steps: u64,
    /// Reports with rows filled, their rows, and those of states where no path died.
    pub with_rows: u64,
    pub filled: u64,
    pub deathless: u64,
    /// Refusals 13 with rows filled.
    pub thirteen_with_rows: u64,
    /// Answers that left at least one row as it was.
    pub rows_beyond: u64,
}

impl Tally {
    pub fn count(&mut self, kind: &'static str, answer: &Answer) {
        let number = match answer {
            Answer::Report(report) => {
                self.steps += report.counts.steps;
                self.lower_above_zero += u64::from(!report.lower.is_zero());
                let cut = report.counts.in_generators_states;
                self.generators[0] += cut;
                self.generators[1] += u64::from(cut > 0);
                let [lower, upper] = answer.exact().map(usize::from);
                self.digits[2 * lower + upper] += 1;
                0
            }
            Answer::Refused(refusal) => refusal.number,
        };
        *self.rows.entry(kind).or_default().entry(number).or_default() += 1;
    }

    /// Counts the digits 1 of a report that was checked in exact fractions.
    pub fn count_exact(&mut self, report: &Report) {
        let above = report.lower_exact && !report.lower.is_zero();
        let digits = [report.lower_exact, above, report.upper_exact];
        for (count, digit) in self.exact_digits.iter_mut().zip(digits) {
            *count += u64::from(digit);
        }
    }

    /// Counts what became of so many rows lent.
    pub fn count_rows(&mut self, answer: &Answer, lent: u32, rows: &[Row]) {
        self.rows_beyond += u64::from((lent as usize) > rows.len());
        let any = u64::from(!rows.is_empty());
        match answer {
            Answer::Report(_) => {
                self.with_rows += any;
                self.filled += rows.len() as u64;
                self.deathless += rows.iter().filter(|row| row.upper.is_zero()).count() as u64;
            }
            Answer::Refused(_) => self.thirteen_with_rows += any,
        }
    }

    pub fn models(&self) -> u64 {
        self.rows.values().flat_map(BTreeMap::values).sum()
    }

    fn of_number(&self, number: u32) -> u64 {
        self.rows.values().filter_map(|row| row.get(&number)).sum()
    }
}

impl fmt::Display for Tally {
    fn fmt(&self, out: &mut fmt::Formatter<'_>) -> fmt::Result {
        write!(out, "{:<33}{:>9}{:>9}", "kind of model", "models", "reports")?;
        for number in REFUSALS {
            write!(out, "{:>7}", format!("r{number}"))?;
        }
        writeln!(out)?;
        for (kind, row) in &self.rows {
            let of = |number: u32| row.get(&number).copied().unwrap_or(0);
            write!(out, "{kind:<33}{:>9}{:>9}", row.values().sum::<u64>(), of(0))?;
            for number in REFUSALS {
                write!(out, "{:>7}", of(number))?;
            }
            writeln!(out)?;
        }
        write!(out, "{:<33}{:>9}{:>9}", "all", self.models(), self.of_number(0))?;
        for number in REFUSALS {
            write!(out, "{:>7}", self.of_number(number))?;
        }
        writeln!(out)?;
        writeln!(out, "steps in the reports: {}", self.steps)?;
        writeln!(out, "reports with a lower figure above zero: {}", self.lower_above_zero)?;
        let [paths, reports] = self.generators;
        writeln!(out, "cut in a generator's state: {paths} paths in {reports} reports")?;
        let [none, upper, lower, both] = self.digits;
        writeln!(out, "digits 00, 01, 10, 11: {none} {upper} {lower} {both}")?;
        let (reports, filled, deathless) = (self.with_rows, self.filled, self.deathless);
        writeln!(out, "rows filled: {filled} in {reports} reports, {deathless} without a death")?;
        writeln!(out, "rows of zeros on refusal 13: {} answers", self.thirteen_with_rows)?;
        writeln!(out, "rows left as they were: {} answers", self.rows_beyond)?;
        if self.accurate + self.too_many_paths > 0 {
            let (checked, paths) = (self.accurate, self.exact_paths);
            writeln!(out, "accuracy rule held on {checked} reports of {paths} ended paths")?;
            writeln!(out, "and on {} rows of them", self.accurate_rows)?;
            let [lower, above, upper] = self.exact_digits;
            write!(out, "exact sums by a digit of one: {upper} uppers and ")?;
            writeln!(out, "{lower} lowers, {above} of these above zero")?;
            writeln!(out, "reports of too many paths to check: {}", self.too_many_paths)?;
        }
        Ok(())
    }
}
