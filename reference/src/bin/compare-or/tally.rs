//! Counts of what was compared, by kind of list and by answer.

use crate::damage::{reasons, REASONS};
use reference::figure::Figure;
use reference::figure::Side::{self, Down, Up};
use reference::model::Refusal;
use reference::orprob::{self, Enclosure, Pair, MOST_PAIRS};
use std::collections::BTreeMap;
use std::fmt;

/// The columns: answers, 17 without a pair, 17 at a 17th, 18.
const COLUMNS: [&str; 5] = ["lists", "answers", "r17-none", "r17-many", "r18"];

#[derive(Default)]
pub struct Tally {
    kinds: BTreeMap<&'static str, [u64; 4]>,
    /// Refusals 18 by their place.
    places: [u64; MOST_PAIRS],
    /// Refusals 18 that one reason alone calls for.
    reasons: [u64; REASONS.len()],
    /// Steps of lowers and of uppers, by which of the three operations lost something.
    losses: [[u64; 8]; 2],
    /// Lists in which an s was above 1 by rounding, and in which an upper was.
    set_to_one: u64,
    above_one: u64,
    /// Answers on which the rule was checked, and of these the lowers and uppers that are their
    /// exact values.
    accurate: u64,
    exact: [u64; 2],
}

impl Tally {
    pub fn count(
        &mut self,
        kind: &'static str,
        pairs: &[Pair],
        answer: &Result<Enclosure, Refusal>,
    ) {
        let column = match answer {
            Ok(_) => 0,
            Err(Refusal { number: 17, .. }) => 1 + usize::from(!pairs.is_empty()),
            Err(_) => 3,
        };
        self.kinds.entry(kind).or_default()[column] += 1;
        match answer {
            Ok(_) => self.count_steps(pairs),
            Err(Refusal { number: 18, place }) => {
                self.places[*place] += 1;
                let held = reasons(&pairs[*place]);
                if held.iter().filter(|&&reason| reason).count() == 1 {
                    for (count, reason) in self.reasons.iter_mut().zip(held) {
                        *count += u64::from(reason);
                    }
                }
            }
            Err(_) => {}
        }
    }

    /// Counts the steps of an answer by what they lost.
    fn count_steps(&mut self, pairs: &[Pair]) {
        let upper = |pair: &Pair| Figure::held(pair.upper.digits, pair.upper.power);
        let above = |pair: &Pair| upper(pair).is_some_and(|upper| upper > Figure::ONE);
        self.above_one += u64::from(pairs.iter().any(above));
        let Ok(figures) = orprob::read(pairs) else { return };
        self.count_side(figures.iter().map(|pair| pair.lower), Down);
        self.count_side(figures.iter().map(|pair| pair.upper), Up);
    }

    fn count_side(&mut self, figures: impl Iterator<Item = Figure>, side: Side) {
        let (mut s, mut above) = (Figure::ZERO, false);
        for p in figures {
            let rest = Figure::ONE.minus(s, side);
            let part = p.times(rest.value, side);
            let sum = s.plus(part.value, side);
            let lost = [rest.kept, part.kept, sum.kept];
            let place = lost.iter().fold(0, |place, kept| 2 * place + usize::from(!kept));
            self.losses[usize::from(side == Up)][place] += 1;
            above |= sum.value > Figure::ONE;
            s = sum.value.min(Figure::ONE);
        }
        self.set_to_one += u64::from(above);
    }

    /// Counts an answer on which the rule holds; `exact` as the check hands it back.
    pub fn count_exact(&mut self, exact: [bool; 2]) {
        self.accurate += 1;
        for (count, exact) in self.exact.iter_mut().zip(exact) {
            *count += u64::from(exact);
        }
    }

    pub fn lists(&self) -> u64 {
        self.kinds.values().flatten().sum()
    }
}

/// A row of the table: how many lists, and the four columns.
fn write_row(out: &mut fmt::Formatter<'_>, kind: &str, counts: [u64; 4]) -> fmt::Result {
    write!(out, "{kind:<28}{:>9}", counts.iter().sum::<u64>())?;
    for count in counts {
        write!(out, "{count:>10}")?;
    }
    writeln!(out)
}

fn joined(counts: &[u64]) -> String {
    counts.iter().map(u64::to_string).collect::<Vec<_>>().join(" ")
}

impl fmt::Display for Tally {
    fn fmt(&self, out: &mut fmt::Formatter<'_>) -> fmt::Result {
        let [lists, rest @ ..] = COLUMNS;
        write!(out, "{:<28}{lists:>9}", "kind of list")?;
        for column in rest {
            write!(out, "{column:>10}")?;
        }
        writeln!(out)?;
        let mut all = [0; 4];
        for (kind, counts) in &self.kinds {
            write_row(out, kind, *counts)?;
            for (sum, count) in all.iter_mut().zip(counts) {
                *sum += count;
            }
        }
        write_row(out, "all", all)?;
        writeln!(out, "refusals 18 at 0 to 15: {}", joined(&self.places))?;
        writeln!(out, "refusals 18 for one reason alone:")?;
        for (reason, count) in REASONS.iter().zip(self.reasons) {
            writeln!(out, "  {reason}: {count}")?;
        }
        let [lower, upper] = self.losses.each_ref().map(|counts| joined(counts));
        writeln!(out, "steps that lose by difference, product, sum, 000 to 111:")?;
        writeln!(out, "  of lowers: {lower}")?;
        writeln!(out, "  of uppers: {upper}")?;
        writeln!(out, "answers with an s above 1 set to 1: {}", self.set_to_one)?;
        writeln!(out, "answers with an upper above 1: {}", self.above_one)?;
        if self.accurate > 0 {
            let [lower, upper] = self.exact;
            writeln!(out, "rule held on answers: {}", self.accurate)?;
            writeln!(out, "exact among them: {lower} lowers, {upper} uppers")?;
        }
        Ok(())
    }
}
