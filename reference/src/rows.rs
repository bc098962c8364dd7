//! Document 02, Item 1: a row for each state that has no exits and is the target of a transition;
//! by Item 3 none for a state of the generator's.

use crate::bounds::Totals;
use crate::faults::{planted, Fault};
use crate::figure::Figure;
use crate::model::{Model, Refusal};
use std::fmt;

/// A row of the table that the caller lends.
#[derive(Clone, Copy, Debug, PartialEq, Eq)]
pub struct Row {
    pub state: u64,
    pub lower: Figure,
    pub upper: Figure,
}

impl Row {
    pub const ZERO: Row = Row { state: 0, lower: Figure::ZERO, upper: Figure::ZERO };
}

impl fmt::Display for Row {
    fn fmt(&self, out: &mut fmt::Formatter<'_>) -> fmt::Result {
        writeln!(out, "row {} {} {}", self.state, self.lower, self.upper)
    }
}

/// The states that have a row, in order of their numbers. Whether a path reaches them is no matter.
pub fn states_of(model: &Model) -> Vec<usize> {
    let mut target = vec![planted(Fault::RowForNoTarget); model.states + 1];
    for transition in &model.transitions {
        target[transition.to] = true;
    }
    if planted(Fault::UnreachedRowsLeftOut) {
        target = reached(model);
    }
    let fails = |&state: &usize| {
        let named = model.is_named(state) && !planted(Fault::RowForNamed);
        target[state] && model.exits[state].is_empty() && !named
    };
    (1..=model.states).filter(fails).collect()
}

/// A planted fault: the states to which transitions lead from the start.
fn reached(model: &Model) -> Vec<bool> {
    let mut reached = vec![false; model.states + 1];
    let mut waiting = vec![model.start];
    while let Some(state) = waiting.pop() {
        if !std::mem::replace(&mut reached[state], true) {
            waiting.extend(model.exits[state].iter().map(|&exit| model.transitions[exit].to));
        }
    }
    reached
}

/// Refusal 14: fewer rows than such states. Its place is the number of rows needed.
pub fn enough(lent: usize, needed: usize) -> Result<(), Refusal> {
    let least = needed + usize::from(planted(Fault::RowTooFew));
    let place = if planted(Fault::PlaceOfRowsLent) { lent } else { needed };
    if lent < least {
        return Err(Refusal::new(14, place));
    }
    Ok(())
}

/// Fills the first rows from the totals, one for each state; the others are left as they are.
pub fn fill(rows: &mut [Row], totals: &Totals<'_>) {
    let mut filled = totals.rows();
    if planted(Fault::RowsInTableOrder) {
        filled.sort_by_key(|row| totals.first_entry(row.state));
    }
    if planted(Fault::RowsBeyondCleared) {
        filled.resize(rows.len().max(filled.len()), Row::ZERO);
    }
    for (row, new) in rows.iter_mut().zip(filled) {
        *row = new;
    }
}
