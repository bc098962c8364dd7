//! The cut tree, walked depth first.

use crate::answer::Counts;
use crate::faults::{planted, Fault};
use crate::figure::Figure;
use crate::figure::Side::{Down, Up};
use crate::marked::MarkedFigure;
use crate::model::{Model, Refusal};
use crate::steps::{Class, Figures};

/// How a path ended.
#[derive(Clone, Copy, Debug, PartialEq, Eq)]
pub enum End {
    Death,
    /// A cut by one of the limits.
    Cut,
    /// A cut in one of the generator's states.
    GeneratorsState,
}

/// Told of every ended path, in the order of the walk: its transitions by number, and its U with
/// the mark of U's operations.
pub trait Watcher {
    fn ended(&mut self, end: End, path: &[usize], upper: MarkedFigure);
}

/// Walks the whole tree, or ends with refusal 13 at the first step over the budget.
pub fn walk(
    model: &Model,
    figures: &Figures,
    budget: u64,
    watcher: &mut dyn Watcher,
) -> Result<Counts, Refusal> {
    let mut entries = vec![0; model.states + 1];
    entries[model.start] = u32::from(!planted(Fault::StartNotEntered));
    let counts = Counts::default();
    let mut walker = Walker { model, figures, budget, watcher, entries, path: Vec::new(), counts };
    walker.continue_from(model.start, Upper { value: MarkedFigure::ONE, class_ones: 0 })?;
    Ok(walker.counts)
}

/// U of the path so far, and the number of its class 1 steps.
#[derive(Clone, Copy)]
struct Upper {
    value: MarkedFigure,
    class_ones: u64,
}

struct Walker<'a> {
    model: &'a Model,
    figures: &'a Figures,
    budget: u64,
    watcher: &'a mut dyn Watcher,
    /// How often the path has entered each state.
    entries: Vec<u32>,
    path: Vec<usize>,
    counts: Counts,
}

impl<'a> Walker<'a> {
    /// Continues the path, which is at a state, by every exit of that state.
    fn continue_from(&mut self, state: usize, upper: Upper) -> Result<(), Refusal> {
        let model: &'a Model = self.model;
        for &exit in &model.exits[state] {
            let over = self.budget - u64::from(planted(Fault::BudgetReached));
            if self.counts.steps >= over {
                return Err(Refusal::new(13, 0));
            }
            self.counts.steps += 1;
            let to = model.transitions[exit].to;
            self.path.push(exit);
            self.entries[to] += 1;
            let longer = self.lengthened(upper, exit);
            match self.end_at(to, longer.value.value) {
                Some(end) => self.finish(end, longer.value),
                None => self.continue_from(to, longer)?,
            }
            self.entries[to] -= 1;
            self.path.pop();
        }
        Ok(())
    }

    /// How the path ends at the state it has just reached, if it does.
    fn end_at(&self, state: usize, upper: Figure) -> Option<End> {
        let dead = self.model.exits[state].is_empty();
        if self.model.is_named(state) && !planted(Fault::NamedDies) {
            return Some(End::GeneratorsState);
        }
        if dead && !planted(Fault::CutBeforeDeath) {
            return Some(End::Death);
        }
        let most_entries = self.model.entry_limit - u32::from(planted(Fault::EntryLimitReached));
        let pruned = if planted(Fault::PruneBelowOnly) {
            upper < self.figures.prune
        } else {
            upper <= self.figures.prune
        };
        let cut = self.entries[state] > most_entries
            || self.path.len() >= self.model.step_limit as usize
            || pruned;
        match (cut, dead) {
            (true, _) => Some(End::Cut),
            (false, true) => Some(End::Death),
            (false, false) => None,
        }
    }

    fn finish(&mut self, end: End, upper: MarkedFigure) {
        match end {
            End::Death => self.counts.deaths += 1,
            End::Cut => self.counts.cuts += 1,
            End::GeneratorsState => {
                self.counts.cuts += 1;
                self.counts.in_generators_states += 1;
            }
        }
        self.watcher.ended(end, &self.path, upper);
    }

    /// U after one more step, which is the last of the path.
    fn lengthened(&self, upper: Upper, exit: usize) -> Upper {
        let step = &self.figures.steps[exit];
        let Upper { value, class_ones } = upper;
        match step.class {
            Class::One => {
                let first = if planted(Fault::UpperRoundsDown) { Down } else { Up };
                let mut divisor = class_ones + 1;
                if planted(Fault::DividedByPlace) {
                    divisor = self.path.len() as u64;
                }
                let product = value.times(step.weight, first).times(self.figures.time, Up);
                let value = product.over(MarkedFigure::small(divisor), Up);
                Upper { value, class_ones: class_ones + 1 }
            }
            Class::Two => Upper { value: value.times(step.weight, Up), class_ones },
            Class::Three => {
                let value = value.times(step.weight, Up).times(step.hold, Up);
                Upper { value, class_ones }
            }
        }
    }
}
