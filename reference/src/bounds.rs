//! The lower figure of a death path, and the totals of a report and of its rows; with each of them
//! goes the mark whether an operation that it rests on lost something.

use crate::answer::{Counts, Report};
use crate::faults::{planted, Fault};
use crate::figure::Side::{Down, Up};
use crate::marked::{MarkedFigure, MarkedTotal};
use crate::model::Model;
use crate::rows::Row;
use crate::steps::{Class, Figures, GRAINS};
use crate::walk::{End, Watcher};
use std::collections::BTreeMap;

/// The running totals, eighteen digits each.
pub struct Totals<'a> {
    model: &'a Model,
    figures: &'a Figures,
    lower: MarkedTotal,
    death_upper: MarkedTotal,
    cut_upper: MarkedTotal,
    /// For each state that has a row, the totals of its death paths.
    rows: BTreeMap<usize, RowTotals>,
}

#[derive(Clone, Copy)]
struct RowTotals {
    lower: MarkedTotal,
    upper: MarkedTotal,
}

impl RowTotals {
    const ZERO: RowTotals = RowTotals { lower: MarkedTotal::ZERO, upper: MarkedTotal::ZERO };

    fn add(&mut self, lower: MarkedFigure, upper: MarkedFigure) {
        self.lower = self.lower.plus(lower.widened(), Down);
        self.upper = self.upper.plus(upper.widened(), Up);
        if planted(Fault::RowsOfNineDigits) {
            self.lower = self.lower.narrowed(Down).widened(); // planted
            self.upper = self.upper.narrowed(Up).widened(); // planted
        }
    }
}

impl<'a> Totals<'a> {
    /// Nothing yet; `states` are those that have a row.
    pub fn new(model: &'a Model, figures: &'a Figures, states: &[usize]) -> Totals<'a> {
        let zero = MarkedTotal::ZERO;
        let rows = states.iter().map(|&state| (state, RowTotals::ZERO)).collect();
        Totals { model, figures, lower: zero, death_upper: zero, cut_upper: zero, rows }
    }

    pub fn report(&self, counts: Counts) -> Report {
        let lower = self.lower.narrowed(Down);
        let upper = self.death_upper.plus(self.cut_upper, Up).narrowed(Up);
        let cut = self.cut_upper.narrowed(Up);
        let mut report = Report {
            lower: lower.value,
            upper: upper.value,
            cut: cut.value,
            counts,
            lower_exact: lower.kept,
            upper_exact: upper.kept,
        };
        report.lower_exact |= self.lower.kept && planted(Fault::LastRoundingUncounted);
        report.upper_exact &= cut.kept || !planted(Fault::CutFigureCounted);
        if planted(Fault::CutsUncounted) {
            report.upper_exact = self.death_upper.kept;
        }
        report
    }

    /// The rows, in order of state number.
    pub fn rows(&self) -> Vec<Row> {
        let row = |(&state, totals): (&usize, &RowTotals)| {
            let mut row = Row {
                state: state as u64,
                lower: totals.lower.narrowed(Down).value,
                upper: totals.upper.narrowed(Up).value,
            };
            if planted(Fault::RowLowerRoundsUp) {
                row.lower = totals.lower.narrowed(Up).value; // planted
            }
            if planted(Fault::RowUpperWithCuts) {
                let both = totals.upper.plus(self.cut_upper, Up); // planted
                row.upper = both.narrowed(Up).value; // planted
            }
            row
        };
        self.rows.iter().map(row).collect()
    }

    /// Sets every row back to zeros.
    pub fn clear_rows(&mut self) {
        self.rows.values_mut().for_each(|totals| *totals = RowTotals::ZERO);
    }

    /// The first transition that leads to a state; only a planted fault asks.
    pub fn first_entry(&self, state: u64) -> Option<usize> {
        self.model.transitions.iter().position(|transition| transition.to as u64 == state)
    }

    fn add_death(&mut self, path: &[usize], upper: MarkedFigure) {
        let mut lower = lower_of(path, self.figures);
        lower.kept &= upper.kept || !planted(Fault::UpperCounted);
        let lost_before = !self.lower.kept || !lower.kept;
        self.death_upper = self.death_upper.plus(upper.widened(), Up);
        self.lower = self.lower.plus(lower.widened(), Down);
        self.lower.kept |= !lost_before && planted(Fault::AdditionsUncounted);
        let state = path.last().map(|&exit| self.model.transitions[exit].to);
        if let Some(totals) = state.and_then(|state| self.rows.get_mut(&state)) {
            totals.add(lower, upper);
        }
    }

    fn add_cut(&mut self, upper: MarkedFigure) {
        self.cut_upper = self.cut_upper.plus(upper.widened(), Up);
    }

    /// A path that ends in a state of the generator's counts as any cut path does.
    fn add_generators_state(&mut self, path: &[usize], upper: MarkedFigure) {
        let kept_before = self.cut_upper.kept;
        if !planted(Fault::NamedLeftOut) {
            self.add_cut(upper);
        }
        self.cut_upper.kept |= kept_before && planted(Fault::NamedUncounted);
        if planted(Fault::LowerForNamed) {
            let lower = lower_of(path, self.figures).widened();
            self.lower = self.lower.plus(lower, Down); // planted
        }
    }
}

impl Watcher for Totals<'_> {
    fn ended(&mut self, end: End, path: &[usize], upper: MarkedFigure) {
        match end {
            End::Death => self.add_death(path, upper),
            End::Cut => self.add_cut(upper),
            End::GeneratorsState => self.add_generators_state(path, upper),
        }
        if planted(Fault::TotalsOfNineDigits) {
            self.lower = self.lower.narrowed(Down).widened(); // planted
            self.death_upper = self.death_upper.narrowed(Up).widened(); // planted
            self.cut_upper = self.cut_upper.narrowed(Up).widened(); // planted
        }
    }
}

/// The lower figure of a death path.
pub fn lower_of(path: &[usize], figures: &Figures) -> MarkedFigure {
    let grains: u64 = path.iter().map(|&exit| figures.steps[exit].grains).sum();
    let class_two_only = path.iter().all(|&exit| figures.steps[exit].class != Class::One);
    if grains >= GRAINS {
        if planted(Fault::FullGrainsLetThrough) && class_two_only {
            return product_of_steps(path, figures, MarkedFigure::ONE).0;
        }
        return MarkedFigure::ZERO.and(kept_where_full(path, figures));
    }
    let left = MarkedFigure::small(GRAINS - grains);
    let time_down = figures.time.times(left, Down).shifted(-6);
    let mut time_up = figures.time.times(left, Up).shifted(-6);
    let (mut product, escapes, class_ones) = product_of_steps(path, figures, time_down);
    time_up.kept |= escapes.value.is_zero() && planted(Fault::TimeUpUncounted);
    product.kept |= product.value.is_zero() && planted(Fault::ZeroForgets);
    let b = time_up.times(escapes, Up).over(MarkedFigure::small(class_ones + 1), Up);
    let last = if planted(Fault::LowerRoundsUp) { Up } else { Down };
    product.times(MarkedFigure::ONE.minus(b, Down), last)
}

/// Where N' is 1,000,000 or more: whether nothing was lost, the operations for the grains of the
/// path's steps counted and no others.
fn kept_where_full(path: &[usize], figures: &Figures) -> bool {
    if planted(Fault::FullGrainsUncounted) {
        return true;
    }
    if planted(Fault::FullAllCounted) {
        let (product, escapes, _) = product_of_steps(path, figures, MarkedFigure::ONE);
        return product.kept && escapes.kept;
    }
    path.iter().all(|&exit| figures.steps[exit].grains_kept)
}

/// The product over the steps in path order, with A and the number of class 1 steps.
fn product_of_steps(
    path: &[usize],
    figures: &Figures,
    time: MarkedFigure,
) -> (MarkedFigure, MarkedFigure, u64) {
    let (mut product, mut escapes, mut class_ones) = (MarkedFigure::ONE, MarkedFigure::ZERO, 0);
    let mut grains_so_far = 0;
    for &exit in path {
        let step = &figures.steps[exit];
        grains_so_far += step.grains;
        if step.class != Class::One {
            product = product.times(step.factor, Down);
            continue;
        }
        class_ones += 1;
        let mut time = time;
        if planted(Fault::ShrunkStepByStep) {
            let left = MarkedFigure::small(GRAINS - grains_so_far);
            time = figures.time.times(left, Down).shifted(-6); // planted
        }
        product = product.times(step.weight, Down).times(time, Down);
        product = product.over(MarkedFigure::small(class_ones), Down);
        escapes = escapes.plus(step.escape, Up);
    }
    (product, escapes, class_ones)
}
