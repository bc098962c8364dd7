//! The exact bounds of paths, as fractions, and their sums over the cut tree.

use crate::fraction::{Fraction, Sum};
use crate::marked::MarkedFigure;
use crate::model::{Law, Model, Quantity, Refusal};
use crate::steps::{Class, Figures, GRAINS};
use crate::walk::{walk, End, Watcher};
use std::collections::BTreeMap;

/// The three exact sums of document 01.
#[derive(Clone)]
pub struct ExactSums {
    /// Over deaths and cuts.
    pub upper: Fraction,
    /// Over deaths.
    pub lower: Fraction,
    /// The exact uppers of the deaths alone.
    pub deaths_upper: Fraction,
}

impl ExactSums {
    /// The sums over death paths alone.
    fn of_deaths(lower: Fraction, upper: Fraction) -> ExactSums {
        ExactSums { lower, deaths_upper: upper.clone(), upper }
    }
}

/// The exact sums over the whole cut tree, and over the death paths of each state alone.
pub struct ExactTree {
    pub whole: ExactSums,
    states: BTreeMap<usize, ExactSums>,
}

impl ExactTree {
    /// The sums over the death paths that end in a state; over no path they are 0.
    pub fn of_state(&self, state: usize) -> ExactSums {
        let zero = Fraction::zero;
        self.states.get(&state).cloned().unwrap_or(ExactSums::of_deaths(zero(), zero()))
    }
}

/// The exact sums over the cut tree of a model, or refusal 13.
pub fn exact_tree(model: &Model, budget: u64) -> Result<ExactTree, Refusal> {
    let figures = Figures::of(model);
    let mut watcher = ExactWatcher::of(model, &figures);
    walk(model, &figures, budget, &mut watcher)?;
    let (mut lower, mut upper) = (Sum::default(), Sum::default());
    let mut states = BTreeMap::new();
    for (&state, deaths) in &watcher.deaths {
        let sums = ExactSums::of_deaths(deaths.lower.total(), deaths.upper.total());
        lower.add(sums.lower.clone());
        upper.add(sums.upper.clone());
        states.insert(state, sums);
    }
    let mut whole = ExactSums::of_deaths(lower.total(), upper.total());
    whole.upper = whole.upper.plus(&watcher.cuts_upper.total());
    Ok(ExactTree { whole, states })
}

/// What a step contributes to the exact bounds of the paths it stands in.
struct ExactStep {
    class: Class,
    /// The rate; for class 2, q; for class 3, rate × h.
    upper: Fraction,
    /// The factor in the lower of class 2 and 3; may be negative.
    lower: Fraction,
    escape: Fraction,
    grains: u64,
}

/// The exact sums over the exits of one state.
struct ExactState {
    escape: Fraction,
    hold: Fraction,
    square: Fraction,
}

fn second_moment(mean: Quantity, deviation: Quantity) -> Fraction {
    let (mean, deviation) = (Fraction::of_quantity(mean), Fraction::of_quantity(deviation));
    mean.times(&mean).plus(&deviation.times(&deviation))
}

impl ExactState {
    fn of(model: &Model, state: usize) -> ExactState {
        let zero = Fraction::zero;
        let mut sums = ExactState { escape: zero(), hold: zero(), square: zero() };
        for &exit in &model.exits[state] {
            match model.transitions[exit].law {
                Law::Slow { rate } => {
                    sums.escape = sums.escape.plus(&Fraction::of_quantity(rate));
                }
                Law::Fast { mean, deviation, probability } => {
                    let q = Fraction::of_quantity(probability);
                    sums.hold = sums.hold.plus(&q.times(&Fraction::of_quantity(mean)));
                    sums.square = sums.square.plus(&q.times(&second_moment(mean, deviation)));
                }
            }
        }
        sums
    }
}

/// A value over (n × T / 1,000,000)^exponent.
fn over_length(value: &Fraction, grains: u64, time: Quantity, exponent: u32) -> Fraction {
    let million = Fraction::decimal(1, 6 + time.scale as i32).to_power(exponent);
    let quotient = value.times(&million).over_power(grains, exponent);
    quotient.over_power(u64::from(time.coefficient), exponent)
}

impl ExactStep {
    fn of(model: &Model, exit: usize, figures: &Figures, state: &ExactState) -> ExactStep {
        let (class, grains) = (figures.steps[exit].class, figures.steps[exit].grains);
        let escape = state.escape.clone();
        let (upper, lower) = match model.transitions[exit].law {
            Law::Slow { rate } if class == Class::One => {
                (Fraction::of_quantity(rate), Fraction::whole(1))
            }
            Law::Slow { rate } => {
                let rate = Fraction::of_quantity(rate);
                let half = escape.times(&state.square).over_power(2, 1);
                let loss = half.plus(&over_length(&state.square, grains, model.time, 1));
                (rate.times(&state.hold), rate.times(&state.hold.minus(&loss)))
            }
            Law::Fast { mean, deviation, probability } => {
                let q = Fraction::of_quantity(probability);
                let square = second_moment(mean, deviation);
                let left = escape.times(&Fraction::of_quantity(mean));
                let loss = left.plus(&over_length(&square, grains, model.time, 2));
                let lower = q.times(&Fraction::whole(1).minus(&loss));
                (q, lower)
            }
        };
        ExactStep { class, upper, lower, escape, grains }
    }
}

/// The sums over the death paths of one state.
#[derive(Default)]
struct DeathSums {
    upper: Sum,
    lower: Sum,
}

struct ExactWatcher {
    time: Quantity,
    /// Where each transition leads.
    targets: Vec<usize>,
    steps: Vec<ExactStep>,
    deaths: BTreeMap<usize, DeathSums>,
    cuts_upper: Sum,
}

impl ExactWatcher {
    fn of(model: &Model, figures: &Figures) -> ExactWatcher {
        let states: Vec<ExactState> =
            (0..=model.states).map(|state| ExactState::of(model, state)).collect();
        let step = |(exit, transition): (usize, &crate::model::Transition)| {
            ExactStep::of(model, exit, figures, &states[transition.from])
        };
        let steps = model.transitions.iter().enumerate().map(step).collect();
        let targets = model.transitions.iter().map(|transition| transition.to).collect();
        let (deaths, cuts_upper) = Default::default();
        ExactWatcher { time: model.time, targets, steps, deaths, cuts_upper }
    }

    fn class_ones(&self, path: &[usize]) -> u32 {
        path.iter().filter(|&&exit| self.steps[exit].class == Class::One).count() as u32
    }

    fn upper_of(&self, path: &[usize]) -> Fraction {
        let k = self.class_ones(path);
        let times = over_factorial(Fraction::of_quantity(self.time).to_power(k), k);
        path.iter().fold(times, |product, &exit| product.times(&self.steps[exit].upper))
    }

    fn lower_of(&self, path: &[usize]) -> Fraction {
        let grains: u64 = path.iter().map(|&exit| self.steps[exit].grains).sum();
        if grains >= GRAINS {
            return Fraction::zero();
        }
        let k = self.class_ones(path);
        let left = Fraction::decimal(GRAINS - grains, -6);
        let time = Fraction::of_quantity(self.time).times(&left);
        let mut escapes = Fraction::zero();
        let mut product = over_factorial(time.to_power(k), k);
        for &exit in path {
            let step = &self.steps[exit];
            if step.class == Class::One {
                escapes = escapes.plus(&step.escape);
                product = product.times(&step.upper);
            } else if step.lower.is_positive() {
                product = product.times(&step.lower);
            } else {
                return Fraction::zero();
            }
        }
        let loss = time.times(&escapes).over_power(u64::from(k) + 1, 1);
        let last = Fraction::whole(1).minus(&loss);
        if last.is_positive() {
            product.times(&last)
        } else {
            Fraction::zero()
        }
    }
}

/// value / k!
fn over_factorial(value: Fraction, k: u32) -> Fraction {
    (2..=k).fold(value, |quotient, factor| quotient.over_power(u64::from(factor), 1))
}

impl Watcher for ExactWatcher {
    fn ended(&mut self, end: End, path: &[usize], _upper: MarkedFigure) {
        let upper = self.upper_of(path);
        match (end, path.last()) {
            (End::Death, Some(&last)) => {
                let lower = self.lower_of(path);
                let sums = self.deaths.entry(self.targets[last]).or_default();
                sums.upper.add(upper);
                sums.lower.add(lower);
            }
            _ => self.cuts_upper.add(upper),
        }
    }
}
