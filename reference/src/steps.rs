//! The figures that belong to a state or to a transition, whatever path it stands in, and whether
//! something was lost on the way to them; both are worked out once for a model.

use crate::faults::{planted, Fault};
use crate::figure::Figure;
use crate::figure::Side::{Down, Up};
use crate::marked::MarkedFigure;
use crate::model::{Law, Model, Quantity};
use std::cmp::Ordering;

/// The number of grains in the mission time.
pub const GRAINS: u64 = 1_000_000;

#[derive(Clone, Copy, Debug, PartialEq, Eq)]
pub enum Class {
    One,
    Two,
    Three,
}

/// The figures of one transition.
#[derive(Clone, Copy, Debug)]
pub struct Step {
    pub class: Class,
    /// The rate, or for class 2 the probability q.
    pub weight: MarkedFigure,
    /// E of the state that is left.
    pub escape: MarkedFigure,
    /// h of the state that is left; 0 for a state without fast exits.
    pub hold: MarkedFigure,
    /// n; 0 for class 1.
    pub grains: u64,
    /// Whether the operations for n lost nothing.
    pub grains_kept: bool,
    /// The factor in a lower; unused for class 1.
    pub factor: MarkedFigure,
}

/// All the figures that the walk uses.
pub struct Figures {
    /// T
    pub time: MarkedFigure,
    /// P
    pub prune: Figure,
    /// By the transition's number in the table.
    pub steps: Vec<Step>,
}

/// T and T2.
struct Times {
    time: MarkedFigure,
    square: MarkedFigure,
}

/// The figures of one state.
struct State {
    has_fast: bool,
    /// E
    escape: MarkedFigure,
    /// h
    hold: MarkedFigure,
    /// h'
    hold_down: MarkedFigure,
    /// H
    square: MarkedFigure,
}

impl Figures {
    pub fn of(model: &Model) -> Figures {
        let time = MarkedFigure::of(model.time);
        let side = if planted(Fault::TimeSquareUp) { Up } else { Down };
        let mut times = Times { time, square: time.times(time, side) };
        times.square.kept |= planted(Fault::TimeSquareUncounted);
        let states: Vec<State> =
            (0..=model.states).map(|state| State::of(model, state, None)).collect();
        let steps = model
            .transitions
            .iter()
            .enumerate()
            .map(|(number, transition)| match transition.law {
                Law::Slow { rate } if planted(Fault::OwnRateLeftOut) => {
                    slow_step(rate, &State::of(model, transition.from, Some(number)), &times)
                }
                Law::Slow { rate } => slow_step(rate, &states[transition.from], &times),
                Law::Fast { mean, deviation, probability } => {
                    let square = second_moment(mean, deviation);
                    fast_step(mean, square, probability, &states[transition.from], &times)
                }
            })
            .collect();
        Figures { time, prune: Figure::of(model.prune), steps }
    }
}

/// M of a fast exit: both squares rounded up, then their sum.
fn second_moment(mean: Quantity, deviation: Quantity) -> MarkedFigure {
    let (mean, deviation) = (MarkedFigure::of(mean), MarkedFigure::of(deviation));
    mean.times(mean, Up).plus(deviation.times(deviation, Up), Up)
}

impl State {
    /// The figures of a state. A slow exit `without` is passed over; only a planted fault asks so.
    fn of(model: &Model, state: usize, without: Option<usize>) -> State {
        let zero = MarkedFigure::ZERO;
        let mut sums =
            State { has_fast: false, escape: zero, hold: zero, hold_down: zero, square: zero };
        let mut exits = model.exits[state].clone();
        if planted(Fault::SumsReversed) {
            exits.reverse();
        }
        for exit in exits {
            match model.transitions[exit].law {
                Law::Slow { .. } if without == Some(exit) => {}
                Law::Slow { rate } => {
                    let side = if planted(Fault::EscapeRoundsDown) { Down } else { Up };
                    sums.escape = sums.escape.plus(MarkedFigure::of(rate), side);
                }
                Law::Fast { mean, deviation, probability } => {
                    sums.add_fast(mean, second_moment(mean, deviation), probability);
                }
            }
        }
        if planted(Fault::PlainMean) && sums.has_fast {
            sums.hold = plain_mean(model, state);
        }
        sums
    }

    fn add_fast(&mut self, mean: Quantity, second_moment: MarkedFigure, probability: Quantity) {
        let (mean, q) = (MarkedFigure::of(mean), MarkedFigure::of(probability));
        self.has_fast = true;
        self.hold = self.hold.plus(q.times(mean, Up), Up);
        self.hold_down = self.hold_down.plus(q.times(mean, Down), Down);
        self.square = self.square.plus(q.times(second_moment, Up), Up);
    }
}

/// A planted fault: the means of the fast exits, summed and divided by their number.
fn plain_mean(model: &Model, state: usize) -> MarkedFigure {
    let (mut sum, mut number) = (MarkedFigure::ZERO, 0);
    for &exit in &model.exits[state] {
        if let Law::Fast { mean, .. } = model.transitions[exit].law {
            sum = sum.plus(MarkedFigure::of(mean), Up); // planted
            number += 1;
        }
    }
    sum.over(MarkedFigure::small(number), Up) // planted
}

/// Class 1 or class 3.
fn slow_step(rate: Quantity, state: &State, times: &Times) -> Step {
    let rate = MarkedFigure::of(rate);
    let mut step = Step {
        class: Class::One,
        weight: rate,
        escape: state.escape,
        hold: state.hold,
        grains: 0,
        grains_kept: true,
        factor: MarkedFigure::ZERO,
    };
    if !state.has_fast {
        return step;
    }
    let ratio = state.square.over(state.hold_down.times(times.time, Down), Up);
    let grains = least_grains(2, ratio.value.shifted(12));
    let length = MarkedFigure::small(grains).and(ratio.kept).times(times.time, Down);
    let loss = state.escape.times(state.square, Up).over(MarkedFigure::small(2), Up);
    let y = loss.plus(state.square.over(length, Up).shifted(6), Up);
    step.class = Class::Three;
    step.hold = if planted(Fault::MeanDownForUp) { state.hold_down } else { state.hold };
    (step.grains, step.grains_kept) = (grains, ratio.kept);
    step.factor = rate.times(state.hold_down.minus(y, Down), Down);
    step
}

/// Class 2.
fn fast_step(
    mean: Quantity,
    square: MarkedFigure,
    probability: Quantity,
    state: &State,
    times: &Times,
) -> Step {
    let (mean, q) = (MarkedFigure::of(mean), MarkedFigure::of(probability));
    let (escape, hold) = (state.escape, MarkedFigure::ZERO);
    let ratio = MarkedFigure::small(2).times(square, Up).over(times.square, Up);
    let grains = least_grains(3, ratio.value.shifted(18));
    let mut grains_squared = MarkedFigure::whole(grains * grains, Down).and(ratio.kept);
    if planted(Fault::GrainsSquaredUncounted) {
        grains_squared.kept = ratio.kept;
    }
    let length = grains_squared.times(times.square, Down);
    let y = escape.times(mean, Up).plus(square.over(length, Up).shifted(12), Up);
    let mut factor = q.times(MarkedFigure::ONE.minus(y, Down), Down);
    factor.kept &= state.hold.kept || !planted(Fault::HoldCounted);
    let (class, weight, grains_kept) = (Class::Two, q, ratio.kept);
    Step { class, weight, escape, hold, grains, grains_kept, factor }
}

/// The least whole number whose square (exponent 2) or cube (3) is at or above g, which isn't zero.
/// It is 1,000,000 if none below that will do.
fn least_grains(exponent: u32, g: Figure) -> u64 {
    let reaches = |number: u64| match compared(u128::from(number).pow(exponent), g) {
        Ordering::Less => false,
        Ordering::Equal => !planted(Fault::GrainsAboveOnly),
        Ordering::Greater => true,
    };
    // The least lies in low + 1 ..= high all the time.
    let (mut low, mut high) = (0, GRAINS);
    while high - low > 1 {
        let middle = low + (high - low) / 2;
        if reaches(middle) {
            high = middle;
        } else {
            low = middle;
        }
    }
    let more = u64::from(planted(Fault::GrainsOneMore));
    GRAINS.min(high + more)
}

/// A positive whole number of at most 18 digits against a figure other than zero.
fn compared(number: u128, figure: Figure) -> Ordering {
    let digits = u128::from(figure.digits());
    match figure.power() {
        power if power > 18 => Ordering::Less,
        power if power >= 0 => number.cmp(&(digits * 10u128.pow(power as u32))),
        power if power < -9 => Ordering::Greater,
        power => (number * 10u128.pow(power.unsigned_abs())).cmp(&digits),
    }
}
