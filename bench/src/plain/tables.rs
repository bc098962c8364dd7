//! What depends on a state or on a transition alone, worked out once.

use super::figure::{Figure, DOWN, UP};
use super::words::{Model, Transition};

/// E, h, h' and H.
#[derive(Clone, Copy)]
pub struct State {
    pub rate: Figure,
    pub mean: Figure,
    pub floor: Figure,
    pub moment: Figure,
}

#[derive(Clone, Copy)]
pub struct Step {
    pub from: u16,
    pub to: u16,
    pub class: u8,
    pub share: Figure,
    pub grains: u32,
    pub factor: Figure,
}

pub struct Tables {
    pub states: Vec<State>,
    pub steps: Vec<Step>,
}

fn moment(t: &Transition) -> Figure {
    t.mean.times::<UP>(t.mean).plus::<UP>(t.deviation.times::<UP>(t.deviation))
}

impl Tables {
    pub fn of(model: &Model) -> Tables {
        let states: Vec<State> = (0..=model.states).map(|s| sums(model, s)).collect();
        let time2 = model.time.times::<DOWN>(model.time);
        let steps = model
            .transitions
            .iter()
            .map(|t| step(t, &states[t.from as usize], model.time, time2))
            .collect();
        Tables { states, steps }
    }
}

fn sums(model: &Model, state: usize) -> State {
    let zero = Figure::ZERO;
    let mut s = State { rate: zero, mean: zero, floor: zero, moment: zero };
    for &exit in &model.exits[state] {
        let t = &model.transitions[exit as usize];
        if t.fast {
            s.mean = s.mean.plus::<UP>(t.share.times::<UP>(t.mean));
            s.floor = s.floor.plus::<DOWN>(t.share.times::<DOWN>(t.mean));
            s.moment = s.moment.plus::<UP>(t.share.times::<UP>(moment(t)));
        } else {
            s.rate = s.rate.plus::<UP>(t.share);
        }
    }
    s
}

fn step(t: &Transition, s: &State, time: Figure, time2: Figure) -> Step {
    let class = match (t.fast, s.mean.digits) {
        (true, _) => 2,
        (false, 0) => 1,
        (false, _) => 3,
    };
    let (grains, factor) = match class {
        1 => (0, Figure::ZERO),
        2 => class2(t, s, time2),
        _ => class3(t, s, time),
    };
    Step { from: t.from, to: t.to, class, share: t.share, grains, factor }
}

fn class2(t: &Transition, s: &State, time2: Figure) -> (u32, Figure) {
    let moment = moment(t);
    let goal = Figure::whole(2).times::<UP>(moment).over::<UP>(time2).times_ten(18);
    let n = least(goal, |n| n * n * n);
    let square = Figure::whole(n * n).times::<DOWN>(time2);
    let rest = moment.over::<UP>(square).times_ten(12);
    let loss = s.rate.times::<UP>(t.mean).plus::<UP>(rest);
    (n as u32, t.share.times::<DOWN>(Figure::ONE.minus(loss)))
}

fn class3(t: &Transition, s: &State, time: Figure) -> (u32, Figure) {
    let goal = s.moment.over::<UP>(s.floor.times::<DOWN>(time)).times_ten(12);
    let n = least(goal, |n| n * n);
    let half = s.rate.times::<UP>(s.moment).over::<UP>(Figure::whole(2));
    let rest = s.moment.over::<UP>(Figure::whole(n).times::<DOWN>(time)).times_ten(6);
    (n as u32, t.share.times::<DOWN>(s.floor.minus(half.plus::<UP>(rest))))
}

/// The least n from 1 on whose power reaches the goal, or 1,000,000.
fn least(goal: Figure, power: impl Fn(u64) -> u64) -> u64 {
    let goal = match goal.power {
        10.. => 1_000_000_000_000_000_000,
        0..=9 => goal.digits * 10u64.pow(goal.power as u32),
        -9..=-1 => goal.digits.div_ceil(10u64.pow(-goal.power as u32)),
        _ => 1,
    };
    let mut below = 0;
    for bit in (0..20).rev() {
        let n = below + (1 << bit);
        if n < 1_000_000 && power(n) < goal {
            below = n;
        }
    }
    below + 1
}
