//! The cut tree.

use super::figure::{Figure, DOWN, UP};
use super::tables::{Step, Tables};
use super::words::Model;
use super::{Refusal, Report, Row};

const GRAINS: u64 = 1_000_000;

pub struct Walk<'a> {
    model: &'a Model,
    tables: &'a Tables,
    budget: u64,
    entered: [u8; 1001],
    path: [u16; 24],
    lower: Figure,
    died: Figure,
    cut: Figure,
    deaths: u64,
    cuts: u64,
    steps: u64,
    /// The lower and the upper total of the deaths in each state.
    rows: [(Figure, Figure); 1001],
}

/// What the deaths share that leave one state by a slow exit: none where the grains fill the mission time.
type Shared = Option<SharedFactors>;

#[derive(Clone, Copy)]
struct SharedFactors {
    time: Figure,
    product: Figure,
    last: Figure,
}

impl<'a> Walk<'a> {
    pub fn new(model: &'a Model, tables: &'a Tables, budget: u64) -> Walk<'a> {
        let zero = Figure::ZERO;
        Walk {
            model,
            tables,
            budget,
            entered: [0; 1001],
            path: [0; 24],
            lower: zero,
            died: zero,
            cut: zero,
            deaths: 0,
            cuts: 0,
            steps: 0,
            rows: [(zero, zero); 1001],
        }
    }

    pub fn report(&mut self) -> Result<Report, Refusal> {
        let start = self.model.start;
        self.entered[start] = 1;
        if !self.every_exit(start, Figure::ONE, 0, 0) {
            return Err(Refusal { number: 13, place: 0 });
        }
        Ok(Report {
            lower: self.lower.to_nine::<DOWN>(),
            upper: self.died.sum_to_nine(self.cut),
            cut: self.cut.to_nine::<UP>(),
            deaths: self.deaths,
            cuts: self.cuts,
            steps: self.steps,
        })
    }

    /// The row of a state after the walk; zeros where there is no report.
    pub fn row(&self, state: usize, reported: bool) -> Row {
        let mut row = Row { state: state as u64, ..Row::default() };
        if reported {
            let (lower, upper) = self.rows[state];
            (row.lower, row.upper) = (lower.to_nine::<DOWN>(), upper.to_nine::<UP>());
        }
        row
    }

    /// Walks every exit of a state that a path of `len` steps has reached, `ones` of them of class 1; false where the budget is spent.
    fn every_exit(&mut self, state: usize, upper: Figure, ones: u64, len: usize) -> bool {
        let model = self.model;
        let nth = Figure::whole(ones + 1);
        let mut shared: Option<Shared> = None;
        for &exit in &model.exits[state] {
            if self.steps == self.budget {
                return false;
            }
            self.steps += 1;
            let step = self.tables.steps[exit as usize];
            let (to, ones) = (step.to as usize, ones + u64::from(step.class == 1));
            let upper = self.further(&step, upper, nth);
            let before = self.entered[to];
            if model.named[to] {
                self.cut_off(upper);
            } else if model.exits[to].is_empty() {
                let lower = self.lower_of(&step, nth, ones, len, &mut shared);
                self.lower = self.lower.total::<DOWN>(lower);
                self.died = self.died.total::<UP>(upper);
                let row = &mut self.rows[to];
                *row = (row.0.total::<DOWN>(lower), row.1.total::<UP>(upper));
                self.deaths += 1;
            } else if before >= model.entries
                || len + 1 == model.steps
                || upper.at_or_below(model.level)
            {
                self.cut_off(upper);
            } else {
                self.entered[to] = before + 1;
                self.path[len] = exit;
                if !self.every_exit(to, upper, ones, len + 1) {
                    return false;
                }
                self.entered[to] = before;
            }
        }
        true
    }

    fn cut_off(&mut self, upper: Figure) {
        self.cut = self.cut.total::<UP>(upper);
        self.cuts += 1;
    }

    /// U one step further; the step is the `nth` of class 1 if it is of class 1.
    fn further(&self, step: &Step, upper: Figure, nth: Figure) -> Figure {
        let upper = upper.times::<UP>(step.share);
        match step.class {
            1 => upper.times::<UP>(self.model.time).over::<UP>(nth),
            2 => upper,
            _ => upper.times::<UP>(self.tables.states[step.from as usize].mean),
        }
    }

    /// The lower of a death path whose last step is `step`, the `nth` of class 1 if it is of class 1, after the first `len` steps of the path; `ones`
    /// counts the class 1 steps with it.
    fn lower_of(
        &self,
        step: &Step,
        nth: Figure,
        ones: u64,
        len: usize,
        kept: &mut Option<Shared>,
    ) -> Figure {
        let shared = match (*kept, step.class) {
            (Some(shared), 1 | 3) => shared,
            (None, 1 | 3) => *kept.insert(self.shared(step, ones, len)),
            _ => self.shared(step, ones, len),
        };
        let Some(shared) = shared else {
            return Figure::ZERO;
        };
        let product = self.factor(step, shared.product, shared.time, nth);
        product.times::<DOWN>(shared.last)
    }

    /// The product with one step more, `time` being down(t); the step is the `nth` of class 1 if it is of class 1.
    fn factor(&self, step: &Step, product: Figure, time: Figure, nth: Figure) -> Figure {
        if step.class != 1 {
            return product.times::<DOWN>(step.factor);
        }
        product.times::<DOWN>(step.share).times::<DOWN>(time).over::<DOWN>(nth)
    }

    fn shared(&self, last: &Step, ones: u64, len: usize) -> Shared {
        let path = || self.path[..len].iter().map(|&exit| &self.tables.steps[exit as usize]);
        let (mut grains, mut rates) = (0, Figure::ZERO);
        for step in path().chain([last]) {
            if step.class == 1 {
                rates = rates.plus::<UP>(self.tables.states[step.from as usize].rate);
            } else {
                grains += u64::from(step.grains);
            }
        }
        if grains >= GRAINS {
            return None;
        }
        let rest = Figure::whole(GRAINS - grains);
        let time = self.model.time.times::<DOWN>(rest).times_ten(-6);
        let above = self.model.time.times::<UP>(rest).times_ten(-6);
        let loss = above.times::<UP>(rates).over::<UP>(Figure::whole(ones + 1));
        let (mut product, mut k) = (Figure::ONE, 0);
        for step in path() {
            k += u64::from(step.class == 1);
            product = self.factor(step, product, time, Figure::whole(k));
        }
        Some(SharedFactors { time, product, last: Figure::ONE.minus(loss) })
    }
}
