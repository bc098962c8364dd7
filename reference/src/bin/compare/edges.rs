//! Models that stand at an edge of a rule.

use crate::draft::Draft;
use crate::quantities::{quantity, Taste, TASTES};
use crate::random::Random;
use crate::shapes::{self, Shape};
use reference::figure::Figure;
use reference::marked::MarkedFigure;
use reference::model::Quantity;
use reference::steps::Figures;
use reference::walk::{walk, End, Watcher};

/// Collects the U of paths that were cut.
#[derive(Default)]
struct CutUppers(Vec<Figure>);

impl Watcher for CutUppers {
    fn ended(&mut self, end: End, _path: &[usize], upper: MarkedFigure) {
        if end != End::Death {
            self.0.push(upper.value);
        }
    }
}

/// A quantity at a figure, or next to it by one in the sixth digit, if there is one.
fn near(random: &mut Random, figure: Figure) -> Option<Quantity> {
    let (mut coefficient, mut power) = (figure.digits() / 1_000, figure.power() + 3);
    if random.once_in(2) {
        coefficient = coefficient + 2 - random.next() % 4;
    }
    while power < -20 && coefficient % 10 == 0 && coefficient > 0 {
        coefficient /= 10;
        power += 1;
    }
    let scale = u32::try_from(-power).ok().filter(|&scale| scale <= 20)?;
    let coefficient = u32::try_from(coefficient).ok().filter(|&number| number <= 999_999)?;
    Some(quantity(coefficient, scale))
}

/// A prune level at or near the U of a path.
pub fn prune_near_upper(random: &mut Random) -> Draft {
    let taste = random.pick(&[Taste::Round, Taste::Round, Taste::Tame, Taste::Coarse]);
    let list: [Shape; 4] = [shapes::no_loops, shapes::chain, shapes::loops, shapes::computer];
    let mut draft = random.pick(&list)(random, taste);
    let mut short = draft.clone();
    (short.step_limit, short.prune) = (random.word(1, 4), quantity(0, 0));
    let mut uppers = CutUppers::default();
    if let Ok(model) = reference::words::read(&short.words(), 1) {
        // Refusal 13 leaves the uppers of the paths before it, which serve as well.
        let _ = walk(&model, &Figures::of(&model), 500, &mut uppers);
    }
    if !uppers.0.is_empty() {
        let upper = random.pick(&uppers.0);
        draft.prune = near(random, upper).unwrap_or(draft.prune);
    }
    draft
}

/// 1, written with up to five zeros after the point.
fn one(random: &mut Random) -> Quantity {
    let zeros = random.word(0, 5);
    quantity(10u32.pow(zeros), zeros)
}

/// Grains whose cube or square is exactly g, or just beside.
pub fn sharp_grains(random: &mut Random) -> Draft {
    if random.once_in(2) {
        return rounded_grains(random);
    }
    let most = random.pick(&[14, 14, 62]);
    let root = random.word(1, most);
    let (exact, scale) =
        if random.once_in(2) { (4 * root * root * root, 9) } else { (2 * root * root, 12) };
    let beside = if random.once_in(2) { exact } else { exact + 1 - random.word(0, 2) };
    let mean = quantity(beside.clamp(1, 999_999), scale);
    let time = one(random);
    one_of_each_class(random, time, mean)
}

/// Large grains where the rounding of g can decide: g is within some 10^-9 of a cube or a square.
fn rounded_grains(random: &mut Random) -> Draft {
    let exponent = random.pick(&[2, 3]);
    let (mut mean, mut time) = (quantity(1, 0), quantity(1, 0));
    for _ in 0..20_000 {
        let scale = random.word(3, 5);
        mean = quantity(random.word(100_000, 999_999), scale);
        time = quantity(random.word(100_000, 999_999), 3);
        let length = 2.0 * f64::from(mean.coefficient) / f64::from(time.coefficient);
        let length = length / 10f64.powi(scale as i32 - 3);
        // With mean and deviation alike, n² is length × 10^12 in class 3, n³ length² × 10^18 in 2.
        let (g, root) = match exponent {
            2 => (length * 1e12, (length * 1e12).sqrt().round()),
            _ => (length * length * 1e18, (length * length * 1e18).cbrt().round()),
        };
        if root < 1e6 && (root.powi(exponent) / g - 1.0).abs() < 4e-9 {
            break;
        }
    }
    one_of_each_class(random, time, mean)
}

/// A class 1 step, then a step of class 2 or 3, the deviation equal to the mean.
fn one_of_each_class(random: &mut Random, time: Quantity, mean: Quantity) -> Draft {
    let mut draft = Draft::new(4, time);
    draft.slow(1, 2, quantity(random.word(1, 99), 6));
    draft.slow(2, 4, quantity(random.word(1, 99), 6));
    draft.fast(2, 3, [mean, mean, quantity(1, 0)]);
    draft
}

/// A lower total whose last nine digits are nines, with a far smaller lower added to it.
pub fn totals_at_an_edge(random: &mut Random) -> Draft {
    if random.once_in(2) {
        return row_at_an_edge(random);
    }
    let mut draft = Draft::new(6, quantity(random.word(1, 999_999), 3));
    let (mean, deviation) = (quantity(1, 20), quantity(0, 0));
    let small = quantity(random.word(1, 999), random.pick(&[6, 9, 12]));
    // The factor of such a step is 0.999999999 times its probability.
    let mut fast = |from, to, share| draft.fast(from, to, [mean, deviation, share]);
    fast(1, 2, quantity(999_999, 6));
    fast(1, 3, quantity(1, 9));
    fast(1, 4, quantity(1, 12));
    fast(1, 5, quantity(998_999, 12));
    fast(4, 6, small);
    for (share, to) in rest_of_one(small).into_iter().zip([5, 1]) {
        fast(4, to, share);
    }
    draft.slow(5, 1, quantity(random.word(1, 999_999), 9));
    draft
}

/// Three paths to one state, so that its row's lower total is at such an edge: the last nine digits
/// are 999,999,998 after two of them, and the third adds more than one to them and less than two.
fn row_at_an_edge(random: &mut Random) -> Draft {
    let mut draft = Draft::new(5, quantity(random.word(1, 999_999), 3));
    let small = random.word(1_001, 1_999);
    let mut fast = |from, to, share| draft.fast(from, to, [quantity(1, 20), quantity(0, 0), share]);
    fast(1, 2, quantity(999_999, 6));
    fast(1, 3, quantity(1, 9));
    fast(1, 4, quantity(1, 12));
    fast(1, 5, quantity(998_999, 12));
    fast(3, 2, quantity(1, 0));
    fast(4, 2, quantity(small, 9));
    fast(4, 5, quantity(999_998, 6));
    fast(4, 1, quantity(2_000 - small, 9));
    draft.slow(5, 1, quantity(random.word(1, 999_999), 9));
    draft
}

/// Some sixty states in a row, each with fifteen states of its own in which it can end.
pub fn hundreds_of_rows(random: &mut Random) -> Draft {
    let taste = random.pick(&TASTES);
    let live = random.size(20, 62);
    let mut draft = Draft::new(1_000, taste.time(random));
    let mut dead: Vec<usize> = (live + 2..=1_000).collect();
    random.shuffle(&mut dead);
    for (from, ends) in (1..=live).zip(dead.chunks(15)) {
        let mut to = ends.to_vec();
        to.push(from + 1);
        let slow = random.size(1, to.len());
        draft.add_exits(random, taste, from, &to[..slow], &to[slow..]);
    }
    draft
}

/// One or two probabilities that are 1 together with the given one.
fn rest_of_one(share: Quantity) -> Vec<Quantity> {
    match share.scale {
        6 => vec![quantity(1_000_000 - share.coefficient, 6)],
        scale => {
            let millionth = 10u32.pow(scale - 6);
            vec![quantity(999_999, 6), quantity(millionth - share.coefficient, scale)]
        }
    }
}

/// Two numbers of at most six digits whose product rounds up to a power of ten, if soon found.
fn carrying_pair(random: &mut Random) -> (u32, u32) {
    for _ in 0..20_000 {
        let a = random.word(100_001, 999_999);
        let b = (100_000_000_000 / u64::from(a)) as u32;
        let short = 100_000_000_000 - u64::from(a) * u64::from(b);
        if (1..100).contains(&short) {
            return (a, b);
        }
    }
    (100_003, 999_970)
}

/// Products and sums that carry from 999,999,999 to the next power of ten.
pub fn carries(random: &mut Random) -> Draft {
    let (a, b) = carrying_pair(random);
    let mut draft = Draft::new(4, quantity(b, 5));
    match random.size(0, 2) {
        0 => {
            draft.slow(1, 2, quantity(a, random.word(6, 20)));
            draft.slow(2, 3, quantity(random.word(1, 999_999), random.word(6, 12)));
        }
        1 => {
            let means = [quantity(b, 20), quantity(random.word(1, 999_999), 14)];
            draft.slow(1, 4, quantity(random.word(1, 999), 5));
            draft.fast(1, 2, [means[0], quantity(0, 0), quantity(a, 6)]);
            draft.fast(1, 3, [means[1], means[0], quantity(1_000_000 - a, 6)]);
        }
        _ => {
            draft.time = quantity(random.word(1, 9), random.word(0, 2));
            draft.slow(1, 2, quantity(999_999, 6));
            draft.slow(1, 3, quantity(999_999, 12));
            draft.slow(1, 4, quantity(random.word(1, 999_999), 18));
        }
    }
    draft
}

/// A lower's factors at or near zero: 1 − b, 1 − y and h' − y.
pub fn factors_near_zero(random: &mut Random) -> Draft {
    let mut draft = Draft::new(4, one(random));
    let beside = |random: &mut Random, number: u32| number + 3 - random.word(0, 6);
    match random.size(0, 2) {
        0 => {
            draft.slow(1, 2, quantity(beside(random, 200_000), 5));
        }
        1 => {
            draft.slow(1, 2, quantity(beside(random, 150_000), 5));
            draft.slow(2, 3, quantity(beside(random, 150_000), 5));
        }
        _ => {
            // E × m is near 1, and by the class 3 rule E × H / 2 is near h.
            let mean = quantity(random.word(1, 9), 9);
            draft.slow(1, 4, quantity(random.word(990_000, 999_999) / mean.coefficient, 0));
            draft.slow(1, 3, quantity(random.word(1, 999_999), 6));
            draft.fast(1, 2, [mean, quantity(0, 0), quantity(1, 0)]);
            draft.time = quantity(random.word(1, 999_999), 0);
        }
    }
    draft
}

/// Probabilities of twelve places that sum to 1, or miss it by 10^-12.
pub fn sums_near_one(random: &mut Random) -> Draft {
    let mut draft = shapes::graph(random, Taste::Tame);
    let from = draft.states + 1;
    draft.states += 4;
    let rest = random.word(2, 999_998);
    let last = rest + 1 - random.word(0, 2);
    let shares = [quantity(999_999, 6), quantity(1_000_000 - rest, 12), quantity(last, 12)];
    for (place, share) in shares.into_iter().enumerate() {
        let mean = Taste::Tame.mean(random, draft.time);
        draft.fast(from, from + 1 + place, [mean, mean, share]);
    }
    if random.once_in(2) {
        draft.start = from;
    }
    random.shuffle(&mut draft.transitions);
    draft
}

/// 4,000 transitions; all fast they make 16,005 words, with 100 named states the most there may be.
pub fn full_table(random: &mut Random) -> Draft {
    let taste = random.pick(&TASTES);
    let each = random.pick(&[4, 8, 16]);
    let states = random.pick(&[1_000, 1_000.min(4_000 / each + 1)]);
    let mut draft = Draft::new(states, taste.time(random));
    let sort = random.size(0, 3);
    for from in 1..=4_000 / each {
        let slow = match sort {
            0 => each,
            1 => random.size(0, each),
            _ => 0,
        };
        let to: Vec<usize> =
            (0..each).map(|step| (from + step * step) % draft.states + 1).collect();
        draft.add_exits(random, taste, from, &to[..slow], &to[slow..]);
    }
    draft.step_limit = random.word(1, 3);
    if random.once_in(2) {
        random.shuffle(&mut draft.transitions);
    }
    draft
}

/// Each of a few states leads to all the others and to a death, so that the tree is large; the step
/// limit keeps it about as large as the greatest budget, or much smaller.
pub fn large_tree(random: &mut Random) -> Draft {
    let taste = random.pick(&[Taste::Tame, Taste::Round, Taste::Coarse]);
    let states = random.size(3, 6);
    let mut draft = Draft::new(states + 1, taste.time(random));
    for from in 1..=states {
        let mut to: Vec<usize> = (1..=states + 1).filter(|&state| state != from).collect();
        random.shuffle(&mut to);
        let slow = if random.once_in(2) { to.len() } else { random.size(0, to.len()) };
        draft.add_exits(random, taste, from, &to[..slow], &to[slow..]);
    }
    let steps = 10f64.powi(random.between(3, 6) as i32);
    let limit = steps.ln() / ((states - 1) as f64).ln();
    draft.step_limit = (limit as u32).clamp(1, 24);
    draft.entry_limit = 24;
    random.shuffle(&mut draft.transitions);
    draft
}
