//! Models in which few operations lose something, or one alone, so that the two digits of a report
//! depend on which operations are counted.

use crate::draft::Draft;
use crate::quantities::{quantity, Taste};
use crate::random::Random;
use crate::shapes::{self, Shape};
use reference::model::{Law, Quantity};

/// Plain quantities and short paths; one quantity of six digits among them half of the time.
pub fn nearly_lossless(random: &mut Random) -> Draft {
    let list: [Shape; 6] = [short, short, short, shapes::graph, shapes::no_loops, shapes::parallel];
    let mut draft = random.pick(&list)(random, Taste::Plain);
    if draft.prune.coefficient == 0 && random.once_in(2) {
        draft.step_limit = random.word(1, 3);
    }
    if random.once_in(2) {
        one_long_quantity(random, &mut draft);
    }
    draft
}

/// Up to five states with one or two exits each, to greater states or back.
fn short(random: &mut Random, taste: Taste) -> Draft {
    let states = random.size(2, 5);
    let mut draft = Draft::new(states, taste.time(random));
    let live = random.size(1, states - 1);
    for from in 1..=live {
        let mut to: Vec<usize> = (1..=states).filter(|&state| state != from).collect();
        random.shuffle(&mut to);
        to.truncate(random.size(1, 2));
        let fast = if random.once_in(2) { 0 } else { random.size(1, to.len()) };
        let slow = if fast == 0 || random.once_in(3) { to.len() } else { to.len() - fast };
        let slow_to = to[..slow].to_vec();
        to.reverse();
        draft.add_exits(random, taste, from, &slow_to, &to[..fast]);
    }
    draft
}

/// As many digits as a quantity can have, and about the same value.
fn lengthened(random: &mut Random, of: Quantity) -> Quantity {
    let length = of.coefficient.max(1).ilog10() + 1;
    let longer = random.word(3, 6).max(length) - length;
    let longer = longer.min(20 - of.scale.min(20));
    let unit = 10u32.pow(longer);
    quantity(of.coefficient * unit + random.word(0, unit - 1), of.scale + longer)
}

/// Lengthens the mission time, a rate, a mean or a deviation.
pub fn one_long_quantity(random: &mut Random, draft: &mut Draft) {
    let place = random.size(0, draft.transitions.len());
    let Some(transition) = draft.transitions.get_mut(place) else {
        draft.time = lengthened(random, draft.time);
        return;
    };
    match &mut transition.law {
        Law::Slow { rate } => *rate = lengthened(random, *rate),
        Law::Fast { mean, deviation, .. } => {
            let of = if random.once_in(3) { deviation } else { mean };
            *of = lengthened(random, *of);
        }
    }
}

type Edge = fn(&mut Random) -> Draft;

/// Models in which a certain operation alone loses something.
const EDGES: [Edge; 13] = [
    time_alone,
    grains_squared_alone,
    grain_time_square_alone,
    time_square_alone,
    lower_addition_alone,
    cut_figure_alone,
    hold_alone,
    competing_rate_alone,
    product_of_zero,
    full_grains,
    grain_of_full_alone,
    fast_sum_alone,
    slow_sum_alone,
];

/// One operation alone loses something, or with a long quantity some more do.
pub fn one_loss(random: &mut Random) -> Draft {
    let mut draft = random.pick(&EDGES)(random);
    if random.once_in(4) {
        one_long_quantity(random, &mut draft);
    }
    draft
}

fn one() -> Quantity {
    quantity(1, 0)
}

/// A single fast step to a death.
fn recovery(time: Quantity, mean: Quantity, deviation: Quantity) -> Draft {
    let mut draft = Draft::new(2, time);
    draft.fast(1, 2, [mean, deviation, one()]);
    draft
}

/// up(t), where A is 0: T has four digits, and M is a plain share of its square.
fn time_alone(random: &mut Random) -> Draft {
    let time = quantity(random.word(1_001, 3_162), random.word(0, 3));
    let scale = time.scale + random.word(9, 12);
    let mean = quantity(time.coefficient * random.pick(&[1, 1, 2, 4, 5]), scale);
    let deviation = random.pick(&[mean, quantity(0, 0), quantity(2 * mean.coefficient, scale)]);
    recovery(time, mean, deviation)
}

/// n², where n is 40,002: M is 0.02 times 1.60016 × 10^-3 of T2, and 40,002² is 1,600,160,004.
fn grains_squared_alone(random: &mut Random) -> Draft {
    let scale = random.word(0, 6);
    let (mut mean, mut deviation) = (quantity(396, scale + 5), quantity(404, scale + 5));
    if random.once_in(2) {
        (mean, deviation) = (deviation, mean);
    }
    recovery(quantity(1, scale), mean, deviation)
}

/// n² × T2, where T is 2 and n 17,001 or 18,001: M / (n² × T2) ends early once its divisor, of ten
/// digits, has lost the last one.
fn grain_time_square_alone(random: &mut Random) -> Draft {
    let scale = random.word(0, 6);
    let (mean, deviation) =
        random.pick(&[(466, 3_100), (3_100, 466), (1_836, 2_880), (2_880, 1_836)]);
    recovery(quantity(2, scale), quantity(mean, scale + 6), quantity(deviation, scale + 6))
}

/// T2, where T is 40,002 and its square 1,600,160,004: M is 0.80008, so that n is 1,000.
fn time_square_alone(random: &mut Random) -> Draft {
    let scale = random.word(0, 6);
    let (mut mean, mut deviation) = (quantity(216, scale + 3), quantity(868, scale + 3));
    if random.once_in(2) {
        (mean, deviation) = (deviation, mean);
    }
    recovery(quantity(40_002, scale), mean, deviation)
}

/// The addition to the lower total: eighteen digits don't reach down to the second lower, which a
/// chain of seven or nine steps makes. The rate of each step has its number as a factor, so that
/// the division by that loses nothing; the last one is by 8 or 10.
fn lower_addition_alone(random: &mut Random) -> Draft {
    let length = random.pick(&[7, 9]);
    let mut draft = Draft::new(length + 2, quantity(1, random.word(4, 5)));
    draft.slow(1, 2, quantity(random.word(1, 9), 0));
    draft.slow(1, 3, quantity(random.pick(&[1, 2]), 0));
    for step in 2..=length {
        draft.slow(step + 1, step + 2, quantity(step as u32, 0));
    }
    if random.once_in(2) {
        draft.slow(2, 1, one());
    }
    draft
}

/// The cut figure to nine digits, where the sum of both uppers has no more than nine.
fn cut_figure_alone(random: &mut Random) -> Draft {
    let scale = random.word(0, 3);
    let share = random.word(1, 99);
    let mut draft = Draft::new(4, quantity(1, scale));
    draft.step_limit = 1;
    draft.slow(1, 2, quantity(random.word(1, 9), 1));
    draft.slow(1, 3, quantity(share, 11));
    draft.slow(1, 4, quantity(100 - share, 11));
    draft.slow(2, 4, one());
    draft.slow(3, 4, one());
    random.shuffle(&mut draft.transitions);
    draft
}

/// h of the start, by an exit with a long mean that is cut; the other exit is a death.
fn hold_alone(random: &mut Random) -> Draft {
    let mut draft = Draft::new(3, one());
    let share = random.word(1, 9);
    let tenth = random.word(100_001, 999_999);
    draft.step_limit = 1;
    draft.fast(1, 2, [quantity(2, 2), quantity(1, 2), quantity(share, 1)]);
    draft.fast(1, 3, [quantity(tenth, 11), quantity(tenth, 12), quantity(10 - share, 1)]);
    draft.slow(3, 1, one());
    random.shuffle(&mut draft.transitions);
    draft
}

/// U by the rate of a class 3 step, where h is 1. The sum of both uppers is below 1.
fn competing_rate_alone(random: &mut Random) -> Draft {
    let scale = random.word(0, 3);
    let mut draft = Draft::new(4, quantity(10, scale));
    draft.slow(1, 2, quantity(random.word(100_001, 110_000), 7 - scale));
    draft.slow(2, 3, quantity(random.word(400_001, 799_999), 5));
    draft.fast(2, 4, [one(), quantity(0, 0), one()]);
    random.shuffle(&mut draft.transitions);
    draft
}

/// A fast step whose factor is 0, then slow ones with something to lose.
fn product_of_zero(random: &mut Random) -> Draft {
    let mut draft = Draft::new(5, quantity(random.pick(&[1, 10, 100]), 0));
    draft.slow(1, 5, quantity(random.word(1, 9) * 100_000, 0));
    draft.fast(1, 2, [quantity(2, 5), quantity(0, 0), one()]);
    for from in 2..=random.size(2, 3) {
        draft.slow(from, from + 1, quantity(random.pick(&[1, 2, 5, 7]), random.word(1, 3)));
    }
    draft.slow(5, 1, quantity(1, 3));
    draft
}

/// y of class 2: 0.2, 0.5 or 0.8 and a sum of some 10^-10. The slow exit is cut.
fn fast_sum_alone(random: &mut Random) -> Draft {
    let mut draft = Draft::new(3, quantity(100_000, 0));
    draft.step_limit = 1;
    draft.slow(1, 3, quantity(random.pick(&[200_000, 500_000, 800_000]), 0));
    draft.fast(1, 2, [quantity(1, 6), quantity(0, 0), one()]);
    draft.slow(3, 1, one());
    draft
}

/// y of class 3: n is 2, and of both terms, of seven digits each, the second is 200,000 times
/// smaller; h' is about three times y. The fast exit is cut.
fn slow_sum_alone(random: &mut Random) -> Draft {
    let mut draft = Draft::new(3, quantity(400_000, 0));
    draft.step_limit = 1;
    draft.slow(1, 2, quantity(500_000, 0));
    let mean = quantity(random.word(1_001, 1_600), 9);
    draft.fast(1, 3, [mean, quantity(0, 0), one()]);
    draft.slow(3, 1, one());
    draft
}

/// N' of 1,000,000 or more: the grains lose something, or the rest of the path does, or neither.
fn full_grains(random: &mut Random) -> Draft {
    let time = random.pick(&[1, 1, 10, 3, 7]);
    let mut draft = Draft::new(5, quantity(time, 0));
    let long = quantity(random.word(1, 999_999), random.word(0, 9));
    let mut rate = || random.pick(&[long, long, quantity(1, 2)]);
    draft.slow(1, 2, rate());
    draft.slow(2, 3, rate());
    draft.slow(3, 5, rate());
    let mean = quantity(random.pick(&[time, time, 3 * time, 10, 123_457]), 0);
    draft.fast(3, 4, [mean, random.pick(&[quantity(0, 0), mean]), one()]);
    if random.once_in(2) {
        draft.transitions.remove(2);
    }
    draft
}

/// N' of 1,000,000 by a class 3 step, so that only its grains count, and of what they rest on one
/// operation loses something. The fast exits are cut.
fn grain_of_full_alone(random: &mut Random) -> Draft {
    let scale = random.word(0, 4);
    let (time, exits) = competing_alone(random, scale);
    let mut draft = Draft::new(2 + exits.len(), time);
    draft.step_limit = 1;
    draft.slow(1, 2, quantity(1, random.word(2, 4)));
    for (number, exit) in exits.into_iter().enumerate() {
        draft.fast(1, 3 + number, exit);
        draft.slow(3 + number, 1, one());
    }
    random.shuffle(&mut draft.transitions);
    draft
}

/// Mission time, and mean, deviation and probability of fast exits: down(h' × T) loses something, a
/// product or the sum of h', or a product or the sum of H.
fn competing_alone(random: &mut Random, scale: u32) -> (Quantity, Vec<[Quantity; 3]>) {
    let none = quantity(0, 0);
    let of = |mean, deviation, share, places| {
        [quantity(mean, scale), quantity(deviation, scale), quantity(share, places)]
    };
    let brief = quantity(1, scale + 5);
    match random.word(0, 4) {
        0 => {
            // h' × T is at most 15 above 10,000,000,000
            let pairs: [(u32, u32); 4] =
                [(27_961, 357_641), (19_732, 506_791), (18_041, 554_293), (11_965, 835_771)];
            let (mean, time) = random.pick(&pairs);
            (quantity(time, scale + 9), vec![[quantity(mean, scale + 4), none, one()]])
        }
        1 => {
            // each M is 10^8, and h' 9,765.625 once the first product has lost 8 × 10^-6
            let rest = of(10_000, 0, 760_430, 6);
            (brief, vec![of(8_432, 5_376, 118_619, 6), of(9_600, 2_800, 120_951, 6), rest])
        }
        2 => {
            // h' is 1 and some 10^-9, and H has nine digits
            let (mean, deviation) = random.pick(&[(1_004, 228), (1_008, 956), (1_008, 1_544)]);
            let rare = [quantity(mean, scale + 3), quantity(deviation, scale + 3), quantity(1, 6)];
            (brief, vec![of(1, 0, 999_999, 6), rare])
        }
        3 => {
            // h' is 1, and q × M has eleven digits
            let share = 10 * random.word(1, 9) + random.pick(&[1, 3, 7, 9]);
            let deviation = quantity(random.word(10_001, 31_621), scale + 2);
            let rare = [quantity(1, scale), deviation, quantity(share, 3)];
            (brief, vec![rare, of(1, 0, 1_000 - share, 3)])
        }
        _ => {
            // h' is 1, q × M has nine digits, the last a tenth, and the other exit adds hundredths
            let share = random.pick(&[11, 13, 17, 19, 21, 23, 27, 29]);
            let deviation = 10 * random.word(1_500, 1_700) + random.pick(&[3, 7]);
            (brief, vec![of(1, deviation, share, 2), of(1, 0, 100 - share, 2)])
        }
    }
}
