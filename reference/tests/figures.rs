//! Figures against their definition: up(x) is the least figure not below x, down(x) the greatest
//! not above. The exact x is a fraction. Something was lost exactly if x is positive and another
//! number than the figure.
//!
//! Products also against the cases for Item 5 of document 02 in `tests/data/products.txt`, whose
//! answers are of other hands. A line of it: name, a, b, what the product of the digits is divided
//! by, a × b up, a × b down, and 1 if something is lost, otherwise 0. A figure is its digits, `e`
//! and its power.

use reference::faults::{plant, OF_PRODUCTS};
use reference::figure::Side::{self, Down, Up};
use reference::figure::{Decimal, Figure, Marked, Total};
use reference::fraction::Fraction;
use reference::model::Quantity;
use std::cmp::Ordering;
use std::collections::BTreeMap;
use std::error::Error;

struct Random(u64);

impl Random {
    fn next(&mut self) -> u64 {
        self.0 = self.0.wrapping_mul(6364136223846793005).wrapping_add(1442695040888963407);
        self.0 >> 11
    }

    /// A number of the length, with much zeros and nines among them.
    fn decimal<const LENGTH: u32>(&mut self) -> Decimal<LENGTH> {
        let least = 10u64.pow(LENGTH - 1);
        let tail = 10u64.pow((self.next() % u64::from(LENGTH)) as u32);
        let digits = match self.next() % 6 {
            0 => least + self.next() % 3,
            1 => 10 * least - 1 - self.next() % 3,
            2 => (least + self.next() % (9 * least)) / tail * tail,
            _ => least + self.next() % (9 * least),
        };
        let spread = if self.next().is_multiple_of(2) { 8 } else { 60 };
        let power = (self.next() % spread) as i32 - spread as i32 / 2;
        Decimal::whole(digits, Down).value.shifted(power)
    }
}

fn exact<const LENGTH: u32>(of: Decimal<LENGTH>) -> Fraction {
    Fraction::decimal(of.digits(), of.power())
}

/// The next number of the length on one side of one that isn't zero.
fn neighbour<const LENGTH: u32>(of: Decimal<LENGTH>, side: Side) -> Fraction {
    let unit = Fraction::decimal(1, of.power());
    let at_least = of.digits() == 10u64.pow(LENGTH - 1);
    match side {
        Up => exact(of).plus(&unit),
        Down if at_least => exact(of).minus(&Fraction::decimal(1, of.power() - 1)),
        Down => exact(of).minus(&unit),
    }
}

fn check<const LENGTH: u32>(result: Marked<LENGTH>, value: &Fraction, side: Side) {
    let Marked { value: result, kept } = result;
    assert_eq!(kept, !value.is_positive() || exact(result) == *value);
    if result.is_zero() {
        assert!(!value.is_positive(), "only a value that isn't positive becomes zero");
        assert_eq!(result.power(), 0);
        return;
    }
    assert!((10u64.pow(LENGTH - 1)..10u64.pow(LENGTH)).contains(&result.digits()));
    match side {
        Up => assert!(exact(result) >= *value && neighbour(result, Down) < *value),
        Down => assert!(exact(result) <= *value && neighbour(result, Up) > *value),
    }
}

fn check_many<const LENGTH: u32>(seed: u64) {
    let mut random = Random(seed);
    for _ in 0..20_000 {
        let (a, b): (Decimal<LENGTH>, Decimal<LENGTH>) = (random.decimal(), random.decimal());
        let (x, y) = (exact(a), exact(b));
        for side in [Up, Down] {
            check(a.times(b, side), &x.times(&y), side);
            check(a.plus(b, side), &x.plus(&y), side);
            check(a.minus(b, side), &x.minus(&y), side);
            // A quotient is checked as the product that it should give back.
            let Marked { value: quotient, kept } = a.over(b, side);
            let (back, low) = (exact(quotient).times(&y), neighbour(quotient, Down).times(&y));
            assert_eq!(kept, back == x);
            match side {
                Up => assert!(back >= x && low < x),
                Down => assert!(back <= x && neighbour(quotient, Up).times(&y) > x),
            }
        }
        assert_eq!(a.cmp(&b), x.cmp(&y));
        assert_eq!(a.plus(Decimal::ZERO, Up), a.kept());
        assert_eq!(a.minus(Decimal::ZERO, Up), a.kept());
        assert_eq!(Decimal::ZERO.minus(a, Down), Decimal::ZERO.kept());
        assert_eq!(a.times(Decimal::ZERO, Up), Decimal::ZERO.kept());
        assert_eq!(a.times(Decimal::ONE, Up), a.kept());
    }
}

#[test]
fn nine_digits() {
    check_many::<9>(1);
}

#[test]
fn eighteen_digits() {
    check_many::<18>(2);
}

#[test]
fn totals_to_figures() {
    let mut random = Random(3);
    for _ in 0..20_000 {
        let total: Total = random.decimal();
        check(total.narrowed(Up), &exact(total), Up);
        check(total.narrowed(Down), &exact(total), Down);
        let figure: Figure = random.decimal();
        assert_eq!(exact(figure.widened()), exact(figure));
        assert_eq!(figure.widened().narrowed(Up), figure.kept());
    }
}

/// Zero has the power 0, and any other figure nine digits.
#[test]
fn how_figures_are_held() {
    for (digits, power) in [(0, 0), (100_000_000, 0), (999_999_999, -2_000), (123_456_789, 7)] {
        let held = Figure::held(digits, power).map(|figure| (figure.digits(), figure.power()));
        assert_eq!(held, Some((digits, power)));
    }
    for (digits, power) in [(0, 1), (0, -8), (1, 0), (99_999_999, 0), (1_000_000_000, 0)] {
        assert_eq!(Figure::held(digits, power), None);
    }
    assert_eq!(Figure::held(u64::MAX, -9), None);
}

/// Model L of document 01.
#[test]
fn model_l() {
    let figure = Figure::small(100_000_001).shifted(-8);
    assert_eq!(figure.to_string(), "1.00000001E0");
    assert_eq!(figure.times(figure, Up).value.to_string(), "1.00000003E0");
    assert_eq!(figure.times(figure, Down).value.to_string(), "1.00000002E0");
    assert!(!figure.times(figure, Up).kept && !figure.times(figure, Down).kept);
}

/// A mark is over the operations: what was lost stays lost, whatever follows.
#[test]
fn marks_stay() {
    let lost = Marked::small(1).over(Marked::small(3), Up);
    let (zero, one) = (Marked::ZERO, Marked::ONE);
    assert!(!lost.kept);
    for after in [lost.times(zero, Down), one.times(lost, Up), lost.minus(one, Down)] {
        assert!(!after.kept);
    }
    assert!(!zero.over(lost, Up).kept && !one.plus(lost, Up).kept && !lost.shifted(3).kept);
    assert!(!lost.widened().plus(Marked::ZERO, Down).narrowed(Down).kept);
    // A difference that isn't positive loses nothing, however far below 0 it is.
    assert!(one.minus(Marked::small(2), Down).kept);
    assert!(zero.shifted(-9).minus(one.shifted(99), Down).kept);
    assert_eq!(one.minus(one, Down), zero);
}

#[test]
fn printing() {
    let of = |coefficient, scale| Figure::of(Quantity { coefficient, scale }).to_string();
    assert_eq!(of(1, 0), "1.00000000E0");
    assert_eq!(of(999_999, 20), "9.99999000E-15");
    assert_eq!(of(120, 1), "1.20000000E1");
    assert_eq!(of(0, 20), "0");
}

const PRODUCTS: &str = include_str!("data/products.txt");

/// The least product of 18 digits.
const LEAST_LONG: u64 = 10u64.pow(17);

/// How far the power of a × b, rounded down, is above the sum of the powers of a and b.
fn gain(a: Figure, b: Figure) -> i32 {
    a.times(b, Down).value.power() - a.power() - b.power()
}

/// What becomes of a product: the divisor, the two figures, and whether each lost something.
#[derive(Debug, PartialEq, Eq)]
struct Outcome {
    divisor: u64,
    up: Figure,
    down: Figure,
    lost: [bool; 2],
}

impl Outcome {
    /// What this implementation makes of a × b; the power gained tells what it divided by.
    fn of(a: Figure, b: Figure) -> Outcome {
        let (up, down) = (a.times(b, Up), a.times(b, Down));
        let divisor = 10u64.pow(u32::try_from(gain(a, b)).expect("a power that rises"));
        Outcome { divisor, up: up.value, down: down.value, lost: [!up.kept, !down.kept] }
    }
}

/// A line of `products.txt`.
struct Case<'a> {
    name: &'a str,
    a: Figure,
    b: Figure,
    expected: Outcome,
}

/// A figure that isn't zero.
fn read_figure(text: &str) -> Result<Figure, Box<dyn Error>> {
    let (digits, power) = text.split_once('e').ok_or("a figure without a power")?;
    let figure = Figure::held(digits.parse()?, power.parse()?).ok_or("what is no figure")?;
    if figure.is_zero() {
        return Err("a zero".into());
    }
    Ok(figure)
}

fn read_case(line: &str) -> Result<Case<'_>, Box<dyn Error>> {
    let parts: Vec<&str> = line.split(' ').collect();
    let [name, a, b, divisor, up, down, lost] = parts[..] else {
        return Err("a line that isn't seven parts".into());
    };
    let lost = match lost {
        "0" => false,
        "1" => true,
        _ => return Err("a loss that is neither 0 nor 1".into()),
    };
    let (divisor, up, down) = (divisor.parse()?, read_figure(up)?, read_figure(down)?);
    let expected = Outcome { divisor, up, down, lost: [lost; 2] };
    Ok(Case { name, a: read_figure(a)?, b: read_figure(b)?, expected })
}

/// All cases of `products.txt`; every line has to be one, but for comments.
fn cases() -> Vec<Case<'static>> {
    let read = |line| read_case(line).unwrap_or_else(|error| panic!("{error}: {line}"));
    let lines = PRODUCTS.lines().filter(|line| !line.starts_with('#'));
    let cases: Vec<Case> = lines.map(read).collect();
    assert_eq!(cases.len(), 45);
    cases
}

#[test]
fn products_with_expected_answers() {
    for Case { name, a, b, expected } in cases() {
        let product = a.digits() * b.digits();
        assert!((17..=18).contains(&(product.ilog10() + 1)), "{name}");
        assert_eq!(Outcome::of(a, b), expected, "{name}");
        assert_eq!(Outcome::of(b, a), expected, "{name}, b times a");
    }
}

/// A line with something missing, too much or wrong in it is no case.
#[test]
fn lines_that_are_no_products() {
    let right = "x 100000000e0 200000000e-1 100000000 200000000e7 200000000e7 0";
    assert!(read_case(right).is_ok());
    for (from, to) in [
        ("x ", ""),
        (" 0", " 0 0"),
        (" 0", " 2"),
        (" 0", " "),
        (" 100000000 ", " 10^8 "),
        ("e0", ""),
        ("e-1", "e"),
        ("100000000e0", "10000000e1"),
        ("100000000e0", "1000000000e-1"),
        ("100000000e0", "0e0"),
    ] {
        assert!(read_case(&right.replace(from, to)).is_err(), "{from} to {to}");
    }
    assert!(read_case("").is_err());
}

/// The pairs of figures whose digits have the product 10^17.
fn pairs_at_least_long() -> Vec<(Figure, Figure)> {
    let divisors = (0..18).flat_map(|twos| (0..18).map(move |fives| (twos, fives)));
    let pair = |(twos, fives)| {
        let digits = 2u64.pow(twos) * 5u64.pow(fives);
        Some((Figure::held(digits, 3)?, Figure::held(LEAST_LONG / digits, -7)?))
    };
    divisors.filter_map(pair).collect()
}

/// Figures whose digits, times those of a, lie at 10^17 or right beside it.
fn partners(a: Figure) -> Vec<Figure> {
    let middle = LEAST_LONG / a.digits();
    (middle - 1..=middle + 1).filter_map(|digits| Figure::held(digits, 5)).collect()
}

/// Checks the power that a × b gains: 8 where the product of the digits is below 10^17, otherwise 9.
/// Tells how that product and 10^17 compare.
fn check_gain(a: Figure, b: Figure) -> Ordering {
    let order = (a.digits() * b.digits()).cmp(&LEAST_LONG);
    let expected = if order == Ordering::Less { 8 } else { 9 };
    assert_eq!(gain(a, b), expected, "{a} times {b}");
    order
}

#[test]
fn the_power_that_a_product_gains() {
    let mut random = Random(4);
    let mut pairs = pairs_at_least_long();
    assert_eq!(pairs.len(), 24);
    pairs.extend((0..20_000).map(|_| (random.decimal::<9>(), random.decimal::<9>())));
    let mut seen = BTreeMap::new();
    for (a, b) in pairs {
        for other in [vec![b], partners(a)].concat() {
            *seen.entry(check_gain(a, other)).or_insert(0) += 1;
        }
    }
    assert!(seen.len() == 3 && seen.values().all(|&count| count > 100), "{seen:?}");
}

/// Of the products of nine-digit numbers these are the nearest to 10^17 without being it.
#[test]
fn the_nearest_products() {
    let (below, above) = ([216_273_151, 462_378_245], [168_325_962, 594_085_421]);
    assert_eq!(below[0] * below[1], LEAST_LONG - 5);
    assert_eq!(above[0] * above[1], LEAST_LONG + 2);
    for [a, b] in [below, above].map(|pair| pair.map(Figure::small)) {
        assert_eq!(check_gain(a, b), check_gain(b, a));
    }
}

/// The cases find every fault that is planted in products.
#[test]
fn products_betray_planted_faults() {
    let cases = cases();
    for (fault, name, _) in OF_PRODUCTS {
        plant(Some(fault));
        let found = cases.iter().any(|case| Outcome::of(case.a, case.b) != case.expected);
        plant(None);
        assert!(found, "{name}");
    }
}
