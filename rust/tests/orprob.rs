//! One figure for several subsystems: every case with an expected answer, and what no file has.
//!
//! A line of the file is a name, the pairs and the answer, with `|` for line ends and `=` for spaces. A pair is `LOWER:UPPER`, each digits, e and a power;
//! pairs stand apart by commas, and `.` stands for none.

use bounds::{
    probabilistic_or, probabilistic_or_of_numbers, Error as NoAnswer, Figure, Reason, Refusal,
    MOST_PAIRS,
};
use std::error::Error;
use std::path::Path;

type Numbers = [(u64, i32); 2];

const HALF: (u64, i32) = (500_000_000, -9);
const ONE: (u64, i32) = (100_000_000, -8);

fn figure((digits, power): (u64, i32)) -> Figure {
    Figure::new(digits, power).expect("a figure")
}

fn numbers_of(pair: &str) -> Result<Numbers, Box<dyn Error>> {
    let one = |spelled: &str| -> Result<(u64, i32), Box<dyn Error>> {
        let (digits, power) = spelled.split_once('e').ok_or("a figure without e")?;
        Ok((digits.parse()?, power.parse()?))
    };
    let (lower, upper) = pair.split_once(':').ok_or("a pair without :")?;
    Ok([one(lower)?, one(upper)?])
}

fn shown(answer: Result<(Figure, Figure), NoAnswer>) -> String {
    match answer {
        Ok((lower, upper)) => format!("lower {lower}\nupper {upper}"),
        Err(error) => error.to_string(),
    }
}

fn check(line: &str) -> Result<(), Box<dyn Error>> {
    let [name, spelled, expected] = line.split(' ').collect::<Vec<_>>()[..] else {
        return Err("a line that isn't three parts".into());
    };
    let given = spelled.split(',').filter(|pair| *pair != ".");
    let pairs: Vec<Numbers> = given.map(numbers_of).collect::<Result<_, _>>()?;
    let expected = expected.replace('|', "\n").replace('=', " ");
    assert_eq!(shown(probabilistic_or_of_numbers(&pairs)), expected, "{name}");
    let both = |&[lower, upper]: &Numbers| {
        Some((Figure::new(lower.0, lower.1)?, Figure::new(upper.0, upper.1)?))
    };
    if let Some(figures) = pairs.iter().map(both).collect::<Option<Vec<_>>>() {
        assert_eq!(shown(probabilistic_or(&figures)), expected, "{name}");
    }
    Ok(())
}

#[test]
fn expected_answers() -> Result<(), Box<dyn Error>> {
    let data = Path::new(env!("CARGO_MANIFEST_DIR")).join("../reference/tests/data/or.txt");
    let text = std::fs::read_to_string(data)?;
    for line in text.lines() {
        check(line)?;
    }
    assert!(text.lines().count() >= 55);
    Ok(())
}

fn refused(pairs: &[Numbers], reason: Reason, place: u64) {
    let expected = Err(NoAnswer::Refused(Refusal { reason, place }));
    assert_eq!(probabilistic_or_of_numbers(pairs), expected, "{} pairs", pairs.len());
}

/// 17 comes before 18, and no number of pairs above 16 is cut to one that is allowed.
#[test]
fn counts() {
    let good = [HALF, ONE];
    let bad = [ONE, HALF];
    for count in [0, 17, 18, 32, 33, 255, 256, 257, 272, 65_536, 65_552] {
        refused(&vec![good; count], Reason::PairCountOutOfRange, 0);
        refused(&vec![bad; count], Reason::PairCountOutOfRange, 0);
        let figures = vec![(figure(HALF), figure(ONE)); count];
        assert_eq!(shown(probabilistic_or(&figures)), "refused 17 at 0", "{count}");
    }
    for count in 1..=MOST_PAIRS {
        let (lower, upper) = probabilistic_or(&vec![(figure(HALF), figure(ONE)); count])
            .unwrap_or_else(|error| panic!("{count}: {error}"));
        let exact = 1.0 - 0.5f64.powi(count as i32);
        assert!(upper == figure(ONE) && lower.below() <= exact, "{count}");
        assert!(lower.below() >= 0.999_999 * exact, "{count}");
        for place in 0..count {
            let mut pairs = vec![good; count];
            pairs[place..].fill(bad);
            refused(&pairs, Reason::PairOutOfRange, place as u64);
        }
    }
}

/// Each condition of 18, of the lower and of the upper, beside its edge that is allowed.
#[test]
fn pairs_out_of_range() {
    for pair in [
        [(0, 1), HALF],
        [(0, 0), (0, -8)],
        [(1, 0), HALF],
        [(99_999_999, -9), HALF],
        [HALF, (1_000_000_000, -9)],
        [HALF, (u64::MAX, 0)],
        [(100_000_000, -2_001), HALF],
        [HALF, (100_000_000, 2_001)],
        [(100_000_000, i32::MIN), HALF],
        [HALF, (999_999_999, i32::MAX)],
        [(100_000_001, -8), (200_000_000, -8)],
        [HALF, (499_999_999, -9)],
        [HALF, (0, 0)],
    ] {
        refused(&[[HALF, ONE], pair], Reason::PairOutOfRange, 1);
    }
    for (pair, expected) in [
        (
            [(100_000_000, -2_000), (999_999_999, 2_000)],
            "lower 1.00000000E-1992\nupper 1.00000000E0",
        ),
        ([ONE, ONE], "lower 1.00000000E0\nupper 1.00000000E0"),
        ([HALF, HALF], "lower 5.00000000E-1\nupper 5.00000000E-1"),
        ([(0, 0), (0, 0)], "lower 0\nupper 0"),
    ] {
        assert_eq!(shown(probabilistic_or_of_numbers(&[pair])), expected);
    }
}
