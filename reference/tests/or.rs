//! Item 4 of document 02: the cases with expected answers in `tests/data/or.txt`, the rule on
//! figures, and the lines of `or-stream`.
//!
//! A line of `or.txt`: name, pairs (as in the lines of `or-stream`; `.` for no pair) and the answer,
//! with `|` for line ends and `=` for spaces.

use reference::figure::Figure;
use reference::orexact::{check, exact, Breach};
use reference::orlines::{answer_all, line, read_pairs, text};
use reference::orprob::{answer, read, Enclosure, Pair, Parts};
use std::error::Error;

const CASES: &str = include_str!("data/or.txt");

fn pairs_of(line: &str) -> Result<Vec<Pair>, Box<dyn Error>> {
    let pairs = line.split(' ').nth(1).ok_or("a line without pairs")?;
    read_pairs(if pairs == "." { "" } else { pairs })
}

#[test]
fn expected_answers() -> Result<(), Box<dyn Error>> {
    for line in CASES.lines() {
        let expected = line.split(' ').nth(2).ok_or("a line without an answer")?;
        let expected = expected.replace('|', "\n").replace('=', " ") + "\n";
        assert_eq!(text(&answer(&pairs_of(line)?)), expected, "{line}");
    }
    assert_eq!(CASES.lines().count(), 55);
    Ok(())
}

#[test]
fn the_rule_holds_on_the_answers() -> Result<(), Box<dyn Error>> {
    let mut answers = 0;
    for line in CASES.lines() {
        let pairs = pairs_of(line)?;
        if let (Ok(figures), Ok(answer)) = (read(&pairs), answer(&pairs)) {
            assert!(check(&figures, &answer).is_ok(), "{line}");
            answers += 1;
        }
    }
    assert_eq!(answers, 30);
    Ok(())
}

/// digits × 10^power, which is a figure.
fn figure(digits: u64, power: i32) -> Figure {
    Figure::held(digits, power).expect("a figure")
}

/// The rule on answers to equal pairs, each with this lower and upper.
fn ruled(number: usize, p: Figure, lower: Figure, upper: Figure) -> Result<[bool; 2], Breach> {
    let pairs = vec![Enclosure { lower: p, upper: p }; number];
    check(&pairs, &Enclosure { lower, upper })
}

/// Twice 0.5 is 0.75, of which one part in 1,000,000 is 0.00000075: a unit in the seventh digit is
/// less, one in the sixth is more.
#[test]
fn wrong_digits_are_noticed() {
    let (half, right) = (figure(500_000_000, -9), figure(750_000_000, -9));
    let lower = |digits| ruled(2, half, figure(digits, -9), right);
    let upper = |digits| ruled(2, half, right, figure(digits, -9));
    assert_eq!(lower(750_000_000), Ok([true, true]));
    assert_eq!(lower(749_999_999), Ok([false, true]));
    assert_eq!(lower(749_999_900), Ok([false, true]));
    assert_eq!(lower(749_999_250), Ok([false, true]));
    assert_eq!(lower(749_999_249), Err(Breach::LowerTooLow));
    assert_eq!(lower(749_999_000), Err(Breach::LowerTooLow));
    assert_eq!(lower(750_000_001), Err(Breach::LowerAboveExact));
    assert_eq!(upper(750_000_001), Ok([true, false]));
    assert_eq!(upper(750_000_100), Ok([true, false]));
    assert_eq!(upper(750_000_750), Ok([true, false]));
    assert_eq!(upper(750_000_751), Err(Breach::UpperTooHigh));
    assert_eq!(upper(750_001_000), Err(Breach::UpperTooHigh));
    assert_eq!(upper(749_999_999), Err(Breach::UpperBelowExact));
}

/// Both ends of what is allowed belong to it, at 1 and far from it; at an exact 0 it is 0 alone.
#[test]
fn the_ends_of_the_rule() {
    let one = Figure::ONE;
    assert_eq!(ruled(3, one, figure(999_999_000, -9), one), Ok([false, true]));
    assert_eq!(ruled(3, one, figure(999_998_999, -9), one), Err(Breach::LowerTooLow));
    assert_eq!(ruled(3, one, one, figure(100_000_100, -8)), Ok([true, false]));
    assert_eq!(ruled(3, one, one, figure(100_000_101, -8)), Err(Breach::UpperTooHigh));
    let tiny = figure(100_000_000, -2_000);
    assert_eq!(ruled(1, tiny, figure(999_999_000, -2_001), tiny), Ok([false, true]));
    assert_eq!(ruled(1, tiny, figure(999_998_999, -2_001), tiny), Err(Breach::LowerTooLow));
    assert_eq!(ruled(1, tiny, tiny, figure(100_000_100, -2_000)), Ok([true, false]));
    assert_eq!(ruled(1, tiny, tiny, figure(100_000_101, -2_000)), Err(Breach::UpperTooHigh));
    let zero = Figure::ZERO;
    assert_eq!(ruled(2, zero, zero, zero), Ok([true, true]));
    assert_eq!(ruled(2, zero, tiny, tiny), Err(Breach::LowerAboveExact));
    assert_eq!(ruled(2, zero, zero, tiny), Err(Breach::UpperTooHigh));
}

/// The exact value is 1 minus the product, and an upper above 1 counts as 1 in it.
#[test]
fn exact_values() {
    let of = |list: &[(u64, i32)]| exact(list.iter().map(|&(digits, power)| figure(digits, power)));
    let figures = [(500_000_000, -9), (200_000_000, -9), (100_000_000, -10)];
    // 1 − 0.5 × 0.8 × 0.99
    assert_eq!(of(&figures), reference::fraction::Fraction::decimal(604, -3));
    let parts = |figure: Figure| Parts::from(figure);
    let pair = Pair { lower: parts(Figure::ZERO), upper: parts(figure(200_000_000, 2_000)) };
    let read = read(&[pair]).expect("a pair that is allowed");
    assert_eq!(read, [Enclosure { lower: Figure::ZERO, upper: Figure::ONE }]);
}

fn answered(lines: &str) -> Result<String, Box<dyn Error>> {
    let mut output = Vec::new();
    answer_all(lines.as_bytes(), &mut output)?;
    Ok(String::from_utf8(output)?)
}

#[test]
fn lines_and_their_answers() -> Result<(), Box<dyn Error>> {
    let lines = "or pairs=123456789e-11:500000000e-9,0e0:0e0\nor pairs=\n";
    let expected = "lower 1.23456789E-3\nupper 5.00000000E-1\n\nrefused 17 at 0\n\n";
    assert_eq!(answered(lines)?, expected);
    assert_eq!(answered("")?, "");
    for case in CASES.lines() {
        let pairs = pairs_of(case)?;
        assert_eq!(answered(&line(&pairs))?, text(&answer(&pairs)) + "\n");
    }
    // What can't be read is no answer.
    for wrong in ["pairs=", "or pairs=1e0", "or pairs=1:1e0", "or pairs=18446744073709551616e0:1e0"]
    {
        assert!(answered(wrong).is_err(), "{wrong}");
    }
    Ok(())
}
