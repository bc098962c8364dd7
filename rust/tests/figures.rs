//! Figures: which pairs are one, their order, and their spellings.

use bounds::{Figure, NoFigure};
use std::error::Error;

fn figure(digits: u64, power: i32) -> Figure {
    Figure::new(digits, power).expect("a figure")
}

#[test]
fn what_is_a_figure() {
    for (digits, power) in [(0, 0), (100_000_000, i32::MIN), (999_999_999, i32::MAX)] {
        assert!(Figure::new(digits, power).is_some(), "{digits} {power}");
    }
    for (digits, power) in
        [(0, 1), (0, -1), (1, 0), (99_999_999, 0), (1_000_000_000, 0), (u64::MAX, 0)]
    {
        assert!(Figure::new(digits, power).is_none(), "{digits} {power}");
    }
}

/// The order is that of the proved library, also at the limits where doubles answer otherwise.
#[test]
fn order() -> Result<(), Box<dyn Error>> {
    let mut rising = vec![Figure::default(), figure(100_000_000, i32::MIN)];
    for power in [-2_000, -21, -20, -19, -18, -17, -16, -15, -14, -8, -1, 0, 1, 8, 2_000] {
        for digits in [100_000_000, 100_000_001, 500_000_000, 999_999_999] {
            rising.push(figure(digits, power));
        }
    }
    rising.push(figure(999_999_999, i32::MAX));
    for (i, a) in rising.iter().enumerate() {
        for (j, b) in rising.iter().enumerate() {
            assert_eq!(a.cmp(b), i.cmp(&j), "{a} {b}");
            assert_eq!(a.at_or_below(*b)?, i <= j, "{a} {b}");
        }
    }
    Ok(())
}

#[test]
fn requirements() -> Result<(), Box<dyn Error>> {
    for exponent in 1..=12 {
        let limit: Figure = format!("1E-{exponent}").parse()?;
        let above = figure(100_000_001, limit.power());
        let below = figure(999_999_999, limit.power() - 1);
        assert!(
            limit.at_or_below(limit)? && below.at_or_below(limit)? && !above.at_or_below(limit)?
        );
        assert!(limit <= limit && below < limit && above > limit);
    }
    // as a double above it, the figure at the limit misses the requirement that it meets
    for spelled in ["1E-6", "1E-7", "1E-11", "1E-12"] {
        assert!(spelled.parse::<Figure>()?.above() > spelled.parse::<f64>()?, "{spelled}");
    }
    Ok(())
}

#[test]
fn spellings() {
    let nine = Ok(figure(100_000_000, -17));
    for spelled in
        ["1.00000000E-9", "1E-9", "1e-9", "1.0E-09", "0.000000001", "0.1E-8", "10E-10", "001E-9"]
    {
        assert_eq!(spelled.parse(), nine, "{spelled}");
    }
    assert_eq!("0".parse(), Ok(Figure::default()));
    assert_eq!("12".parse(), Ok(figure(120_000_000, -7)));
    assert_eq!("1E+3".parse(), Ok(figure(100_000_000, -5)));
    assert_eq!("123456789".parse(), Ok(figure(123_456_789, 0)));
    assert_eq!("9.99999999E2147483655".parse(), Ok(figure(999_999_999, i32::MAX)));
    assert_eq!("1E-2147483640".parse(), Ok(figure(100_000_000, i32::MIN)));
}

#[test]
fn what_spells_no_figure() {
    for spelled in [
        "", " ", "E-9", ".", ".5", "5.", "-1", "+1", "-0", "0.0", "00", "0E0", "1E", "1E-",
        "1E--9", "1E-9 ", " 1E-9", "1,5", "1E-9.5", "1_000", "0x1", "nan", "inf", "1E-9E-9",
        "1..5", "٣", "1E٣",
    ] {
        assert_eq!(spelled.parse::<Figure>(), Err(NoFigure::Spelling), "{spelled}");
    }
    for spelled in
        ["1234567890", "1.000000000", "1.000000000E-9", "1000000000", "99999999999999999999999"]
    {
        assert_eq!(spelled.parse::<Figure>(), Err(NoFigure::TooManyDigits), "{spelled}");
    }
    for spelled in [
        "1E2147483656",
        "1E-2147483641",
        "1E9999999999999999999999",
        "1E-9999999999999999999999",
        "0.1E-9223372036854775808",
    ] {
        assert_eq!(spelled.parse::<Figure>(), Err(NoFigure::Power), "{spelled}");
    }
}

#[test]
fn what_is_shown_is_read_back() {
    for power in [i32::MIN, -2_000, -17, -8, -1, 0, 1, 2_000, i32::MAX] {
        for digits in [100_000_000, 123_456_789, 999_999_999] {
            let shown = figure(digits, power).to_string();
            assert_eq!(shown.parse(), Ok(figure(digits, power)), "{shown}");
        }
    }
    assert_eq!(Figure::default().to_string().parse(), Ok(Figure::default()));
}
