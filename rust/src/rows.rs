//! The rows that a caller lends, and what the library may have written into them.

use crate::{Error, Figure, Reason, Report, MOST_ROWS};

/// The bounds on one way to fail: on the paths that end in one state without exits.
#[derive(Clone, Copy, Debug, Default, PartialEq, Eq)]
#[repr(C)]
pub struct Row {
    /// The state's number, from 1; 0 in a row that was never filled.
    pub state: u64,
    /// Not above the exact lower sum of these paths.
    pub lower: Figure,
    /// Not below their exact upper sum.
    pub upper: Figure,
}

/// What a row holds before the library is asked: nothing that it writes, so that a row that was written is told from one that was not.
pub(crate) const UNTOUCHED: Row = Row { state: u64::MAX, lower: Figure::MOST, upper: Figure::MOST };

/// The rows that the library filled, beside this answer: states from 1 to 1,000 that rise, with figures in a report and with zeros where the budget
/// was not enough. Any other refusal has none. What is otherwise is an error.
pub(crate) fn filled<'a>(
    rows: &'a [Row],
    answer: &Result<Report, Error>,
) -> Result<&'a [Row], Error> {
    let count = rows.iter().take_while(|row| row.state != UNTOUCHED.state).count();
    let (filled, behind) = rows.split_at(count);
    let zeros = |row: &Row| (row.lower, row.upper) == (Figure::ZERO, Figure::ZERO);
    let figures = |row: &Row| is_figure(row.lower) && is_figure(row.upper);
    let fits = match answer {
        Ok(_) => filled.iter().all(figures),
        Err(Error::Refused(refusal)) if refusal.reason == Reason::OverBudget => {
            filled.iter().all(zeros)
        }
        Err(_) => filled.is_empty(),
    };
    let known = |row: &Row| (1..=MOST_ROWS as u64).contains(&row.state);
    let rising = filled.windows(2).all(|two| two[0].state < two[1].state);
    if behind.iter().any(|row| *row != UNTOUCHED) {
        Err(Error::Unexpected("a row behind those that it fills"))
    } else if !filled.iter().all(known) || !rising {
        Err(Error::Unexpected("a row of no state"))
    } else if !fits {
        Err(Error::Unexpected("a row that does not belong to its answer"))
    } else {
        Ok(filled)
    }
}

fn is_figure(figure: Figure) -> bool {
    Figure::new(figure.digits(), figure.power()) == Some(figure)
}

#[cfg(test)]
mod tests {
    use super::*;
    use crate::Refusal;

    const ONE: Option<Figure> = Figure::new(100_000_000, -8);

    fn refused(reason: Reason) -> Result<Report, Error> {
        Err(Error::Refused(Refusal { reason, place: 0 }))
    }

    fn report() -> Result<Report, Error> {
        let zero = Figure::ZERO;
        Ok(Report {
            lower: zero,
            upper: zero,
            cut: zero,
            deaths: 0,
            cuts: 0,
            steps: 0,
            lower_exact: true,
            upper_exact: true,
        })
    }

    fn row(state: u64) -> Row {
        Row { state, ..Row::default() }
    }

    #[test]
    fn what_is_filled() {
        let rows = [row(1), row(7), row(1_000), UNTOUCHED, UNTOUCHED];
        assert_eq!(filled(&rows, &report()), Ok(&rows[..3]));
        assert_eq!(filled(&rows, &refused(Reason::OverBudget)), Ok(&rows[..3]));
        assert_eq!(filled(&rows[3..], &refused(Reason::TooFewRows)), Ok(&rows[..0]));
        assert_eq!(filled(&[], &report()), Ok(&rows[..0]));
    }

    #[test]
    fn what_is_no_row() {
        for state in [0, 1_001, 4_095, u64::MAX - 1] {
            assert!(filled(&[row(state)], &report()).is_err(), "{state}");
        }
        assert!(filled(&[row(2), row(2)], &report()).is_err());
        assert!(filled(&[row(2), row(1)], &report()).is_err());
        assert!(filled(&[UNTOUCHED, row(1)], &report()).is_err());
        assert!(filled(&[row(1), Row { upper: Figure::ZERO, ..UNTOUCHED }], &report()).is_err());
    }

    /// Figures in a report alone, zeros on 13, nothing in any other refusal.
    #[test]
    fn what_does_not_belong() {
        let one = ONE.unwrap_or_default();
        let rows = [Row { state: 1, lower: one, upper: one }];
        assert_eq!(filled(&rows, &report()), Ok(&rows[..]));
        assert!(filled(&rows, &refused(Reason::OverBudget)).is_err());
        for reason in Reason::ALL {
            let expected = reason == Reason::OverBudget;
            assert_eq!(filled(&[row(1)], &refused(reason)).is_ok(), expected, "{reason:?}");
        }
        let unknown = Err(Error::UnknownRefusal { number: 64, place: 0 });
        assert!(filled(&[row(1)], &unknown).is_err());
        for (digits, power) in [(7, 0), (0, 1), (1_000_000_000, 0)] {
            let figure = Figure::unlooked(digits, power);
            assert!(filled(&[Row { upper: figure, ..row(1) }], &report()).is_err(), "{digits}");
            assert!(filled(&[Row { lower: figure, ..row(1) }], &report()).is_err(), "{digits}");
        }
    }
}
