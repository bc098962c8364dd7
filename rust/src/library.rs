//! The calls of the archive. `include/bounds.h` says what each promises. Each but that for the version looks at the version first.

use crate::orprob::Combined;
use crate::text::{self, Text};
use crate::{
    rows, version, Error, Figure, Reason, Refusal, Report, Row, MOST_PAIRS, MOST_ROWS, WORDS_SIZE,
};

const VALUES: usize = 9;
const POWERS: usize = 3;
pub(crate) const OR_FIGURES: usize = 2 * MOST_PAIRS;
pub(crate) const OR_VALUES: usize = 3;
pub(crate) const OR_POWERS: usize = 2;

extern "C" {
    fn bounds_version() -> u64;
    fn bounds_assess(
        words: *const u32,
        count: usize,
        budget: u64,
        values: *mut u64,
        powers: *mut i32,
    ) -> u64;
    fn bounds_assess_rows(
        words: *const u32,
        count: usize,
        budget: u64,
        rows: *mut Row,
        row_count: usize,
        values: *mut u64,
        powers: *mut i32,
    ) -> u64;
    fn bounds_text(words: *const u32, count: usize, budget: u64, text: *mut u8) -> usize;
    fn bounds_words(bytes: *const u8, count: usize, words: *mut u32) -> usize;
    fn bounds_at_or_below(digits: u64, power: i32, limit_digits: u64, limit_power: i32) -> u64;
    fn bounds_or(
        digits: *const u64,
        powers: *const i32,
        pairs: usize,
        or_values: *mut u64,
        or_powers: *mut i32,
    ) -> u64;
}

pub(crate) fn version() -> u64 {
    // SAFETY: it takes nothing and hands a number back.
    unsafe { bounds_version() }
}

/// The report on a model's words, or why there is none. The budget is the number of steps that the walk may take.
pub fn assess(words: &[u32], budget: u64) -> Result<Report, Error> {
    version::agreed(version::library_version())?;
    let mut values = [0; VALUES];
    let mut powers = [0; POWERS];
    // SAFETY: the slice's pointer and length belong together, and both arrays have the lengths that the header states; neither overlaps another.
    let number = unsafe {
        bounds_assess(words.as_ptr(), words.len(), budget, values.as_mut_ptr(), powers.as_mut_ptr())
    };
    answer(number, values, powers)
}

/// The report on a model's words, and the bounds on each way to fail: the rows that were filled, the first of `rows`, in order of state number, one for
/// each state without exits that is the target of a transition and that the words do not name as the generator's. Rows behind them are unchanged. Where
/// `rows` are too few, the model is refused ([`Reason::TooFewRows`], with the number that is needed as its place); [`MOST_ROWS`] are always enough. A model
/// that is refused as [`Reason::OverBudget`] has its rows filled with state numbers and zeros; any other error changes no row.
pub fn assess_rows<'a>(
    words: &[u32],
    budget: u64,
    rows: &'a mut [Row],
) -> Result<(Report, &'a [Row]), Error> {
    version::agreed(version::library_version())?;
    let mut values = [0; VALUES];
    let mut powers = [0; POWERS];
    // The library writes into rows of this function's own, and what it wrote is looked at before the caller has it. No model needs more of them.
    let mut own = [rows::UNTOUCHED; MOST_ROWS];
    let lent = &mut own[..rows.len().min(MOST_ROWS)];
    // SAFETY: as in `assess`; the rows have the header's layout, and their pointer and length belong together.
    let number = unsafe {
        bounds_assess_rows(
            words.as_ptr(),
            words.len(),
            budget,
            lent.as_mut_ptr(),
            lent.len(),
            values.as_mut_ptr(),
            powers.as_mut_ptr(),
        )
    };
    let report = answer(number, values, powers);
    let filled = rows::filled(lent, &report)?;
    let (first, _) = rows.split_at_mut(filled.len());
    first.copy_from_slice(filled);
    Ok((report?, first))
}

/// What the library's numbers say. Only 0 is a report.
fn answer(number: u64, values: [u64; VALUES], powers: [i32; POWERS]) -> Result<Report, Error> {
    let [place, lower, upper, cut, deaths, cuts, steps, lower_exact, upper_exact] = values;
    if number != 0 {
        return Err(match Reason::of(number) {
            Some(reason) => Error::Refused(Refusal { reason, place }),
            None => Error::UnknownRefusal { number, place },
        });
    }
    let figure = |digits, power| Figure::new(digits, power).ok_or(Error::Unexpected("no figure"));
    Ok(Report {
        lower: figure(lower, powers[0])?,
        upper: figure(upper, powers[1])?,
        cut: figure(cut, powers[2])?,
        deaths,
        cuts,
        steps,
        lower_exact: mark(lower_exact)?,
        upper_exact: mark(upper_exact)?,
    })
}

/// Whether nothing was lost. A mark is 0 or 1.
fn mark(value: u64) -> Result<bool, Error> {
    match value {
        1 => Ok(true),
        0 => Ok(false),
        _ => Err(Error::Unexpected("a mark that is neither 0 nor 1")),
    }
}

/// What the report program prints for the words, under this budget.
pub fn text(words: &[u32], budget: u64) -> Result<Text, Error> {
    version::agreed(version::library_version())?;
    let mut bytes = [0; text::SIZE];
    // SAFETY: as in `assess`.
    let length = unsafe { bounds_text(words.as_ptr(), words.len(), budget, bytes.as_mut_ptr()) };
    Text::of(bytes, length)
}

/// The words of a model that is held as bytes, four bytes a word, least significant first: the first of `words`, as many as are handed back. Left-over
/// bytes are one more word, of no kind. Of more bytes than [`WORDS_SIZE`] words have, those words are handed back, which [`assess`] refuses.
pub fn words_of<'a>(bytes: &[u8], words: &'a mut [u32; WORDS_SIZE]) -> Result<&'a [u32], Error> {
    version::agreed(version::library_version())?;
    // SAFETY: as in `assess`.
    let count = unsafe { bounds_words(bytes.as_ptr(), bytes.len(), words.as_mut_ptr()) };
    words.get(..count).ok_or(Error::Unexpected("more words than there is room for"))
}

/// Whether the figure is at or below the limit.
pub(crate) fn at_or_below(figure: Figure, limit: Figure) -> Result<bool, Error> {
    version::agreed(version::library_version())?;
    // SAFETY: it takes numbers and hands a number back.
    let answer = unsafe {
        bounds_at_or_below(figure.digits(), figure.power(), limit.digits(), limit.power())
    };
    order(answer)
}

fn order(answer: u64) -> Result<bool, Error> {
    match answer {
        1 => Ok(true),
        0 => Ok(false),
        _ => Err(Error::Unexpected("no order of two figures")),
    }
}

/// What the library writes for so many pairs of figures, the first of these digits and powers.
pub(crate) fn or(
    digits: &[u64; OR_FIGURES],
    powers: &[i32; OR_FIGURES],
    pairs: usize,
) -> Result<Combined, Error> {
    version::agreed(version::library_version())?;
    let mut combined = Combined::UNTOUCHED;
    // SAFETY: all four arrays have the lengths that the header states, whatever the number of pairs; none that is written overlaps another.
    combined.number = unsafe {
        bounds_or(
            digits.as_ptr(),
            powers.as_ptr(),
            pairs,
            combined.values.as_mut_ptr(),
            combined.powers.as_mut_ptr(),
        )
    };
    Ok(combined)
}

#[cfg(test)]
mod tests {
    extern crate std;
    use super::*;
    use std::format;
    use std::string::ToString;

    const VALUES_A: [u64; VALUES] = [0, 999_500_000, 100_000_000, 0, 1, 0, 1, 1, 1];
    const POWERS_A: [i32; POWERS] = [-12, -11, 0];

    /// Only 0 is a report, whatever the buffers hold. A number that is not known is an error of its own that carries it.
    #[test]
    fn every_number() {
        for number in (0..=64).chain([u64::MAX - 1, u64::MAX]) {
            let known = (1..=11).contains(&number) || (13..=18).contains(&number);
            match answer(number, VALUES_A, POWERS_A) {
                Ok(report) => {
                    assert_eq!(number, 0);
                    assert_eq!(report.upper.to_string(), "1.00000000E-3");
                }
                Err(Error::Refused(refusal)) => {
                    assert!(known, "{number}");
                    assert_eq!((refusal.reason.number(), refusal.place), (number, 0));
                }
                Err(Error::UnknownRefusal { number: carried, place: 0 }) => {
                    assert!(!known && number != 0);
                    assert_eq!(carried, number);
                }
                other => panic!("{number}: {other:?}"),
            }
        }
        let unknown = answer(64, VALUES_A, POWERS_A).map_err(|error| format!("{error}"));
        assert!(unknown.is_err_and(|text| text.starts_with("refused 64 at 0, a number that")));
    }

    #[test]
    fn what_is_no_figure() {
        for place in 1..=3 {
            let mut values = VALUES_A;
            values[place] = 7;
            assert_eq!(answer(0, values, POWERS_A), Err(Error::Unexpected("no figure")), "{place}");
        }
    }

    /// Each mark stands in its own place, and only 0 and 1 are marks.
    #[test]
    fn what_is_no_mark() {
        for (lower, upper) in [(0, 0), (0, 1), (1, 0), (1, 1)] {
            let mut values = VALUES_A;
            (values[7], values[8]) = (lower, upper);
            let marks = answer(0, values, POWERS_A).map(|r| (r.lower_exact, r.upper_exact));
            assert_eq!(marks, Ok((lower == 1, upper == 1)));
        }
        for value in (2..=64).chain([256, 1 << 32 | 1, u64::MAX]) {
            for place in [7, 8] {
                let mut values = VALUES_A;
                values[place] = value;
                assert!(answer(0, values, POWERS_A).is_err(), "{value}");
            }
        }
    }

    #[test]
    fn what_is_no_order() {
        assert_eq!((order(0), order(1)), (Ok(false), Ok(true)));
        for answer in (2..=64).chain([u64::MAX]) {
            assert!(order(answer).is_err(), "{answer}");
        }
    }
}
