//! One figure for several subsystems, from the bounds on each.

use crate::library::{self, OR_FIGURES, OR_POWERS, OR_VALUES};
use crate::{Error, Figure, Reason, Refusal, MOST_PAIRS};

/// Digits and power of a lower and of an upper, whether they are figures or not.
type Numbers = [(u64, i32); 2];

/// What the library handed back and wrote for some pairs.
#[derive(Clone, Copy, Debug)]
pub(crate) struct Combined {
    pub number: u64,
    pub values: [u64; OR_VALUES],
    pub powers: [i32; OR_POWERS],
}

impl Combined {
    /// Before the library is asked: nothing that it writes, so that buffers that it left alone are no answer.
    pub const UNTOUCHED: Combined =
        Combined { number: u64::MAX, values: [u64::MAX; OR_VALUES], powers: [i32::MAX; OR_POWERS] };
}

/// The bounds on the failure of at least one of several subsystems, SURE's probabilistic OR, from the lower and the upper bound on each: 1 minus the
/// product of (1 − p), over the lowers rounded down and over the uppers rounded up, within one part in 1,000,000. An upper above 1 is taken as 1.
///
/// It is the caller who knows that the subsystems fail independently of one another; the library cannot tell.
///
/// No pair, or more than [`MOST_PAIRS`], are refused ([`Reason::PairCountOutOfRange`]), and so is a pair with a power outside −2,000 to 2,000, a lower
/// above 1 or a lower above its upper ([`Reason::PairOutOfRange`], with the first such pair as its place).
pub fn probabilistic_or(pairs: &[(Figure, Figure)]) -> Result<(Figure, Figure), Error> {
    let numbers = |figure: Figure| (figure.digits(), figure.power());
    combined(pairs.iter().map(|&(lower, upper)| [numbers(lower), numbers(upper)]))
}

/// The same of digits and powers that may be no figures, lower first: a pair that holds what is none is refused by the library.
pub fn probabilistic_or_of_numbers(pairs: &[Numbers]) -> Result<(Figure, Figure), Error> {
    combined(pairs.iter().copied())
}

/// None of the pairs is read where there are too many.
fn combined(pairs: impl ExactSizeIterator<Item = Numbers>) -> Result<(Figure, Figure), Error> {
    let count = pairs.len();
    let (mut digits, mut powers) = ([0; OR_FIGURES], [0; OR_FIGURES]);
    let read = if count <= MOST_PAIRS { count } else { 0 };
    let room = digits.iter_mut().zip(&mut powers);
    for ((digits, power), given) in room.zip(pairs.take(read).flatten()) {
        (*digits, *power) = given;
    }
    answer(library::or(&digits, &powers, count)?, count)
}

/// What the library's numbers say of so many pairs. Only 0 has figures.
fn answer(combined: Combined, count: usize) -> Result<(Figure, Figure), Error> {
    let Combined { number, values: [place, lower, upper], powers } = combined;
    if number != 0 {
        return Err(refused(number, place, count));
    }
    let figure = |digits, power| Figure::new(digits, power).ok_or(Error::Unexpected("no figure"));
    let (lower, upper) = (figure(lower, powers[0])?, figure(upper, powers[1])?);
    if !(1..=MOST_PAIRS).contains(&count) {
        Err(Error::Unexpected("figures for a number of pairs that it refuses"))
    } else if place != 0 {
        Err(Error::Unexpected("a place beside figures"))
    } else if lower > upper || upper > Figure::ONE {
        Err(Error::Unexpected("a lower above its upper, or an upper above 1"))
    } else {
        Ok((lower, upper))
    }
}

/// The two reasons that pairs are refused for, each with a place that it can have.
fn refused(number: u64, place: u64, count: usize) -> Error {
    let (reason, places) = match Reason::of(number) {
        Some(reason @ Reason::PairCountOutOfRange) => (reason, 1),
        Some(reason @ Reason::PairOutOfRange) => (reason, count as u64),
        _ => return Error::UnknownRefusal { number, place },
    };
    if place < places {
        Error::Refused(Refusal { reason, place })
    } else {
        Error::Unexpected("a place of no pair")
    }
}

#[cfg(test)]
mod tests {
    use super::*;

    /// A half and 1.
    const HALF_TO_ONE: Combined =
        Combined { number: 0, values: [0, 500_000_000, 100_000_000], powers: [-9, -8] };

    fn half() -> Figure {
        Figure::new(500_000_000, -9).unwrap_or_default()
    }

    fn refusal(number: u64, place: u64) -> Combined {
        Combined { number, values: [place, 0, 0], powers: [0; OR_POWERS] }
    }

    /// Only 0 has figures, whatever the buffers hold, and only 17 and 18 are refusals of pairs.
    #[test]
    fn every_number() {
        assert_eq!(answer(HALF_TO_ONE, 2), Ok((half(), Figure::ONE)));
        for number in (1..=64).chain([u64::MAX - 1, u64::MAX]) {
            let found = answer(Combined { number, ..HALF_TO_ONE }, 2);
            match Reason::of(number) {
                Some(reason @ (Reason::PairCountOutOfRange | Reason::PairOutOfRange)) => {
                    assert_eq!(found, Err(Error::Refused(Refusal { reason, place: 0 })));
                }
                _ => assert_eq!(found, Err(Error::UnknownRefusal { number, place: 0 })),
            }
        }
    }

    /// 17 has place 0, and 18 that of a pair.
    #[test]
    fn what_is_no_place() {
        let found = |number, place, count| match answer(refusal(number, place), count) {
            Err(Error::Refused(refusal)) => Some((refusal.reason.number(), refusal.place)),
            _ => None,
        };
        for count in [0, 1, 2, 16, 17, usize::MAX] {
            assert_eq!(found(17, 0, count), Some((17, 0)), "{count}");
            for place in [1, 16, 17, u64::MAX] {
                assert_eq!(found(17, place, count), None, "{place} of {count}");
            }
        }
        for (place, count) in [(0, 1), (1, 2), (15, 16)] {
            assert_eq!(found(18, place, count), Some((18, place)), "{place} of {count}");
            assert_eq!(found(18, place + 1, count), None, "{place} of {count}");
            assert_eq!(found(18, u64::MAX, count), None, "{place} of {count}");
        }
        assert_eq!(found(18, 0, 0), None);
    }

    /// Figures for no pair or for more than it takes, beside a place, in the wrong order, or above 1.
    #[test]
    fn what_is_no_answer() {
        let unexpected =
            |combined, count| matches!(answer(combined, count), Err(Error::Unexpected(_)));
        for count in [1, 16] {
            assert!(!unexpected(HALF_TO_ONE, count), "{count}");
        }
        for count in [0, 17, usize::MAX] {
            assert!(unexpected(HALF_TO_ONE, count), "{count}");
        }
        for place in [1, 5, u64::MAX] {
            let values = [place, 500_000_000, 100_000_000];
            assert!(unexpected(Combined { values, ..HALF_TO_ONE }, 16), "{place}");
        }
        for (values, powers) in [
            ([0, 7, 100_000_000], [-9, -8]),
            ([0, 500_000_000, 7], [-9, -8]),
            ([0, 0, 100_000_000], [-9, -8]),
            ([0, 500_000_000, 0], [-9, 1]),
            ([0, 1_000_000_000, 100_000_000], [-10, -8]),
            ([0, 500_000_000, 1_000_000_000], [-9, -9]),
            ([0, 500_000_001, 500_000_000], [-9, -9]),
            ([0, 500_000_000, 0], [-9, 0]),
            ([0, 500_000_000, 100_000_001], [-9, -8]),
            ([0, 500_000_000, 100_000_000], [-9, i32::MAX]),
        ] {
            assert!(unexpected(Combined { number: 0, values, powers }, 2), "{values:?} {powers:?}");
        }
        for number in [0, 17, 18] {
            assert!(unexpected(Combined { number, ..Combined::UNTOUCHED }, 16), "{number}");
        }
        assert_eq!(answer(refusal(0, 0), 1), Ok((Figure::ZERO, Figure::ZERO)));
    }
}
