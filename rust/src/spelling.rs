//! A figure from its spelling.

use crate::Figure;
use core::fmt;
use core::num::IntErrorKind;
use core::str::FromStr;

/// Why a spelling is no figure.
#[derive(Clone, Copy, Debug, PartialEq, Eq)]
#[non_exhaustive]
pub enum NoFigure {
    /// It is no decimal number such as `1.00000000E-9`, `1E-9` or `0.001`, or spells zero otherwise than `0`.
    Spelling,
    /// It has more than nine digits, counted from the first that is not 0. Zeros at the end count: nothing is rounded or dropped.
    TooManyDigits,
    /// Its power of ten does not fit 32 bits.
    Power,
}

impl fmt::Display for NoFigure {
    fn fmt(&self, out: &mut fmt::Formatter<'_>) -> fmt::Result {
        out.write_str(match self {
            NoFigure::Spelling => "no figure such as 1.00000000E-9, 1E-9, 0.001 or 0",
            NoFigure::TooManyDigits => "more than nine digits, and a figure has nine",
            NoFigure::Power => "a power of ten out of range",
        })
    }
}

impl core::error::Error for NoFigure {}

/// Takes `0`, and decimal numbers that are a figure exactly: digits, with a point between digits or without, and E or e with an exponent or without
/// (`1.00000000E-9`, `1E-9`, `0.001`, `12`). Refuses signs before the number, spaces, a point without digits on both sides, other spellings of
/// zero, more than nine digits from the first that is not 0, and what is no number. Nothing is rounded.
impl FromStr for Figure {
    type Err = NoFigure;

    fn from_str(spelled: &str) -> Result<Figure, NoFigure> {
        if spelled == "0" {
            return Ok(Figure::default());
        }
        let (number, exponent) = match spelled.split_once(['e', 'E']) {
            Some((number, exponent)) => (number, exponent_of(exponent)?),
            None => (spelled, 0),
        };
        let (whole, part) = match number.split_once('.') {
            Some((_, "")) => return Err(NoFigure::Spelling),
            Some(both) => both,
            None => (number, ""),
        };
        if whole.is_empty() {
            return Err(NoFigure::Spelling);
        }
        let digits = digits_of(whole.bytes().chain(part.bytes()))?;
        Figure::of(digits, exponent.saturating_sub(part.len() as i64)).ok_or(NoFigure::Power)
    }
}

fn exponent_of(spelled: &str) -> Result<i64, NoFigure> {
    spelled.parse().map_err(|error: core::num::ParseIntError| match error.kind() {
        IntErrorKind::PosOverflow | IntErrorKind::NegOverflow => NoFigure::Power,
        _ => NoFigure::Spelling,
    })
}

/// The number that some digits spell, which has one to nine digits.
fn digits_of(spelled: impl Iterator<Item = u8>) -> Result<u64, NoFigure> {
    let (mut number, mut count) = (0, 0);
    for byte in spelled {
        if !byte.is_ascii_digit() {
            return Err(NoFigure::Spelling);
        }
        if number > 0 || byte != b'0' {
            number = 10u64.saturating_mul(number).saturating_add(u64::from(byte - b'0'));
            count += 1;
        }
    }
    match count {
        0 => Err(NoFigure::Spelling),
        1..=9 => Ok(number),
        _ => Err(NoFigure::TooManyDigits),
    }
}
