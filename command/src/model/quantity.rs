//! A quantity: coefficient / 10^scale, the coefficient of at most six digits.

use super::kind;
use crate::echo::shown;

pub const MOST_COEFFICIENT: u64 = 999_999;

#[derive(Clone, Copy, Debug, PartialEq, Eq)]
pub struct Quantity {
    pub coefficient: u32,
    pub scale: u32,
}

/// The greatest scale of a quantity of this kind.
pub fn most_scale(of: u32) -> u32 {
    if of == kind::PROBABILITY {
        12
    } else {
        20
    }
}

/// Whether a quantity of this kind may be zero.
pub fn may_be_zero(of: u32) -> bool {
    of == kind::PRUNE || of == kind::DEVIATION
}

impl Quantity {
    /// The quantity that a decimal number spells: digits, with a point or without, and an exponent or none (`10`, `0.333334`, `3e-4`, `2.7E-4`).
    ///
    /// The spelling is kept: `0.50` is 50 / 10^2. Zeros at the end are dropped only where the coefficient or the scale is too great with them.
    /// What still does not fit is an error; nothing is rounded.
    pub fn parse(spelled: &str, of: u32) -> Result<Quantity, String> {
        let (mut digits, mut scale) = decimal(spelled)?;
        let most = i64::from(most_scale(of));
        if digits == 0 {
            // zero whatever the exponent, which the loops below would count through
            scale = scale.clamp(0, most);
        }
        while scale < 0 {
            digits = digits
                .checked_mul(10)
                .filter(|&d| d <= MOST_COEFFICIENT)
                .ok_or_else(|| too_many_digits(spelled))?;
            scale += 1;
        }
        while digits % 10 == 0 && scale > 0 && (digits > MOST_COEFFICIENT || scale > most) {
            digits /= 10;
            scale -= 1;
        }
        if digits > MOST_COEFFICIENT {
            return Err(too_many_digits(spelled));
        }
        if scale > most {
            return Err(format!(
                "{} has {scale} decimal places, and a quantity of this kind at most {most}",
                shown(spelled)
            ));
        }
        if digits == 0 && !may_be_zero(of) {
            return Err(format!(
                "{} is zero, which only a prune level and a deviation may be",
                shown(spelled)
            ));
        }
        Ok(Quantity { coefficient: digits as u32, scale: scale as u32 })
    }

    /// The word of this quantity.
    pub fn word(self, of: u32) -> u32 {
        of << 28 | self.scale << 20 | self.coefficient
    }
}

/// A spelling that `parse` takes back to the same coefficient and scale.
impl std::fmt::Display for Quantity {
    fn fmt(&self, out: &mut std::fmt::Formatter<'_>) -> std::fmt::Result {
        let digits = self.coefficient.to_string();
        let scale = self.scale as usize;
        if scale == 0 {
            return write!(out, "{digits}");
        }
        if scale < digits.len() {
            let (whole, part) = digits.split_at(digits.len() - scale);
            return write!(out, "{whole}.{part}");
        }
        // one zero behind the point is still read at a glance
        if self.coefficient != 0 && scale <= digits.len() + 1 {
            return write!(out, "0.{digits:0>scale$}");
        }
        let (first, rest) = digits.split_at(1);
        let point = if rest.is_empty() { "" } else { "." };
        write!(out, "{first}{point}{rest}e-{}", scale - rest.len())
    }
}

fn too_many_digits(spelled: &str) -> String {
    format!("{} needs more than six digits", shown(spelled))
}

/// The digits of a decimal number, and how many of them stand behind the point.
fn decimal(spelled: &str) -> Result<(u64, i64), String> {
    let wrong = || format!("{} is no decimal number such as 10, 0.25 or 3e-4", shown(spelled));
    let (number, exponent) = match spelled.split_once(['e', 'E']) {
        Some((number, exponent)) => (number, exponent.parse::<i32>().map_err(|_| wrong())?),
        None => (spelled, 0),
    };
    let (whole, part) = number.split_once('.').unwrap_or((number, ""));
    let plain = |s: &str| s.bytes().all(|b| b.is_ascii_digit());
    if !plain(whole) || !plain(part) || whole.is_empty() && part.is_empty() {
        return Err(wrong());
    }
    let digits = format!("{whole}{part}");
    let digits = digits.trim_start_matches('0');
    if digits.len() > 18 {
        return Err(too_many_digits(spelled));
    }
    let digits = if digits.is_empty() { 0 } else { digits.parse().map_err(|_| wrong())? };
    Ok((digits, part.len() as i64 - i64::from(exponent)))
}

#[cfg(test)]
mod tests {
    use super::*;

    fn read(spelled: &str) -> Result<(u32, u32), String> {
        Quantity::parse(spelled, kind::RATE).map(|q| (q.coefficient, q.scale))
    }

    #[test]
    fn spellings() {
        assert_eq!(read("10"), Ok((10, 0)));
        assert_eq!(read("1e2"), Ok((100, 0)));
        assert_eq!(read("0.333334"), Ok((333_334, 6)));
        assert_eq!(read("3e-4"), Ok((3, 4)));
        assert_eq!(read("2.7E-4"), Ok((27, 5)));
        assert_eq!(read("0.50"), Ok((50, 2)));
        assert_eq!(read(".5"), Ok((5, 1)));
        assert_eq!(read("5."), Ok((5, 0)));
        assert_eq!(read("1.0000000"), Ok((100_000, 5)));
        assert_eq!(read("1e-20"), Ok((1, 20)));
        assert_eq!(read("1.0e-20"), Ok((1, 20)));
        assert_eq!(read("999999e-20"), Ok((999_999, 20)));
    }

    #[test]
    fn nothing_is_rounded() {
        for spelled in [
            "0.3333333",
            "1234567",
            "1000000",
            "1e6",
            "1.0000001",
            "1e-21",
            "1.5e-20",
            "1234567e-7",
        ] {
            assert!(read(spelled).is_err(), "{spelled}");
        }
        assert!(Quantity::parse("1e-13", kind::PROBABILITY).is_err());
        assert!(Quantity::parse("1e-12", kind::PROBABILITY).is_ok());
    }

    #[test]
    fn what_is_no_number() {
        for spelled in [
            "",
            ".",
            "e5",
            "-1",
            "+1",
            "1,5",
            "1e",
            "1e1.5",
            "0x1",
            "1_000",
            "nan",
            "1e99999999999",
            "1 2",
            "٣",
        ] {
            assert!(read(spelled).is_err(), "{spelled}");
        }
    }

    #[test]
    fn zero() {
        assert!(read("0").is_err());
        assert_eq!(Quantity::parse("0.00", kind::PRUNE), Ok(Quantity { coefficient: 0, scale: 2 }));
        assert_eq!(
            Quantity::parse("0e-30", kind::DEVIATION),
            Ok(Quantity { coefficient: 0, scale: 20 })
        );
    }

    /// None of them takes longer than its digits are read.
    #[test]
    fn great_exponents() {
        let prune = |spelled: &str| Quantity::parse(spelled, kind::PRUNE);
        for (spelled, scale) in [
            ("0e2147483647", 0),
            ("0.000e2147483647", 0),
            ("0e3", 0),
            ("0.000e2", 1),
            ("0e-20", 20),
            ("0e-21", 20),
            ("0e-2147483648", 20),
            ("0.000e-2147483648", 20),
        ] {
            assert_eq!(prune(spelled), Ok(Quantity { coefficient: 0, scale }), "{spelled}");
        }
        for spelled in ["1e2147483647", "1e-2147483648", "100000e-2147483648", "0.1e2147483647"] {
            assert!(prune(spelled).is_err(), "{spelled}");
        }
        assert_eq!(prune(&format!("{}1", "0".repeat(99_999))), prune("1"));
        assert!(prune(&format!("1{}", "0".repeat(99_999))).is_err());
        assert_eq!(
            prune("100000000000000000e-17"),
            Ok(Quantity { coefficient: 100_000, scale: 5 })
        );
    }

    #[test]
    fn every_spelling_comes_back() {
        for coefficient in [0, 1, 5, 9, 10, 27, 100, 105, 1_000, 99_999, 123_450, 999_999] {
            for scale in 0..=20 {
                let quantity = Quantity { coefficient, scale };
                assert_eq!(
                    Quantity::parse(&quantity.to_string(), kind::PRUNE),
                    Ok(quantity),
                    "{quantity}"
                );
            }
        }
    }
}
