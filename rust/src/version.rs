//! The version of the library, and whether it is this wrapper's.

use crate::{library, Error};
use core::fmt;

/// A version of the library: major × 1,000,000 + minor × 1,000 + patch.
#[derive(Clone, Copy, Debug, PartialEq, Eq, PartialOrd, Ord)]
pub struct Version(pub u64);

/// The version that this wrapper is written for, as `BOUNDS_VERSION` in the header.
pub const VERSION: Version = Version(1_005_001);

/// As `1.5.1`.
impl fmt::Display for Version {
    fn fmt(&self, out: &mut fmt::Formatter<'_>) -> fmt::Result {
        write!(out, "{}.{}.{}", self.0 / 1_000_000, self.0 / 1_000 % 1_000, self.0 % 1_000)
    }
}

/// The version of the library that is linked.
pub fn library_version() -> Version {
    Version(library::version())
}

/// Nothing, where a library of this version may be called.
pub(crate) fn agreed(library: Version) -> Result<(), Error> {
    if library == VERSION {
        Ok(())
    } else {
        Err(Error::OtherVersion(library))
    }
}

#[cfg(test)]
mod tests {
    extern crate std;
    use super::*;
    use std::string::ToString;

    #[test]
    fn only_this_version() {
        assert_eq!(agreed(VERSION), Ok(()));
        for other in [0, 1, VERSION.0 - 1, VERSION.0 + 1, 1_000_000, 2_000_000, u64::MAX] {
            let other = Version(other);
            assert_eq!(agreed(other), Err(Error::OtherVersion(other)), "{other}");
        }
    }

    #[test]
    fn the_package_has_the_same() {
        assert_eq!(VERSION.to_string(), env!("CARGO_PKG_VERSION"));
        assert_eq!(Version(12_034_005).to_string(), "12.34.5");
        assert_eq!(library_version(), VERSION);
    }
}
