use crate::{Refusal, Version, VERSION};
use core::fmt;

/// Why there is no report, or why figures are not combined. Later versions may add cases.
#[derive(Clone, Copy, Debug, PartialEq, Eq)]
#[non_exhaustive]
pub enum Error {
    /// The library turned the model, or the pairs of figures, away.
    Refused(Refusal),
    /// The library turned them away by a number that this wrapper does not know, or does not know of this call.
    UnknownRefusal { number: u64, place: u64 },
    /// The library is of another version than this wrapper, and was not asked.
    OtherVersion(Version),
    /// The library wrote what it never writes; here is what that was.
    Unexpected(&'static str),
}

/// A refusal as the report program prints it, without the newline.
impl fmt::Display for Error {
    fn fmt(&self, out: &mut fmt::Formatter<'_>) -> fmt::Result {
        match self {
            Error::Refused(refusal) => refusal.fmt(out),
            Error::UnknownRefusal { number, place } => {
                write!(
                    out,
                    "refused {number} at {place}, a number that bounds {VERSION} does not know"
                )
            }
            Error::OtherVersion(library) => {
                write!(out, "bounds is of version {VERSION}, the library of {library}: link the library that came with the wrapper")
            }
            Error::Unexpected(what) => write!(out, "the library answered with {what}"),
        }
    }
}

impl core::error::Error for Error {}

impl From<Refusal> for Error {
    fn from(refusal: Refusal) -> Error {
        Error::Refused(refusal)
    }
}
