//! Bounds on the probability that a system fails, from a model's words: a safe wrapper over the proved library.
//!
//! ```
//! let model_a = [0x11002001, 0x2000000A, 0x30000000, 0x41801000, 0x50001002, 0x60400001, 0xF0000000];
//! let report = bounds::assess(&model_a, bounds::MOST_BUDGET)?;
//! assert_eq!(report.upper.to_string(), "1.00000000E-3");
//! let limit: bounds::Figure = "1E-3".parse()?;
//! assert!(report.upper.at_or_below(limit)?);
//! assert!(report.lower_exact && report.upper_exact);
//! # Ok::<(), Box<dyn std::error::Error>>(())
//! ```
//!
//! The last line asks whether the figures are the very sums: no rounding that they rest on lost anything. `false` would claim nothing.
//!
//! Which failure dominates, [`assess_rows`] says: a row for each state without exits that the generator did not prune.
//!
//! ```
//! # let model_a = [0x11002001, 0x2000000A, 0x30000000, 0x41801000, 0x50001002, 0x60400001, 0xF0000000];
//! let mut room = [bounds::Row::default(); bounds::MOST_ROWS];
//! let (report, rows) = bounds::assess_rows(&model_a, bounds::MOST_BUDGET, &mut room)?;
//! assert_eq!((rows.len(), rows[0].state, rows[0].upper), (1, 2, report.upper));
//! # Ok::<(), bounds::Error>(())
//! ```
//!
//! One figure for several subsystems, [`probabilistic_or`] works out, where the caller knows that they fail independently of one another.
//!
//! ```
//! # let model_a = [0x11002001, 0x2000000A, 0x30000000, 0x41801000, 0x50001002, 0x60400001, 0xF0000000];
//! let report = bounds::assess(&model_a, bounds::MOST_BUDGET)?;
//! let (lower, upper) = bounds::probabilistic_or(&[(report.lower, report.upper); 2])?;
//! assert_eq!((lower.to_string().as_str(), upper.to_string().as_str()), ("1.99800099E-3", "1.99900000E-3"));
//! # Ok::<(), bounds::Error>(())
//! ```
//!
//! The functions behind [`assess`], [`assess_rows`], [`text`], [`words_of`], [`probabilistic_or`] and [`Figure::at_or_below`] are proved to give the
//! documents' answer to every list of words, every budget and all pairs of figures. What this crate adds (its types, how they print, how they are ordered)
//! is not proved; its tests compare it with the proved text.
//!
//! The crate fails closed: only 0 from the library is a report or a pair of combined figures, and whatever the wrapper does not know is an [`Error`].
//! Every call looks first whether the library is of this crate's own [`VERSION`], since another may write more numbers than the wrapper has room for.
//!
//! The library keeps no state and asks for no memory, and the crate needs neither the standard library nor an allocator: any number of threads may call
//! at once. A call needs at most [`STACK`] bytes of stack, [`assess_rows`] 40 kilobytes more; a thread of the standard library has both.

#![no_std]

mod double;
mod error;
mod figure;
mod library;
mod orprob;
mod refusal;
mod report;
mod rows;
mod spelling;
mod text;
mod version;

pub use error::Error;
pub use figure::Figure;
pub use library::{assess, assess_rows, text, words_of};
pub use orprob::{probabilistic_or, probabilistic_or_of_numbers};
pub use refusal::{Party, Place, Reason, Refusal, Sentence};
pub use report::Report;
pub use rows::Row;
pub use spelling::NoFigure;
pub use text::Text;
pub use version::{library_version, Version, VERSION};

/// The greatest number of words that a model may have.
pub const MOST_WORDS: usize = 16_105;

/// The greatest budget that is allowed; the least is 1.
pub const MOST_BUDGET: u64 = 1_000_000;

/// So many rows are enough for every model.
pub const MOST_ROWS: usize = 1_000;

/// [`probabilistic_or`] combines at most so many pairs of figures.
pub const MOST_PAIRS: usize = 16;

/// The words that [`words_of`] writes at most: one more than a model may have.
pub const WORDS_SIZE: usize = MOST_WORDS + 1;

/// The stack that a call needs at most, in bytes: measured, as `include/bounds.h` says, not proved.
pub const STACK: usize = 327_680;
