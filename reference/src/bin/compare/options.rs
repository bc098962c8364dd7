//! The command line.

use reference::comparing::options;

pub struct Options {
    pub common: options::Options,
    /// The accuracy rule is checked only on reports of at most so many ended paths.
    pub paths: u64,
}

pub const USAGE: &str = "\
usage: compare PROGRAM [--seed S] [--first I] [--count N] [--accuracy] [--paths N] [-- ARGUMENT..]

Compares the answers of PROGRAM with those of the independent implementation.
  --seed S     which models are made (1)
  --first I    the number of the first model (0)
  --count N    how many models (100000)
  --accuracy   checks the accuracy rule and the two digits on each reported model as well
  --paths N    only where there are at most so many ended paths (20000)
What follows -- is handed to PROGRAM.";

/// The options, or what is wrong with them.
pub fn read(arguments: impl Iterator<Item = String>) -> Result<Options, String> {
    let mut paths = 20_000;
    let common = options::read(arguments, &mut [("--paths", &mut paths)])?;
    Ok(Options { common, paths })
}
