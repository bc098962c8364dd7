//! One module for each subcommand. A new one is a module and its entry in the list.

mod answers;
mod line;
mod or;
mod report;
mod rows;
mod sweep;
mod text;
mod words;

use crate::Done;
use std::io::Write;

pub struct Subcommand {
    pub name: &'static str,
    /// For the list of all.
    pub summary: &'static str,
    /// For `--help`.
    pub help: &'static str,
    pub run: fn(&[&str], &mut dyn Write) -> Done,
}

pub const ALL: &[Subcommand] = &[
    report::SUBCOMMAND,
    rows::SUBCOMMAND,
    or::SUBCOMMAND,
    sweep::SUBCOMMAND,
    words::SUBCOMMAND,
    text::SUBCOMMAND,
    line::SUBCOMMAND,
    answers::SUBCOMMAND,
];
