//! `bounds text`: words as readable lines.

use super::Subcommand;
use crate::arguments::Takes;
use crate::input::{Form, Model};
use crate::{Done, Status};
use std::io::Write;

pub const SUBCOMMAND: Subcommand = Subcommand {
    name: "text",
    summary: "a model's words as readable lines",
    help: "usage: bounds text WORDS [--as lines|digits|bytes]

Writes a model as readable lines. WORDS is a file of words as hexadecimal digits or as bytes, or - for standard input. Words that no lines spell (a
kind out of place, a field out of range, left-over bytes) are an error that names the first.",
    run,
};

const TAKES: Takes = Takes { flags: &[], values: &["as"], files: &["WORDS"], repeated: &[] };

fn run(given: &[&str], out: &mut dyn Write) -> Done {
    let arguments = TAKES.parse(given)?;
    let model = Model::read(arguments.files[0], Form::named(arguments.value("as"))?)?;
    write!(out, "{}", model.spelled()?)?;
    Ok(Status::Reported)
}
