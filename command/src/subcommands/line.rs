//! `bounds line`: the line that a word comes from.

use super::Subcommand;
use crate::arguments::{whole_number, Takes};
use crate::echo::shown;
use crate::input::{Form, Model};
use crate::{Done, Failure, Status};
use std::io::Write;

pub const SUBCOMMAND: Subcommand = Subcommand {
    name: "line",
    summary: "the line that the word at a place comes from",
    help: "usage: bounds line FILE PLACE [--as lines|digits]

Writes the line of a file that the word at a place comes from, with its number. Places count from 0, as in a refusal.",
    run,
};

const TAKES: Takes =
    Takes { flags: &[], values: &["as"], files: &["FILE", "PLACE"], repeated: &[] };

fn run(given: &[&str], out: &mut dyn Write) -> Done {
    let arguments = TAKES.parse(given)?;
    let (file, place) = (arguments.files[0], arguments.files[1]);
    let model = Model::read(file, Form::named(arguments.value("as"))?)?;
    let at = whole_number(place).and_then(|at| usize::try_from(at).ok());
    let Some(at) = at.filter(|&at| at < model.words.len()) else {
        return Err(Failure::in_file(file, no_place(place, model.words.len())));
    };
    let Some((line, text)) = model.line_of(at) else {
        return Err(Failure::in_file(file, "expected a file that has lines"));
    };
    writeln!(out, "{line}: {text}")?;
    Ok(Status::Reported)
}

fn no_place(place: &str, count: usize) -> String {
    let place = shown(place);
    match count.checked_sub(1) {
        Some(last) => format!("{place} is no place: expected 0 to {last}"),
        None => format!("{place} is no place: the file has no words"),
    }
}
