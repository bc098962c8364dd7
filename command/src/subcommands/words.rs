//! `bounds words`: a model as words.

use super::Subcommand;
use crate::arguments::Takes;
use crate::input::{Form, Model};
use crate::model::words;
use crate::{Done, Status};
use std::io::Write;

pub const SUBCOMMAND: Subcommand = Subcommand {
    name: "words",
    summary: "a model as words",
    help: "usage: bounds words FILE [--hex] [--as lines|digits|bytes]

Writes a model's words: four bytes a word, least significant first, as the report program reads them; with --hex eight hexadecimal digits a word. FILE
may be - for standard input. Words that no lines spell (a kind out of place, a field out of range, left-over bytes) are an error that names the first.
Beyond that no model is judged: what else is wrong with it, the library says.",
    run,
};

const TAKES: Takes = Takes { flags: &["hex"], values: &["as"], files: &["FILE"], repeated: &[] };

fn run(given: &[&str], out: &mut dyn Write) -> Done {
    let arguments = TAKES.parse(given)?;
    let model = Model::read(arguments.files[0], Form::named(arguments.value("as"))?)?;
    model.spelled()?;
    if arguments.flag("hex") {
        write!(out, "{}", words::hex_of(&model.words))?;
    } else {
        out.write_all(&words::bytes_of(&model.words))?;
    }
    Ok(Status::Reported)
}
