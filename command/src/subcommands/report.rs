//! `bounds report`: the report on a model, or the refusal explained.

use super::Subcommand;
use crate::arguments::{Arguments, Takes};
use crate::echo::shown;
use crate::input::{Form, Model};
use crate::{explain, json, Done, Failure, Status};
use bounds::{Error, Figure, Report};
use std::io::Write;

pub const SUBCOMMAND: Subcommand = Subcommand {
    name: "report",
    summary: "the report on a model, or why it is refused",
    help: "usage: bounds report FILE [--budget N] [--at-most FIGURE] [--json] [--as lines|digits|bytes]

Prints the report on a model: seven lines as the report program prints them. The last has two digits, for lower and for upper: 1 where no rounding
that the figure rests on lost anything, so that it equals its exact sum; 0 claims nothing. A model that is refused is answered by the refusal, a
sentence on it, the lines of the file that it speaks of, and what to look at.

FILE              a model in readable lines, or its words as hexadecimal digits or as bytes; - is standard input
--budget N        the most steps that the walk may take, 1 to 1,000,000; without it 1,000,000
--at-most FIGURE  says whether upper is at or below a requirement, such as 1E-9: one line more
--json            one object of JSON; figures are strings, since a number of JSON is read as a double, which may lie on the wrong side
--as FORM         what the file is, where it is not to be recognised: lines, digits or bytes

Exit status: 0 report, 1 refusal, 2 usage or input, 3 a report whose upper is above the requirement.",
    run,
};

const TAKES: Takes = Takes {
    flags: &["json"],
    values: &["budget", "at-most", "as"],
    files: &["FILE"],
    repeated: &[],
};

fn run(given: &[&str], out: &mut dyn Write) -> Done {
    let arguments = TAKES.parse(given)?;
    let limit = limit(&arguments)?;
    let budget = arguments.budget()?;
    let model = Model::read(arguments.files[0], Form::named(arguments.value("as"))?)?;
    let as_json = arguments.flag("json");
    let report = match bounds::assess(&model.words, budget) {
        Ok(report) => report,
        Err(Error::Refused(refusal)) => return explain::refused(&model, refusal, as_json, out),
        Err(error) => return Err(error.into()),
    };
    let meets = limit.map(|limit| report.upper.at_or_below(limit)).transpose()?;
    if as_json {
        writeln!(out, "{}", object(&report, meets))?;
    } else {
        write!(out, "{}{}", bounds::text(&model.words, budget)?, verdict(limit, meets))?;
    }
    Ok(status(meets))
}

/// The requirement of `--at-most`, if there is one.
pub fn limit(arguments: &Arguments) -> Result<Option<Figure>, Failure> {
    let Some(spelled) = arguments.value("at-most") else {
        return Ok(None);
    };
    let wrong = |why| Failure::new(format!("--at-most {}: {why}", shown(spelled)));
    Ok(Some(spelled.parse().map_err(wrong)?))
}

/// The line on a requirement, if there is one.
pub fn verdict(limit: Option<Figure>, meets: Option<bool>) -> String {
    match (limit, meets) {
        (Some(limit), Some(meets)) => {
            format!("at most {limit} {}\n", if meets { "yes" } else { "no" })
        }
        _ => String::new(),
    }
}

/// The exit status beside a figure.
pub fn status(meets: Option<bool>) -> Status {
    if meets == Some(false) {
        Status::AboveLimit
    } else {
        Status::Reported
    }
}

fn object(report: &Report, meets: Option<bool>) -> String {
    let mut fields = fields(report);
    fields.extend(meets.map(|meets| ("meets", meets.to_string())));
    json::object(&fields)
}

/// A report's names and values of JSON.
pub fn fields(report: &Report) -> Vec<(&'static str, String)> {
    let figure = |figure: Figure| json::string(&figure.to_string());
    vec![
        ("answer", json::string("report")),
        ("lower", figure(report.lower)),
        ("upper", figure(report.upper)),
        ("cut", figure(report.cut)),
        ("deaths", report.deaths.to_string()),
        ("cuts", report.cuts.to_string()),
        ("steps", report.steps.to_string()),
        ("lower_exact", report.lower_exact.to_string()),
        ("upper_exact", report.upper_exact.to_string()),
    ]
}
