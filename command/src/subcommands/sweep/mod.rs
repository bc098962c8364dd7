//! `bounds sweep`: a model over several values of one of its numbers, as a table and as a plot.

mod axis;
mod plot;

use super::Subcommand;
use crate::arguments::{Arguments, Takes};
use crate::input::{Form, Model};
use crate::progress::Progress;
use crate::table::aligned;
use crate::{Done, Failure, Status};
use axis::{Axis, Point};
use bounds::{Error, Refusal, Report};
use std::fs;
use std::io::Write;

pub const SUBCOMMAND: Subcommand = Subcommand {
    name: "sweep",
    summary: "a model over several values of one of its numbers",
    help: "usage: bounds sweep FILE AXIS [--budget N] [--svg OUT] [--as lines|digits|bytes]

Prints a table with one row for each value, a column for each line of a report, and with --svg writes a plot of lower and upper over them. FILE is as
for `bounds report`. Its own value of what is swept must stand in it and be readable too; the rows have the given values in its place. OUT is another
file than FILE. AXIS is one of

--time 1,10,100           the mission time T
--prune 0,1e-9,1e-6       the prune level P
--step-limit 6,12,24      the step limit L
--entry-limit 1,2,3       the entry limit V
--rate INDEX=1e-4,2e-4    the rate of a slow transition, which its index names, from 0 in table order

Values are decimal numbers that words can hold exactly. The plot's upward axis is logarithmic, and so is the other but for the limits; a lower of 0
stands as a triangle and a refusal as a cross at its foot.

Exit status: 0 reports, 1 where a row is a refusal, 2 usage or input.",
    run,
};

const TAKES: Takes = Takes {
    flags: &[],
    values: &["time", "prune", "step-limit", "entry-limit", "rate", "budget", "svg", "as"],
    files: &["FILE"],
    repeated: &[],
};

/// The answer at a point.
pub type Answer = Result<Report, Refusal>;

fn run(given: &[&str], out: &mut dyn Write) -> Done {
    let arguments = TAKES.parse(given)?;
    let budget = arguments.budget()?;
    let plotted = plotted(&arguments)?;
    let model = Model::read(arguments.files[0], Form::named(arguments.value("as"))?)?;
    model.spelled()?;
    let axis = axis(&arguments)?;
    let points = axis.points(&model.words)?;
    let answers = answers(&points, budget)?;
    write!(out, "{}", table(&axis, &points, &answers))?;
    if let Some(file) = plotted {
        let plot = plot::svg(&model.file, &axis, &points, &answers);
        fs::write(file, plot).map_err(|error| Failure::in_file(file, error))?;
    }
    let refused = answers.iter().any(Result::is_err);
    Ok(if refused { Status::Refused } else { Status::Reported })
}

/// The file for the plot, if there is to be one. It would be written over the model where it is the same.
fn plotted<'a>(arguments: &Arguments<'a>) -> Result<Option<&'a str>, Failure> {
    let Some(plot) = arguments.value("svg") else {
        return Ok(None);
    };
    let model = match arguments.files[0] {
        "-" => "/dev/stdin",
        file => file,
    };
    match (fs::canonicalize(plot), fs::canonicalize(model)) {
        (Ok(path), Ok(other)) if path == other && path.is_file() => {
            Err(Failure::new(format!("--svg {plot}: expected another file than the model's own")))
        }
        _ => Ok(Some(plot)),
    }
}

/// The one axis that was given.
fn axis<'a>(arguments: &Arguments<'a>) -> Result<Axis<'a>, Failure> {
    let given: Vec<Axis> = axis::NAMES
        .iter()
        .filter_map(|&name| arguments.value(name).map(|value| Axis::of(name, value)))
        .collect::<Result<_, _>>()?;
    let [axis] = <[Axis; 1]>::try_from(given).map_err(|given| {
        let names: Vec<String> = axis::NAMES.iter().map(|name| format!("--{name}")).collect();
        Failure::new(format!("expected one of {}, not {}", names.join(", "), given.len()))
    })?;
    Ok(axis)
}

/// The answer at each point, with a word on the terminal how far it is. What is neither a report nor a known refusal ends the sweep.
fn answers(points: &[Point], budget: u64) -> Result<Vec<Answer>, Failure> {
    let progress = Progress::of(points.len());
    let answer = |(done, point): (usize, &Point)| {
        progress.next(done, &point.spelled);
        match bounds::assess(&point.words, budget) {
            Ok(report) => Ok(Ok(report)),
            Err(Error::Refused(refusal)) => Ok(Err(refusal)),
            Err(error) => Err(error.into()),
        }
    };
    points.iter().enumerate().map(answer).collect()
}

/// A row for each point.
fn table(axis: &Axis, points: &[Point], answers: &[Answer]) -> String {
    let head = [
        axis.name(),
        "lower".into(),
        "upper".into(),
        "cut".into(),
        "deaths".into(),
        "cuts".into(),
        "steps".into(),
        "exact".into(),
    ];
    let mut rows = vec![head.to_vec()];
    for (point, answer) in points.iter().zip(answers) {
        let mut row = vec![point.spelled.clone()];
        match answer {
            Ok(r) => {
                row.extend([r.lower, r.upper, r.cut].map(|figure| figure.to_string()));
                row.extend([r.deaths, r.cuts, r.steps].map(|count| count.to_string()));
                row.push(format!("{}{}", u8::from(r.lower_exact), u8::from(r.upper_exact)));
            }
            Err(refusal) => row.push(refusal.to_string()),
        }
        rows.push(row);
    }
    aligned(&rows)
}
