//! `bounds rows`: the bounds on each way to fail, the one that dominates first.

use super::{report, Subcommand};
use crate::arguments::Takes;
use crate::input::{Form, Model};
use crate::table::aligned;
use crate::{explain, json, Done, Failure, Status};
use bounds::{Error, Figure, Report, Row, MOST_ROWS};
use std::io::Write;

pub const SUBCOMMAND: Subcommand = Subcommand {
    name: "rows",
    summary: "the ways to fail, the one that dominates first",
    help: "usage: bounds rows FILE [--budget N] [--json] [--as lines|digits|bytes]

Prints a row for each state without exits that is the target of a transition and that no line `pruned` names: the lower and the upper figure of the
paths that end in that state, and its share of the report's upper. The greatest upper stands first, equal ones in order of state number. Behind them
stand `cut`, the paths that were cut and are in no row, those into pruned states included, and `all`, the report's own figures. A model that is refused
is answered as by `bounds report`.

A share is the row's upper divided by the report's, in per cent with two places, rounded to the nearest, halves up; it is - where the row's upper is 0,
since no path ends there. The figures of the rows are rounded each by itself, and need not add up to those of `all`.

FILE        a model in readable lines, or its words as hexadecimal digits or as bytes; - is standard input
--budget N  the most steps that the walk may take, 1 to 1,000,000; without it 1,000,000
--json      one object of JSON, that of `bounds report` with the rows; figures and shares are strings
--as FORM   what the file is, where it is not to be recognised: lines, digits or bytes

Exit status: 0 report, 1 refusal, 2 usage or input.",
    run,
};

const TAKES: Takes =
    Takes { flags: &["json"], values: &["budget", "as"], files: &["FILE"], repeated: &[] };

fn run(given: &[&str], out: &mut dyn Write) -> Done {
    let arguments = TAKES.parse(given)?;
    let budget = arguments.budget()?;
    let model = Model::read(arguments.files[0], Form::named(arguments.value("as"))?)?;
    let as_json = arguments.flag("json");
    let mut room = vec![Row::default(); MOST_ROWS];
    let (report, rows) = match bounds::assess_rows(&model.words, budget, &mut room) {
        Ok(answer) => answer,
        Err(Error::Refused(refusal)) => return explain::refused(&model, refusal, as_json, out),
        Err(error) => return Err(error.into()),
    };
    let rows = sorted(rows);
    if as_json {
        writeln!(out, "{}", object(&report, &rows)?)?;
    } else {
        write!(out, "{}", table(&report, &rows)?)?;
    }
    Ok(Status::Reported)
}

/// The greatest upper first, equal ones in order of state number.
fn sorted(rows: &[Row]) -> Vec<Row> {
    let mut rows = rows.to_vec();
    rows.sort_by(|a, b| b.upper.cmp(&a.upper).then(a.state.cmp(&b.state)));
    rows
}

fn table(report: &Report, rows: &[Row]) -> Result<String, Failure> {
    let line = |name: &str, lower: Option<Figure>, upper: Figure| -> Result<_, Failure> {
        let lower = lower.map_or("-".into(), |lower| lower.to_string());
        let share = share(upper, report.upper)?.unwrap_or("-".into());
        Ok(vec![name.to_string(), lower, upper.to_string(), share])
    };
    let mut lines = vec![["state", "lower", "upper", "share"].map(String::from).to_vec()];
    for row in rows {
        lines.push(line(&row.state.to_string(), Some(row.lower), row.upper)?);
    }
    lines.push(line("cut", None, report.cut)?);
    lines.push(line("all", Some(report.lower), report.upper)?);
    Ok(aligned(&lines))
}

fn object(report: &Report, rows: &[Row]) -> Result<String, Failure> {
    let row = |row: &Row| -> Result<_, Failure> {
        let share = share(row.upper, report.upper)?;
        Ok(json::object(&[
            ("state", row.state.to_string()),
            ("lower", json::string(&row.lower.to_string())),
            ("upper", json::string(&row.upper.to_string())),
            ("share", share.map_or("null".into(), |share| json::string(&share))),
        ]))
    };
    let rows: Vec<String> = rows.iter().map(row).collect::<Result<_, _>>()?;
    let mut fields = report::fields(report);
    fields.push(("rows", json::array(&rows)));
    Ok(json::object(&fields))
}

/// A part of the whole in per cent, to the nearest hundredth, halves up; none of a part that is 0. A part above the whole is no library's answer.
fn share(part: Figure, whole: Figure) -> Result<Option<String>, Failure> {
    if part > whole {
        return Err(Failure::new("the library answered with a part of upper that is above it"));
    }
    if part.digits() == 0 {
        return Ok(None);
    }
    // Both have nine digits, and the part's power is not the greater one. From 20 powers on the share is 0.00 as well.
    let apart = i64::from(whole.power()) - i64::from(part.power());
    let part = 10_000 * u128::from(part.digits());
    let whole = u128::from(whole.digits()) * 10u128.pow(apart.min(20) as u32);
    let hundredths = (2 * part + whole) / (2 * whole);
    Ok(Some(format!("{}.{:02}%", hundredths / 100, hundredths % 100)))
}

#[cfg(test)]
mod tests {
    use super::*;

    fn figure(spelled: &str) -> Figure {
        spelled.parse().unwrap_or_default()
    }

    #[test]
    fn shares() {
        for (part, whole, expected) in [
            ("1E-3", "1E-3", "100.00%"),
            ("1", "3", "33.33%"),
            ("2", "3", "66.67%"),
            ("1", "20000", "0.01%"),
            ("4.99999999E-1", "10000", "0.00%"),
            ("1", "32", "3.13%"),
            ("999999999", "1E9", "100.00%"),
            ("9.99949999E8", "1E9", "99.99%"),
            ("9.9995E8", "1E9", "100.00%"),
            ("999999999", "1E28", "0.00%"),
            ("1E-2000000000", "1E2000000000", "0.00%"),
        ] {
            let found = share(figure(part), figure(whole));
            assert_eq!(found, Ok(Some(expected.into())), "{part} {whole}");
        }
        assert_eq!(share(figure("0"), figure("1")), Ok(None));
        assert_eq!(share(figure("0"), figure("0")), Ok(None));
        assert!(share(figure("1.00000001"), figure("1")).is_err());
        assert!(share(figure("1"), figure("0")).is_err());
    }

    #[test]
    fn order() {
        let row = |state, upper| Row { state, lower: Figure::default(), upper: figure(upper) };
        let rows = [row(1, "0"), row(2, "1E-9"), row(3, "9E-10"), row(4, "1E-9"), row(5, "2E-9")];
        let states: Vec<u64> = sorted(&rows).iter().map(|row| row.state).collect();
        assert_eq!(states, [5, 2, 4, 3, 1]);
    }
}
