//! `bounds or`: one figure for several subsystems.

use super::{report, Subcommand};
use crate::arguments::Takes;
use crate::echo::shown;
use crate::input::{Form, Model};
use crate::{explain, json, Done, Failure};
use bounds::{Error, Figure, NoFigure, Refusal, MOST_BUDGET};
use std::io::Write;

pub const SUBCOMMAND: Subcommand = Subcommand {
    name: "or",
    summary: "one figure for several subsystems",
    help: "usage: bounds or FILE .. [--at-most FIGURE] [--json] [--as lines|digits|bytes]
       bounds or --pair LOWER:UPPER .. [--at-most FIGURE] [--json]

Prints the lower and the upper bound on the failure of at least one of several subsystems, 1 to 16 of them: SURE's probabilistic OR. The two figures
enclose 1 minus the product of (1 - p), once over the lowers and once over the uppers, an upper above 1 being taken as 1. It is the user who knows that
the subsystems fail independently of one another; nothing here can tell.

FILE                a subsystem's model, as for `bounds report`, walked with a budget of 1,000,000 steps; - is standard input. A model that is refused
                    is answered as by `bounds report`, its file named first, and nothing is combined
--pair LOWER:UPPER  the bounds on a subsystem, in place of its model, spelled as a report has them or as 1E-9, 0.001 or 0
--at-most FIGURE    says whether upper is at or below a requirement, such as 1E-9: one line more
--json              one object of JSON; figures are strings, since a number of JSON is read as a double, which may lie on the wrong side
--as FORM           what the files are, where they are not to be recognised: lines, digits or bytes

Exit status: 0 combined figures, 1 refusal, of a model or of the pairs, 2 usage or input, 3 combined figures whose upper is above the requirement.",
    run,
};

const TAKES: Takes = Takes {
    flags: &["json"],
    values: &["pair", "at-most", "as"],
    files: &["FILE"],
    repeated: &["pair", "FILE"],
};

/// The lower and the upper figure of a subsystem.
type Pair = (Figure, Figure);

/// How the answer is to be written.
struct Wanted {
    limit: Option<Figure>,
    as_json: bool,
}

fn run(given: &[&str], out: &mut dyn Write) -> Done {
    let arguments = TAKES.parse(given)?;
    let wanted = Wanted { limit: report::limit(&arguments)?, as_json: arguments.flag("json") };
    let (form, spelled) = (arguments.value("as"), arguments.values("pair"));
    match (&arguments.files[..], &spelled[..]) {
        ([], []) => Err(Failure::new("expected FILE .. or --pair LOWER:UPPER .., not nothing")),
        (files, []) => of_models(files, Form::named(form)?, &wanted, out),
        ([], _) if form.is_some() => Err(Failure::new("--as is for models, and there are pairs")),
        ([], spelled) => of_pairs(spelled, &wanted, out),
        _ => Err(Failure::new("expected models or pairs, not both")),
    }
}

/// Each model is walked, and the figures of the reports are combined. The first that is refused ends it.
fn of_models(files: &[&str], form: Option<Form>, wanted: &Wanted, out: &mut dyn Write) -> Done {
    if files.iter().filter(|file| **file == "-").count() > 1 {
        return Err(Failure::new("- stands twice, and standard input is one model"));
    }
    // How many there may be, the library says, whatever their figures: before a model is walked.
    if let Err(refusal) = combined(&vec![Pair::default(); files.len()])? {
        return explain::refused_pairs(&[], refusal, wanted.as_json, out);
    }
    let (mut pairs, mut names) = (Vec::new(), Vec::new());
    for file in files {
        let model = Model::read(file, form)?;
        let report = match bounds::assess(&model.words, MOST_BUDGET) {
            Ok(report) => report,
            Err(Error::Refused(refusal)) => {
                return explain::refused_among(&model, refusal, wanted.as_json, out);
            }
            Err(error) => return Err(Failure::in_file(file, error)),
        };
        pairs.push((report.lower, report.upper));
        names.push(format!("{file}: lower {} upper {}", report.lower, report.upper));
    }
    write(&pairs, &names, wanted, out)
}

/// The figures that were given are combined.
fn of_pairs(spelled: &[&str], wanted: &Wanted, out: &mut dyn Write) -> Done {
    let pairs: Vec<Pair> = spelled.iter().map(|pair| pair_of(pair)).collect::<Result<_, _>>()?;
    let names: Vec<String> = spelled.iter().map(|pair| format!("--pair {}", shown(pair))).collect();
    write(&pairs, &names, wanted, out)
}

/// `LOWER:UPPER`, each a figure's spelling.
fn pair_of(spelled: &str) -> Result<Pair, Failure> {
    let wrong = |why: String| Failure::new(format!("--pair {}: {why}", shown(spelled)));
    let (lower, upper) = spelled
        .split_once(':')
        .ok_or_else(|| wrong("expected LOWER:UPPER, such as 1E-9:2E-9".into()))?;
    let figure = |name: &str, spelled: &str| {
        spelled.parse().map_err(|why: NoFigure| wrong(format!("{name}: {why}")))
    };
    Ok((figure("lower", lower)?, figure("upper", upper)?))
}

/// What the library says of the pairs: figures, or a refusal.
fn combined(pairs: &[Pair]) -> Result<Result<Pair, Refusal>, Failure> {
    match bounds::probabilistic_or(pairs) {
        Ok(pair) => Ok(Ok(pair)),
        Err(Error::Refused(refusal)) => Ok(Err(refusal)),
        Err(error) => Err(error.into()),
    }
}

/// Writes the combined figures, or the refusal with the name of the pair that it speaks of.
fn write(pairs: &[Pair], names: &[String], wanted: &Wanted, out: &mut dyn Write) -> Done {
    let &Wanted { limit, as_json } = wanted;
    let (lower, upper) = match combined(pairs)? {
        Ok(pair) => pair,
        Err(refusal) => return explain::refused_pairs(names, refusal, as_json, out),
    };
    let meets = limit.map(|limit| upper.at_or_below(limit)).transpose()?;
    if as_json {
        writeln!(out, "{}", object(lower, upper, meets))?;
    } else {
        write!(out, "lower {lower}\nupper {upper}\n{}", report::verdict(limit, meets))?;
    }
    Ok(report::status(meets))
}

fn object(lower: Figure, upper: Figure, meets: Option<bool>) -> String {
    let mut fields = vec![
        ("answer", json::string("or")),
        ("lower", json::string(&lower.to_string())),
        ("upper", json::string(&upper.to_string())),
    ];
    fields.extend(meets.map(|meets| ("meets", meets.to_string())));
    json::object(&fields)
}

#[cfg(test)]
mod tests {
    use super::*;

    #[test]
    fn pairs() {
        let figure = |spelled: &str| spelled.parse::<Figure>().unwrap_or_default();
        for (spelled, lower, upper) in [
            ("9.99500000E-4:1.00000000E-3", "9.995E-4", "1E-3"),
            ("0:0.001", "0", "1E-3"),
            ("2:1", "2", "1"),
        ] {
            assert_eq!(pair_of(spelled), Ok((figure(lower), figure(upper))), "{spelled}");
        }
    }

    /// The error says which of the two it is, and what was expected.
    #[test]
    fn what_is_no_pair() {
        for (spelled, expected) in [
            ("", "--pair : expected LOWER:UPPER, such as 1E-9:2E-9"),
            ("1E-9", "--pair 1E-9: expected LOWER:UPPER, such as 1E-9:2E-9"),
            ("1E-9,2E-9", "--pair 1E-9,2E-9: expected LOWER:UPPER, such as 1E-9:2E-9"),
            (":1", "--pair :1: lower: no figure such as "),
            ("1:", "--pair 1:: upper: no figure such as "),
            ("1: 2", "--pair 1: 2: upper: no figure such as "),
            ("1:2:3", "--pair 1:2:3: upper: no figure such as "),
            ("-1:2", "--pair -1:2: lower: no figure such as "),
            ("1234567891:1", "--pair 1234567891:1: lower: more than nine digits"),
            ("0:1E2147483656", "--pair 0:1E2147483656: upper: a power of ten out of range"),
        ] {
            let said = pair_of(spelled).err().map_or(String::new(), |failure| failure.0);
            assert!(said.starts_with(expected), "{said}");
        }
    }
}
