//! A refusal for whoever can mend it: the sentence, the lines that it speaks of, and what to look at.

use crate::input::{Model, Spot};
use crate::model::kind;
use crate::{json, Done, Status};
use bounds::{Place, Reason, Refusal};
use std::io::Write;

/// The places in the file that a refusal speaks of, if there are any.
pub fn spots(model: &Model, refusal: Refusal) -> Vec<Spot> {
    let state = refusal.place;
    match (refusal.reason.place(), refusal.reason) {
        (Place::Word, _) => {
            usize::try_from(refusal.place).ok().and_then(|at| model.spot(at)).into_iter().collect()
        }
        (Place::State, Reason::StartWithoutExits) => model.start().into_iter().collect(),
        (Place::State, Reason::ProbabilitiesNotOne) => {
            spots_where(model, |word| leaves(word, state) && word >> 28 == kind::FAST)
        }
        (Place::State, Reason::NamedStateWithExits) => {
            spots_where(model, |word| names(word, state) || leaves(word, state))
        }
        _ => Vec::new(),
    }
}

/// Where the words stood for which something holds.
fn spots_where(model: &Model, holds: impl Fn(u32) -> bool) -> Vec<Spot> {
    let places = model.words.iter().enumerate().filter(|(_, word)| holds(**word));
    places.filter_map(|(at, _)| model.spot(at)).collect()
}

/// Whether a word is that of a transition out of a state.
fn leaves(word: u32, state: u64) -> bool {
    matches!(word >> 28, kind::SLOW | kind::FAST) && u64::from(word >> 12 & 0xFFF) == state
}

/// Whether a word names a state as the generator's.
fn names(word: u32, state: u64) -> bool {
    word >> 28 == kind::PRUNED_STATE && u64::from(word & 0xFFF) == state
}

/// Writes the refusal of a model, for a reader or for a program.
pub fn refused(model: &Model, refusal: Refusal, as_json: bool, out: &mut dyn Write) -> Done {
    write(refusal, None, &of_model(model, refusal), as_json, out)
}

/// The same of one model among several: its file is named first.
pub fn refused_among(model: &Model, refusal: Refusal, as_json: bool, out: &mut dyn Write) -> Done {
    write(refusal, Some(&model.file), &of_model(model, refusal), as_json, out)
}

/// The refusal of pairs of figures; a pair is shown as it was given.
pub fn refused_pairs(
    given: &[String],
    refusal: Refusal,
    as_json: bool,
    out: &mut dyn Write,
) -> Done {
    let at = usize::try_from(refusal.place).ok();
    let pair = at.filter(|_| refusal.reason.place() == Place::Pair).and_then(|at| given.get(at));
    let object = |pair: &String| json::object(&[("text", json::string(pair))]);
    let named = pair.map(|pair| Named { line: pair.clone(), object: object(pair) });
    write(refusal, None, named.as_slice(), as_json, out)
}

/// What a refusal speaks of, as a line to be read and as an object of JSON.
struct Named {
    line: String,
    object: String,
}

fn of_model(model: &Model, refusal: Refusal) -> Vec<Named> {
    let named = |spot: &Spot| Named {
        line: format!("{}: {}", model.place(spot), spot.text()),
        object: spot_object(spot),
    };
    spots(model, refusal).iter().map(named).collect()
}

fn write(
    refusal: Refusal,
    file: Option<&str>,
    named: &[Named],
    as_json: bool,
    out: &mut dyn Write,
) -> Done {
    let explained = if as_json { object } else { text };
    writeln!(out, "{}", explained(refusal, file, named))?;
    Ok(Status::Refused)
}

/// Lines to be read.
fn text(refusal: Refusal, file: Option<&str>, named: &[Named]) -> String {
    let file = file.map_or(String::new(), |file| format!("{file}: "));
    let mut lines = vec![format!("{file}{refusal}"), refusal.sentence().to_string()];
    lines.extend(named.iter().map(|named| format!("  {}", named.line)));
    lines.push(format!("Look at: {}", refusal.reason.advice()));
    lines.join("\n")
}

/// The same for programs.
fn object(refusal: Refusal, file: Option<&str>, named: &[Named]) -> String {
    let spots: Vec<String> = named.iter().map(|named| named.object.clone()).collect();
    let mut fields = vec![("answer", json::string("refused"))];
    fields.extend(file.map(|file| ("file", json::string(file))));
    fields.extend([
        ("number", refusal.reason.number().to_string()),
        ("place", refusal.place.to_string()),
        ("sentence", json::string(&refusal.sentence().to_string())),
        ("spots", json::array(&spots)),
        ("advice", json::string(refusal.reason.advice())),
    ]);
    json::object(&fields)
}

/// The line, the word's place, or both where the file has words on lines; and what stands there.
fn spot_object(spot: &Spot) -> String {
    let (line, word) = match spot {
        Spot::Line(line, _) => (Some(*line), None),
        Spot::Word { at, line, .. } => (*line, Some(*at)),
    };
    let mut fields = Vec::new();
    fields.extend(line.map(|line| ("line", line.to_string())));
    fields.extend(word.map(|at| ("word", at.to_string())));
    fields.push(("text", json::string(&spot.text())));
    json::object(&fields)
}
