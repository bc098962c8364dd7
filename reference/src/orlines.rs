//! Pairs as a line of text: `or pairs=LOWER:UPPER,LOWER:UPPER,..`, where a figure is its digits,
//! `e` and its power. No pair at all is `or pairs=`. An answer is its lines and an empty line.

use crate::model::Refusal;
use crate::orprob::{answer, Enclosure, Pair, Parts};
use std::error::Error;
use std::io::{BufRead, Write};

const START: &str = "or pairs=";

/// The pairs as they stand in a line.
pub fn pairs_text(pairs: &[Pair]) -> String {
    let parts_text = |parts: Parts| format!("{}e{}", parts.digits, parts.power);
    let texts: Vec<String> = pairs
        .iter()
        .map(|pair| format!("{}:{}", parts_text(pair.lower), parts_text(pair.upper)))
        .collect();
    texts.join(",")
}

/// The line, without its end.
pub fn line(pairs: &[Pair]) -> String {
    START.to_string() + &pairs_text(pairs)
}

/// The pairs of a line's text behind `pairs=`; or what is wrong with it, which is no answer.
pub fn read_pairs(text: &str) -> Result<Vec<Pair>, Box<dyn Error>> {
    if text.is_empty() {
        return Ok(Vec::new());
    }
    text.split(',').map(read_pair).collect()
}

fn read_pair(text: &str) -> Result<Pair, Box<dyn Error>> {
    let (lower, upper) = text.split_once(':').ok_or("a pair without a colon")?;
    Ok(Pair { lower: read_parts(lower)?, upper: read_parts(upper)? })
}

fn read_parts(text: &str) -> Result<Parts, Box<dyn Error>> {
    let (digits, power) = text.split_once('e').ok_or("a figure without a power")?;
    Ok(Parts { digits: digits.parse()?, power: power.parse()? })
}

/// The answer as it prints.
pub fn text(answer: &Result<Enclosure, Refusal>) -> String {
    match answer {
        Ok(figures) => figures.to_string(),
        Err(refusal) => refusal.to_string(),
    }
}

/// Answers lines until the input ends.
pub fn answer_all(input: impl BufRead, mut output: impl Write) -> Result<(), Box<dyn Error>> {
    for line in input.lines() {
        let line = line?;
        let pairs = line.trim_end().strip_prefix(START).ok_or("a line of another kind")?;
        writeln!(output, "{}", text(&answer(&read_pairs(pairs)?)))?;
    }
    Ok(output.flush()?)
}
