//! Answers records of models by the proved library, for the comparer of `reference/`, until the input ends.
//!
//! A record is the budget (8 bytes), the number of rows lent (4 bytes), the number of words (4 bytes) and the words (4 bytes each), least
//! significant byte first. The answer is the text that the report program prints, with a line `row STATE LOWER UPPER` for each row up to the last
//! one that was changed (`row unchanged` for one that was not), and an empty line.

use std::io::{self, BufReader, BufWriter, ErrorKind, Read, Write};

/// Rows behind those that are lent, which no call may change.
const BEHIND: usize = 2;
const TOO_FEW_ROWS: u64 = 14;
/// The place, three figures' digits, three counts, and whether the lower and the upper figure are exact.
const VALUES: usize = 9;

/// A figure as the library writes it.
#[repr(C)]
#[derive(Clone, Copy, PartialEq)]
struct Figure {
    digits: u64,
    power: i32,
}

#[repr(C)]
#[derive(Clone, Copy, PartialEq)]
struct Row {
    state: u64,
    lower: Figure,
    upper: Figure,
}

extern "C" {
    fn bounds_assess_rows(
        words: *const u32,
        count: usize,
        budget: u64,
        rows: *mut Row,
        row_count: usize,
        values: *mut u64,
        powers: *mut i32,
    ) -> u64;
}

struct Record {
    budget: u64,
    rows: usize,
    words: Vec<u32>,
}

/// The next record, or none at the end of the input.
fn next(from: &mut impl Read) -> io::Result<Option<Record>> {
    let mut head = Vec::new();
    if from.take(16).read_to_end(&mut head)? == 0 {
        return Ok(None);
    }
    let [b0, b1, b2, b3, b4, b5, b6, b7, r0, r1, r2, r3, n0, n1, n2, n3] = head[..] else {
        return Err(ErrorKind::UnexpectedEof.into());
    };
    let budget = u64::from_le_bytes([b0, b1, b2, b3, b4, b5, b6, b7]);
    let rows = u32::from_le_bytes([r0, r1, r2, r3]) as usize;
    let count = u32::from_le_bytes([n0, n1, n2, n3]) as usize;
    let mut bytes = Vec::new();
    if from.take(4 * count as u64).read_to_end(&mut bytes)? != 4 * count {
        return Err(ErrorKind::UnexpectedEof.into());
    }
    let words = bytes.chunks_exact(4).map(|b| u32::from_le_bytes([b[0], b[1], b[2], b[3]]));
    Ok(Some(Record { budget, rows, words: words.collect() }))
}

/// A row as it is lent: no model fills one so, and no two are alike.
fn lent(place: usize) -> Row {
    let figure = |power| Figure { digits: place as u64 + 1, power };
    Row { state: u64::MAX - place as u64, lower: figure(-77), upper: figure(77) }
}

/// A figure as it prints; what is no figure as its digits and its power.
fn shown(Figure { digits, power }: Figure) -> String {
    match bounds::Figure::new(digits, power) {
        Some(figure) => figure.to_string(),
        None => format!("{digits}e{power}"),
    }
}

/// What the numbers say, all of them: two answers that differ in one print otherwise, and a mark that is neither 0 nor 1 prints as no digit of an answer.
fn text_of(number: u64, values: [u64; VALUES], powers: [i32; 3]) -> String {
    let [place, lower, upper, cut, deaths, cuts, steps, lower_exact, upper_exact] = values;
    let figure = |digits, at: usize| shown(Figure { digits, power: powers[at] });
    match number {
        0 if place == 0 => format!(
            "lower {}\nupper {}\ncut {}\ndeaths {deaths}\ncuts {cuts}\nsteps {steps}\nexact {lower_exact}{upper_exact}\n",
            figure(lower, 0),
            figure(upper, 1),
            figure(cut, 2)
        ),
        1.. if values[1..] == [0; VALUES - 1] && powers == [0; 3] => {
            format!("refused {number} at {place}\n")
        }
        _ => format!("{number} with {values:?} and {powers:?}\n"),
    }
}

/// The rows up to the last one that was changed.
fn text_of_rows(rows: &[Row]) -> String {
    let changed = |place: usize| rows[place] != lent(place);
    let last = (0..rows.len()).rev().find(|&place| changed(place));
    let shown = |place: usize| match rows[place] {
        Row { state, lower, upper } if changed(place) => {
            format!("row {state} {} {}\n", shown(lower), shown(upper))
        }
        _ => "row unchanged\n".to_string(),
    };
    (0..last.map_or(0, |last| last + 1)).map(shown).collect()
}

/// The answer with the rows lent. Where they are enough, it is the answer without rows too, in numbers and as the proved text; all are worked out, so that
/// a comparison tries all.
fn answer(Record { budget, rows: row_count, words }: &Record) -> String {
    let mut rows: Vec<Row> = (0..row_count + BEHIND).map(lent).collect();
    let (mut values, mut powers) = ([7; VALUES], [7; 3]);
    // SAFETY: each pointer and its length belong together, both arrays have the lengths that the header states, and none overlaps another.
    let number = unsafe {
        bounds_assess_rows(
            words.as_ptr(),
            words.len(),
            *budget,
            rows.as_mut_ptr(),
            *row_count,
            values.as_mut_ptr(),
            powers.as_mut_ptr(),
        )
    };
    let mut text = text_of(number, values, powers);
    if number != TOO_FEW_ROWS {
        let proved = bounds::text(words, *budget).map(|text| text.to_string());
        let numbers = bounds::assess(words, *budget).map(|report| report.to_string());
        let proved = proved.unwrap_or_else(|error| format!("{error}\n"));
        let numbers = numbers.unwrap_or_else(|error| error.to_string()) + "\n";
        if proved != text || numbers != text {
            text += &format!("but as text\n{proved}and in numbers\n{numbers}");
        }
    }
    text + &text_of_rows(&rows)
}

fn main() -> io::Result<()> {
    if bounds::library_version() != bounds::VERSION {
        return Err(io::Error::other("the library is of another version"));
    }
    let mut input = BufReader::new(io::stdin().lock());
    let mut output = BufWriter::new(io::stdout().lock());
    while let Some(record) = next(&mut input)? {
        writeln!(output, "{}", answer(&record))?;
    }
    output.flush()
}
