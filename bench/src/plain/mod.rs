//! The proved library's algorithm as it would be written in Rust: the same reading, tables, walk, totals of rows and sharing among deaths, without
//! proofs and without marks (the line `exact`).
//!
//! Arrays are changed in place and lent by reference where the proved library carries them by value.

mod figure;
mod tables;
mod walk;
mod words;

pub use figure::Figure;

#[derive(Clone, Copy, Debug, PartialEq, Eq)]
pub struct Report {
    pub lower: Figure,
    pub upper: Figure,
    pub cut: Figure,
    pub deaths: u64,
    pub cuts: u64,
    pub steps: u64,
}

/// A way to fail: a state without exits that is the target of a transition and not the generator's, and the bounds of the deaths in it.
#[derive(Clone, Copy, Debug, Default, PartialEq, Eq)]
pub struct Row {
    pub state: u64,
    pub lower: Figure,
    pub upper: Figure,
}

/// The rows that the report program lends.
const ROWS_LENT: usize = 1_000;

/// The documents' number of a refusal, and its place.
#[derive(Clone, Copy, Debug, PartialEq, Eq)]
pub struct Refusal {
    pub number: u64,
    pub place: usize,
}

pub fn assess(words: &[u32], budget: u64) -> Result<Report, Refusal> {
    assess_rows(words, budget, &mut [Row::default(); ROWS_LENT])
}

/// The same with a table of rows that the caller lends.
pub fn assess_rows(words: &[u32], budget: u64, rows: &mut [Row]) -> Result<Report, Refusal> {
    let model = words::read(words, budget)?;
    let needed = model.dead().count();
    if rows.len() < needed {
        return Err(Refusal { number: 14, place: needed });
    }
    let tables = tables::Tables::of(&model);
    let mut walk = walk::Walk::new(&model, &tables, budget);
    let report = walk.report();
    for (row, state) in rows.iter_mut().zip(model.dead()) {
        *row = walk.row(state, report.is_ok());
    }
    report
}

#[cfg(test)]
mod tests {
    use super::{assess, assess_rows, Figure, Row};
    use std::error::Error;
    use std::path::Path;

    /// The answer with a number of rows lent: below the text a line for each row up to the last one that was changed.
    fn answer(words: &[u32], budget: u64, lent: usize) -> String {
        let figure = |power| Figure { digits: 1, power };
        let before = Row { state: u64::MAX, lower: figure(1), upper: figure(2) };
        let mut rows = vec![before; lent];
        let mut text = crate::shown(assess_rows(words, budget, &mut rows));
        let changed = rows.iter().rposition(|row| *row != before).map_or(0, |last| last + 1);
        for row in &rows[..changed] {
            let (lower, upper) = (crate::figure(row.lower), crate::figure(row.upper));
            text += &format!("\nrow {} {lower} {upper}", row.state);
        }
        text
    }

    /// The models with expected answers: a line is a name, a budget, maybe the number of rows lent, words of eight hexadecimal digits and the answer,
    /// with `|` for line ends and `=` for spaces. Words that end in `-`, left-over bytes, are left out, and so are the marks of an answer.
    fn check_file(name: &str) -> Result<usize, Box<dyn Error>> {
        let data = Path::new(env!("CARGO_MANIFEST_DIR")).join("../reference/tests/data").join(name);
        let mut seen = 0;
        for line in std::fs::read_to_string(data)?.lines() {
            let parts: Vec<&str> = line.split(' ').collect();
            let (name, budget, lent, hex, expected) = match parts[..] {
                [name, budget, hex, expected] => (name, budget, None, hex, expected),
                [name, budget, lent, hex, expected] => (name, budget, Some(lent), hex, expected),
                _ => return Err("a line that isn't four or five parts".into()),
            };
            if hex.ends_with('-') {
                continue;
            }
            let hex = hex.trim_end_matches('.');
            let words: Result<Vec<u32>, _> = (0..hex.len())
                .step_by(8)
                .map(|at| u32::from_str_radix(&hex[at..at + 8], 16))
                .collect();
            let expected = crate::without_marks(&expected.replace('|', "\n").replace('=', " "));
            let (words, budget) = (words?, budget.parse()?);
            let shown = match lent {
                Some(lent) => answer(&words, budget, lent.parse()?),
                None => crate::shown(assess(&words, budget)),
            };
            assert_eq!(shown, expected, "{name}");
            seen += 1;
        }
        Ok(seen)
    }

    #[test]
    fn expected_answers() -> Result<(), Box<dyn Error>> {
        assert!(check_file("models.txt")? + check_file("papers.txt")? > 1_100);
        assert_eq!(check_file("rows.txt")?, 118);
        Ok(())
    }
}
