//! `report budget=N words=WORDS`: what the report program prints. With `rows=N`, so many rows are lent, and those that were changed stand behind it.

use super::{Fields, Keys, Tool};
use bounds::{Error, Figure, Row};

pub const TOOL: Tool =
    Tool { name: "report", keys: Keys { needed: &["budget", "words"], free: &["rows"] }, answer };

/// More are not lent; a model never needs more than 1,000.
const MOST_LENT: u64 = 100_000;

fn answer(fields: &Fields) -> Result<String, String> {
    let (words, budget) = (fields.words("words")?, fields.number("budget")?);
    if fields.has("rows") {
        return with_rows(&words, budget, lent(fields)?);
    }
    let text = bounds::text(&words, budget).map_err(|error| error.to_string())?;
    Ok(text.trim_end().to_string())
}

fn lent(fields: &Fields) -> Result<usize, String> {
    let lent = fields.number("rows")?;
    match usize::try_from(lent) {
        Ok(rows) if lent <= MOST_LENT => Ok(rows),
        _ => Err(format!("rows={lent}: expected at most {MOST_LENT}")),
    }
}

/// The answer, and a line for each row that is not as it was: before, all of them are of a state that no model has.
fn with_rows(words: &[u32], budget: u64, lent: usize) -> Result<String, String> {
    let before = Row { state: 4095, lower: Figure::default(), upper: Figure::default() };
    let mut rows = vec![before; lent];
    let mut answer = match bounds::assess_rows(words, budget, &mut rows) {
        Ok((report, _)) => report.to_string(),
        Err(Error::Refused(refusal)) => refusal.to_string(),
        Err(error) => return Err(error.to_string()),
    };
    for row in rows.iter().filter(|row| **row != before) {
        answer.push_str(&format!("\nrow {} {} {}", row.state, row.lower, row.upper));
    }
    Ok(answer)
}
