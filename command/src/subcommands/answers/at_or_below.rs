//! `at-or-below figure=FIGURE limit=FIGURE`: how a figure stands to a requirement.

use super::{Fields, Keys, Tool};
use bounds::Figure;

pub const TOOL: Tool =
    Tool { name: "at-or-below", keys: Keys { needed: &["figure", "limit"], free: &[] }, answer };

fn answer(fields: &Fields) -> Result<String, String> {
    let figure = |(digits, power)| Figure::new(digits, power);
    let both = (figure(fields.figure("figure")?), figure(fields.figure("limit")?));
    let (Some(figure), Some(limit)) = both else {
        return Ok("no figure".into());
    };
    let meets = figure.at_or_below(limit).map_err(|error| error.to_string())?;
    Ok(if meets { "yes" } else { "no" }.into())
}
