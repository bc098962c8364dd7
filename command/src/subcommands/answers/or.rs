//! `or pairs=LOWER:UPPER,..`: one figure for several subsystems. What is no figure is handed on: the library refuses it.

use super::{Fields, Keys, Tool};
use bounds::Error;

pub const TOOL: Tool = Tool { name: "or", keys: Keys { needed: &["pairs"], free: &[] }, answer };

fn answer(fields: &Fields) -> Result<String, String> {
    match bounds::probabilistic_or_of_numbers(&fields.pairs("pairs")?) {
        Ok((lower, upper)) => Ok(format!("lower {lower}\nupper {upper}")),
        Err(Error::Refused(refusal)) => Ok(refusal.to_string()),
        Err(error) => Err(error.to_string()),
    }
}
