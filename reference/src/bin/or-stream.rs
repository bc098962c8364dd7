//! Answers lines of pairs (document 02, Item 4) until the input ends: for each, the answer's text
//! and an empty line.
//! `--fault NAME` plants a fault first, `--faults` lists them.

use reference::{faults, orlines};
use std::io::{self, BufReader, BufWriter};
use std::process::ExitCode;

fn main() -> ExitCode {
    if let Some(code) = faults::read_arguments("or-stream", &[&faults::OF_OR]) {
        return code;
    }
    let input = BufReader::new(io::stdin().lock());
    match orlines::answer_all(input, BufWriter::new(io::stdout().lock())) {
        Ok(()) => ExitCode::SUCCESS,
        Err(error) => {
            eprintln!("or-stream: {error}");
            ExitCode::FAILURE
        }
    }
}
