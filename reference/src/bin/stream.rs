//! Answers records of models until the input ends: for each, the answer's text with its
//! rows, and an empty line.
//! `--fault NAME` plants a fault first, `--faults` lists them.

use reference::{faults, stream};
use std::io::{self, BufReader, BufWriter, Write};
use std::process::ExitCode;

fn main() -> ExitCode {
    let lists: [&[_]; 2] = [&faults::OF_REPORTS, &faults::OF_PRODUCTS];
    if let Some(code) = faults::read_arguments("stream", &lists) {
        return code;
    }
    match answer_all() {
        Ok(()) => ExitCode::SUCCESS,
        Err(error) => {
            eprintln!("stream: {error}");
            ExitCode::FAILURE
        }
    }
}

fn answer_all() -> io::Result<()> {
    let mut input = BufReader::new(io::stdin().lock());
    let mut output = BufWriter::new(io::stdout().lock());
    while let Some(record) = stream::read_record(&mut input)? {
        let (answer, rows) = stream::answer(&record);
        writeln!(output, "{}", stream::text(&answer, &rows))?;
    }
    output.flush()
}
