//! The report program: model words on standard input, the report or the refusal on standard output.

use std::io::{self, Read, Write};
use std::process::ExitCode;

fn main() -> ExitCode {
    match run() {
        Ok(()) => ExitCode::SUCCESS,
        Err(error) => {
            eprintln!("report: {error}");
            ExitCode::FAILURE
        }
    }
}

fn run() -> io::Result<()> {
    let mut bytes = Vec::new();
    io::stdin().lock().read_to_end(&mut bytes)?;
    let answer = reference::assess(&reference::words_of_bytes(&bytes), reference::MOST_STEPS);
    write!(io::stdout().lock(), "{answer}")
}
