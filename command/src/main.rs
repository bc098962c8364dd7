//! `bounds SUBCOMMAND ..`.

use bounds_command::echo::shown;
use std::io::{self, BufWriter, Write};
use std::process::ExitCode;

fn main() -> ExitCode {
    let arguments: Vec<String> =
        match std::env::args_os().skip(1).map(|a| a.into_string()).collect() {
            Ok(arguments) => arguments,
            Err(argument) => {
                eprintln!("bounds: {} is not UTF-8", shown(&argument.to_string_lossy()));
                return ExitCode::from(2);
            }
        };
    let arguments: Vec<&str> = arguments.iter().map(String::as_str).collect();
    let mut out = BufWriter::new(io::stdout().lock());
    let done = bounds_command::run(&arguments, &mut out);
    let done = done.and_then(|status| Ok(out.flush().map(|()| status)?));
    match done {
        Ok(status) => ExitCode::from(status as u8),
        Err(failure) => {
            eprintln!("bounds: {failure}");
            ExitCode::from(2)
        }
    }
}
