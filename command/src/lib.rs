//! The command `bounds`, over the safe wrapper of the proved library. It is outside the proof.
//!
//! - [`subcommands`]: one module for each, and the list of them
//! - [`arguments`], [`input`]: what the user hands over; what is not understood is an error, with the file, the line and what was expected
//! - [`model`]: a model in readable lines, as words and back
//! - [`echo`]: what the user handed over, in a message
//! - [`explain`]: a refusal as a sentence, with the lines that it speaks of

pub mod arguments;
pub mod echo;
pub mod explain;
pub mod input;
mod json;
pub mod model;
mod progress;
pub mod subcommands;
mod table;

use std::fmt;
use std::io::{self, Write};
use subcommands::Subcommand;

/// The exit status where the command did what it was asked to; [`Failure`] is 2.
#[derive(Clone, Copy, Debug, PartialEq, Eq)]
pub enum Status {
    Reported = 0,
    Refused = 1,
    /// There is a report, and its upper figure is above the limit that was asked about.
    AboveLimit = 3,
}

/// Why the command could not do what it was asked to, as one text for the user: exit status 2.
#[derive(Clone, Debug, PartialEq, Eq)]
pub struct Failure(pub String);

pub type Done = Result<Status, Failure>;

impl Failure {
    pub fn new(why: impl Into<String>) -> Failure {
        Failure(why.into())
    }

    pub fn in_file(file: &str, why: impl fmt::Display) -> Failure {
        Failure(format!("{file}: {why}"))
    }

    pub fn in_line(file: &str, line: usize, why: impl fmt::Display) -> Failure {
        Failure(format!("{file}:{line}: {why}"))
    }
}

impl fmt::Display for Failure {
    fn fmt(&self, out: &mut fmt::Formatter<'_>) -> fmt::Result {
        out.write_str(&self.0)
    }
}

/// Output that cannot be written.
impl From<io::Error> for Failure {
    fn from(error: io::Error) -> Failure {
        Failure(format!("standard output: {error}"))
    }
}

/// What the library answers beside reports and refusals that are known.
impl From<bounds::Error> for Failure {
    fn from(error: bounds::Error) -> Failure {
        Failure(error.to_string())
    }
}

/// Runs the command with these arguments, and writes what it says.
pub fn run(arguments: &[&str], out: &mut dyn Write) -> Done {
    let Some((&name, rest)) = arguments.split_first() else {
        return Err(Failure::new(format!("a subcommand is missing\n{}", usage())));
    };
    match name {
        "--help" | "-h" | "help" => {
            writeln!(out, "{}", usage())?;
            return Ok(Status::Reported);
        }
        "--version" => return version(out),
        _ => {}
    }
    let Some(subcommand) = subcommands::ALL.iter().find(|subcommand| subcommand.name == name)
    else {
        let name = echo::shown(name);
        return Err(Failure::new(format!("{name} is no subcommand\n{}", usage())));
    };
    if rest.contains(&"--help") || rest.contains(&"-h") {
        writeln!(out, "{}", subcommand.help)?;
        return Ok(Status::Reported);
    }
    let library = bounds::library_version();
    if library != bounds::VERSION {
        return Err(bounds::Error::OtherVersion(library).into());
    }
    (subcommand.run)(rest, out)
}

/// The versions of the command and of the library, which must be the same.
fn version(out: &mut dyn Write) -> Done {
    let library = bounds::library_version();
    writeln!(out, "bounds {}, library {library}", env!("CARGO_PKG_VERSION"))?;
    if library != bounds::VERSION || bounds::VERSION.to_string() != env!("CARGO_PKG_VERSION") {
        return Err(Failure::new("the command and the library are of different versions"));
    }
    Ok(Status::Reported)
}

fn usage() -> String {
    let line = |s: &Subcommand| format!("  bounds {:<9}{}\n", s.name, s.summary);
    let lines: String = subcommands::ALL.iter().map(line).collect();
    format!(
        "usage:\n{lines}  bounds --version\n\
         bounds SUBCOMMAND --help says more. Exit status: 0 report, 1 refusal, 2 usage or input, 3 upper is above --at-most."
    )
}
