//! Running the command.

use std::error::Error;
use std::io::Write;
use std::process::{Command, Output, Stdio};

pub type Tested = Result<(), Box<dyn Error>>;

/// The words of model A.
pub const DIGITS_A: &str = "11002001 2000000A 30000000 41801000 50001002 60400001 F0000000";

/// Runs the command in the root of the repository.
pub fn run(arguments: &[&str], input: &[u8]) -> Result<Output, Box<dyn Error>> {
    let mut child = Command::new(env!("CARGO_BIN_EXE_bounds"))
        .args(arguments)
        .current_dir(concat!(env!("CARGO_MANIFEST_DIR"), "/.."))
        .stdin(Stdio::piped())
        .stdout(Stdio::piped())
        .stderr(Stdio::piped())
        .spawn()?;
    // a command that ends before it has read everything closes the pipe
    let _ = child.stdin.take().ok_or("no input")?.write_all(input);
    Ok(child.wait_with_output()?)
}

/// The exit status, standard output and standard error.
pub fn said(arguments: &[&str], input: &str) -> Result<(i32, String, String), Box<dyn Error>> {
    let output = run(arguments, input.as_bytes())?;
    let status = output.status.code().ok_or("no status")?;
    Ok((status, String::from_utf8(output.stdout)?, String::from_utf8(output.stderr)?))
}
