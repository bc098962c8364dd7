//! The other program: cases go to it through a pipe, and its answers are held against those of
//! this implementation as they come.

use super::options::Options;
use std::fmt::Display;
use std::io::{self, BufRead, BufReader, BufWriter, Write};
use std::process::{Child, Command, Stdio};
use std::sync::mpsc::{channel, Receiver, Sender};
use std::thread;

/// A case that was sent, and the text that this implementation answers.
pub struct Sent<K> {
    pub number: u64,
    pub text: String,
    /// What else the comparer keeps of it.
    pub known: K,
}

/// Makes the case of a number under a seed: as it is sent, and as it is kept.
pub type Maker<K> = fn(u64, u64) -> (Vec<u8>, Sent<K>);

/// Why the comparison ended early.
pub enum Trouble<B> {
    Difference {
        number: u64,
        expected: String,
        found: String,
    },
    /// Both gave the same answer, and it breaks a rule.
    Breach {
        number: u64,
        answer: String,
        breach: B,
    },
    NoAnswer {
        number: u64,
    },
    Broken(io::Error),
}

impl<B: Display> Trouble<B> {
    /// Prints the trouble in full. `comparer` is the name of the program that does, `case` prints
    /// the case of a number.
    pub fn print(&self, comparer: &str, case: impl Fn(u64)) {
        match self {
            Trouble::Broken(error) => println!("{comparer}: {error}"),
            Trouble::NoAnswer { number } => {
                println!("the other program gave no answer");
                case(*number);
            }
            Trouble::Difference { number, expected, found } => {
                println!("difference");
                case(*number);
                println!("independent implementation:\n{expected}\nthe other program:\n{found}");
            }
            Trouble::Breach { number, answer, breach } => {
                println!("{breach}");
                case(*number);
                println!("answer:\n{answer}");
            }
        }
    }
}

/// Starts the other program, sends it the cases and compares the answers as they come. Each case on
/// which both agree is handed to `agreed`, which may find that a rule is broken.
pub fn compare<K: Send + 'static, B>(
    options: &Options,
    maker: Maker<K>,
    agreed: impl FnMut(&Sent<K>) -> Result<(), B>,
) -> Result<(), Trouble<B>> {
    let mut child = Command::new(&options.program)
        .args(&options.arguments)
        .stdin(Stdio::piped())
        .stdout(Stdio::piped())
        .spawn()
        .map_err(Trouble::Broken)?;
    let outcome = compare_with(&mut child, options, maker, agreed);
    if outcome.is_err() {
        // It may still be at work on cases that no longer matter.
        let _ = child.kill();
    }
    let status = child.wait().map_err(Trouble::Broken)?;
    match outcome {
        Ok(()) if !status.success() => {
            Err(Trouble::Broken(io::Error::other(format!("the other program ended by {status}"))))
        }
        other => other,
    }
}

/// The cases are written in a thread of their own, so that neither side waits for the other's pipe.
fn compare_with<K: Send + 'static, B>(
    child: &mut Child,
    options: &Options,
    maker: Maker<K>,
    agreed: impl FnMut(&Sent<K>) -> Result<(), B>,
) -> Result<(), Trouble<B>> {
    let missing = || Trouble::Broken(io::Error::other("no pipe to the other program"));
    let input = child.stdin.take().ok_or_else(missing)?;
    let output = child.stdout.take().ok_or_else(missing)?;
    let (sender, receiver) = channel();
    let (seed, first, count) = (options.seed, options.first, options.count);
    let writer = thread::spawn(move || {
        // A broken pipe shows as a missing answer on the other side.
        let _ = send(maker, seed, first..first.saturating_add(count), input, &sender);
    });
    let outcome = receive(&receiver, BufReader::new(output), agreed);
    drop(receiver);
    if outcome.is_ok() {
        let _ = writer.join();
    }
    outcome
}

/// Makes the cases, answers them and writes them to the other program.
fn send<K>(
    maker: Maker<K>,
    seed: u64,
    numbers: std::ops::Range<u64>,
    input: impl Write,
    sender: &Sender<Sent<K>>,
) -> io::Result<()> {
    let mut input = BufWriter::with_capacity(1 << 16, input);
    for number in numbers {
        let (bytes, sent) = maker(seed, number);
        if sender.send(sent).is_err() {
            return Ok(());
        }
        input.write_all(&bytes)?;
    }
    input.flush()
}

fn receive<K, B>(
    receiver: &Receiver<Sent<K>>,
    mut output: impl BufRead,
    mut agreed: impl FnMut(&Sent<K>) -> Result<(), B>,
) -> Result<(), Trouble<B>> {
    for sent in receiver {
        let number = sent.number;
        let found = read_answer(&mut output)
            .map_err(Trouble::Broken)?
            .ok_or(Trouble::NoAnswer { number })?;
        if found != sent.text {
            return Err(Trouble::Difference { number, expected: sent.text, found });
        }
        if let Err(breach) = agreed(&sent) {
            return Err(Trouble::Breach { number, answer: sent.text, breach });
        }
    }
    match read_answer(&mut output).map_err(Trouble::Broken)? {
        None => Ok(()),
        Some(_) => Err(Trouble::Broken(io::Error::other("more answers than cases"))),
    }
}

/// The lines up to an empty one; none at the end of the output.
fn read_answer(output: &mut impl BufRead) -> io::Result<Option<String>> {
    let mut answer = String::new();
    loop {
        let before = answer.len();
        let read = output.read_line(&mut answer)?;
        if read == 0 {
            return Ok(if answer.is_empty() { None } else { Some(answer) });
        }
        if answer[before..].trim_end_matches(['\r', '\n']).is_empty() {
            answer.truncate(before);
            return Ok(Some(answer));
        }
    }
}
