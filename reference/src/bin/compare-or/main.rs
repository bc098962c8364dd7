//! Compares another program with the independent implementation on random lists of pairs
//! (document 02, Item 4).

mod cases;
mod damage;
mod figures;
mod tally;

use cases::{case, Case};
use reference::comparing::options::{self, Options};
use reference::comparing::program::{self, Sent};
use reference::model::Refusal;
use reference::orprob::{self, Enclosure, Pair};
use reference::{orexact, orlines};
use std::process::ExitCode;
use std::time::Instant;
use tally::Tally;

const USAGE: &str = "\
usage: compare-or PROGRAM [--seed S] [--first I] [--count N] [--accuracy] [-- ARGUMENT..]

Compares the answers of PROGRAM on lists of pairs with those of the independent implementation.
  --seed S     which lists are made (1)
  --first I    the number of the first list (0)
  --count N    how many lists (100000)
  --accuracy   checks each answer against its exact values as well
What follows -- is handed to PROGRAM.";

/// What the independent implementation answered on a list.
struct Expected {
    kind: &'static str,
    pairs: Vec<Pair>,
    answer: Result<Enclosure, Refusal>,
}

/// The line of a list, and the answer that is expected.
fn expected(seed: u64, number: u64) -> (Vec<u8>, Sent<Expected>) {
    let Case { kind, pairs } = case(seed, number);
    let line = orlines::line(&pairs) + "\n";
    let answer = orprob::answer(&pairs);
    let text = orlines::text(&answer);
    (line.into_bytes(), Sent { number, text, known: Expected { kind, pairs, answer } })
}

fn main() -> ExitCode {
    let options = match options::read(std::env::args().skip(1), &mut []) {
        Ok(options) => options,
        Err(wrong) => {
            eprintln!("compare-or: {wrong}\n{USAGE}");
            return ExitCode::from(2);
        }
    };
    let began = Instant::now();
    let mut tally = Tally::default();
    let outcome = program::compare(&options, expected, |sent| agreed(&options, sent, &mut tally));
    print!("{tally}");
    match outcome {
        Ok(()) => {
            let seconds = began.elapsed().as_secs_f64();
            println!("no difference on {} lists in {seconds:.1} s", tally.lists());
            ExitCode::SUCCESS
        }
        Err(trouble) => {
            trouble.print("compare-or", |number| describe(options.seed, number));
            ExitCode::FAILURE
        }
    }
}

/// Counts a list on which both agree, and checks the answer's rule if that is asked for.
fn agreed(options: &Options, sent: &Sent<Expected>, tally: &mut Tally) -> Result<(), String> {
    let Expected { kind, pairs, answer } = &sent.known;
    tally.count(kind, pairs, answer);
    if let (Ok(answer), Ok(figures), true) = (answer, orprob::read(pairs), options.accuracy) {
        let checked = orexact::check(&figures, answer);
        tally.count_exact(checked.map_err(|breach| format!("rule broken: {breach}"))?);
    }
    Ok(())
}

fn describe(seed: u64, number: u64) {
    let Case { kind, pairs } = case(seed, number);
    println!("list: seed {seed}, number {number}, {kind}");
    println!("pairs: {}", pairs.len());
    println!("{}", orlines::line(&pairs));
}
