//! Compares another program with the independent implementation on random models.

mod cases;
mod damage;
mod draft;
mod edges;
mod lossless;
mod named;
mod options;
mod quantities;
mod shapes;
mod tally;
mod varied;

use cases::{case, Case};
use options::Options;
use reference::comparing::program::{self, Sent};
use reference::comparing::random;
use reference::{accuracy, stream, words, Answer, Report, Row};
use std::process::ExitCode;
use std::time::Instant;
use tally::Tally;

/// What the independent implementation answered on a model.
struct Expected {
    kind: &'static str,
    answer: Answer,
    /// The number of rows lent, and those that were filled.
    lent: u32,
    rows: Vec<Row>,
}

/// The record of a model, and the answer that is expected.
fn expected(seed: u64, number: u64) -> (Vec<u8>, Sent<Expected>) {
    let Case { kind, record } = case(seed, number);
    let (answer, rows) = stream::answer(&record);
    let text = stream::text(&answer, &rows);
    let rows = rows.into_iter().flatten().collect();
    let known = Expected { kind, answer, lent: record.rows, rows };
    (stream::bytes_of(&record), Sent { number, text, known })
}

fn main() -> ExitCode {
    let options = match options::read(std::env::args().skip(1)) {
        Ok(options) => options,
        Err(wrong) => {
            eprintln!("compare: {wrong}\n{}", options::USAGE);
            return ExitCode::from(2);
        }
    };
    let began = Instant::now();
    let mut tally = Tally::default();
    let outcome =
        program::compare(&options.common, expected, |sent| agreed(&options, sent, &mut tally));
    print!("{tally}");
    match outcome {
        Ok(()) => {
            let seconds = began.elapsed().as_secs_f64();
            println!("no difference on {} models in {seconds:.1} s", tally.models());
            ExitCode::SUCCESS
        }
        Err(trouble) => {
            trouble.print("compare", |number| describe_model(options.common.seed, number));
            ExitCode::FAILURE
        }
    }
}

/// Counts a model on which both agree, and checks the accuracy rule if that is asked for.
fn agreed(options: &Options, sent: &Sent<Expected>, tally: &mut Tally) -> Result<(), String> {
    let expected = &sent.known;
    tally.count(expected.kind, &expected.answer);
    tally.count_rows(&expected.answer, expected.lent, &expected.rows);
    match &expected.answer {
        Answer::Report(report) if options.common.accuracy => {
            check_accuracy(options, sent, report, tally)
                .map_err(|breach| format!("accuracy rule or digit broken: {breach}"))
        }
        _ => Ok(()),
    }
}

fn check_accuracy(
    options: &Options,
    sent: &Sent<Expected>,
    report: &Report,
    tally: &mut Tally,
) -> Result<(), accuracy::Breach> {
    let paths = report.counts.deaths + report.counts.cuts;
    if paths > options.paths {
        tally.too_many_paths += 1;
        return Ok(());
    }
    let record = case(options.common.seed, sent.number).record;
    let rows = &sent.known.rows;
    if let Ok(model) = words::read(&record.words, record.budget) {
        accuracy::check(&model, report, rows)?;
    }
    tally.accurate += 1;
    tally.count_exact(report);
    tally.accurate_rows += rows.len() as u64;
    tally.exact_paths += paths;
    Ok(())
}

fn describe_model(seed: u64, number: u64) {
    let Case { kind, record } = case(seed, number);
    println!("model: seed {seed}, number {number}, {kind}");
    println!("budget: {}, rows lent: {}", record.budget, record.rows);
    println!("words: {}", record.words.len());
    for line in record.words.chunks(12) {
        let line: Vec<String> = line.iter().map(|word| format!("{word:08X}")).collect();
        println!("  {}", line.join(" "));
    }
}
