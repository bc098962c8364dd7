//! Times the proved library, the same algorithm in plain Rust and the independent implementation on the same models, in one run, and prints
//! docs/BENCHMARK.md.

mod models;
mod plain;

use models::Case;
use std::fs;
use std::hint::black_box;
use std::time::{Duration, Instant};

const BUDGET: u64 = 1_000_000;
/// Each program runs a model at least so often, and all three together at least so long.
const LEAST_RUNS: usize = 15;
const LEAST_TIME: Duration = Duration::from_millis(1_500);

/// The least time that each program took, in seconds, and the steps that were walked.
struct Timing {
    steps: u64,
    proved: f64,
    plain: f64,
    independent: f64,
}

fn proved(words: &[u32]) -> String {
    match bounds::assess(words, BUDGET) {
        Ok(report) => report.to_string(),
        Err(refusal) => refusal.to_string(),
    }
}

fn figure(of: plain::Figure) -> String {
    match bounds::Figure::new(of.digits, of.power) {
        Some(figure) => figure.to_string(),
        None => format!("{} and {}, which are no figure", of.digits, of.power),
    }
}

/// The plain program's answer, as the report program prints it but for the marks.
fn shown(answer: Result<plain::Report, plain::Refusal>) -> String {
    match answer {
        Ok(r) => format!(
            "lower {}\nupper {}\ncut {}\ndeaths {}\ncuts {}\nsteps {}",
            figure(r.lower),
            figure(r.upper),
            figure(r.cut),
            r.deaths,
            r.cuts,
            r.steps
        ),
        Err(refusal) => format!("refused {} at {}", refusal.number, refusal.place),
    }
}

/// An answer without its line of marks, which the plain program does not work out.
fn without_marks(answer: &str) -> String {
    let lines: Vec<&str> = answer.lines().filter(|line| !line.starts_with("exact ")).collect();
    lines.join("\n")
}

fn independent(words: &[u32]) -> String {
    reference::assess(words, BUDGET).to_string().trim_end().to_string()
}

/// Keeps an answer from being left out as unused.
fn keep<T>(answer: T) {
    black_box(answer);
}

fn seconds(run: impl Fn()) -> f64 {
    let start = Instant::now();
    run();
    start.elapsed().as_secs_f64()
}

/// The answer that all three give.
fn agreed(case: &Case) -> String {
    let words = case.words.as_slice();
    let answer = proved(words);
    assert_eq!(without_marks(&answer), shown(plain::assess(words, BUDGET)), "{}", case.name);
    assert_eq!(answer, independent(words), "{}", case.name);
    answer
}

/// Runs the three in turn, so that whatever disturbs the machine disturbs all of them.
fn time(case: &Case) -> Timing {
    agreed(case);
    let words = case.words.as_slice();
    let steps = bounds::assess(words, BUDGET).map_or(0, |report| report.steps);
    let mut timing = Timing { steps, proved: f64::MAX, plain: f64::MAX, independent: f64::MAX };
    let start = Instant::now();
    let mut runs = 0;
    while runs < LEAST_RUNS || start.elapsed() < LEAST_TIME {
        let words = black_box(words);
        timing.proved = timing.proved.min(seconds(|| keep(bounds::assess(words, BUDGET))));
        timing.plain = timing.plain.min(seconds(|| keep(plain::assess(words, BUDGET))));
        timing.independent =
            timing.independent.min(seconds(|| keep(reference::assess(words, BUDGET))));
        runs += 1;
    }
    timing
}

/// The processor's name and how many there are.
fn machine() -> String {
    let about = fs::read_to_string("/proc/cpuinfo").unwrap_or_default();
    let name = about.lines().find_map(|line| line.strip_prefix("model name"));
    let name =
        name.map_or("an unknown processor", |rest| rest.trim_start_matches(['\t', ' ', ':']));
    let count = std::thread::available_parallelism().map_or(1, usize::from);
    format!("{name}, {count} processors")
}

fn with_commas(n: u64) -> String {
    let digits = n.to_string();
    let mut out = String::new();
    for (at, digit) in digits.chars().enumerate() {
        if at > 0 && (digits.len() - at) % 3 == 0 {
            out.push(',');
        }
        out.push(digit);
    }
    out
}

fn per_step(cases: &[Case]) {
    println!("| model | steps | proved, ns a step | plain Rust, ns a step | independent, ns a step | proved / plain | proved / independent |");
    println!("| --- | ---: | ---: | ---: | ---: | ---: | ---: |");
    for case in cases {
        let t = time(case);
        let ns = |seconds: f64| seconds * 1e9 / t.steps as f64;
        println!(
            "| {} | {} | {:.1} | {:.1} | {:.1} | {:.2} | {:.2} |",
            case.name,
            with_commas(t.steps),
            ns(t.proved),
            ns(t.plain),
            ns(t.independent),
            t.proved / t.plain,
            t.proved / t.independent
        );
    }
}

fn per_call(cases: &[Case]) {
    println!("| model | words | proved, µs | plain Rust, µs | independent, µs | proved / plain | proved / independent |");
    println!("| --- | ---: | ---: | ---: | ---: | ---: | ---: |");
    for case in cases {
        let t = time(case);
        println!(
            "| {} | {} | {:.0} | {:.0} | {:.0} | {:.2} | {:.2} |",
            case.name,
            with_commas(case.words.len() as u64),
            t.proved * 1e6,
            t.plain * 1e6,
            t.independent * 1e6,
            t.proved / t.plain,
            t.proved / t.independent
        );
    }
}

fn main() {
    println!("# Benchmark\n");
    println!(
        "Written by `cargo run --release --offline --manifest-path bench/Cargo.toml`, on {}.\n",
        machine()
    );
    println!("Three programs on the same models, in turn and in one run, all built for release: the proved library (`crates/`, through the Rust wrapper), the same algorithm in plain Rust (`bench/src/plain`: arrays changed in place, no proofs) and the independent implementation (`reference/`). Each number is the least of at least {LEAST_RUNS} runs. All three gave the same answer to every model; the plain program works out no marks (the line `exact`).\n");
    println!("## Trees of about 1,000,000 steps\n");
    per_step(&models::trees());
    println!("\n## A tree whose figures stay exact\n");
    println!("Its report ends in `exact 11`: every operation that the figures rest on is asked whether it lost anything, to the last path. On the trees above both digits are 0 after a few steps, and nothing is asked any more.\n");
    per_step(&models::exact());
    println!("\n## Reading\n");
    per_call(&models::tables());
    println!("\n## How the cost grows with the steps\n");
    println!("The time of a whole call, reading and tables included, over its steps.\n");
    per_step(&models::growing());
}

#[cfg(test)]
mod tests {
    use super::*;

    /// The tree that is to stay exact does, and takes the steps that its name says.
    #[test]
    fn nothing_is_rounded() {
        for case in models::exact() {
            let answer = agreed(&case);
            assert!(answer.ends_with("\nsteps 69904\nexact 11"), "{answer}");
        }
    }
}
