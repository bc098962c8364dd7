//! The comparer: it agrees with itself, meets every refusal, and finds every planted fault.

use reference::faults::{OF_PRODUCTS, OF_REPORTS};
use std::process::{Command, Output};

fn compare(options: &[&str]) -> Output {
    Command::new(env!("CARGO_BIN_EXE_compare"))
        .arg(env!("CARGO_BIN_EXE_stream"))
        .args(options)
        .output()
        .expect("the comparer starts")
}

#[test]
fn agrees_with_itself_and_meets_every_answer() {
    let output = compare(&["--count", "8000", "--accuracy"]);
    let text = String::from_utf8_lossy(&output.stdout);
    assert!(output.status.success(), "{text}");
    let all = text.lines().find(|line| line.starts_with("all ")).unwrap_or_default();
    let counts: Vec<u64> = all.split_whitespace().filter_map(|part| part.parse().ok()).collect();
    assert_eq!(counts.len(), 17, "{text}");
    assert!(counts.iter().all(|&count| count > 0), "{text}");
    assert_eq!(counts[0], 8_000);
    for line in [
        "cut in a generator's state: ",
        "digits 00, 01, 10, 11: ",
        "exact sums by a digit of one: ",
        "rows filled: ",
        "rows of zeros on refusal 13: ",
        "rows left as they were: ",
    ] {
        let of = text.lines().find(|other| other.starts_with(line)).unwrap_or_default();
        let counts: Vec<u64> = of.split_whitespace().filter_map(|part| part.parse().ok()).collect();
        assert!(!counts.is_empty() && counts.iter().all(|&count| count > 100), "{text}");
    }
}

#[test]
fn finds_every_planted_fault() {
    for (_, name, _) in OF_REPORTS.into_iter().chain(OF_PRODUCTS) {
        let output = compare(&["--count", "20000", "--", "--fault", name]);
        let text = String::from_utf8_lossy(&output.stdout);
        assert_eq!(output.status.code(), Some(1), "{name}: {text}");
        assert!(text.contains("\ndifference\nmodel: "), "{name}: {text}");
    }
}

#[test]
fn a_program_that_says_nothing_is_noticed() {
    let output = Command::new(env!("CARGO_BIN_EXE_compare"))
        .args([env!("CARGO_BIN_EXE_stream"), "--count", "10", "--", "--faults"])
        .output()
        .expect("the comparer starts");
    assert_eq!(output.status.code(), Some(1));
}
