//! The comparer of lists of pairs: it agrees with itself, meets every answer and every reason for
//! refusal 18, and finds every planted fault.

use std::process::{Command, Output};

const COMPARER: &str = env!("CARGO_BIN_EXE_compare-or");

fn compare_with(program: &str, options: &[&str]) -> Output {
    Command::new(COMPARER).arg(program).args(options).output().expect("the comparer starts")
}

fn compare(options: &[&str]) -> Output {
    compare_with(env!("CARGO_BIN_EXE_or-stream"), options)
}

/// The numbers behind the colon of each line of the tally that has one.
fn counts_of(text: &str) -> Vec<Vec<u64>> {
    let numbers = |line: &str| {
        let (_, counts) = line.split_once(": ")?;
        Some(counts.split([' ', ',']).filter_map(|count| count.parse().ok()).collect())
    };
    text.lines().filter_map(numbers).collect()
}

#[test]
fn agrees_with_itself_and_meets_every_answer() {
    let output = compare(&["--count", "8000", "--accuracy"]);
    let text = String::from_utf8_lossy(&output.stdout);
    assert!(output.status.success(), "{text}");
    let all = text.lines().find(|line| line.starts_with("all ")).unwrap_or_default();
    let all: Vec<u64> = all.split_whitespace().filter_map(|part| part.parse().ok()).collect();
    assert_eq!((all.len(), all[0]), (5, 8_000), "{text}");
    // 16 places, 11 reasons, 8 sorts of steps twice, three single counts and one of two.
    let counts = counts_of(&text);
    let lengths: Vec<usize> = counts.iter().map(Vec::len).collect();
    assert_eq!(lengths, [vec![16], vec![1; 11], vec![8; 2], vec![1; 3], vec![2]].concat());
    assert!(all.iter().chain(counts.iter().flatten()).all(|&count| count > 0), "{text}");
}

#[test]
fn finds_every_planted_fault() {
    for (_, name, _) in reference::faults::OF_OR {
        let output = compare(&["--count", "20000", "--", "--fault", name]);
        let text = String::from_utf8_lossy(&output.stdout);
        assert_eq!(output.status.code(), Some(1), "{name}: {text}");
        assert!(text.contains("\ndifference\nlist: "), "{name}: {text}");
    }
}

#[test]
fn a_difference_is_had_again_by_its_number() {
    let ended = |options: &[&str]| {
        let output = compare(&[options, &["--", "--fault", "zero-with-power"]].concat());
        let text = String::from_utf8_lossy(&output.stdout).to_string();
        text.split_once("\ndifference\n").expect("a difference").1.to_string()
    };
    let first = ended(&["--seed", "3"]);
    let number = first.split([' ', ',']).nth(5).expect("a number").to_string();
    assert_eq!(ended(&["--seed", "3", "--first", &number, "--count", "1"]), first);
}

#[test]
fn a_program_that_says_nothing_or_something_else_is_noticed() {
    let output = compare(&["--count", "10", "--", "--faults"]);
    assert_eq!(output.status.code(), Some(1));
    // The comparer itself, without arguments, reads nothing and says how it is used.
    let output = compare_with(COMPARER, &["--count", "10"]);
    let text = String::from_utf8_lossy(&output.stdout);
    assert_eq!(output.status.code(), Some(1), "{text}");
    assert!(text.contains("the other program gave no answer\nlist: seed 1, number 0, "), "{text}");
}
