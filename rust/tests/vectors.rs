//! Every model with an expected answer: the answer in numbers prints as expected, and so does the proved text.
//!
//! A line of a file is a name, a budget, a model's words (eight hexadecimal digits each; `-` at the end stands for left-over bytes, `.` for no words)
//! and the answer, with `|` for line ends and `=` for spaces. In `rows.txt` the number of rows that are lent stands behind the budget, and the answer has a
//! line `row STATE LOWER UPPER` for each row that is filled.

use bounds::Row;
use std::error::Error;
use std::path::Path;

fn bytes_of(words: &str) -> Result<Vec<u8>, Box<dyn Error>> {
    let digits: String = words.chars().filter(char::is_ascii_hexdigit).collect();
    let mut bytes = Vec::new();
    for place in (0..digits.len()).step_by(8) {
        let word = digits.get(place..place + 8).ok_or("a word that isn't eight digits")?;
        bytes.extend_from_slice(&u32::from_str_radix(word, 16)?.to_le_bytes());
    }
    if words.contains('-') {
        bytes.extend_from_slice(&[1, 2, 3]);
    }
    Ok(bytes)
}

fn check(line: &str) -> Result<(), Box<dyn Error>> {
    let [name, budget, words, expected] = line.split(' ').collect::<Vec<_>>()[..] else {
        return Err("a line that isn't four parts".into());
    };
    let expected = expected.replace('|', "\n").replace('=', " ");
    let mut room = [0; bounds::WORDS_SIZE];
    let words = bounds::words_of(&bytes_of(words)?, &mut room)?;
    let budget = budget.parse()?;
    let shown = match bounds::assess(words, budget) {
        Ok(report) => report.to_string(),
        Err(error) => error.to_string(),
    };
    assert_eq!(shown, expected, "{name}");
    assert_eq!(&*bounds::text(words, budget)?, expected + "\n", "{name}");
    Ok(())
}

/// Rows behind those that are filled are as they were.
fn check_rows(line: &str) -> Result<(), Box<dyn Error>> {
    let [name, budget, lent, words, expected] = line.split(' ').collect::<Vec<_>>()[..] else {
        return Err("a line that isn't five parts".into());
    };
    let mut room = [0; bounds::WORDS_SIZE];
    let words = bounds::words_of(&bytes_of(words)?, &mut room)?;
    let before = Row { state: 4095, ..Row::default() };
    let mut rows = vec![before; lent.parse()?];
    let (answer, filled) = match bounds::assess_rows(words, budget.parse()?, &mut rows) {
        Ok((report, filled)) => (report.to_string(), Some(filled.to_vec())),
        Err(error) => (error.to_string(), None),
    };
    let changed: Vec<Row> = rows.iter().filter(|row| **row != before).copied().collect();
    assert_eq!(rows[..changed.len()], changed, "{name}");
    assert!(filled.map_or(true, |filled| filled == changed), "{name}");
    let lines = changed.iter().map(|r| format!("|row={}={}={}", r.state, r.lower, r.upper));
    let shown = answer.replace('\n', "|").replace(' ', "=") + &lines.collect::<String>();
    assert_eq!(shown, expected, "{name}");
    Ok(())
}

fn check_file(
    name: &str,
    check: fn(&str) -> Result<(), Box<dyn Error>>,
) -> Result<usize, Box<dyn Error>> {
    let data = Path::new(env!("CARGO_MANIFEST_DIR")).join("../reference/tests/data");
    let text = std::fs::read_to_string(data.join(name))?;
    for line in text.lines() {
        check(line)?;
    }
    Ok(text.lines().count())
}

#[test]
fn expected_answers() -> Result<(), Box<dyn Error>> {
    assert_eq!(check_file("models.txt", check)?, 1_063);
    assert_eq!(check_file("papers.txt", check)?, 101);
    Ok(())
}

#[test]
fn expected_rows() -> Result<(), Box<dyn Error>> {
    assert_eq!(check_file("rows.txt", check_rows)?, 119);
    Ok(())
}
