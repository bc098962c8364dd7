//! Every model with an expected answer, in `tests/data` and in the files named by the variable
//! VECTORS (paths separated by ':', one JSON object a line with name, words, budget and expect, and
//! maybe rows, and fill: how many equal words follow, and which).
//!
//! A line of `tests/data`: name, budget, in `rows.txt` the number of rows lent, words (eight
//! hexadecimal digits each; `-` at the end stands for left-over bytes; `.` for no words) and the
//! answer, with `|` for line ends and `=` for spaces. Where rows are lent, a line `row STATE LOWER
//! UPPER` follows for each that is filled; the rows behind them stay as they were.

use reference::stream::{self, Record};
use reference::{assess, words_of_bytes};
use std::error::Error;
use std::path::{Path, PathBuf};

struct Vector {
    name: String,
    budget: u64,
    rows: Option<u32>,
    bytes: Vec<u8>,
    expected: String,
}

impl Vector {
    /// What this implementation answers.
    fn answer(&self) -> String {
        let (budget, words) = (self.budget, words_of_bytes(&self.bytes));
        let Some(rows) = self.rows else {
            return assess(&words, budget).to_string();
        };
        let (answer, filled) = stream::answer(&Record { budget, rows, words });
        stream::text(&answer, &filled)
    }
}

/// The bytes of hexadecimal words; anything but digits and a final `-` is passed over.
fn bytes_of(words: &str) -> Result<Vec<u8>, Box<dyn Error>> {
    let digits: String = words.chars().filter(char::is_ascii_hexdigit).collect();
    let mut bytes = Vec::new();
    for place in (0..digits.len()).step_by(8) {
        let word = digits.get(place..place + 8).ok_or("a word that isn't eight digits")?;
        bytes.extend_from_slice(&u32::from_str_radix(word, 16)?.to_le_bytes());
    }
    if words.contains('-') {
        bytes.extend_from_slice(&[0x50, 0, 0]);
    }
    Ok(bytes)
}

fn compact(line: &str) -> Result<Vector, Box<dyn Error>> {
    let parts: Vec<&str> = line.split(' ').collect();
    let (name, budget, rows, words, expected) = match parts[..] {
        [name, budget, words, expected] => (name, budget, None, words, expected),
        [name, budget, rows, words, expected] => (name, budget, Some(rows), words, expected),
        _ => return Err("a line that isn't four or five parts".into()),
    };
    Ok(Vector {
        name: name.to_string(),
        budget: budget.parse()?,
        rows: rows.map(str::parse).transpose()?,
        bytes: bytes_of(words)?,
        expected: expected.replace('|', "\n").replace('=', " ") + "\n",
    })
}

/// What stands between two marks, the first time they do.
fn between<'a>(line: &'a str, open: &str, close: &str) -> Result<&'a str, Box<dyn Error>> {
    let (_, rest) = line.split_once(open).ok_or("an opening mark is missing")?;
    let (inside, _) = rest.split_once(close).ok_or("a closing mark is missing")?;
    Ok(inside)
}

/// The words of a line, those that its `fill` appends included.
fn words_of_json(inputs: &str) -> Result<String, Box<dyn Error>> {
    let words = between(inputs, "\"words\": [", "]")?;
    let Ok(fill) = between(inputs, "\"fill\": [", "]") else {
        return Ok(words.to_string());
    };
    let (number, word) = fill.split_once(", ").ok_or("a fill that isn't a number and a word")?;
    Ok(words.to_string() + &word.repeat(number.parse()?))
}

fn json(line: &str) -> Result<Vector, Box<dyn Error>> {
    let (inputs, _) = line.split_once("\"expect\": ").ok_or("no answer is expected")?;
    let rows = between(inputs, "\"rows\": ", ",").ok().map(str::parse).transpose()?;
    let mark = if rows.is_some() { "\"text\": \"" } else { "\"expect\": \"" };
    let mut expected = between(line, mark, "\"")?.replace("\\n", "\n");
    if rows.is_some() {
        for row in between(line, "\"filled\": [", "]}")?.split_terminator(']') {
            let row = row.trim_start_matches([',', ' ', '[']).replace(['"', ','], "");
            expected += &format!("row {row}\n");
        }
    }
    Ok(Vector {
        name: between(line, "\"name\": \"", "\"")?.to_string(),
        budget: between(line, "\"budget\": ", ",")?.parse()?,
        rows,
        bytes: bytes_of(&words_of_json(inputs)?)?,
        expected,
    })
}

/// Checks each line of a file and says how many there were.
fn check_file(path: &Path) -> Result<usize, Box<dyn Error>> {
    let text = std::fs::read_to_string(path)?;
    for (number, line) in text.lines().enumerate() {
        let read = if line.starts_with('{') { json(line) } else { compact(line) };
        let vector = read.map_err(|error| format!("{}:{}: {error}", path.display(), number + 1))?;
        assert_eq!(vector.answer(), vector.expected, "{}", vector.name);
    }
    Ok(text.lines().count())
}

#[test]
fn expected_answers() -> Result<(), Box<dyn Error>> {
    let data = Path::new(env!("CARGO_MANIFEST_DIR")).join("tests/data");
    assert_eq!(check_file(&data.join("models.txt"))?, 1_063);
    assert_eq!(check_file(&data.join("papers.txt"))?, 101);
    assert_eq!(check_file(&data.join("rows.txt"))?, 119);
    if let Some(paths) = std::env::var_os("VECTORS") {
        for path in std::env::split_paths(&paths).filter(|path| *path != PathBuf::new()) {
            println!("{}: {} models agree", path.display(), check_file(&path)?);
        }
    }
    Ok(())
}
