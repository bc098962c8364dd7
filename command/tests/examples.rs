//! Every example under `examples/` converts to exactly the words that others wrote for it, and back.

use bounds_command::model::{text, words};
use std::collections::BTreeMap;
use std::error::Error;
use std::fs;
use std::path::{Path, PathBuf};

/// The models of document 01, put into words by hand.
const MARKED: &[(&str, &str)] = &[
    ("a", "11002001 2000000A 30000000 41801000 50001002 60400001 F0000000"),
    (
        "b",
        "11005001 2000000A 30000000 41801000 50001002 60400003 50002003 60400002 \
         70002004 80400001 90400001 A0000001 50004005 60400001 F0000000",
    ),
    (
        "c",
        "11005001 2000000A 30300003 41801000 50001002 60400003 50002003 60400002 \
         70002004 80400001 90400001 A0000001 50004005 60400001 F0000000",
    ),
    (
        "c-below",
        "11005001 2000000A 3040001D 41801000 50001002 60400003 50002003 60400002 \
         70002004 80400001 90400001 A0000001 50004005 60400001 F0000000",
    ),
    ("d", "11002001 2000000A 30000000 41801000 50001002 60300001 50002001 60300001 F0000000"),
    (
        "g",
        "11004001 2000000A 30000000 41801000 70001002 80400001 90400001 A0651615 \
         70001003 80400001 90400001 A0651615 70001004 80400001 90400001 A0651615 F0000000",
    ),
    (
        "g-mended",
        "11004001 2000000A 30000000 41801000 70001002 80400001 90400001 A0651615 \
         70001003 80400001 90400001 A0651615 70001004 80400001 90400001 A0651616 F0000000",
    ),
    ("h", "11002001 2000000A 30000000 41801000 70001002 8000000A 90000000 A0000001 F0000000"),
    ("i", "11002001 2000000A 30000000 41801000 50001002 60000001 F0000000"),
    ("j", "12002001 2000000A 30000000 41801000 50001002 60400001 F0000000"),
    ("k", "11001001 2000000A 30000000 41801000 F0000000"),
];

fn repository() -> PathBuf {
    Path::new(env!("CARGO_MANIFEST_DIR")).join("..")
}

/// The lines without comments.
fn plain(text: &str) -> String {
    let lines = text.lines().filter(|line| !line.starts_with('#'));
    lines.map(|line| format!("{line}\n")).collect()
}

/// Converts each `.txt` file of a folder and compares it with the words of its name.
fn check(folder: &str, expected: &BTreeMap<String, Vec<u32>>) -> Result<(), Box<dyn Error>> {
    let mut seen = 0;
    for entry in fs::read_dir(repository().join("examples").join(folder))? {
        let path = entry?.path();
        let name = path.file_stem().and_then(|name| name.to_str()).ok_or("a name")?;
        let text = fs::read_to_string(&path)?;
        let list = expected.get(name).ok_or(format!("no words for {name}"))?;
        let written = text::words_of(&text).map_err(|fault| format!("{name}: {fault:?}"))?;
        assert_eq!(&written.words, list, "{name}");
        let back = words::text_of(list).map_err(|fault| format!("{name}: {fault:?}"))?;
        assert_eq!(back, plain(&text), "{name}");
        seen += 1;
    }
    assert_eq!(seen, expected.len());
    Ok(())
}

fn words(hex: &str) -> Result<Vec<u32>, Box<dyn Error>> {
    words::of_digits(hex).map(|(words, _)| words).map_err(|fault| fault.why.into())
}

#[test]
fn models_of_document_01() -> Result<(), Box<dyn Error>> {
    let mut expected = BTreeMap::new();
    for (name, hex) in MARKED {
        expected.insert(name.to_string(), words(hex)?);
    }
    check("marked", &expected)
}

/// A line of the papers' models: name, budget, words of eight digits without a space between them, answer.
#[test]
fn models_of_the_papers() -> Result<(), Box<dyn Error>> {
    let data = fs::read_to_string(repository().join("reference/tests/data/papers.txt"))?;
    let mut expected = BTreeMap::new();
    for line in data.lines() {
        let [name, _, hex, _] = line.split(' ').collect::<Vec<_>>()[..] else {
            return Err("a line that isn't four parts".into());
        };
        let apart: Vec<&str> = (0..hex.len()).step_by(8).map(|at| &hex[at..at + 8]).collect();
        expected.insert(name.to_string(), words(&apart.join(" "))?);
    }
    check("papers", &expected)
}
