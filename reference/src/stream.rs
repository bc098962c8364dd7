//! Records of models: the budget (8 bytes), the number of rows lent (4 bytes), the number of words
//! (4 bytes) and the words (4 bytes each), least significant byte first. And how an answer is
//! written with the rows.

use crate::figure::Figure;
use crate::{assess_rows, Answer, Row};
use std::io::{self, ErrorKind, Read};

/// The most words and the most rows that a record may hold; a model of more words than
/// [`MOST_WORDS`](crate::words::MOST_WORDS) is refused anyway.
const LONGEST: u32 = 1 << 24;

pub struct Record {
    pub budget: u64,
    pub rows: u32,
    pub words: Vec<u32>,
}

pub fn bytes_of(record: &Record) -> Vec<u8> {
    let mut bytes = Vec::with_capacity(16 + 4 * record.words.len());
    bytes.extend_from_slice(&record.budget.to_le_bytes());
    bytes.extend_from_slice(&record.rows.to_le_bytes());
    bytes.extend_from_slice(&(record.words.len() as u32).to_le_bytes());
    for word in &record.words {
        bytes.extend_from_slice(&word.to_le_bytes());
    }
    bytes
}

/// The next record, or none at the end of the input.
pub fn read_record(from: &mut impl Read) -> io::Result<Option<Record>> {
    let mut budget = [0; 8];
    let read = loop {
        match from.read(&mut budget[..1]) {
            Err(error) if error.kind() == ErrorKind::Interrupted => {}
            other => break other?,
        }
    };
    if read == 0 {
        return Ok(None);
    }
    from.read_exact(&mut budget[1..])?;
    let (mut rows, mut count) = ([0; 4], [0; 4]);
    from.read_exact(&mut rows)?;
    from.read_exact(&mut count)?;
    let (rows, count) = (u32::from_le_bytes(rows), u32::from_le_bytes(count));
    if count > LONGEST || rows > LONGEST {
        return Err(io::Error::new(ErrorKind::InvalidData, "a record of too many words or rows"));
    }
    let mut bytes = vec![0; 4 * count as usize];
    from.read_exact(&mut bytes)?;
    let words = crate::words_of_bytes(&bytes);
    Ok(Some(Record { budget: u64::from_le_bytes(budget), rows, words }))
}

/// Rows as they are lent: no model fills a row so, and no two are alike.
fn lent(place: usize) -> Row {
    let figure = Figure::ONE.shifted(1_000_000 + place as i32);
    Row { state: u64::MAX - place as u64, lower: figure, upper: figure }
}

/// Answers a record; the rows up to the last one that was changed are handed back, none where one
/// before it was left as it was.
pub fn answer(record: &Record) -> (Answer, Vec<Option<Row>>) {
    let mut rows: Vec<Row> = (0..record.rows as usize).map(lent).collect();
    let answer = assess_rows(&record.words, record.budget, &mut rows);
    let changed = |(place, row): (usize, Row)| Some(row).filter(|&row| row != lent(place));
    let mut changed: Vec<Option<Row>> = rows.into_iter().enumerate().map(changed).collect();
    while changed.pop_if(|row| row.is_none()).is_some() {}
    (answer, changed)
}

/// The answer as the report program prints it, and a line for each row.
pub fn text(answer: &Answer, rows: &[Option<Row>]) -> String {
    let mut text = answer.to_string();
    for row in rows {
        text += &row.map_or("row unchanged\n".to_string(), |row| row.to_string());
    }
    text
}
