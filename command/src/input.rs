//! A model's file: recognised as readable lines, as words of hexadecimal digits or as bytes, and read.
//!
//! The three cannot be taken for one another. Bytes begin with a head word, whose fourth byte is a control character that no text has. Digits are
//! eight hexadecimal ones to a word, and no name of a readable line is so spelled. What is none of the three is an error; `--as` says what a file is
//! to be read as. A text that begins as a model does and then has a byte that no text has is an error that names the line of that byte.

use crate::echo::shown;
use crate::model::{kind, text, words, Fault};
use crate::Failure;
use std::fs::File;
use std::io::{self, Read};

/// A file of more bytes is no model.
const MOST_BYTES: u64 = 1 << 24;

/// What some editors put before a text; it is passed over.
const BYTE_ORDER_MARK: &[u8] = b"\xEF\xBB\xBF";

/// What a file holds.
#[derive(Clone, Copy, Debug, PartialEq, Eq)]
pub enum Form {
    /// Readable lines.
    Lines,
    /// Words of eight hexadecimal digits, apart by spaces or lines.
    Digits,
    /// Four bytes a word, least significant first.
    Bytes,
}

/// A model, and where its words stood in its file.
pub struct Model {
    pub file: String,
    pub words: Vec<u32>,
    form: Form,
    /// The text of lines or digits.
    text: String,
    /// The line of each word, in a text.
    lines: Vec<usize>,
    /// The line that names the start state, in readable lines.
    start: Option<usize>,
}

/// A place in the file: a readable line, or else a word and, of digits, its line.
#[derive(Clone, Debug, PartialEq, Eq)]
pub enum Spot {
    Line(usize, String),
    Word { at: usize, word: u32, line: Option<usize> },
}

impl Form {
    /// `--as NAME`, or none to recognise it.
    pub fn named(name: Option<&str>) -> Result<Option<Form>, Failure> {
        match name {
            None => Ok(None),
            Some("lines") => Ok(Some(Form::Lines)),
            Some("digits") => Ok(Some(Form::Digits)),
            Some("bytes") => Ok(Some(Form::Bytes)),
            Some(other) => {
                let other = shown(other);
                Err(Failure::new(format!("--as {other}: expected lines, digits or bytes")))
            }
        }
    }

    fn recognised(bytes: &[u8]) -> Option<Form> {
        // the fourth byte of a head word, 10 to 1F in hexadecimal digits
        if bytes.get(3).is_some_and(|byte| u32::from(byte >> 4) == kind::HEAD) {
            return Some(Form::Bytes);
        }
        let bytes = unmarked(bytes);
        let plain = plain(bytes);
        let first = plain.split_whitespace().next()?;
        if words::word_of(first).is_some() {
            return Some(Form::Digits);
        }
        (plain.len() == bytes.len() || text::begins(first)).then_some(Form::Lines)
    }
}

impl Model {
    /// Reads a file, `-` being standard input.
    pub fn read(file: &str, form: Option<Form>) -> Result<Model, Failure> {
        Model::of(file, bytes_in(file)?, form)
    }

    /// The model that some bytes hold.
    pub fn of(file: &str, bytes: Vec<u8>, form: Option<Form>) -> Result<Model, Failure> {
        let form = form.or_else(|| Form::recognised(&bytes)).ok_or_else(|| {
            Failure::in_file(file, "expected a model in readable lines, or words as hexadecimal digits or as bytes that begin with a head word")
        })?;
        let empty = Model {
            file: file.into(),
            words: Vec::new(),
            form,
            text: String::new(),
            lines: Vec::new(),
            start: None,
        };
        if form == Form::Bytes {
            let mut room = [0; bounds::WORDS_SIZE];
            return Ok(Model { words: bounds::words_of(&bytes, &mut room)?.to_vec(), ..empty });
        }
        let in_line = |fault: Fault| Failure::in_line(file, fault.at, fault.why);
        let text = text_of(&bytes, form).map_err(in_line)?.to_string();
        if form == Form::Digits {
            let (words, lines) = words::of_digits(&text).map_err(in_line)?;
            return Ok(Model { words, lines, text, ..empty });
        }
        let text::Written { words, lines, start } = text::words_of(&text).map_err(in_line)?;
        Ok(Model { words, lines, start: Some(start), text, ..empty })
    }

    /// Where the word at a place stood; none behind the last word.
    pub fn spot(&self, at: usize) -> Option<Spot> {
        let &word = self.words.get(at)?;
        match self.lines.get(at).copied() {
            Some(line) if self.form == Form::Lines => Some(self.line(line)),
            line => Some(Spot::Word { at, word, line }),
        }
    }

    /// The line that the word at a place stood in, its number and its text; none in bytes.
    pub fn line_of(&self, at: usize) -> Option<(usize, &str)> {
        self.lines.get(at).map(|&line| (line, self.text_in(line)))
    }

    /// Where the start state stood.
    pub fn start(&self) -> Option<Spot> {
        self.start.map_or_else(|| self.spot(0), |line| Some(self.line(line)))
    }

    fn line(&self, line: usize) -> Spot {
        Spot::Line(line, self.text_in(line).into())
    }

    fn text_in(&self, line: usize) -> &str {
        self.text.lines().nth(line - 1).unwrap_or_default().trim()
    }

    /// The file and the place in it, for a message.
    pub fn place(&self, spot: &Spot) -> String {
        let file = &self.file;
        match spot {
            Spot::Line(line, _) => format!("{file}:{line}"),
            Spot::Word { at, line: Some(line), .. } => format!("{file}:{line}: word {at}"),
            Spot::Word { at, line: None, .. } => format!("{file}: word {at}"),
        }
    }

    /// The same as readable lines; words that no lines spell are an error.
    pub fn spelled(&self) -> Result<String, Failure> {
        words::text_of(&self.words).map_err(|fault| {
            let place = match self.spot(fault.at) {
                Some(spot) => self.place(&spot),
                None => format!("{}: word {}", self.file, fault.at),
            };
            Failure::in_file(&place, fault.why)
        })
    }
}

impl Spot {
    /// What stands there.
    pub fn text(&self) -> String {
        match self {
            Spot::Line(_, text) => text.clone(),
            Spot::Word { word, .. } => format!("{word:08X}"),
        }
    }
}

fn unmarked(bytes: &[u8]) -> &[u8] {
    bytes.strip_prefix(BYTE_ORDER_MARK).unwrap_or(bytes)
}

/// The text up to where UTF-8 ends.
fn utf8(bytes: &[u8]) -> &str {
    bytes.utf8_chunks().next().map_or("", |chunk| chunk.valid())
}

/// The text up to the first byte that no text has: one that is not UTF-8, or a control character that is no space.
fn plain(bytes: &[u8]) -> &str {
    let text = utf8(bytes);
    let end = text.find(|c: char| c.is_control() && !c.is_whitespace());
    &text[..end.unwrap_or(text.len())]
}

/// All of the text. Where it is none, what is wrong first is named.
fn text_of(bytes: &[u8], form: Form) -> Result<&str, Fault> {
    let bytes = unmarked(bytes);
    let text = utf8(bytes);
    let Some(byte) = bytes.get(text.len()) else {
        return Ok(text);
    };
    let line = 1 + text.matches('\n').count();
    let fault = Fault::new(line, format!("byte {byte:02X}: expected UTF-8"));
    let earlier = if form == Form::Lines { text::stray(text) } else { None };
    Err(earlier.unwrap_or(fault))
}

fn bytes_in(file: &str) -> Result<Vec<u8>, Failure> {
    let mut bytes = Vec::new();
    let read = match file {
        "-" => io::stdin().take(MOST_BYTES + 1).read_to_end(&mut bytes),
        _ => File::open(file).and_then(|from| from.take(MOST_BYTES + 1).read_to_end(&mut bytes)),
    };
    read.map_err(|error| Failure::in_file(file, error))?;
    if bytes.len() as u64 > MOST_BYTES {
        return Err(Failure::in_file(file, "expected a model, which never has so many bytes"));
    }
    Ok(bytes)
}

#[cfg(test)]
mod tests {
    use super::*;

    const MODEL_A: [u32; 7] =
        [0x11002001, 0x2000000A, 0x30000000, 0x41801000, 0x50001002, 0x60400001, 0xF0000000];
    const LINES_A: &str =
        "# A\nedition 1\nstates 2\nstart 1\ntime 10\nprune 0\nsteps 24\nentries 1\nslow 1 2 1e-4\n";

    fn read(bytes: &[u8]) -> Result<Model, Failure> {
        Model::of("f", bytes.to_vec(), None)
    }

    #[test]
    fn three_forms() -> Result<(), Failure> {
        for bytes in [
            LINES_A.as_bytes(),
            words::hex_of(&MODEL_A).as_bytes(),
            b" \t11002001 2000000a 30000000 41801000 50001002 60400001 f0000000",
            &words::bytes_of(&MODEL_A),
        ] {
            assert_eq!(read(bytes)?.words, MODEL_A);
        }
        Ok(())
    }

    #[test]
    fn what_is_none_of_them() {
        for bytes in [
            &b""[..],
            b"\n \n",
            b"\0\0\0\0",
            b"\x7fELF\x02\x01",
            b"states 2\0",
            b"\xff\xfe",
            b"11002001 2000000A 3000000",
            b"11002001,2000000A",
            b"states 2\n11002001\n",
            b"{\"states\": 2}",
            &words::bytes_of(&MODEL_A[1..]),
        ] {
            assert!(read(bytes).is_err(), "{bytes:?}");
        }
    }

    #[test]
    fn spots() -> Result<(), Failure> {
        let model = read(LINES_A.as_bytes())?;
        assert_eq!(model.spot(5), Some(Spot::Line(9, "slow 1 2 1e-4".into())));
        assert_eq!(model.spot(0), Some(Spot::Line(2, "edition 1".into())));
        assert_eq!(model.start(), Some(Spot::Line(4, "start 1".into())));
        assert_eq!(model.spot(7), None);
        let model = read(b"11002001 2000000A\n30000000")?;
        assert_eq!(model.spot(2), Some(Spot::Word { at: 2, word: 0x30000000, line: Some(2) }));
        assert_eq!(model.line_of(1), Some((1, "11002001 2000000A")));
        let model = read(&words::bytes_of(&MODEL_A))?;
        assert_eq!(model.spot(4), Some(Spot::Word { at: 4, word: 0x50001002, line: None }));
        assert_eq!(model.start(), Some(Spot::Word { at: 0, word: 0x11002001, line: None }));
        assert_eq!(model.line_of(4), None);
        Ok(())
    }

    /// A byte order mark is passed over, and is no bytes' beginning.
    #[test]
    fn byte_order_mark() -> Result<(), Failure> {
        for text in [LINES_A, &words::hex_of(&MODEL_A)] {
            let marked = [BYTE_ORDER_MARK, text.as_bytes()].concat();
            assert_eq!(read(&marked)?.words, MODEL_A);
            assert_eq!(read(&marked)?.spot(7), None);
        }
        let marked = [BYTE_ORDER_MARK, LINES_A.as_bytes()].concat();
        assert_eq!(Model::of("f", marked, Some(Form::Lines))?.words, MODEL_A);
        assert!(read(BYTE_ORDER_MARK).is_err());
        assert!(read(&[BYTE_ORDER_MARK, BYTE_ORDER_MARK, LINES_A.as_bytes()].concat()).is_err());
        Ok(())
    }

    /// The line of the first byte that no text has, where the file begins as a model does.
    #[test]
    fn bad_bytes() {
        for (bytes, expected) in [
            (&b"# a\n# b\xe9\n# c\0\n"[..], "f:2: byte E9: expected UTF-8"),
            (b"states 2\0", "f:1: control character U+0000: expected lines"),
            (b"states 2\n\nstart 1\x7f\n\xff", "f:3: control character U+007F: expected lines"),
            (b"\xEF\xBB\xBF# a\n\n\xff", "f:3: byte FF: expected UTF-8"),
            (b"states 2\xe2\x80", "f:1: byte E2: expected UTF-8"),
            (b"11002001\n2000000A\xff", "f:2: byte FF: expected UTF-8"),
            (b"11002001\x0b\n2000000A\xff", "f:2: byte FF: expected UTF-8"),
            (b"11002001\n2000000A\0", "f:2: 2000000A\\u{0} is no word of eight"),
            (b"PK\x03\x04", "f: expected a model in readable lines, or words"),
            (b"GIF89a\n\0", "f: expected a model in readable lines, or words"),
            (b"\xff\xfes\0t\0a\0", "f: expected a model in readable lines, or words"),
        ] {
            let said = read(bytes).err().map_or(String::new(), |failure| failure.0);
            assert!(said.starts_with(expected), "{said}");
        }
    }

    /// Left-over bytes are a word of no kind, which the library refuses and no lines spell.
    #[test]
    fn left_over_bytes() -> Result<(), Failure> {
        let mut bytes = words::bytes_of(&MODEL_A);
        bytes.push(7);
        let model = read(&bytes)?;
        assert_eq!(model.words.len(), 8);
        assert!(model.spelled().is_err());
        Ok(())
    }
}
