//! Words to lines, and words to and from bytes and hexadecimal digits.

use super::quantity::{may_be_zero, most_scale, Quantity, MOST_COEFFICIENT};
use super::{kind, Fault, MOST_ENTRIES, MOST_STATES, MOST_STEPS};
use crate::echo::shown;
use std::fmt::Write;

/// The lines of a model. Words that no lines spell are refused, with the place of the first.
pub fn text_of(words: &[u32]) -> Result<String, Fault> {
    let mut reader = Reader { words, at: 0 };
    let mut text = reader.head()?;
    while words.get(reader.at).is_some_and(|word| word >> 28 == kind::PRUNED_STATE) {
        text.push_str(&reader.pruned()?);
    }
    loop {
        let at = reader.at;
        let word = reader.next()?;
        let line = match word >> 28 {
            kind::SLOW => reader.transition("slow", word, at, &[kind::RATE])?,
            kind::FAST => reader.transition(
                "fast",
                word,
                at,
                &[kind::MEAN, kind::DEVIATION, kind::PROBABILITY],
            )?,
            kind::END if word == kind::END << 28 => break,
            _ => {
                return Err(Fault::new(
                    at,
                    format!("{word:08X} is neither a transition nor the end"),
                ))
            }
        };
        text.push_str(&line);
    }
    if reader.at < words.len() {
        return Err(Fault::new(reader.at, "a word follows the end"));
    }
    Ok(text)
}

struct Reader<'a> {
    words: &'a [u32],
    at: usize,
}

impl Reader<'_> {
    fn next(&mut self) -> Result<u32, Fault> {
        let word = self
            .words
            .get(self.at)
            .ok_or_else(|| Fault::new(self.at, "the words end without an end word"))?;
        self.at += 1;
        Ok(*word)
    }

    /// The next word, which is of this kind.
    fn of_kind(&mut self, of: u32) -> Result<u32, Fault> {
        let at = self.at;
        let word = self.next()?;
        if word >> 28 != of {
            return Err(Fault::new(at, format!("{word:08X} is not of kind {of}")));
        }
        Ok(word)
    }

    fn quantity(&mut self, of: u32) -> Result<Quantity, Fault> {
        let at = self.at;
        let word = self.of_kind(of)?;
        let quantity = Quantity { coefficient: word & 0xFFFFF, scale: word >> 20 & 0xFF };
        let fits =
            u64::from(quantity.coefficient) <= MOST_COEFFICIENT && quantity.scale <= most_scale(of);
        if !fits || quantity.coefficient == 0 && !may_be_zero(of) {
            return Err(Fault::new(
                at,
                format!("{word:08X} has its scale or its coefficient out of range"),
            ));
        }
        Ok(quantity)
    }

    /// The lines of the first four words.
    fn head(&mut self) -> Result<String, Fault> {
        let head = self.of_kind(kind::HEAD)?;
        let (edition, states, start) = (head >> 24 & 15, head >> 12 & 0xFFF, head & 0xFFF);
        if !(1..=MOST_STATES).contains(&states) || !(1..=states).contains(&start) {
            return Err(Fault::new(0, format!("start {start} of {states} states")));
        }
        let time = self.quantity(kind::TIME)?;
        let prune = self.quantity(kind::PRUNE)?;
        let caps = self.of_kind(kind::CAPS)?;
        let (steps, entries) = (caps >> 20 & 0xFF, caps >> 12 & 0xFF);
        let allowed = (1..=MOST_STEPS).contains(&steps) && (1..=MOST_ENTRIES).contains(&entries);
        if !allowed || caps & 0xFFF != 0 {
            return Err(Fault::new(
                3,
                format!("{caps:08X} has a limit out of range or a bit set that must be zero"),
            ));
        }
        let mut text = String::new();
        if edition != 1 {
            let _ = writeln!(text, "edition {edition}");
        }
        let _ = write!(text, "states {states}\nstart {start}\ntime {time}\nprune {prune}\nsteps {steps}\nentries {entries}\n");
        Ok(text)
    }

    /// The line of a state that the generator pruned.
    fn pruned(&mut self) -> Result<String, Fault> {
        let at = self.at;
        let word = self.of_kind(kind::PRUNED_STATE)?;
        let state = word & 0xFFF;
        if word >> 12 & 0xFFFF != 0 || !self.is_state(state) {
            return Err(wrong_state(word, at));
        }
        Ok(format!("pruned {state}\n"))
    }

    /// Whether a number is that of a state of the model, whose head has been read.
    fn is_state(&self, number: u32) -> bool {
        (1..=self.words[0] >> 12 & 0xFFF).contains(&number)
    }

    fn transition(
        &mut self,
        name: &str,
        word: u32,
        at: usize,
        kinds: &[u32],
    ) -> Result<String, Fault> {
        let (from, to) = (word >> 12 & 0xFFF, word & 0xFFF);
        if word >> 24 & 15 != 0 || !self.is_state(from) || !self.is_state(to) {
            return Err(wrong_state(word, at));
        }
        let mut line = format!("{name} {from} {to}");
        for &of in kinds {
            let _ = write!(line, " {}", self.quantity(of)?);
        }
        line.push('\n');
        Ok(line)
    }
}

fn wrong_state(word: u32, at: usize) -> Fault {
    Fault::new(at, format!("{word:08X} has a state out of range or a bit set that must be zero"))
}

/// Four bytes a word, least significant first.
pub fn bytes_of(words: &[u32]) -> Vec<u8> {
    words.iter().flat_map(|word| word.to_le_bytes()).collect()
}

/// Eight hexadecimal digits a word, one word to a line.
pub fn hex_of(words: &[u32]) -> String {
    words.iter().map(|word| format!("{word:08X}\n")).collect()
}

/// Words of eight hexadecimal digits, apart by spaces or lines, and the line of each.
pub fn of_digits(text: &str) -> Result<(Vec<u32>, Vec<usize>), Fault> {
    let (mut words, mut lines) = (Vec::new(), Vec::new());
    for (number, line) in text.lines().enumerate() {
        for digits in line.split_whitespace() {
            let word = word_of(digits).ok_or_else(|| {
                let digits = shown(digits);
                Fault::new(number + 1, format!("{digits} is no word of eight hexadecimal digits"))
            })?;
            words.push(word);
            lines.push(number + 1);
        }
    }
    Ok((words, lines))
}

/// The word of eight hexadecimal digits.
pub fn word_of(digits: &str) -> Option<u32> {
    let eight = digits.len() == 8 && digits.bytes().all(|b| b.is_ascii_hexdigit());
    if eight {
        u32::from_str_radix(digits, 16).ok()
    } else {
        None
    }
}

/// The places of the transitions' words, in table order, in words that lines spell.
pub fn transitions(words: &[u32]) -> Vec<usize> {
    let is_one = |word: u32| matches!(word >> 28, kind::SLOW | kind::FAST);
    words.iter().enumerate().filter(|(_, word)| is_one(**word)).map(|(at, _)| at).collect()
}
