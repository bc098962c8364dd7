//! Lines to words.
//!
//! A line holds a name and its values, apart by spaces; what follows a `#` is a comment. First come the lines of the head: each of `states`, `start`,
//! `time`, `prune`, `steps` and `entries` stands once, in any order; `edition` may stand among them too. Then come the states that the generator pruned,
//! one `pruned` line each, if there are any, and then the transitions. Both go into words in the order of their lines. A line ends in LF or CR LF. Any
//! other break is an error, as is a control character but a tab: behind it a comment would go on, over what looks like the next line.

use super::quantity::Quantity;
use super::{kind, Fault, MOST_ENTRIES, MOST_STATES, MOST_STEPS};
use crate::echo::shown;

/// The names of lines of the head.
const HEAD_NAMES: [&str; 7] = ["states", "start", "time", "prune", "steps", "entries", "edition"];

/// The name of a line that names a state which the generator pruned.
const PRUNED: &str = "pruned";

/// The words of a model, and for each word the line that it comes from (the head's: that of the edition, or else of the states; the end's: the last).
#[derive(Clone, Debug, PartialEq, Eq)]
pub struct Written {
    pub words: Vec<u32>,
    pub lines: Vec<usize>,
    /// The line of the start state.
    pub start: usize,
}

/// A value that a head line gave, and its line.
#[derive(Clone, Copy)]
struct Given<T> {
    value: T,
    line: usize,
}

#[derive(Default)]
struct Head {
    edition: Option<Given<u32>>,
    states: Option<Given<u32>>,
    start: Option<Given<u32>>,
    time: Option<Given<Quantity>>,
    prune: Option<Given<Quantity>>,
    steps: Option<Given<u32>>,
    entries: Option<Given<u32>>,
}

/// The head lines, all given.
struct Whole {
    states: u32,
    start: usize,
    words: [(u32, usize); 4],
}

/// Whether readable lines may begin with this word.
pub fn begins(first: &str) -> bool {
    first.starts_with('#')
        || matches!(first, PRUNED | "slow" | "fast")
        || HEAD_NAMES.contains(&first)
}

/// The first character that no line has, as a fault of its line.
pub fn stray(text: &str) -> Option<Fault> {
    let strange = |c: &char| *c != '\t' && c.is_control() || matches!(c, '\u{2028}' | '\u{2029}');
    text.lines().zip(1..).find_map(|(line, number)| {
        let c = line.chars().find(strange)?;
        let what = if c.is_whitespace() { "line break" } else { "control character" };
        Some(Fault::new(
            number,
            format!("{what} U+{:04X}: expected lines that end in LF or CR LF, and no control character but tabs", u32::from(c)),
        ))
    })
}

pub fn words_of(text: &str) -> Result<Written, Fault> {
    if let Some(fault) = stray(text) {
        return Err(fault);
    }
    let mut part = Part::Head(Head::default());
    let mut out = Written { words: Vec::new(), lines: Vec::new(), start: 0 };
    let mut last = 1;
    for (number, line) in text.lines().enumerate() {
        last = number + 1;
        let line = line.split('#').next().unwrap_or("");
        let parts: Vec<&str> = line.split_whitespace().collect();
        if let Some((&name, values)) = parts.split_first() {
            part = part.take(name, values, last, &mut out)?;
        }
    }
    if let Part::Head(head) = part {
        head.whole(last)?.put(&mut out);
    }
    out.put(kind::END << 28, last);
    Ok(out)
}

/// The part of a model that the lines read so far have come to. Behind the head, the number of states is known.
enum Part {
    Head(Head),
    Pruned { states: u32 },
    Transitions { states: u32 },
}

impl Part {
    /// Takes the next line, and hands back the part that it belongs to.
    fn take(
        self,
        name: &str,
        values: &[&str],
        line: usize,
        out: &mut Written,
    ) -> Result<Part, Fault> {
        match (name, self) {
            ("slow" | "fast", part) => {
                let states = part.states(line, out)?;
                transition(name, values, states, line, out)?;
                Ok(Part::Transitions { states })
            }
            (PRUNED, part @ (Part::Head(_) | Part::Pruned { .. })) => {
                let states = part.states(line, out)?;
                pruned(values, states, line, out)?;
                Ok(Part::Pruned { states })
            }
            (_, Part::Head(mut head)) => {
                head.take(name, values, line)?;
                Ok(Part::Head(head))
            }
            (_, part) if name == PRUNED || HEAD_NAMES.contains(&name) => {
                let first =
                    if matches!(part, Part::Pruned { .. }) { "pruned state" } else { "transition" };
                Err(Fault::new(line, format!("{name} stands after the first {first}")))
            }
            _ => Err(no_name(name, line)),
        }
    }

    /// The number of states. Where the head ends here, its words are put.
    fn states(self, line: usize, out: &mut Written) -> Result<u32, Fault> {
        match self {
            Part::Head(head) => Ok(head.whole(line)?.put(out)),
            Part::Pruned { states } | Part::Transitions { states } => Ok(states),
        }
    }
}

impl Written {
    fn put(&mut self, word: u32, line: usize) {
        self.words.push(word);
        self.lines.push(line);
    }
}

impl Whole {
    /// Puts the first four words and the start's line, and hands back the number of states.
    fn put(self, out: &mut Written) -> u32 {
        for (word, line) in self.words {
            out.put(word, line);
        }
        out.start = self.start;
        self.states
    }
}

impl Head {
    fn take(&mut self, name: &str, values: &[&str], line: usize) -> Result<(), Fault> {
        let value = match values {
            [value] => value,
            _ if HEAD_NAMES.contains(&name) => {
                return Err(Fault::new(line, format!("{name} takes one value")));
            }
            _ => return Err(no_name(name, line)),
        };
        match name {
            "edition" => once(&mut self.edition, name, whole_number(value, 0, 15, line)?, line),
            "states" => {
                once(&mut self.states, name, whole_number(value, 1, MOST_STATES, line)?, line)
            }
            "start" => {
                once(&mut self.start, name, whole_number(value, 1, MOST_STATES, line)?, line)
            }
            "time" => once(&mut self.time, name, quantity(value, kind::TIME, line)?, line),
            "prune" => once(&mut self.prune, name, quantity(value, kind::PRUNE, line)?, line),
            "steps" => once(&mut self.steps, name, whole_number(value, 1, MOST_STEPS, line)?, line),
            "entries" => {
                once(&mut self.entries, name, whole_number(value, 1, MOST_ENTRIES, line)?, line)
            }
            _ => Err(no_name(name, line)),
        }
    }

    /// The first four words; `line` is where something that is missing would have had to stand before.
    fn whole(&self, line: usize) -> Result<Whole, Fault> {
        let edition = self.edition.map_or(1, |given| given.value);
        let states = needed(self.states, "states", line)?;
        let start = needed(self.start, "start", line)?;
        let time = needed(self.time, "time", line)?;
        let prune = needed(self.prune, "prune", line)?;
        let steps = needed(self.steps, "steps", line)?;
        let entries = needed(self.entries, "entries", line)?;
        if start.value > states.value {
            return Err(Fault::new(
                start.line,
                format!("start {} of {} states", start.value, states.value),
            ));
        }
        let head = kind::HEAD << 28 | edition << 24 | states.value << 12 | start.value;
        let caps = kind::CAPS << 28 | steps.value << 20 | entries.value << 12;
        Ok(Whole {
            states: states.value,
            start: start.line,
            words: [
                (head, self.edition.map_or(states.line, |given| given.line)),
                (time.value.word(kind::TIME), time.line),
                (prune.value.word(kind::PRUNE), prune.line),
                (caps, steps.line),
            ],
        })
    }
}

fn no_name(name: &str, line: usize) -> Fault {
    let names = HEAD_NAMES.join(", ");
    let name = shown(name);
    Fault::new(
        line,
        format!("{name} is no name of a line: expected {names}, {PRUNED}, slow or fast"),
    )
}

fn once<T>(place: &mut Option<Given<T>>, name: &str, value: T, line: usize) -> Result<(), Fault> {
    if let Some(earlier) = place {
        return Err(Fault::new(line, format!("{name} stood already on line {}", earlier.line)));
    }
    *place = Some(Given { value, line });
    Ok(())
}

fn needed<T: Copy>(place: Option<Given<T>>, name: &str, line: usize) -> Result<Given<T>, Fault> {
    place.ok_or_else(|| {
        Fault::new(
            line,
            format!("{name} is missing: it stands before pruned states and transitions"),
        )
    })
}

fn pruned(values: &[&str], states: u32, line: usize, out: &mut Written) -> Result<(), Fault> {
    let [state] = values else {
        return Err(Fault::new(line, format!("a pruned state is written: {PRUNED} STATE")));
    };
    let state = whole_number(state, 1, states, line)?;
    out.put(kind::PRUNED_STATE << 28 | state, line);
    Ok(())
}

fn transition(
    name: &str,
    values: &[&str],
    states: u32,
    line: usize,
    out: &mut Written,
) -> Result<(), Fault> {
    let (of, kinds): (u32, &[u32]) = match name {
        "slow" => (kind::SLOW, &[kind::RATE]),
        _ => (kind::FAST, &[kind::MEAN, kind::DEVIATION, kind::PROBABILITY]),
    };
    if values.len() != 2 + kinds.len() {
        let form = if of == kind::SLOW {
            "slow FROM TO RATE"
        } else {
            "fast FROM TO MEAN DEVIATION PROBABILITY"
        };
        return Err(Fault::new(line, format!("a transition is written: {form}")));
    }
    let from = whole_number(values[0], 1, states, line)?;
    let to = whole_number(values[1], 1, states, line)?;
    out.put(of << 28 | from << 12 | to, line);
    for (value, &of) in values[2..].iter().zip(kinds) {
        out.put(quantity(value, of, line)?.word(of), line);
    }
    Ok(())
}

fn whole_number(spelled: &str, least: u32, most: u32, line: usize) -> Result<u32, Fault> {
    let plain = spelled.bytes().all(|b| b.is_ascii_digit());
    let number = if plain { spelled.parse().ok() } else { None };
    number.filter(|n| (least..=most).contains(n)).ok_or_else(|| {
        let spelled = shown(spelled);
        Fault::new(line, format!("{spelled} is no whole number from {least} to {most}"))
    })
}

fn quantity(spelled: &str, of: u32, line: usize) -> Result<Quantity, Fault> {
    Quantity::parse(spelled, of).map_err(|why| Fault::new(line, why))
}
