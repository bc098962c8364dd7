//! The fields of a case.

use crate::arguments::whole_number;
use crate::echo::quoted;
use crate::model::words::word_of;

/// The keys of a tool's fields: those that every case has, and those that one may have.
pub struct Keys {
    pub needed: &'static [&'static str],
    pub free: &'static [&'static str],
}

/// The values of a case's keys.
pub struct Fields<'a> {
    given: Vec<(&'a str, &'a str)>,
}

impl<'a> Fields<'a> {
    /// Each needed key once, each free one at most once, in any order, and no other.
    pub fn parse(line: Option<&'a str>, keys: &Keys) -> Result<Fields<'a>, String> {
        let known = [keys.needed, keys.free].concat();
        let mut fields = Fields { given: Vec::new() };
        for field in line.into_iter().flat_map(|line| line.split(' ')) {
            let (key, value) = field
                .split_once('=')
                .ok_or_else(|| format!("{} is no KEY=VALUE", quoted(field)))?;
            if !known.contains(&key) {
                return Err(format!("{} is no key: expected {}", quoted(key), known.join(", ")));
            }
            if fields.has(key) {
                return Err(format!("{key} stands twice"));
            }
            fields.given.push((key, value));
        }
        match keys.needed.iter().find(|key| !fields.has(key)) {
            Some(key) => Err(format!("{key} is missing")),
            None => Ok(fields),
        }
    }

    pub fn has(&self, key: &str) -> bool {
        self.given.iter().any(|(given, _)| *given == key)
    }

    fn value(&self, key: &str) -> Result<&'a str, String> {
        let found = self.given.iter().find(|(given, _)| *given == key);
        found.map(|(_, value)| *value).ok_or_else(|| format!("{key} is missing"))
    }

    pub fn number(&self, key: &str) -> Result<u64, String> {
        let value = self.value(key)?;
        whole_number(value)
            .ok_or_else(|| format!("{key}={}: expected a decimal number of 64 bits", quoted(value)))
    }

    /// Words of eight hexadecimal digits; `-` at the end is one more, of no kind.
    pub fn words(&self, key: &str) -> Result<Vec<u32>, String> {
        let value = self.value(key)?;
        if value.is_empty() {
            return Ok(Vec::new());
        }
        let parts: Vec<&str> = value.split(',').collect();
        let word = |(at, part): (usize, &&str)| match *part {
            "-" if at + 1 == parts.len() => Ok(0),
            part => word_of(part).ok_or_else(|| {
                format!("{key}: {} is no word of eight hexadecimal digits", quoted(part))
            }),
        };
        parts.iter().enumerate().map(word).collect()
    }

    /// Digits and a power, whether they are a figure or not.
    pub fn figure(&self, key: &str) -> Result<(u64, i32), String> {
        let value = self.value(key)?;
        figure_of(value).ok_or_else(|| {
            let value = quoted(value);
            format!("{key}={value}: expected digits, e and a power, such as 999500000e-12")
        })
    }

    /// Pairs of these, lower and upper.
    pub fn pairs(&self, key: &str) -> Result<Vec<[(u64, i32); 2]>, String> {
        let value = self.value(key)?;
        if value.is_empty() {
            return Ok(Vec::new());
        }
        let pair = |part| {
            pair_of(part).ok_or_else(|| {
                let part = quoted(part);
                format!("{key}: {part} is no pair: expected LOWER:UPPER, each digits, e and a power, such as 999500000e-12")
            })
        };
        value.split(',').map(pair).collect()
    }
}

fn pair_of(spelled: &str) -> Option<[(u64, i32); 2]> {
    let (lower, upper) = spelled.split_once(':')?;
    Some([figure_of(lower)?, figure_of(upper)?])
}

fn figure_of(spelled: &str) -> Option<(u64, i32)> {
    let (digits, power) = spelled.split_once('e')?;
    whole_number(power.strip_prefix('-').unwrap_or(power))?;
    Some((whole_number(digits)?, power.parse().ok()?))
}
