//! Options and files of a subcommand.

use crate::echo::shown;
use crate::Failure;

/// What a subcommand takes: options without a value, options with one, and the names of what stands without an option.
pub struct Takes {
    pub flags: &'static [&'static str],
    pub values: &'static [&'static str],
    pub files: &'static [&'static str],
    /// Which of the options with a value, and whether the last of the files, may stand any number of times.
    pub repeated: &'static [&'static str],
}

/// What a subcommand was given.
pub struct Arguments<'a> {
    pub files: Vec<&'a str>,
    options: Vec<(&'a str, &'a str)>,
}

impl Takes {
    /// The arguments, all of which the subcommand knows. `--name value` and `--name=value` are the same.
    pub fn parse<'a>(&self, given: &[&'a str]) -> Result<Arguments<'a>, Failure> {
        let mut arguments = Arguments { files: Vec::new(), options: Vec::new() };
        let mut rest = given.iter();
        while let Some(&argument) = rest.next() {
            let Some(option) = argument.strip_prefix("--") else {
                arguments.files.push(argument);
                continue;
            };
            let (name, inside) = match option.split_once('=') {
                Some((name, value)) => (name, Some(value)),
                None => (option, None),
            };
            let value = if self.values.contains(&name) {
                let next = inside.or_else(|| rest.next().copied());
                next.ok_or_else(|| Failure::new(format!("--{name} takes a value")))?
            } else if self.flags.contains(&name) && inside.is_none() {
                ""
            } else {
                let argument = shown(argument);
                return Err(Failure::new(format!("{argument} is no option; {}", self.known())));
            };
            if arguments.value(name).is_some() && !self.repeated.contains(&name) {
                return Err(Failure::new(format!("--{name} stands twice")));
            }
            arguments.options.push((name, value));
        }
        if !self.takes_so_many(arguments.files.len()) {
            let (expected, found) = (list(self.files), list(&arguments.files));
            return Err(Failure::new(format!(
                "expected {expected} beside the options, not {found}"
            )));
        }
        Ok(arguments)
    }

    fn takes_so_many(&self, files: usize) -> bool {
        match self.files.split_last() {
            Some((last, others)) if self.repeated.contains(last) => files >= others.len(),
            _ => files == self.files.len(),
        }
    }

    fn known(&self) -> String {
        let names: Vec<String> =
            self.flags.iter().chain(self.values).map(|n| format!("--{n}")).collect();
        if names.is_empty() {
            "there are none".into()
        } else {
            format!("there are {}", names.join(", "))
        }
    }
}

fn list(files: &[&str]) -> String {
    let files: Vec<String> = files.iter().map(|file| shown(file)).collect();
    if files.is_empty() {
        "nothing".into()
    } else {
        files.join(" ")
    }
}

impl<'a> Arguments<'a> {
    pub fn flag(&self, name: &str) -> bool {
        self.value(name).is_some()
    }

    pub fn value(&self, name: &str) -> Option<&'a str> {
        self.options.iter().find(|(given, _)| *given == name).map(|(_, value)| *value)
    }

    /// The values of an option that may stand any number of times, in their order.
    pub fn values(&self, name: &str) -> Vec<&'a str> {
        let given = self.options.iter().filter(|(given, _)| *given == name);
        given.map(|(_, value)| *value).collect()
    }

    /// The budget, or 1,000,000. The library says which are allowed.
    pub fn budget(&self) -> Result<u64, Failure> {
        let Some(spelled) = self.value("budget") else {
            return Ok(bounds::MOST_BUDGET);
        };
        whole_number(spelled).ok_or_else(|| {
            let (spelled, most) = (shown(spelled), u64::MAX);
            Failure::new(format!(
                "--budget {spelled}: expected a whole number of at most {most}, such as 1000000"
            ))
        })
    }
}

/// A number of decimal digits alone that fits 64 bits.
pub fn whole_number(spelled: &str) -> Option<u64> {
    if spelled.bytes().all(|b| b.is_ascii_digit()) {
        spelled.parse().ok()
    } else {
        None
    }
}

#[cfg(test)]
mod tests {
    use super::*;

    const TAKES: Takes =
        Takes { flags: &["json"], values: &["budget"], files: &["FILE"], repeated: &[] };
    const MANY: Takes = Takes {
        flags: &["json"],
        values: &["pair", "budget"],
        files: &["OUT", "FILE"],
        repeated: &["pair", "FILE"],
    };

    #[test]
    fn options_and_files() -> Result<(), Failure> {
        let a = TAKES.parse(&["--json", "a.txt", "--budget", "7"])?;
        assert_eq!((a.files[0], a.flag("json"), a.budget()?), ("a.txt", true, 7));
        let a = TAKES.parse(&["-", "--budget=8"])?;
        assert_eq!((a.files[0], a.flag("json"), a.budget()?), ("-", false, 8));
        assert_eq!(TAKES.parse(&["a"])?.budget()?, 1_000_000);
        Ok(())
    }

    /// What may stand any number of times keeps its order; the rest stands once.
    #[test]
    fn any_number_of_times() -> Result<(), Failure> {
        let a = MANY.parse(&["o", "--pair", "b", "--json", "x", "--pair=a", "y", "--pair", "b"])?;
        assert_eq!((a.files.as_slice(), a.flag("json")), (&["o", "x", "y"][..], true));
        assert_eq!(a.values("pair"), ["b", "a", "b"]);
        let a = MANY.parse(&["o"])?;
        assert_eq!((a.files.as_slice(), a.values("pair").len()), (&["o"][..], 0));
        for given in [
            &[][..],
            &["--pair", "a"],
            &["o", "--json", "--json"],
            &["o", "--budget", "1", "--pair", "a", "--budget", "2"],
            &["o", "--pair"],
        ] {
            assert!(MANY.parse(given).is_err(), "{given:?}");
        }
        Ok(())
    }

    #[test]
    fn what_is_not_known() {
        for given in [
            &["a", "--yaml"][..],
            &["a", "--json=1"],
            &["a", "--json", "--json"],
            &["a", "--budget"],
            &["a", "b"],
            &[],
        ] {
            assert!(TAKES.parse(given).is_err(), "{given:?}");
        }
        for budget in ["", "x", "-1", "+1", "1e3", "18446744073709551616"] {
            let given = ["a", "--budget", budget];
            let budget = TAKES.parse(&given).and_then(|a| a.budget());
            assert!(budget.is_err(), "{given:?}");
        }
    }
}
