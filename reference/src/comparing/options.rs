//! The part of the command line that both comparers read.

pub struct Options {
    /// The other program and its arguments.
    pub program: String,
    pub arguments: Vec<String>,
    pub seed: u64,
    pub first: u64,
    pub count: u64,
    /// Whether the rule on figures is checked in exact fractions too.
    pub accuracy: bool,
}

/// The options, or what is wrong with them. `own` are numbers that one comparer alone takes, with
/// their names.
pub fn read(
    mut arguments: impl Iterator<Item = String>,
    own: &mut [(&str, &mut u64)],
) -> Result<Options, String> {
    let mut options = Options {
        program: String::new(),
        arguments: Vec::new(),
        seed: 1,
        first: 0,
        count: 100_000,
        accuracy: false,
    };
    while let Some(argument) = arguments.next() {
        let target = match argument.as_str() {
            "--seed" => &mut options.seed,
            "--first" => &mut options.first,
            "--count" => &mut options.count,
            "--accuracy" => {
                options.accuracy = true;
                continue;
            }
            "--" => {
                options.arguments = arguments.by_ref().collect();
                break;
            }
            name if options.program.is_empty() && !name.starts_with("--") => {
                options.program = argument;
                continue;
            }
            name => match own.iter_mut().find(|(known, _)| *known == name) {
                Some((_, target)) => &mut **target,
                None => return Err(format!("{argument} is not understood")),
            },
        };
        let value = arguments.next().unwrap_or_default();
        *target = value.parse().map_err(|_| format!("{argument} needs a number"))?;
    }
    if options.program.is_empty() {
        return Err("the other program is missing".to_string());
    }
    Ok(options)
}
