//! The report on a model's words from standard input, four bytes a word, least significant first:
//!
//!     command/target/release/bounds words examples/marked/b.txt | cargo run -q --release --offline --manifest-path rust/Cargo.toml --example report
//!
//! With a figure as an argument, whether the upper figure is at or below it as well.

use std::error::Error;
use std::io::Read;

fn main() -> Result<(), Box<dyn Error>> {
    let mut bytes = Vec::new();
    std::io::stdin().read_to_end(&mut bytes)?;
    let mut room = [0; bounds::WORDS_SIZE];
    let words = bounds::words_of(&bytes, &mut room)?;
    let report = match bounds::assess(words, bounds::MOST_BUDGET) {
        Ok(report) => report,
        Err(bounds::Error::Refused(refusal)) => {
            println!("{refusal}: {}", refusal.sentence());
            return Ok(());
        }
        Err(error) => return Err(error.into()),
    };
    println!("{report}");
    println!("between {} and {}", report.lower.below(), report.upper.above());
    if let Some(limit) = std::env::args().nth(1) {
        let meets = report.upper.at_or_below(limit.parse()?)?;
        println!("at most {limit}: {}", if meets { "yes" } else { "no" });
    }
    Ok(())
}
