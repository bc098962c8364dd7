//! `bounds answers`: cases from standard input, one a line, and each one's answer. A tool is a module and its entry in the list.

mod at_or_below;
mod fields;
mod or;
mod report;

use super::Subcommand;
use crate::arguments::Takes;
use crate::echo::quoted;
use crate::{Done, Failure, Status};
use fields::{Fields, Keys};
use std::io::{self, BufRead, Write};

pub const SUBCOMMAND: Subcommand = Subcommand {
    name: "answers",
    summary: "answers cases from standard input, one a line",
    help: "usage: bounds answers

Reads one case a line from standard input, and writes each answer and an empty line, at once, so that a program can talk to it over a pipe. A case
is a tool's name and fields KEY=VALUE, each once and in any order, apart by one space. Numbers are decimal; words have eight hexadecimal digits each
and stand apart by commas, with - at the end for left-over bytes; a figure is its digits, e and its power (999500000e-12; zero is 0e0).

  report budget=N words=WORDS             what the report program prints
  report budget=N rows=N words=WORDS      the same where so many rows are lent, at most 100,000; then a line `row STATE LOWER UPPER` for each row
                                          that was changed
  at-or-below figure=FIGURE limit=FIGURE  yes, no, or `no figure` where one of them is none
  or pairs=FIGURE:FIGURE,FIGURE:FIGURE    `lower LOWER` and `upper UPPER` of several subsystems together, from the lower and the upper of each, or a
                                          refusal; no pair is `pairs=`

A line that is no case is answered by `error: ` and what was expected, and the next line is read. Exit status: 0 when the input has ended, 2 where it
cannot be read or the library is of another version.",
    run,
};

const TAKES: Takes = Takes { flags: &[], values: &[], files: &[], repeated: &[] };

/// A tool: its name, the keys of its fields, and its answer, without a newline behind the last line.
struct Tool {
    name: &'static str,
    keys: Keys,
    answer: fn(&Fields) -> Result<String, String>,
}

const TOOLS: &[Tool] = &[report::TOOL, at_or_below::TOOL, or::TOOL];

fn run(given: &[&str], out: &mut dyn Write) -> Done {
    TAKES.parse(given)?;
    answer_all(&mut io::stdin().lock(), out)
}

fn answer_all(input: &mut dyn BufRead, out: &mut dyn Write) -> Done {
    let mut line = Vec::new();
    loop {
        line.clear();
        let read = input.read_until(b'\n', &mut line);
        if read.map_err(|error| Failure::in_file("standard input", error))? == 0 {
            return Ok(Status::Reported);
        }
        let line = line.strip_suffix(b"\n").unwrap_or(&line);
        let answer = answer(line).unwrap_or_else(|why| format!("error: {why}"));
        write!(out, "{answer}\n\n")?;
        out.flush()?;
    }
}

fn answer(line: &[u8]) -> Result<String, String> {
    let line = std::str::from_utf8(line).map_err(|_| "expected UTF-8")?;
    let (name, rest) = match line.split_once(' ') {
        Some((name, rest)) => (name, Some(rest)),
        None => (line, None),
    };
    let tool = TOOLS.iter().find(|tool| tool.name == name).ok_or_else(|| {
        let names: Vec<&str> = TOOLS.iter().map(|tool| tool.name).collect();
        format!("{} is no tool: expected {}", quoted(name), names.join(", "))
    })?;
    (tool.answer)(&Fields::parse(rest, &tool.keys)?)
}

#[cfg(test)]
mod tests {
    use super::*;

    const CASE_A: &str = "report budget=1000000 words=11002001,2000000A,30000000,41801000,50001002,60400001,F0000000";
    const REPORT_A: &str =
        "lower 9.99500000E-4\nupper 1.00000000E-3\ncut 0\ndeaths 1\ncuts 0\nsteps 1\nexact 11";

    fn answered(line: &str) -> String {
        answer(line.as_bytes()).unwrap_or_else(|why| format!("error: {why}"))
    }

    #[test]
    fn cases() {
        assert_eq!(answered(CASE_A), REPORT_A);
        assert_eq!(answered("report words= budget=7"), "refused 3 at 0");
        assert_eq!(answered("report words=- budget=7"), "refused 3 at 0");
        assert_eq!(answered(&format!("{CASE_A},-")), "refused 3 at 7");
        assert_eq!(answered(&CASE_A.replace("1000000", "0")), "refused 2 at 0");
        assert_eq!(answered(&CASE_A.replace("1000000", "18446744073709551615")), "refused 2 at 0");
        assert_eq!(answered("at-or-below figure=999500000e-12 limit=100000000e-11"), "yes");
        assert_eq!(answered("at-or-below figure=100000001e-11 limit=100000000e-11"), "no");
        assert_eq!(answered("at-or-below figure=0e0 limit=0e0"), "yes");
        assert_eq!(answered("at-or-below figure=123e0 limit=0e0"), "no figure");
        assert_eq!(answered("at-or-below figure=0e0 limit=0e5"), "no figure");
    }

    #[test]
    fn rows() {
        let with = |lent: &str| CASE_A.replace(" words", &format!(" rows={lent} words"));
        assert_eq!(answered(&with("0")), "refused 14 at 1");
        let row = "row 2 9.99500000E-4 1.00000000E-3";
        for lent in ["1", "2", "1000", "1001", "100000"] {
            assert_eq!(answered(&with(lent)), format!("{REPORT_A}\n{row}"), "{lent}");
        }
        assert_eq!(answered("report rows=7 words= budget=7"), "refused 3 at 0");
        assert_eq!(answered(&with("0").replace("1000000", "0")), "refused 2 at 0");
    }

    /// Cases of other hands: 04-000-none, 04-012-power--2001, 04-014-lower-over-upper, 04-018-zero-with-power, 04-037-pairs2, 04-002-17 and 04-001-16.
    #[test]
    fn pairs() {
        for (given, expected) in [
            ("", "refused 17 at 0"),
            ("123456789e-11:123456789e-11,100000000e-2001:123456789e-11", "refused 18 at 1"),
            ("500000000e-9:499999999e-9", "refused 18 at 0"),
            ("0e1:500000000e-9", "refused 18 at 0"),
            (
                "200000000e-9:200000007e-9,542896543e-11:100000000e-8",
                "lower 2.04343172E-1\nupper 1.00000000E0",
            ),
            ("18446744073709551615e2147483647:0e-2147483648", "refused 18 at 0"),
        ] {
            assert_eq!(answered(&format!("or pairs={given}")), expected, "{given}");
        }
        let many = |count| vec!["123456789e-11:500000000e-9"; count].join(",");
        assert_eq!(answered(&format!("or pairs={}", many(17))), "refused 17 at 0");
        let sixteen = "lower 1.95712364E-2\nupper 9.99984742E-1";
        assert_eq!(answered(&format!("or pairs={}", many(16))), sixteen);
    }

    /// Cases of other hands: 03-000-named, 03-001-rows-short, 03-010-falling and 03-017-has-exits.
    #[test]
    fn named_states() {
        let named = |budget: &str, first: &str, second: &str| {
            format!("report {budget} words=11005001,2000000A,30000000,41801000,{first},{second},50001002,60400001,50001003,60400001,50002004,60400001,50002005,60400001,F0000000")
        };
        let report = "lower 4.99333333E-7\nupper 1.00100000E-3\ncut 1.00050000E-3\ndeaths 1\ncuts 2\nsteps 4\nexact 01";
        for (budget, first, second, expected) in [
            ("budget=1000000", "C0000003", "C0000005", report.into()),
            (
                "budget=1000000 rows=1",
                "C0000003",
                "C0000005",
                format!("{report}\nrow 4 4.99333333E-7 5.00000000E-7"),
            ),
            ("budget=1000000 rows=0", "C0000003", "C0000005", "refused 14 at 1".into()),
            ("budget=2 rows=3", "C0000003", "C0000005", "refused 13 at 0\nrow 4 0 0".into()),
            ("budget=1000000", "C0000003", "C0000002", "refused 15 at 5".into()),
            ("budget=1000000", "C0000002", "C0000003", "refused 16 at 2".into()),
        ] {
            assert_eq!(
                answered(&named(budget, first, second)),
                expected,
                "{budget} {first} {second}"
            );
        }
    }

    #[test]
    fn what_is_no_case() {
        for line in [
            "",
            " ",
            "report",
            "report ",
            "Report budget=1 words=",
            "report budget=1",
            "report words=",
            "report budget=1 words= ",
            "report  budget=1 words=",
            "report budget=1 budget=1 words=",
            "report budget=1 words= rows=",
            "report budget=1 words= rows=-1",
            "report budget=1 words= rows=1 rows=1",
            "report budget=1 words= rows=100001",
            "report budget=1 words= rows=18446744073709551616",
            "report budget=1 rows=1",
            "report words= rows=1",
            "at-or-below figure=0e0 limit=0e0 rows=1",
            "report budget= words=",
            "report budget=+1 words=",
            "report budget=1e6 words=",
            "report budget=18446744073709551616 words=",
            "report budget=1 words=1100200",
            "report budget=1 words=11002001,",
            "report budget=1 words=11002001, 2000000A",
            "report budget=1 words=-,11002001",
            "report budget=1 words=11002001-",
            "report budget=1 words=+1002001",
            "why words= indexes=",
            "at-or-below figure=1E-9 limit=0e0",
            "at-or-below figure=1e-9.0 limit=0e0",
            "at-or-below figure=-1e0 limit=0e0",
            "at-or-below figure=1e2147483648 limit=0e0",
            "at-or-below figure=1 limit=0e0",
            "or",
            "or ",
            "or pairs",
            "or pairs=.",
            "or pairs=,",
            "or pairs=:",
            "or pairs=0e0",
            "or pairs=0e0:",
            "or pairs=0e0:0e0,",
            "or pairs=0e0:0e0:0e0",
            "or pairs=0e0:0e0;0e0:0e0",
            "or pairs=0e0:0e0, 0e0:0e0",
            "or pairs=0:0",
            "or pairs=-1e0:0e0",
            "or pairs=1E-9:1E-9",
            "or pairs=18446744073709551616e0:0e0",
            "or pairs=0e0:0e2147483648",
            "or pairs=0e0:0e0 pairs=0e0:0e0",
            "or pairs=0e0:0e0 budget=1",
        ] {
            assert!(answered(line).starts_with("error: "), "{line}");
        }
        assert!(answer(b"report\xff").is_err());
    }

    /// What is echoed is quoted and cut.
    #[test]
    fn echoes() {
        let long = "1".repeat(1000);
        let cut = format!("\"{}..\"", "1".repeat(40));
        for (line, expected) in [
            ("report words= budget=1\r", "budget=\"1\\r\": expected a decimal number"),
            ("at-or-below figure=1\0e0 limit=0e0", "figure=\"1\\0e0\": expected digits, e"),
            (&format!("report words= budget={long}"), &format!("budget={cut}: expected")),
            (&format!("report budget=1 words={long}"), &format!("words: {cut} is no word")),
            (&format!("at-or-below figure={long} limit="), &format!("figure={cut}: expected")),
            (&format!("or pairs=0e0:0e0,{long}"), &format!("pairs: {cut} is no pair: expected")),
            (&format!("report {long}"), &format!("{cut} is no KEY=VALUE")),
            (&format!("report {long}=1"), &format!("{cut} is no key")),
            (&long, &format!("{cut} is no tool")),
        ] {
            let answer = answered(line);
            assert!(answer.starts_with(&format!("error: {expected}")), "{answer}");
        }
    }

    /// Each line has its answer and an empty line, one that is no case and a last one without a newline included.
    #[test]
    fn lines() -> Result<(), Failure> {
        let mut out = Vec::new();
        let input = format!("{CASE_A}\nno case\n{CASE_A}");
        assert_eq!(answer_all(&mut input.as_bytes(), &mut out)?, Status::Reported);
        let answers = String::from_utf8_lossy(&out);
        let answers: Vec<&str> = answers.split("\n\n").collect();
        assert_eq!(answers.len(), 4);
        assert_eq!((answers[0], answers[2], answers[3]), (REPORT_A, REPORT_A, ""));
        assert!(answers[1].starts_with("error: \"no\" is no tool"), "{}", answers[1]);
        Ok(())
    }
}
