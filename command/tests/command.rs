//! The command as users run it: what it prints, and its exit status.

mod common;

use common::{run, said, Tested, DIGITS_A};
use std::process::Command;

const REPORT_A: &str =
    "lower 9.99500000E-4\nupper 1.00000000E-3\ncut 0\ndeaths 1\ncuts 0\nsteps 1\nexact 11\n";

#[test]
fn reports() -> Tested {
    assert_eq!(said(&["report", "examples/marked/a.txt"], "")?, (0, REPORT_A.into(), "".into()));
    assert_eq!(said(&["report", "-"], DIGITS_A)?, (0, REPORT_A.into(), "".into()));
    let bytes = run(&["words", "examples/marked/a.txt"], b"")?.stdout;
    assert_eq!(run(&["report", "-"], &bytes)?.stdout, REPORT_A.as_bytes());
    let (status, out, _) = said(&["report", "-", "--json"], DIGITS_A)?;
    assert_eq!(status, 0);
    assert!(out.starts_with("{\"answer\": \"report\", \"lower\": \"9.99500000E-4\", "), "{out}");
    let marks = "\"steps\": 1, \"lower_exact\": true, \"upper_exact\": true}\n";
    assert!(out.ends_with(marks), "{out}");
    Ok(())
}

/// The greatest upper first, then the cut paths and the whole.
#[test]
fn rows() -> Tested {
    let expected = "state  lower           upper           share\n\
                    5      5.95907546E-10  6.00000000E-10  99.95%\n\
                    3      2.93991641E-13  3.00000000E-13  0.05%\n\
                    cut    -               0               -\n\
                    all    5.96201537E-10  6.00300000E-10  100.00%\n";
    let file = "examples/papers/tp2764-ex1.txt";
    assert_eq!(said(&["rows", file], "")?, (0, expected.into(), "".into()));
    let bytes = run(&["words", file], b"")?.stdout;
    assert_eq!(run(&["rows", "-", "--budget=4"], &bytes)?.stdout, expected.as_bytes());
    let (status, out, _) = said(&["rows", file, "--json"], "")?;
    assert_eq!(status, 0);
    let expected = "\"lower_exact\": false, \"upper_exact\": true, \"rows\": [\
                    {\"state\": 5, \"lower\": \"5.95907546E-10\", \"upper\": \"6.00000000E-10\", \"share\": \"99.95%\"}, \
                    {\"state\": 3, \"lower\": \"2.93991641E-13\", \"upper\": \"3.00000000E-13\", \"share\": \"0.05%\"}]}\n";
    assert!(out.starts_with("{\"answer\": \"report\", ") && out.ends_with(expected), "{out}");
    Ok(())
}

/// Case 03-000-named of the answers of other hands: the generator pruned states 3 and 5.
const PRUNED: &str =
    "states 5\nstart 1\ntime 10\nprune 0\nsteps 24\nentries 1\npruned 3\npruned 5\n\
                      slow 1 2 1e-4\nslow 1 3 1e-4\nslow 2 4 1e-4\nslow 2 5 1e-4\n";

/// What ends in a pruned state is cut; it has no row.
#[test]
fn pruned_states() -> Tested {
    let expected = "lower 4.99333333E-7\nupper 1.00100000E-3\ncut 1.00050000E-3\n\
                    deaths 1\ncuts 2\nsteps 4\nexact 01\n";
    assert_eq!(said(&["report", "-"], PRUNED)?, (0, expected.into(), "".into()));
    let expected = "state  lower          upper          share\n\
                    4      4.99333333E-7  5.00000000E-7  0.05%\n\
                    cut    -              1.00050000E-3  99.95%\n\
                    all    4.99333333E-7  1.00100000E-3  100.00%\n";
    assert_eq!(said(&["rows", "-"], PRUNED)?, (0, expected.into(), "".into()));
    let (status, out, _) = said(&["sweep", "-", "--rate", "1=1e-4"], PRUNED)?;
    let expected =
        "1e-4       4.99333333E-7  1.00100000E-3  1.00050000E-3  1       2     4      01";
    assert_eq!((status, out.lines().nth(1)), (0, Some(expected)));
    let digits = said(&["words", "--hex", "-"], PRUNED)?.1;
    assert!(digits.contains("\n41801000\nC0000003\nC0000005\n50001002\n"), "{digits}");
    assert_eq!(said(&["text", "-"], &digits)?.1, PRUNED);
    assert_eq!(said(&["line", "-", "5"], PRUNED)?.1, "8: pruned 5\n");
    Ok(())
}

/// The lines that a refusal of pruned states speaks of: the line of the word, or that of the state with its exits.
#[test]
fn refusals_of_pruned_states() -> Tested {
    for (old, new, expected) in [
        (
            "pruned 5",
            "pruned 2",
            "refused 15 at 5\nThe state named by word 5 is not greater than the one named before it.\n  -:8: pruned 2\nLook at: ",
        ),
        ("pruned 5", "pruned 3", "refused 15 at 5\n"),
        (
            "pruned 3\npruned 5",
            "pruned 2\npruned 3",
            "refused 16 at 2\nState 2 is named as the generator's and has exits.\n  -:7: pruned 2\n  -:11: slow 2 4 1e-4\n  -:12: slow 2 5 1e-4\nLook at: ",
        ),
        ("start 1", "start 3", "refused 11 at 3\nThe start state 3 has no exits.\n  -:2: start 3\n"),
    ] {
        let (status, out, _) = said(&["report", "-"], &PRUNED.replace(old, new))?;
        assert_eq!(status, 1);
        assert!(out.starts_with(expected), "{out}");
    }
    let with_exits = PRUNED.replace("pruned 3\npruned 5", "pruned 2\npruned 3");
    let digits = said(&["words", "--hex", "-"], &with_exits)?.1;
    let (_, out, _) = said(&["report", "-", "--json"], &digits)?;
    assert!(
        out.contains("[{\"line\": 5, \"word\": 4, \"text\": \"C0000002\"}, {\"line\": 11, "),
        "{out}"
    );
    Ok(())
}

/// A state that no path ends in has a row without a share; a model whose paths are all cut has no row.
#[test]
fn rows_without_a_share() -> Tested {
    let lines = "states 4\nstart 1\ntime 10\nprune 0\nsteps 24\nentries 1\n\
                 slow 1 2 1e-4\nslow 3 4 1e-4\n";
    let expected = "state  lower          upper          share\n\
                    2      9.99500000E-4  1.00000000E-3  100.00%\n\
                    4      0              0              -\n\
                    cut    -              0              -\n\
                    all    9.99500000E-4  1.00000000E-3  100.00%\n";
    assert_eq!(said(&["rows", "-"], lines)?, (0, expected.into(), "".into()));
    let (_, out, _) = said(&["rows", "-", "--json"], lines)?;
    assert!(out.contains("\"upper\": \"0\", \"share\": null}"), "{out}");
    let (_, out, _) = said(&["rows", "examples/marked/d.txt"], "")?;
    assert!(out.contains("\ncut    -      5.00000000E-5  100.00%\n"), "{out}");
    assert_eq!(out.lines().count(), 3);
    let (_, out, _) = said(&["rows", "examples/marked/d.txt", "--json"], "")?;
    assert!(out.ends_with(", \"rows\": []}\n"), "{out}");
    Ok(())
}

/// A refusal is printed as `bounds report` prints it.
#[test]
fn rows_of_what_is_refused() -> Tested {
    for arguments in [&["examples/marked/g.txt"][..], &["examples/marked/b.txt", "--budget", "3"]] {
        for more in [&[][..], &["--json"]] {
            let asked = |name| said(&[&[name], arguments, more].concat(), "");
            let (status, out, error) = asked("rows")?;
            assert_eq!((status, error.as_str()), (1, ""));
            assert_eq!(out, asked("report")?.1);
        }
    }
    Ok(())
}

/// Every example: the rows' shares and the order of their uppers, beside the report.
#[test]
fn rows_of_examples() -> Tested {
    for entry in std::fs::read_dir("../examples/papers")? {
        let file = format!("examples/papers/{}", entry?.file_name().to_string_lossy());
        let (status, out, _) = said(&["rows", &file], "")?;
        assert_eq!(status, 0, "{file}");
        let cells: Vec<Vec<&str>> =
            out.lines().skip(1).map(|line| line.split_whitespace().collect()).collect();
        let (rows, rest) = cells.split_at(cells.len() - 2);
        let mut uppers = Vec::new();
        for row in rows {
            uppers.push(row[2].parse::<bounds::Figure>().map_err(|why| format!("{file}: {why}"))?);
        }
        assert!(uppers.windows(2).all(|two| two[0] >= two[1]), "{file}");
        let report = said(&["report", &file], "")?.1;
        let all = format!("lower {}\nupper {}\ncut {}\n", rest[1][1], rest[1][2], rest[0][2]);
        assert!(report.starts_with(&all), "{file}");
    }
    Ok(())
}

#[test]
fn requirements() -> Tested {
    let asked = |limit| said(&["report", "-", "--at-most", limit], DIGITS_A);
    assert_eq!(asked("1E-3")?, (0, format!("{REPORT_A}at most 1.00000000E-3 yes\n"), "".into()));
    assert_eq!(asked("9.99999999E-4")?.0, 3);
    for limit in ["", "0.00", "1E-3x", "-1", "1234567891"] {
        let (status, out, error) = asked(limit)?;
        assert_eq!((status, out.as_str()), (2, ""), "{limit}");
        assert!(error.starts_with("bounds: --at-most "), "{error}");
    }
    Ok(())
}

#[test]
fn refusals() -> Tested {
    let (status, out, _) = said(&["report", "examples/marked/g.txt"], "")?;
    assert_eq!(status, 1);
    assert!(out.starts_with("refused 10 at 1\nThe probabilities of the fast exits of state 1 do not add up to exactly 1.\n"));
    assert!(out.contains("  examples/marked/g.txt:9: fast 1 2 1e-4 1e-4 0.333333\n"), "{out}");
    assert!(out.contains("\nLook at: "), "{out}");
    let (status, out, _) = said(&["report", "-"], &DIGITS_A.replace("60400001", "60400000"))?;
    assert_eq!(status, 1);
    let expected = "The quantity in word 5 is out of range.\n  -:1: word 5: 60400000\nLook at: ";
    assert!(out.contains(expected), "{out}");
    let (status, out, _) = said(&["report", "-", "--json"], "11002001")?;
    assert_eq!(status, 1);
    assert!(out.starts_with("{\"answer\": \"refused\", \"number\": 3, \"place\": 1, "), "{out}");
    assert_eq!(said(&["report", "-", "--budget", "0"], DIGITS_A)?.0, 1);
    Ok(())
}

/// Words on one line are marked one by one; `bounds line` still says the line.
#[test]
fn refusals_of_digits() -> Tested {
    let digits = said(&["words", "--hex", "examples/marked/g.txt"], "")?.1.replace('\n', " ");
    let (status, out, _) = said(&["report", "-"], &digits)?;
    assert_eq!(status, 1);
    let spots: Vec<&str> = out.lines().filter(|line| line.starts_with("  ")).collect();
    let expected = ["word 4: 70001002", "word 8: 70001003", "word 12: 70001004"];
    assert_eq!(spots, expected.map(|spot| format!("  -:1: {spot}")));
    let (_, out, _) = said(&["report", "-", "--json"], &digits)?;
    assert!(out.contains("[{\"line\": 1, \"word\": 4, \"text\": \"70001002\"}, "), "{out}");
    let bytes = run(&["words", "examples/marked/g.txt"], b"")?.stdout;
    let out = String::from_utf8(run(&["report", "-", "--json"], &bytes)?.stdout)?;
    assert!(out.contains("[{\"word\": 4, \"text\": \"70001002\"}, "), "{out}");
    assert_eq!(said(&["line", "-", "4"], &digits)?.1, format!("1: {}\n", digits.trim()));
    let (status, _, error) = said(&["text", "-"], &format!("{digits} 00000000"))?;
    assert_eq!((status, error.as_str()), (2, "bounds: -:1: word 17: a word follows the end\n"));
    Ok(())
}

#[test]
fn what_is_no_input() -> Tested {
    for (arguments, input, expected) in [
        (&["report", "-"][..], "", "bounds: -: expected a model"),
        (&["report", "-"], "states 2\nstates 3\n", "bounds: -:2: states stood already on line 1"),
        (
            &["report", "-"],
            "state 2\n",
            "bounds: -:1: state is no name of a line: expected states, ",
        ),
        (&["report", "-"], "11002001\n2000000\n", "bounds: -:2: 2000000 is no word of eight"),
        (&["report", "nowhere.txt"], "", "bounds: nowhere.txt: "),
        (&["report", "-", "--as", "pages"], DIGITS_A, "bounds: --as pages: expected lines, "),
        (&["report", "-", "--yaml"], DIGITS_A, "bounds: --yaml is no option; there are "),
        (&["report"], "", "bounds: expected FILE"),
        (&["report", "-"], "states 2\npruned 2\n", "bounds: -:2: start is missing: it stands "),
        (&["text", "-"], "11002001 2000000A", "bounds: -: word 2: the words end"),
        (&["line", "-", "7"], DIGITS_A, "bounds: -: 7 is no place: expected 0 to 6"),
        (
            &["line", "-", "0", "--as", "digits"],
            "",
            "bounds: -: 0 is no place: the file has no words\n",
        ),
        (
            &["line", "-", "0", "--as", "bytes"],
            "",
            "bounds: -: 0 is no place: the file has no words\n",
        ),
        (
            &["report", "-", "--as", "lines"],
            "# a comment\rstates 2\n",
            "bounds: -:1: line break U+000D: expected lines that end in LF or CR LF",
        ),
        (
            &["report", "-", "--budget", "18446744073709551616"],
            DIGITS_A,
            "bounds: --budget 18446744073709551616: expected a whole number of at most 18446744073709551615, such as 1000000\n",
        ),
        (&["rows", "-", "--at-most", "1"], DIGITS_A, "bounds: --at-most is no option; there are "),
        (&["rows", "-", "--budget", "x"], DIGITS_A, "bounds: --budget x: expected a whole number"),
        (&["rows"], "", "bounds: expected FILE"),
        (&["sweep", "-"], DIGITS_A, "bounds: expected one of --time, "),
        (
            &["sweep", "-", "--time", "1", "--prune", "0"],
            DIGITS_A,
            "bounds: expected one of --time, ",
        ),
        (&["sweep", "-", "--time", "1,x"], DIGITS_A, "bounds: --time: x is no decimal number"),
        (&["sweep", "-", "--time", "1"], "11002001", "bounds: -: word 1: "),
        (&["answers", "file"], "", "bounds: expected nothing beside the options"),
        (&["reports"], "", "bounds: reports is no subcommand"),
        (&[], "", "bounds: a subcommand is missing"),
    ] {
        let (status, out, error) = said(arguments, input)?;
        assert_eq!((status, out.as_str()), (2, ""), "{arguments:?}");
        assert!(error.starts_with(expected), "{arguments:?}: {error}");
    }
    Ok(())
}

/// A zero is a zero whatever its exponent, and at once.
#[test]
fn zeros() -> Tested {
    let lines = std::fs::read_to_string("../examples/marked/a.txt")?;
    for zero in ["0e2147483647", "0e-2147483648"] {
        let lines = lines.replace("prune 0", &format!("prune {zero}"));
        assert_eq!(said(&["report", "-"], &lines)?, (0, REPORT_A.into(), "".into()));
    }
    for zero in ["0", "0e-1", "0e-20"] {
        let lines = lines.replace("prune 0", &format!("prune {zero}"));
        let digits = said(&["words", "--hex", "-"], &lines)?.1;
        let text = said(&["text", "-"], &digits)?.1;
        assert!(text.contains(&format!("\nprune {zero}\n")), "{text}");
    }
    Ok(())
}

/// What is echoed is cut.
#[test]
fn echoes() -> Tested {
    let long = "9".repeat(1000);
    let cut = format!("{}..", "9".repeat(40));
    let head = std::fs::read_to_string("../examples/marked/a.txt")?;
    for (arguments, input, expected) in [
        (&["report", "-"][..], format!("{long} 1\n"), format!("-:1: {cut} is no name of a line")),
        (&["report", "-"], format!("states {long}\n"), format!("-:1: {cut} is no whole number")),
        (&["report", "-"], format!("time {long}\n"), format!("-:1: {cut} needs more than six")),
        (&["report", "-"], format!("time x{long}\n"), format!("-:1: x{}.. is no", &long[..39])),
        (&["report", "-"], format!("11002001 {long}"), format!("-:1: {cut} is no word of eight")),
        (&["line", "-", &long], head.clone(), format!("-: {cut} is no place: expected 0 to 6")),
        (&["report", "-", "--at-most", &long], "".into(), format!("--at-most {cut}: ")),
        (&["report", "-", "--budget", &long], "".into(), format!("--budget {cut}: expected")),
        (&["report", "-", "--as", &long], "".into(), format!("--as {cut}: expected lines")),
        (&["sweep", "-", "--rate", &long], head.clone(), format!("--rate {cut}: expected INDEX")),
        (&["sweep", "-", "--step-limit", &long], head, format!("--step-limit: \"{cut}\" is no")),
        (&["answers", &long], "".into(), format!("expected nothing beside the options, not {cut}")),
        (&[&long], "".into(), format!("{cut} is no subcommand")),
    ] {
        let (status, out, error) = said(arguments, &input)?;
        assert_eq!((status, out.as_str()), (2, ""), "{arguments:?}");
        assert!(error.starts_with(&format!("bounds: {expected}")), "{error}");
    }
    Ok(())
}

#[test]
fn both_ways() -> Tested {
    let lines = std::fs::read_to_string("../examples/marked/b.txt")?;
    let plain: String =
        lines.lines().filter(|l| !l.starts_with('#')).map(|l| format!("{l}\n")).collect();
    let digits = said(&["words", "--hex", "-"], &lines)?.1;
    let bytes = run(&["words", "-"], lines.as_bytes())?.stdout;
    assert_eq!(said(&["text", "-"], &digits)?, (0, plain.clone(), "".into()));
    assert_eq!(run(&["text", "-"], &bytes)?.stdout, plain.as_bytes());
    assert_eq!(said(&["line", "examples/marked/b.txt", "9"], "")?.1, "11: fast 2 4 1e-4 1e-4 1\n");
    Ok(())
}

#[test]
fn sweeps() -> Tested {
    let (status, out, _) = said(&["sweep", "-", "--time", "10,100"], DIGITS_A)?;
    let expected = "time  lower          upper          cut  deaths  cuts  steps  exact\n\
                    10    9.99500000E-4  1.00000000E-3  0    1       0     1      11\n\
                    100   9.95000000E-3  1.00000000E-2  0    1       0     1      11\n";
    assert_eq!((status, out.as_str()), (0, expected));
    let (status, out, _) = said(&["sweep", "-", "--rate", "0=1e-4", "--budget", "0"], DIGITS_A)?;
    assert_eq!((status, out.lines().nth(1)), (1, Some("1e-4       refused 2 at 0")));
    let file = std::env::temp_dir().join(format!("bounds-sweep-{}.svg", std::process::id()));
    let name = file.to_str().ok_or("a name")?;
    assert_eq!(said(&["sweep", "-", "--time", "1,10", "--svg", name], DIGITS_A)?.0, 0);
    let plot = std::fs::read_to_string(&file)?;
    std::fs::remove_file(&file)?;
    assert!(plot.starts_with("<svg ") && plot.ends_with("</svg>\n"));
    Ok(())
}

/// The plot is not written over the model, by whatever name.
#[test]
fn plots_over_models() -> Tested {
    let folder = std::env::temp_dir().join(format!("bounds-plot-{}", std::process::id()));
    std::fs::create_dir(&folder)?;
    let model = folder.join("m.txt");
    std::fs::write(&model, DIGITS_A)?;
    let model = model.to_str().ok_or("a name")?;
    let other = folder.join("./m.txt");
    let other = other.to_str().ok_or("a name")?;
    for plot in [model, other] {
        let (status, out, error) = said(&["sweep", model, "--time", "1", "--svg", plot], "")?;
        assert_eq!((status, out.as_str()), (2, ""));
        assert!(error.ends_with(": expected another file than the model's own\n"), "{error}");
    }
    let mut from_input = Command::new(env!("CARGO_BIN_EXE_bounds"));
    from_input.args(["sweep", "-", "--time", "1", "--svg", model]);
    let output = from_input.stdin(std::fs::File::open(model)?).output()?;
    assert_eq!(output.status.code(), Some(2));
    assert_eq!(std::fs::read_to_string(model)?, DIGITS_A);
    std::fs::remove_dir_all(&folder)?;
    Ok(())
}

#[test]
fn help_and_version() -> Tested {
    let version = env!("CARGO_PKG_VERSION");
    let expected = format!("bounds {version}, library {version}\n");
    assert_eq!(said(&["--version"], "")?, (0, expected, "".into()));
    let (status, usage, _) = said(&["--help"], "")?;
    assert_eq!(status, 0);
    assert!(usage.ends_with(", 2 usage or input, 3 upper is above --at-most.\n"), "{usage}");
    for name in ["report", "rows", "or", "sweep", "words", "text", "line", "answers"] {
        assert!(usage.contains(&format!("  bounds {name}")), "{name}");
        let (status, help, _) = said(&[name, "--help"], "")?;
        assert_eq!(status, 0);
        assert!(help.starts_with(&format!("usage: bounds {name}")), "{help}");
    }
    Ok(())
}
