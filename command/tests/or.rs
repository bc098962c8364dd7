//! `bounds or` as users run it: models or pairs in, one lower and one upper out.

mod common;

use common::{run, said, Tested, DIGITS_A};

const SENSORS: &str = "examples/papers/rp-12.1-sensors.txt";
const TRIAD: &str = "examples/papers/rp-10.3-onetriad.txt";
const ACTUATOR: &str = "examples/papers/rp-12.1-actuator.txt";
const TOGETHER: &str = "lower 1.59705200E-6\nupper 1.60449852E-6\n";

/// The two lines of a report that are combined, as `--pair` takes them.
fn pair_of(file: &str) -> Result<String, Box<dyn std::error::Error>> {
    let report = said(&["report", file], "")?.1;
    let figure = |name| report.lines().find_map(|line| line.strip_prefix(name)).ok_or("a line");
    Ok(format!("{}:{}", figure("lower ")?, figure("upper ")?))
}

#[test]
fn models() -> Tested {
    let expected = (0, TOGETHER.into(), "".into());
    assert_eq!(said(&["or", SENSORS, TRIAD, ACTUATOR], "")?, expected);
    let (a, b, c) = (pair_of(SENSORS)?, pair_of(TRIAD)?, pair_of(ACTUATOR)?);
    assert_eq!(said(&["or", "--pair", &a, "--pair", &b, &format!("--pair={c}")], "")?, expected);
    let bytes = run(&["words", TRIAD], b"")?.stdout;
    assert_eq!(run(&["or", SENSORS, "-", ACTUATOR], &bytes)?.stdout, TOGETHER.as_bytes());
    let one = "lower 9.99500000E-4\nupper 1.00000000E-3\n";
    assert_eq!(said(&["or", "-", "--as", "digits"], DIGITS_A)?, (0, one.into(), "".into()));
    let sixteen = [&["or"][..], &["examples/marked/a.txt"; 16]].concat();
    let (status, out, _) = said(&sixteen, "")?;
    assert_eq!((status, out.as_str()), (0, "lower 1.58726768E-2\nupper 1.58805586E-2\n"));
    Ok(())
}

/// Pairs in other spellings; an upper above 1 counts as 1.
#[test]
fn pairs() -> Tested {
    for (pairs, expected) in [
        (&["0:0"][..], "lower 0\nupper 0\n"),
        (&["0.5:2"], "lower 5.00000000E-1\nupper 1.00000000E0\n"),
        (&["0.1:0.1", "1e-1:1E-1"], "lower 1.90000000E-1\nupper 1.90000000E-1\n"),
        (&["1E-1992:9.99999999E2008"], "lower 1.00000000E-1992\nupper 1.00000000E0\n"),
    ] {
        let given = pairs.iter().flat_map(|pair| ["--pair", pair]);
        let arguments: Vec<&str> = ["or"].into_iter().chain(given).collect();
        assert_eq!(said(&arguments, "")?, (0, expected.into(), "".into()), "{pairs:?}");
    }
    Ok(())
}

#[test]
fn requirements() -> Tested {
    let asked = |limit| said(&["or", SENSORS, TRIAD, ACTUATOR, "--at-most", limit], "");
    let expected = format!("{TOGETHER}at most 1.60449852E-6 yes\n");
    assert_eq!(asked("1.60449852E-6")?, (0, expected, "".into()));
    let expected = format!("{TOGETHER}at most 1.60449851E-6 no\n");
    assert_eq!(asked("1.60449851E-6")?, (3, expected, "".into()));
    let pair = ["or", "--pair", "0.1:0.2", "--json"];
    let object = "{\"answer\": \"or\", \"lower\": \"1.00000000E-1\", \"upper\": \"2.00000000E-1\"";
    assert_eq!(said(&pair, "")?, (0, format!("{object}}}\n"), "".into()));
    let asked = |limit| said(&[&pair[..], &["--at-most", limit]].concat(), "");
    assert_eq!(asked("0.2")?, (0, format!("{object}, \"meets\": true}}\n"), "".into()));
    assert_eq!(asked("0.19")?, (3, format!("{object}, \"meets\": false}}\n"), "".into()));
    Ok(())
}

/// A refused model: the explanation of `bounds report` behind the file's name, whatever stands beside it, and no figure.
#[test]
fn refused_models() -> Tested {
    let refused = "examples/marked/g.txt";
    let report = said(&["report", refused], "")?.1;
    for files in [&[refused][..], &[SENSORS, refused], &[refused, "nowhere.txt"]] {
        let expected = (1, format!("{refused}: {report}"), "".into());
        assert_eq!(said(&[&["or"], files].concat(), "")?, expected, "{files:?}");
    }
    let (status, out, error) = said(&["or", SENSORS, "-", "--json"], "11002001")?;
    assert_eq!((status, error.as_str()), (1, ""));
    let expected =
        "{\"answer\": \"refused\", \"file\": \"-\", \"number\": 3, \"place\": 1, \"sentence\": ";
    assert!(out.starts_with(expected), "{out}");
    Ok(())
}

/// A pair that the library refuses is shown as it was written.
#[test]
fn refused_pairs() -> Tested {
    let sentence = "Pair 1 holds what is no figure, a power of ten outside -2,000 to 2,000, or a lower above 1 or above its upper.";
    for pair in ["0.2:0.10", "1.00000001:2", "1E-1993:1", "1:1E2009", "1:0"] {
        let (status, out, error) = said(&["or", "--pair", "0:1", "--pair", pair], "")?;
        assert_eq!((status, error.as_str()), (1, ""), "{pair}");
        let expected = format!("refused 18 at 1\n{sentence}\n  --pair {pair}\nLook at: The pair: ");
        assert!(out.starts_with(&expected), "{out}");
    }
    let (status, out, _) = said(&["or", "--pair", "2:1", "--pair", "0:1", "--json"], "")?;
    assert_eq!(status, 1);
    let expected = format!(
        "{{\"answer\": \"refused\", \"number\": 18, \"place\": 0, \"sentence\": \"{}\", \"spots\": [{{\"text\": \"--pair 2:1\"}}], ",
        sentence.replace("Pair 1", "Pair 0")
    );
    assert!(out.starts_with(&expected), "{out}");
    Ok(())
}

/// More than 16 are refused for their number: pairs before one that is out of range, and models before any is read.
#[test]
fn too_many() -> Tested {
    let expected = "refused 17 at 0\nThere must be from 1 to 16 pairs of figures.\nLook at: The number of pairs: ";
    for arguments in [["nowhere.txt"; 17].to_vec(), ["--pair=2:1"; 17].to_vec()] {
        let (status, out, error) = said(&[&["or"], &arguments[..]].concat(), "")?;
        assert_eq!((status, error.as_str()), (1, ""));
        assert!(out.starts_with(expected), "{out}");
        let (status, out, _) = said(&[&["or", "--json"], &arguments[..]].concat(), "")?;
        assert_eq!(status, 1);
        assert!(out.contains("\"number\": 17, \"place\": 0, ") && out.contains("\"spots\": [], "));
    }
    Ok(())
}

#[test]
fn what_is_no_input() -> Tested {
    let long = "9".repeat(1000);
    let cut = format!("bounds: --pair {}..: expected LOWER:UPPER", "9".repeat(40));
    for (arguments, expected) in [
        (&[][..], "bounds: expected FILE .. or --pair LOWER:UPPER .., not nothing\n"),
        (&["--json"], "bounds: expected FILE .. or --pair LOWER:UPPER .., not nothing\n"),
        (&[SENSORS, "--pair", "0:1"], "bounds: expected models or pairs, not both\n"),
        (&["-", SENSORS, "-"], "bounds: - stands twice, and standard input is one model\n"),
        (&["--pair", "0:1", "--as", "lines"], "bounds: --as is for models, and there are pairs\n"),
        (&["--pair"], "bounds: --pair takes a value\n"),
        (&["--pair", "0"], "bounds: --pair 0: expected LOWER:UPPER, such as 1E-9:2E-9\n"),
        (
            &["--pair", "0:1", "--pair", "0:0.00"],
            "bounds: --pair 0:0.00: upper: no figure such as ",
        ),
        (&["--pair", "x:1"], "bounds: --pair x:1: lower: no figure such as "),
        (&["--pair", &long], &cut),
        (&["nowhere.txt", SENSORS], "bounds: nowhere.txt: "),
        (&[SENSORS, "-"], "bounds: -: expected a model"),
        (&[SENSORS, "--as", "pages"], "bounds: --as pages: expected lines, "),
        (&[SENSORS, "--budget", "7"], "bounds: --budget is no option; there are --json, --pair, "),
        (&[SENSORS, "--at-most", "0.00"], "bounds: --at-most 0.00: no figure such as "),
        (&[SENSORS, "--at-most", "1", "--at-most", "2"], "bounds: --at-most stands twice\n"),
    ] {
        let (status, out, error) = said(&[&["or"], arguments].concat(), "")?;
        assert_eq!((status, out.as_str()), (2, ""), "{arguments:?}");
        assert!(error.starts_with(expected), "{arguments:?}: {error}");
    }
    Ok(())
}
