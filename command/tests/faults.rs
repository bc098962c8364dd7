//! What is refused, and the line or the word that is named.

use bounds_command::model::{text, words};

const HEAD: &str = "states 3\nstart 1\ntime 10\nprune 0\nsteps 24\nentries 1\n";

/// The line that a text is refused at, or 0.
fn line(text: &str) -> usize {
    text::words_of(text).err().map_or(0, |fault| fault.at)
}

#[test]
fn lines() {
    assert_eq!(line(HEAD), 0);
    for (rest, at) in [
        ("slow 1 2 1e-4\n", 0),
        ("slow 1 2 1e-4 # a comment\n\n  \t\nslow 2 3 2e-4", 0),
        ("slow 1 2 1.2345678e-4\n", 7),
        ("slow 1 2 1e-4\nslow 2 3 1e-21\n", 8),
        ("slow 1 2 0\n", 7),
        ("slow 1 4 1e-4\n", 7),
        ("slow 0 2 1e-4\n", 7),
        ("slow 1 2\n", 7),
        ("slow 1 2 1e-4 1e-4\n", 7),
        ("fast 1 2 1e-4 1e-4\n", 7),
        ("fast 1 2 1e-4 0 1\n", 0),
        ("fast 1 2 1e-4 0 0.3333333\n", 7),
        ("fast 1 2 1e-4 0 1e-13\n", 7),
        ("slow 1 2 1e-4\nprune 0\n", 8),
        ("states 3\n", 7),
        ("medium 1 2 1e-4\n", 7),
        ("slow +1 2 1e-4\n", 7),
    ] {
        assert_eq!(line(&format!("{HEAD}{rest}")), at, "{rest}");
    }
}

/// A pruned state stands behind the head and before the transitions, and is one state of the model. What else is wrong with it (not greater than the one
/// before, with exits, the 101st), the library says.
#[test]
fn pruned_states() -> Result<(), bounds_command::model::Fault> {
    for (rest, at, expected) in [
        ("pruned 3\nslow 1 2 1e-4\n", 0, ""),
        ("pruned 3 # dropped\n\npruned 2\npruned 2\nslow 2 3 1e-4\n", 0, ""),
        ("pruned\n", 7, "a pruned state is written: pruned STATE"),
        ("pruned 2 3\n", 7, "a pruned state is written: pruned STATE"),
        ("pruned 0\n", 7, "0 is no whole number from 1 to 3"),
        ("pruned 2\npruned 4\n", 8, "4 is no whole number from 1 to 3"),
        ("pruned 1e0\n", 7, "1e0 is no whole number from 1 to 3"),
        ("pruned three\n", 7, "three is no whole number from 1 to 3"),
        ("pruned 3\nslow 1 2 1e-4\npruned 2\n", 9, "pruned stands after the first transition"),
        ("pruned 3\nprune 0\n", 8, "prune stands after the first pruned state"),
        ("pruned 3\nmedium 3\n", 8, "medium is no name of a line: expected states, "),
    ] {
        let fault = text::words_of(&format!("{HEAD}{rest}")).err();
        let (line, why) = fault.map_or((0, String::new()), |fault| (fault.at, fault.why));
        assert_eq!(line, at, "{rest}");
        assert!(why.starts_with(expected), "{rest}: {why}");
    }
    let fault = text::words_of("states 3\npruned 3\nstart 1\n").err();
    let (line, why) = fault.map_or((0, String::new()), |fault| (fault.at, fault.why));
    assert_eq!((line, why.starts_with("start is missing: it stands before pruned ")), (2, true));
    let many: String = (0..101).map(|_| "pruned 3\n").collect();
    assert_eq!(text::words_of(&format!("{HEAD}{many}"))?.words.len(), 4 + 101 + 1);
    Ok(())
}

/// A line ends in LF or CR LF, and no other break hides what follows it behind a comment.
#[test]
fn breaks() {
    let crlf = format!("{HEAD}\tslow 1 2 1e-4\t# a\n").replace('\n', "\r\n");
    assert_eq!(line(&crlf), 0);
    for c in ["\r", "\x0b", "\x0c", "\u{85}", "\u{2028}", "\u{2029}"] {
        let text = format!("{HEAD}slow 1 2 1e-4 # a{c}slow 2 3 1e-4\n");
        let fault = text::words_of(&text).err().map_or((0, String::new()), |f| (f.at, f.why));
        assert_eq!(fault.0, 7, "{c:?}");
        assert!(fault.1.starts_with("line break U+"), "{}", fault.1);
        assert!(fault.1.contains(": expected lines that end in LF or CR LF"), "{}", fault.1);
    }
    for (rest, at) in [
        ("slow 1 2 1e-4\n\nslow 2 3\r1e-4\n", 9),
        ("slow 1 2 1e-4\r\r\n", 7),
        ("slow 1 2 1e-4\r", 7),
        ("# \0\n", 7),
        ("# \x1b[2J\n", 7),
        ("# \x7f\n", 7),
        ("# \u{9b}\n", 7),
    ] {
        assert_eq!(line(&format!("{HEAD}{rest}")), at, "{rest:?}");
    }
}

/// Only a name of the head stands after the first transition; another is no name.
#[test]
fn names_after_the_first_transition() {
    let why = |rest: &str| {
        let fault = text::words_of(&format!("{HEAD}slow 1 2 1e-4\n{rest}\n")).err();
        fault.map_or(String::new(), |fault| fault.why)
    };
    for rest in ["slwo 1 3 1e-4", "Slow 1 3 1e-4", "medium 1"] {
        assert!(why(rest).contains(" is no name of a line: expected states, "), "{}", why(rest));
    }
    for rest in ["prune 0", "prune", "edition 1"] {
        assert!(why(rest).ends_with(" stands after the first transition"), "{}", why(rest));
    }
}

#[test]
fn head_lines() {
    assert_eq!(line(""), 1);
    assert_eq!(line("states 3\nslow 1 2 1e-4\n"), 2);
    for (old, new, at) in [
        ("states 3", "states 1001", 1),
        ("states 3", "states 0", 1),
        ("start 1", "start 4", 2),
        ("time 10", "time 0", 3),
        ("prune 0", "prune 1234567", 4),
        ("steps 24", "steps 25", 5),
        ("entries 1", "entries 0", 6),
        ("entries 1", "entries 1 2", 6),
        ("entries 1", "", 6),
        ("entries 1", "edition 16", 6),
        ("states 3", "states 4294967297", 1),
    ] {
        assert_eq!(line(&HEAD.replace(old, new)), at, "{new}");
    }
}

#[test]
fn the_line_of_a_word() -> Result<(), bounds_command::model::Fault> {
    let written = text::words_of(&format!("{HEAD}slow 1 2 1e-4\n# rest\nfast 2 3 1e-4 0 1\n"))?;
    assert_eq!(written.lines, [1, 3, 4, 5, 7, 7, 9, 9, 9, 9, 9]);
    let written = text::words_of(&format!("{HEAD}pruned 2\n\npruned 3\nslow 1 2 1e-4\n"))?;
    assert_eq!(written.lines, [1, 3, 4, 5, 7, 9, 10, 10, 10]);
    assert_eq!(written.words[4..6], [0xC0000002, 0xC0000003]);
    Ok(())
}

#[test]
fn words_that_no_lines_spell() {
    let model =
        [0x11002001, 0x2000000A, 0x30000000, 0x41801000, 0x50001002, 0x60400001, 0xF0000000];
    assert!(words::text_of(&model).is_ok());
    let place = |at: usize, word: u32| {
        let mut changed = model.to_vec();
        changed[at] = word;
        words::text_of(&changed).err().map(|fault| fault.at)
    };
    assert_eq!(place(0, 0x11002003), Some(0));
    assert_eq!(place(0, 0x10002001), None);
    assert_eq!(place(1, 0x20000000), Some(1));
    assert_eq!(place(1, 0x21500001), Some(1));
    assert_eq!(place(2, 0x300F4240), Some(2));
    assert_eq!(place(3, 0x41801001), Some(3));
    assert_eq!(place(4, 0x51001002), Some(4));
    assert_eq!(place(4, 0x50001003), Some(4));
    assert_eq!(place(4, 0xC0000002), Some(5));
    assert_eq!(place(6, 0xC0000002), Some(6));
    assert_eq!(place(5, 0x80400001), Some(5));
    assert_eq!(place(6, 0xF0000001), Some(6));
    assert_eq!(words::text_of(&model[..6]).err().map(|fault| fault.at), Some(6));
    assert_eq!(words::text_of(&[]).err().map(|fault| fault.at), Some(0));
    let mut longer = model.to_vec();
    longer.push(0);
    assert_eq!(words::text_of(&longer).err().map(|fault| fault.at), Some(7));
}

/// Words that name pruned states, between the caps and the transitions: any number of them, in any order.
#[test]
fn words_of_pruned_states() {
    let head = [0x11003001, 0x2000000A, 0x30000000, 0x41801000];
    let rest = [0x50001002, 0x60400001, 0xF0000000];
    let read = |named: &[u32]| words::text_of(&[&head, named, &rest].concat());
    let lines = "states 3\nstart 1\ntime 10\nprune 0\nsteps 24\nentries 1\npruned 3\npruned 2\nslow 1 2 1e-4\n";
    assert_eq!(read(&[0xC0000003, 0xC0000002]), Ok(lines.into()));
    assert!(words::text_of(&[&head[..], &[0xC0000003, 0xF0000000]].concat()).is_ok());
    for (word, at) in [(0xC0000000, 5), (0xC0000004, 5), (0xC0001003, 5), (0xC8000003, 5)] {
        let place = read(&[0xC0000003, word]).err().map(|fault| fault.at);
        assert_eq!(place, Some(at), "{word:08X}");
    }
    let place = |words: &[u32]| words::text_of(words).err().map(|fault| fault.at);
    assert_eq!(place(&[&head[..], &[0xC0000003]].concat()), Some(5));
    assert_eq!(place(&[&head[..3], &[0xC0000003, 0x41801000]].concat()), Some(3));
}

#[test]
fn bytes_and_digits() -> Result<(), bounds_command::model::Fault> {
    let list = [0x11002001, 0xF0000000];
    assert_eq!(words::bytes_of(&list), [0x01, 0x20, 0x00, 0x11, 0, 0, 0, 0xF0]);
    assert_eq!(words::of_digits(&words::hex_of(&list))?, (list.to_vec(), vec![1, 2]));
    for (digits, line) in [("1100200", 1), ("+1002001", 1), ("11002001\n\n110020010", 3)] {
        assert_eq!(words::of_digits(digits).err().map(|fault| fault.at), Some(line), "{digits}");
    }
    Ok(())
}
