//! The report program, byte for byte.

use std::io::Write;
use std::process::{Command, Stdio};

fn report(bytes: &[u8]) -> String {
    let mut child = Command::new(env!("CARGO_BIN_EXE_report"))
        .stdin(Stdio::piped())
        .stdout(Stdio::piped())
        .spawn()
        .expect("the report program starts");
    child.stdin.take().expect("a pipe").write_all(bytes).expect("the model is taken");
    let output = child.wait_with_output().expect("the report program ends");
    assert!(output.status.success());
    String::from_utf8(output.stdout).expect("text")
}

/// Model A of document 01 as bytes.
fn model_a() -> Vec<u8> {
    let words: [u32; 7] =
        [0x1100_2001, 0x2000_000A, 0x3000_0000, 0x4180_1000, 0x5000_1002, 0x6040_0001, 0xF000_0000];
    words.iter().flat_map(|word| word.to_le_bytes()).collect()
}

#[test]
fn model_a_prints_as_in_the_document() {
    let figures = "lower 9.99500000E-4\nupper 1.00000000E-3\ncut 0\n";
    let counts = "deaths 1\ncuts 0\nsteps 1\nexact 11\n";
    assert_eq!(report(&model_a()), figures.to_string() + counts);
}

#[test]
fn left_over_bytes_are_one_more_word() {
    let whole = model_a();
    assert_eq!(report(&[]), "refused 3 at 0\n");
    assert_eq!(report(&whole[..1]), "refused 3 at 0\n");
    assert_eq!(report(&whole[..23]), "refused 3 at 5\n");
    assert_eq!(report(&whole[..24]), "refused 3 at 6\n");
    for extra in 1..=3 {
        let longer = [whole.as_slice(), &[0xF0, 0, 0][..extra]].concat();
        assert_eq!(report(&longer), "refused 3 at 7\n");
    }
}

#[test]
fn left_over_bytes_count_towards_the_most_words() {
    let mut bytes = vec![0; 4 * reference::words::MOST_WORDS];
    assert_eq!(report(&bytes), "refused 3 at 0\n");
    bytes.push(0);
    assert_eq!(report(&bytes), "refused 1 at 0\n");
}
