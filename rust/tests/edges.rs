//! What no file of models has.

use std::error::Error;
use std::thread::Builder;

use bounds::{
    Error as NoReport, Figure, Reason, Refusal, Row, MOST_BUDGET, MOST_ROWS, MOST_WORDS, STACK,
    WORDS_SIZE,
};

const MODEL_A: [u32; 7] =
    [0x11002001, 0x2000000A, 0x30000000, 0x41801000, 0x50001002, 0x60400001, 0xF0000000];

const REPORT_A: &str =
    "lower 9.99500000E-4\nupper 1.00000000E-3\ncut 0\ndeaths 1\ncuts 0\nsteps 1\nexact 11";

#[test]
fn model_a() -> Result<(), NoReport> {
    let report = bounds::assess(&MODEL_A, MOST_BUDGET)?;
    assert_eq!(report.to_string(), REPORT_A);
    assert_eq!(Some(report.lower), Figure::new(999_500_000, -12));
    assert_eq!((report.deaths, report.cuts, report.steps), (1, 0, 1));
    assert!(report.lower_exact && report.upper_exact);
    assert_eq!(bounds::assess(&MODEL_A, 1)?, report);
    Ok(())
}

#[test]
fn refusals() {
    let refused = |words: &[u32], budget, reason, place| {
        let expected = Err(NoReport::Refused(Refusal { reason, place }));
        assert_eq!(bounds::assess(words, budget), expected, "{budget}");
    };
    refused(&[], 1, Reason::WrongKind, 0);
    refused(&MODEL_A, 0, Reason::BudgetOutOfRange, 0);
    refused(&MODEL_A, MOST_BUDGET + 1, Reason::BudgetOutOfRange, 0);
    refused(&MODEL_A, u64::MAX, Reason::BudgetOutOfRange, 0);
    refused(&MODEL_A[..6], 1, Reason::WrongKind, 6);
    refused(&vec![0; MOST_WORDS + 1], 0, Reason::TooManyWords, 0);
    refused(&vec![0; MOST_WORDS], 1, Reason::WrongKind, 0);
}

/// Case 03-000-named of the answers of other hands: states 3 and 5 are the generator's.
const NAMED: [u32; 15] = [
    0x11005001, 0x2000000A, 0x30000000, 0x41801000, 0xC0000003, 0xC0000005, 0x50001002, 0x60400001,
    0x50001003, 0x60400001, 0x50002004, 0x60400001, 0x50002005, 0x60400001, 0xF0000000,
];

/// The paths that end in a named state are cut, and the state has no row.
#[test]
fn named_states() -> Result<(), Box<dyn Error>> {
    let report = bounds::assess(&NAMED, MOST_BUDGET)?;
    let expected =
        "lower 4.99333333E-7\nupper 1.00100000E-3\ncut 1.00050000E-3\ndeaths 1\ncuts 2\nsteps 4\nexact 01";
    assert_eq!(report.to_string(), expected);
    let mut room = [Row::default(); 2];
    let (again, rows) = bounds::assess_rows(&NAMED, MOST_BUDGET, &mut room)?;
    let of_4 = Row { state: 4, lower: "4.99333333E-7".parse()?, upper: "5E-7".parse()? };
    assert_eq!((again, rows), (report, &[of_4][..]));
    let few = bounds::assess_rows(&NAMED, MOST_BUDGET, &mut []).map(|_| ());
    assert_eq!(few, Err(NoReport::Refused(Refusal { reason: Reason::TooFewRows, place: 1 })));
    Ok(())
}

/// Further cases of the same answers: [`NAMED`] with other words that name states.
#[test]
fn refusals_of_named_states() {
    for (first, second, reason, place) in [
        (0xC0001000, 0xC0000005, Reason::BitSet, 4),
        (0xC8000003, 0xC0000005, Reason::BitSet, 4),
        (0xC0000000, 0xC0000005, Reason::FieldOutOfRange, 4),
        (0xC0000003, 0xC0000006, Reason::FieldOutOfRange, 5),
        (0xC0000003, 0xC0000003, Reason::StateNotGreater, 5),
        (0xC0000003, 0xC0000002, Reason::StateNotGreater, 5),
        (0xC0000003, 0xC0000000, Reason::FieldOutOfRange, 5),
        (0xC0000003, 0xC0001003, Reason::BitSet, 5),
        (0xC0000002, 0xC0000003, Reason::NamedStateWithExits, 2),
        (0xC0000001, 0xC0000002, Reason::NamedStateWithExits, 1),
    ] {
        let mut words = NAMED;
        (words[4], words[5]) = (first, second);
        let expected = Err(NoReport::Refused(Refusal { reason, place }));
        assert_eq!(bounds::assess(&words, MOST_BUDGET), expected, "{first:08X} {second:08X}");
    }
}

/// Model A needs one row. Rows of an earlier call stay behind those that are filled.
#[test]
fn rows() -> Result<(), NoReport> {
    let report = bounds::assess(&MODEL_A, MOST_BUDGET)?;
    let of_2 = Row { state: 2, lower: report.lower, upper: report.upper };
    let before = Row { state: 77, lower: report.upper, upper: report.lower };
    for lent in [1, 2, 3, MOST_ROWS, MOST_ROWS + 1, 3 * MOST_ROWS] {
        let mut rows = vec![before; lent];
        assert_eq!(bounds::assess_rows(&MODEL_A, 1, &mut rows)?, (report, &[of_2][..]));
        assert!(rows[0] == of_2 && rows[1..].iter().all(|row| *row == before), "{lent}");
    }
    let refused = |words: &[u32], budget, lent, reason, place| {
        let mut rows = vec![before; lent];
        let answer = bounds::assess_rows(words, budget, &mut rows).map(|_| ());
        assert_eq!(answer, Err(NoReport::Refused(Refusal { reason, place })), "{lent}");
        assert!(rows.iter().all(|row| *row == before), "{reason:?}");
    };
    refused(&MODEL_A, 1, 0, Reason::TooFewRows, 1);
    refused(&MODEL_A, 0, 0, Reason::BudgetOutOfRange, 0);
    refused(&MODEL_A[..6], 1, 0, Reason::WrongKind, 6);
    refused(&[], 1, 5, Reason::WrongKind, 0);
    Ok(())
}

/// More steps than the budget: a row has its state's number and zeros.
#[test]
fn rows_over_the_budget() {
    let words: [u32; 9] = [
        0x11003001, 0x2000000A, 0x30000000, 0x41801000, 0x50001002, 0x60400001, 0x50001003,
        0x60400001, 0xF0000000,
    ];
    let before = Row { state: 77, ..Row::default() };
    let mut rows = [before; 3];
    let expected = Err(NoReport::Refused(Refusal { reason: Reason::OverBudget, place: 0 }));
    assert_eq!(bounds::assess_rows(&words, 1, &mut rows).map(|_| ()), expected);
    let zeros = |state| Row { state, ..Row::default() };
    assert_eq!(rows, [zeros(2), zeros(3), before]);
}

#[test]
fn sentences() {
    let sentence = |reason, place| Refusal { reason, place }.sentence().to_string();
    assert_eq!(sentence(Reason::StartWithoutExits, 17), "The start state 17 has no exits.");
    assert_eq!(sentence(Reason::TooManyWords, 0), "The model has more than 16,105 words.");
    assert_eq!(
        sentence(Reason::StateNotGreater, 5),
        "The state named by word 5 is not greater than the one named before it."
    );
    assert_eq!(
        sentence(Reason::NamedStateWithExits, 2),
        "State 2 is named as the generator's and has exits."
    );
    assert_eq!(
        sentence(Reason::TooFewRows, 3),
        "Fewer rows were lent than the 3 that the model needs."
    );
    assert_eq!(
        sentence(Reason::PairCountOutOfRange, 0),
        "There must be from 1 to 16 pairs of figures."
    );
    assert_eq!(
        sentence(Reason::PairOutOfRange, 15),
        "Pair 15 holds what is no figure, a power of ten outside -2,000 to 2,000, or a lower above 1 or above its upper."
    );
    for reason in Reason::ALL {
        assert!(!sentence(reason, 5).contains("PLACE"), "{reason:?}");
        assert!(!reason.advice().is_empty(), "{reason:?}");
    }
}

#[test]
fn bytes() -> Result<(), NoReport> {
    let mut room = [7; WORDS_SIZE];
    assert_eq!(bounds::words_of(&[], &mut room)?, []);
    assert_eq!(bounds::words_of(&[1, 2, 3, 4, 5], &mut room)?, [0x04030201, 0]);
    assert_eq!(bounds::words_of(&[0; 4 * MOST_WORDS], &mut room)?.len(), MOST_WORDS);
    assert_eq!(bounds::words_of(&[0; 4 * MOST_WORDS + 1], &mut room)?.len(), WORDS_SIZE);
    assert_eq!(bounds::words_of(&[0; 8 * MOST_WORDS], &mut room)?.len(), WORDS_SIZE);
    Ok(())
}

/// In threads that have the stack that a call needs, and 128 kilobytes for what they do themselves: rows, lent and kept, are 40 each.
#[test]
fn threads() -> Result<(), Box<dyn Error>> {
    let loops: [u32; 9] = [
        0x11002001, 0x2000000A, 0x30000000, 0x41818000, 0x50001002, 0x60300001, 0x50002001,
        0x60300001, 0xF0000000,
    ];
    let first = bounds::assess(&loops, MOST_BUDGET);
    assert!(first.is_ok());
    std::thread::scope(|scope| {
        for _ in 0..4 {
            Builder::new().stack_size(STACK + 131_072).spawn_scoped(scope, || {
                for _ in 0..500 {
                    assert_eq!(bounds::assess(&loops, MOST_BUDGET), first);
                    let with_rows = bounds::assess_rows(&loops, MOST_BUDGET, &mut []);
                    assert_eq!(with_rows.map(|(report, _)| report), first);
                }
            })?;
        }
        Ok(())
    })
}
