//! The accuracy rule, on the models with expected answers and on reports that were tampered with.

use reference::accuracy::{check, Breach, Part};
use reference::figure::Figure;
use reference::figure::Side::{Down, Up};
use reference::steps::Figures;
use reference::{report, rows, words, Answer, Model, Report, Row, MOST_STEPS, ROWS_LENT};

/// Model B of document 01.
const MODEL_B: [u32; 15] = [
    0x1100_5001,
    0x2000_000A,
    0x3000_0000,
    0x4180_1000,
    0x5000_1002,
    0x6040_0003,
    0x5000_2003,
    0x6040_0002,
    0x7000_2004,
    0x8040_0001,
    0x9040_0001,
    0xA000_0001,
    0x5000_4005,
    0x6040_0001,
    0xF000_0000,
];

fn model_of(list: &[u32]) -> Model {
    words::read(list, MOST_STEPS).expect("a model that is accepted")
}

/// The report and the rows that it fills.
fn report_of(model: &Model) -> (Report, Vec<Row>) {
    let mut rows = vec![Row::ZERO; rows::states_of(model).len()];
    match report(model, MOST_STEPS, &mut rows) {
        Answer::Report(report) => (report, rows),
        Answer::Refused(refusal) => panic!("{refusal}"),
    }
}

fn broken(part: Part, row: Option<u64>) -> Result<(), Breach> {
    Err(Breach { part, row })
}

#[test]
fn model_b() {
    let model = model_of(&MODEL_B);
    let figures = Figures::of(&model);
    assert_eq!(figures.steps[1].grains, 4_473);
    assert_eq!(figures.steps[2].grains, 737);
    let (found, rows) = report_of(&model);
    assert_eq!(found.upper.to_string(), "1.50006000E-6");
    assert_eq!((found.counts.deaths, found.counts.cuts, found.counts.steps), (2, 0, 4));
    assert_eq!(rows.iter().map(|row| row.state).collect::<Vec<_>>(), [3, 5]);
    assert_eq!(check(&model, &found, &rows), Ok(()));
}

/// Model B with state 3 named: the path that dies there is cut, and its upper stays in the sum.
#[test]
fn model_b_with_a_named_state() {
    let mut list = MODEL_B.to_vec();
    list.insert(4, 0xC000_0003);
    let (unnamed, model) = (model_of(&MODEL_B), model_of(&list));
    let (before, _) = report_of(&unnamed);
    let (found, rows) = report_of(&model);
    assert_eq!((found.upper, found.cut.to_string()), (before.upper, "6.00000000E-11".to_string()));
    assert_eq!((found.counts.deaths, found.counts.cuts, found.counts.steps), (1, 1, 4));
    assert_eq!(rows.iter().map(|row| row.state).collect::<Vec<_>>(), [5]);
    assert_eq!(check(&model, &found, &rows), Ok(()));
    // The lower of the model in which both are deaths is above the exact lower sum.
    let lower = before.lower;
    assert_eq!(check(&model, &Report { lower, ..found }, &[]), broken(Part::LowerAboveSum, None));
}

#[test]
fn wrong_reports_are_noticed() {
    let model = model_of(&MODEL_B);
    let (right, _) = report_of(&model);
    let tiny = Figure::ONE.shifted(-14);
    let mut wrong = right;
    wrong.upper = right.upper.minus(tiny, Down).value;
    assert_eq!(check(&model, &wrong, &[]), broken(Part::UpperBelowSum, None));
    wrong.upper = right.upper.plus(tiny.shifted(4), Up).value;
    assert_eq!(check(&model, &wrong, &[]), broken(Part::UpperTooHigh, None));
    let mut wrong = right;
    wrong.lower = right.lower.plus(tiny.shifted(2), Up).value;
    assert_eq!(check(&model, &wrong, &[]), broken(Part::LowerAboveSum, None));
    wrong.lower = right.lower.minus(tiny.shifted(5), Down).value;
    assert_eq!(check(&model, &wrong, &[]), broken(Part::LowerTooLow, None));
    let mut wrong = right;
    wrong.counts.steps -= 1;
    assert_eq!(check(&model, &wrong, &[]), broken(Part::TreeIsLarger, None));
}

#[test]
fn wrong_digits_are_noticed() {
    let model = model_of(&MODEL_B);
    let (mut found, _) = report_of(&model);
    assert!(!found.lower_exact && found.upper_exact);
    assert_eq!(check(&model, &found, &[]), Ok(()));
    // The lower figure lies below its sum, the upper one is its sum until it is one digit above.
    found.lower_exact = true;
    assert_eq!(check(&model, &found, &[]), broken(Part::LowerNotExact, None));
    found.lower_exact = false;
    found.upper = found.upper.plus(Figure::ONE.shifted(-14), Up).value;
    assert_eq!(check(&model, &found, &[]), broken(Part::UpperNotExact, None));
    found.upper_exact = false;
    assert_eq!(check(&model, &found, &[]), Ok(()));
}

#[test]
fn wrong_rows_are_noticed() {
    let model = model_of(&MODEL_B);
    let (report, right) = report_of(&model);
    let (thousandth, thrice) = (Figure::ONE.shifted(-3), Figure::small(3));
    let check_row = |place: usize, change: fn(&mut Row, Figure), by: Figure| {
        let mut rows = right.clone();
        change(&mut rows[place], by);
        check(&model, &report, &rows)
    };
    for (place, state) in [(0, 3), (1, 5)] {
        let upper: fn(&mut Row, Figure) = |row, by| row.upper = row.upper.times(by, Down).value;
        let lower: fn(&mut Row, Figure) = |row, by| row.lower = row.lower.times(by, Down).value;
        let less = Figure::ONE.minus(thousandth, Down).value;
        assert_eq!(check_row(place, upper, less), broken(Part::UpperBelowSum, Some(state)));
        assert_eq!(check_row(place, upper, thrice), broken(Part::UpperTooHigh, Some(state)));
        assert_eq!(check_row(place, lower, thrice), broken(Part::LowerAboveSum, Some(state)));
        assert_eq!(check_row(place, lower, less), broken(Part::LowerTooLow, Some(state)));
    }
    // A row of a state where no path dies has zeros and nothing else.
    let lower = Figure::ZERO;
    let row = |upper| [Row { state: 4, lower, upper }];
    assert_eq!(check(&model, &report, &row(Figure::ZERO)), Ok(()));
    let tiny = row(Figure::ONE.shifted(-99));
    assert_eq!(check(&model, &report, &tiny), broken(Part::UpperTooHigh, Some(4)));
}

/// The reported models of a file in `tests/data` with at most so many ended paths.
fn check_data(text: &str, most_paths: u64) -> usize {
    let mut checked = 0;
    for line in text.lines() {
        let digits = line.rsplit(' ').nth(1).unwrap_or_default();
        let list: Vec<u32> = (0..digits.len() / 8)
            .filter_map(|place| u32::from_str_radix(&digits[8 * place..8 * place + 8], 16).ok())
            .collect();
        let Ok(model) = words::read(&list, MOST_STEPS) else { continue };
        let mut table = [Row::ZERO; ROWS_LENT];
        let Answer::Report(report) = report(&model, MOST_STEPS, &mut table) else { continue };
        let filled = rows::states_of(&model).len();
        if report.counts.deaths + report.counts.cuts <= most_paths {
            assert_eq!(check(&model, &report, &table[..filled]), Ok(()), "{line}");
            checked += 1;
        }
    }
    checked
}

#[test]
fn models_with_expected_answers() {
    assert!(check_data(include_str!("data/models.txt"), 4_000) > 750);
    assert!(check_data(include_str!("data/papers.txt"), 4_000) > 50);
    assert!(check_data(include_str!("data/rows.txt"), 4_000) > 50);
}
