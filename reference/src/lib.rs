//! Semi-Markov unreliability bounds from a word table: an independent implementation.
//!
//! It was written from documents 01 and 02 alone and shares no code and no tables with the proved
//! library.
//! Names in quotes or single capitals (U, E, M, h, H, T, L, V) are those of document 01.
//!
//! - [`words`]: words to a model, refusals 1 to 11, 15 and 16
//! - [`figure`]: nine and eighteen digit figures with their two roundings
//! - [`marked`]: the same with a mark that nothing was lost
//! - [`steps`]: the figures that belong to a state or to a transition (E, h, H, grains, factors)
//! - [`walk`]: the cut tree, refusal 13
//! - [`bounds`]: the lower figure of a path and the totals
//! - [`rows`]: a row for each way to fail, refusal 14
//! - [`orprob`], [`orlines`]: one figure for several subsystems, refusals 17 and 18; its lines
//! - [`bigint`], [`fraction`], [`exact`], [`accuracy`]: exact sums and the accuracy rule
//! - [`orexact`]: the exact values of several subsystems, and the rule on their figures
//! - [`faults`]: faults that can be planted on purpose, to try the comparers on
//! - [`comparing`]: what the two comparers share

pub mod accuracy;
pub mod answer;
pub mod bigint;
pub mod bounds;
pub mod comparing;
pub mod exact;
pub mod faults;
pub mod figure;
pub mod fraction;
pub mod marked;
pub mod model;
pub mod orexact;
pub mod orlines;
pub mod orprob;
pub mod rows;
pub mod steps;
pub mod stream;
pub mod walk;
pub mod words;

pub use answer::{Answer, Report};
pub use model::{Model, Refusal};
pub use rows::Row;

use faults::{planted, Fault};

/// The budget of the report program, and the greatest one allowed.
pub const MOST_STEPS: u64 = 1_000_000;

/// The rows that the report program lends.
pub const ROWS_LENT: usize = 1_000;

/// The report on the words, or the first reason to turn them away, as the report program has it.
pub fn assess(words: &[u32], budget: u64) -> Answer {
    assess_rows(words, budget, &mut [Row::ZERO; ROWS_LENT])
}

/// The same with a table of rows, lent by the caller. A refusal but 13 changes none of them.
pub fn assess_rows(words: &[u32], budget: u64, rows: &mut [Row]) -> Answer {
    match words::read(words, budget) {
        Ok(model) => report(&model, budget, rows),
        Err(refusal) => Answer::Refused(refusal),
    }
}

/// The report on a model that has been read, or refusal 14 or 13.
pub fn report(model: &Model, budget: u64, rows: &mut [Row]) -> Answer {
    match reported(model, budget, rows) {
        Ok(report) => Answer::Report(report),
        Err(refusal) => Answer::Refused(refusal),
    }
}

fn reported(model: &Model, budget: u64, rows: &mut [Row]) -> Result<Report, Refusal> {
    let states = rows::states_of(model);
    let enough = rows::enough(rows.len(), states.len());
    if !planted(Fault::RowsTestedLast) {
        enough?;
    }
    let figures = steps::Figures::of(model);
    let mut totals = bounds::Totals::new(model, &figures, &states);
    let walked = walk::walk(model, &figures, budget, &mut totals);
    if walked.is_err() && !planted(Fault::RowTotalsOnThirteen) {
        totals.clear_rows();
    }
    if walked.is_ok() || !planted(Fault::NoRowsOnThirteen) {
        rows::fill(rows, &totals);
    }
    let counts = walked?;
    enough?;
    Ok(totals.report(counts))
}

/// The words of a stream of bytes, least significant byte first.
/// Left-over bytes count as one more word of no kind. Kind 0 is called for nowhere, so 0 stands for
/// it.
pub fn words_of_bytes(bytes: &[u8]) -> Vec<u32> {
    let quads = bytes.chunks_exact(4);
    let left_over = !quads.remainder().is_empty();
    let mut words: Vec<u32> = quads
        .map(|quad| quad.iter().rev().fold(0, |word, &byte| word << 8 | u32::from(byte)))
        .collect();
    if left_over {
        words.push(0);
    }
    words
}
