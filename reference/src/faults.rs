//! Faults that can be planted on purpose, to show that the comparer finds them.
//!
//! Nothing is planted unless a program asks for it by [`plant`]; only `stream --fault NAME`,
//! `or-stream --fault NAME` and the tests of products do.

use std::cell::Cell;
use std::process::ExitCode;

#[derive(Clone, Copy, Debug, PartialEq, Eq)]
pub enum Fault {
    UpperRoundsDown,
    EscapeRoundsDown,
    LowerRoundsUp,
    DividedByPlace,
    OwnRateLeftOut,
    PlainMean,
    CutBeforeDeath,
    SeventeenthExit,
    PlaceOffByOne,
    BudgetReached,
    CarryLost,
    GrainsOneMore,
    GrainsAboveOnly,
    ShrunkStepByStep,
    TotalsOfNineDigits,
    StartNotEntered,
    PruneBelowOnly,
    EntryLimitReached,
    SlowAndFastAreTheSame,
    SumNearOne,
    MeanDownForUp,
    FullGrainsLetThrough,
    TinyTermLost,
    TinyDifferenceLost,
    TimeSquareUp,
    SumsReversed,
    BitAfterStates,
    TransitionTooMany,
    WordTooFew,
    RowForNoTarget,
    UnreachedRowsLeftOut,
    RowsInTableOrder,
    RowTooFew,
    PlaceOfRowsLent,
    RowsTestedLast,
    RowTotalsOnThirteen,
    NoRowsOnThirteen,
    RowsBeyondCleared,
    RowUpperWithCuts,
    RowLowerRoundsUp,
    RowsOfNineDigits,
    TimeUpUncounted,
    TimeSquareUncounted,
    GrainsSquaredUncounted,
    FullGrainsUncounted,
    FullAllCounted,
    ZeroForgets,
    NegativeCounted,
    HoldCounted,
    UpperCounted,
    AdditionsUncounted,
    LastRoundingUncounted,
    CutsUncounted,
    CutFigureCounted,
    NamedDies,
    NamedLeftOut,
    NamedUncounted,
    LowerForNamed,
    RowForNamed,
    NamedTwice,
    NumberBeforeOrder,
    NamedTooMany,
    NamedExitsAfterStart,
    HighestWithExits,
    NamedAfterTransition,
    BitTwelveIgnored,
    EdgeProductShort,
    ShortProductCut,
    LongProductLow,
    LowerDifferenceUp,
    LowerProductUp,
    LowerSumUp,
    UpperDifferenceDown,
    UpperProductDown,
    UpperSumDown,
    AboveOneKept,
    PlainSum,
    LongProduct,
    ByComplements,
    PairsReversed,
    LastPairLeftOut,
    NoPairLetThrough,
    SeventeenthPair,
    SixteenRefused,
    PlaceOfPairs,
    PairsTestedFirst,
    LastBadPair,
    IndexFromOne,
    ZeroWithPower,
    EightDigits,
    TenDigits,
    PowerOneFurther,
    PowerAsPrinted,
    TakenAsOneFirst,
    LowerAboveOne,
    LowerOneRefused,
    LowerAboveUpper,
    EqualRefused,
    UpperAboveOneRefused,
}

/// A fault with its name and what it does.
pub type Known = (Fault, &'static str, &'static str);

/// The faults of reports, which `stream` can plant.
pub const OF_REPORTS: [Known; 66] = [
    (Fault::UpperRoundsDown, "upper-rounds-down", "U × rate rounds down in class 1"),
    (Fault::EscapeRoundsDown, "escape-rounds-down", "the sum E rounds down"),
    (Fault::LowerRoundsUp, "lower-rounds-up", "the last product of a lower rounds up"),
    (Fault::DividedByPlace, "divided-by-place", "U is divided by the step's place in the path"),
    (Fault::OwnRateLeftOut, "own-rate-left-out", "E leaves the step's own rate out"),
    (Fault::PlainMean, "plain-mean", "h is the plain mean, without the probabilities"),
    (Fault::CutBeforeDeath, "cut-before-death", "a cut is tested before a death"),
    (Fault::SeventeenthExit, "seventeenth-exit", "a 17th exit is let through"),
    (Fault::PlaceOffByOne, "place-off-by-one", "refusal 3 names the word before"),
    (Fault::BudgetReached, "budget-reached", "13 when the steps reach the budget"),
    (Fault::CarryLost, "carry-lost", "999,999,999 rounded up loses its carry"),
    (Fault::GrainsOneMore, "grains-one-more", "n is one more than the least"),
    (Fault::GrainsAboveOnly, "grains-above-only", "n³ or n² must be above g, not at it"),
    (Fault::ShrunkStepByStep, "shrunk-step-by-step", "class 1 uses the grains so far, not N'"),
    (Fault::TotalsOfNineDigits, "totals-of-nine-digits", "totals keep nine digits"),
    (Fault::StartNotEntered, "start-not-entered", "being at the start is no entry"),
    (Fault::PruneBelowOnly, "prune-below-only", "a path with U equal to P goes on"),
    (Fault::EntryLimitReached, "entry-limit-reached", "cut at V entries instead of above"),
    (Fault::SlowAndFastAreTheSame, "slow-fast-same", "slow and fast between two states: 8"),
    (Fault::SumNearOne, "sum-near-one", "a sum within 10^-12 of 1 is let through"),
    (Fault::MeanDownForUp, "mean-down-for-up", "class 3 uppers use h' instead of h"),
    (
        Fault::FullGrainsLetThrough,
        "grains-over-million",
        "N' of 1,000,000 or more with no class 1 step is not 0",
    ),
    (
        Fault::TinyTermLost,
        "tiny-term-lost",
        "a term far below the sum is dropped, whatever the side",
    ),
    (Fault::TinyDifferenceLost, "tiny-difference-lost", "a subtrahend far below is dropped"),
    (Fault::TimeSquareUp, "time-square-up", "T2 rounds up"),
    (Fault::SumsReversed, "sums-reversed", "E, h and H are summed from the last exit"),
    (Fault::BitAfterStates, "bit-after-states", "refusal 4 of a transition comes after 6 to 9"),
    (Fault::TransitionTooMany, "transition-too-many", "a 4,001st transition is let through"),
    (Fault::WordTooFew, "word-too-few", "16,105 words are refused as too many"),
    (Fault::RowForNoTarget, "row-for-no-target", "a state to which nothing leads has a row"),
    (Fault::UnreachedRowsLeftOut, "unreached-left-out", "no row for a state never reached"),
    (Fault::RowsInTableOrder, "rows-in-table-order", "rows in the order of the transitions"),
    (Fault::RowTooFew, "row-too-few", "14 when there are just as many rows as needed"),
    (Fault::PlaceOfRowsLent, "place-of-rows-lent", "the place of 14 is the number of rows lent"),
    (Fault::RowsTestedLast, "rows-tested-last", "14 comes after the walk"),
    (Fault::RowTotalsOnThirteen, "row-totals-on-13", "on 13 rows hold the totals so far"),
    (Fault::NoRowsOnThirteen, "no-rows-on-13", "13 changes no row"),
    (Fault::RowsBeyondCleared, "rows-beyond-cleared", "rows beyond the filled ones become zeros"),
    (Fault::RowUpperWithCuts, "row-upper-with-cuts", "a row's upper holds the cut paths' part too"),
    (Fault::RowLowerRoundsUp, "row-lower-rounds-up", "a row's lower goes to nine digits upward"),
    (Fault::RowsOfNineDigits, "rows-of-nine-digits", "the totals of rows keep nine digits"),
    (Fault::TimeUpUncounted, "up-t-uncounted", "up(t) is left out of a mark where A is 0"),
    (Fault::TimeSquareUncounted, "t2-uncounted", "T2 is left out of the marks"),
    (Fault::GrainsSquaredUncounted, "n2-uncounted", "n² as a figure is left out of the marks"),
    (Fault::FullGrainsUncounted, "full-uncounted", "nothing counts where N' is full"),
    (Fault::FullAllCounted, "full-all-counted", "E and factors count too where N' is full"),
    (Fault::ZeroForgets, "zero-forgets", "a factor of 0 forgets what the steps lost"),
    (Fault::NegativeCounted, "negative-counted", "a negative difference set to 0 is a loss"),
    (Fault::HoldCounted, "h-counted", "a lower rests on h in class 2"),
    (Fault::UpperCounted, "u-counted", "a lower rests on U"),
    (Fault::AdditionsUncounted, "additions-uncounted", "the lower total's additions don't count"),
    (Fault::LastRoundingUncounted, "last-uncounted", "the lower's last rounding doesn't count"),
    (Fault::CutsUncounted, "cuts-uncounted", "the upper's mark leaves the cut paths out"),
    (Fault::CutFigureCounted, "cut-figure-counted", "the upper rests on the cut figure's rounding"),
    (Fault::NamedDies, "named-dies", "a path that ends in a generator's state is a death"),
    (Fault::NamedLeftOut, "named-left-out", "its upper is left out of the cut total"),
    (Fault::NamedUncounted, "named-uncounted", "the upper's mark leaves its upper out"),
    (Fault::LowerForNamed, "lower-for-named", "it has a lower too"),
    (Fault::RowForNamed, "row-for-named", "a generator's state has a row"),
    (Fault::NamedTwice, "named-twice", "a state may be named twice in a row"),
    (Fault::NumberBeforeOrder, "number-before-order", "9 comes before 15"),
    (Fault::NamedTooMany, "named-too-many", "a 101st named state is let through"),
    (Fault::NamedExitsAfterStart, "exits-after-start", "16 comes after 11"),
    (Fault::HighestWithExits, "highest-with-exits", "the place of 16 is the highest such state"),
    (Fault::NamedAfterTransition, "named-after", "states may be named after a transition"),
    (Fault::BitTwelveIgnored, "bit-12-ignored", "bit 12 of a word that names a state may be set"),
];

/// The faults of products (document 02, Item 5), which `stream` can plant too. A short product has
/// 17 digits, a long one 18.
pub const OF_PRODUCTS: [Known; 3] = [
    (Fault::EdgeProductShort, "edge-product-short", "a product of 10^17 is divided as a short one"),
    (Fault::ShortProductCut, "short-product-cut", "a short product is divided by 10^9 too"),
    (Fault::LongProductLow, "long-product-low", "the power of a long product rises by 8, not 9"),
];

/// The faults of Item 4 of document 02, which `or-stream` can plant.
pub const OF_OR: [Known; 30] = [
    (Fault::LowerDifferenceUp, "lower-difference-up", "a lower's 1 − s rounds up"),
    (Fault::LowerProductUp, "lower-product-up", "a lower's p × (1 − s) rounds up"),
    (Fault::LowerSumUp, "lower-sum-up", "a lower's sum rounds up"),
    (Fault::UpperDifferenceDown, "upper-difference-down", "an upper's 1 − s rounds down"),
    (Fault::UpperProductDown, "upper-product-down", "an upper's p × (1 − s) rounds down"),
    (Fault::UpperSumDown, "upper-sum-down", "an upper's sum rounds down"),
    (Fault::AboveOneKept, "above-one-kept", "an s above 1 stays as it is"),
    (Fault::PlainSum, "plain-sum", "s becomes s + p"),
    (Fault::LongProduct, "long-product", "the product keeps eighteen digits"),
    (Fault::ByComplements, "by-complements", "the product of (1 − p) first, then 1 minus it"),
    (Fault::PairsReversed, "pairs-reversed", "the pairs are taken from the last"),
    (Fault::LastPairLeftOut, "last-pair-left-out", "the last of several pairs is left out"),
    (Fault::NoPairLetThrough, "no-pair-let-through", "no pair at all is answered by zeros"),
    (Fault::SeventeenthPair, "seventeenth-pair", "of more than 16 pairs the first 16 are used"),
    (Fault::SixteenRefused, "sixteen-refused", "17 at a 16th pair"),
    (Fault::PlaceOfPairs, "place-of-pairs", "the place of 17 is the number of pairs"),
    (Fault::PairsTestedFirst, "pairs-tested-first", "18 comes before 17"),
    (Fault::LastBadPair, "last-bad-pair", "the place of 18 is the last such pair's"),
    (Fault::IndexFromOne, "index-from-one", "the place of 18 counts from 1"),
    (Fault::ZeroWithPower, "zero-with-power", "a zero with any power is a figure"),
    (Fault::EightDigits, "eight-digits", "fewer than nine digits are a figure"),
    (Fault::TenDigits, "ten-digits", "more than nine digits are rounded to a figure"),
    (Fault::PowerOneFurther, "power-one-further", "powers go from −2,001 to 2,001"),
    (Fault::PowerAsPrinted, "power-as-printed", "the power tested is the printed one, 8 more"),
    (Fault::TakenAsOneFirst, "taken-as-one-first", "an upper's power above 2,000 is let through"),
    (Fault::LowerAboveOne, "lower-above-one", "a lower above 1 is let through"),
    (Fault::LowerOneRefused, "lower-one-refused", "a lower of 1 is refused"),
    (Fault::LowerAboveUpper, "lower-above-upper", "a lower above its upper is let through"),
    (Fault::EqualRefused, "equal-refused", "a lower equal to its upper is refused"),
    (Fault::UpperAboveOneRefused, "upper-above-one-refused", "an upper above 1 is refused"),
];

thread_local! {
    static PLANTED: Cell<Option<Fault>> = const { Cell::new(None) };
}

/// Plants one fault in this thread, or none.
pub fn plant(fault: Option<Fault>) {
    PLANTED.with(|cell| cell.set(fault));
}

/// The fault that is planted in this thread, if one is.
#[inline]
pub fn present() -> Option<Fault> {
    PLANTED.with(Cell::get)
}

/// Whether a fault is planted in this thread.
#[inline]
pub fn planted(fault: Fault) -> bool {
    present() == Some(fault)
}

/// Reads the arguments of a program that can plant the faults of some lists: none; `--fault NAME`,
/// which plants one; or `--faults`, which lists them. The program ends with the code if there is one.
pub fn read_arguments(program: &str, lists: &[&[Known]]) -> Option<ExitCode> {
    let arguments: Vec<String> = std::env::args().skip(1).collect();
    let arguments: Vec<&str> = arguments.iter().map(String::as_str).collect();
    let known = lists.concat();
    let fault = |name: &str| known.iter().find(|known| known.1 == name).map(|known| known.0);
    match arguments.as_slice() {
        [] => None,
        ["--faults"] => {
            for (_, name, meaning) in &known {
                println!("{name}: {meaning}");
            }
            Some(ExitCode::SUCCESS)
        }
        ["--fault", name] if fault(name).is_some() => {
            plant(fault(name));
            None
        }
        _ => {
            eprintln!("usage: {program} [--fault NAME | --faults]");
            Some(ExitCode::from(2))
        }
    }
}
