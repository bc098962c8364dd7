//! The header and this crate say the same.

use std::mem::{align_of, offset_of, size_of};

use bounds::{
    Party, Reason, Row, MOST_BUDGET, MOST_PAIRS, MOST_ROWS, MOST_WORDS, STACK, VERSION, WORDS_SIZE,
};

/// The header has the same version, sizes, numbers and groups. (tests/wording compares the sentences.)
#[test]
fn header() {
    let header = include_str!("../../include/bounds.h");
    assert!(header.contains(&format!("#define BOUNDS_VERSION {}\n", VERSION.0)));
    let sizes = [
        ("MOST_WORDS", MOST_WORDS as u64),
        ("MOST_BUDGET", MOST_BUDGET),
        ("MOST_ROWS", MOST_ROWS as u64),
        ("MOST_PAIRS", MOST_PAIRS as u64),
        ("STACK", STACK as u64),
    ];
    for (name, size) in sizes {
        assert!(header.contains(&format!("#define BOUNDS_{name} {size} ")), "{name}");
    }
    assert!(header.contains("#define BOUNDS_WORDS_SIZE (BOUNDS_MOST_WORDS + 1) "));
    assert_eq!(WORDS_SIZE, MOST_WORDS + 1);
    let (_, rest) = header.split_once("/* By the caller. */").expect("the first group");
    let (caller, rest) = rest.split_once("/* By whoever wrote the words. */").expect("the second");
    let (words, rest) = rest.split_once("/* By whoever drew the model. */").expect("the third");
    let (model, _) = rest.split_once("};").expect("the end");
    let numbers = [caller, words, model].map(|group| group.matches(" = ").count());
    assert_eq!(numbers.iter().sum::<usize>(), Reason::ALL.len());
    for reason in Reason::ALL {
        let group = match reason.party() {
            Party::Caller => caller,
            Party::WhoWroteTheWords => words,
            Party::WhoDrewTheModel => model,
            other => panic!("{other:?} has no group"),
        };
        let constant = format!("BOUNDS_{}", shouted(&format!("{reason:?}")));
        assert!(group.contains(&format!("{constant} = {}", reason.number())), "{constant}");
    }
}

/// A row has the layout that the header states.
#[test]
fn rows() {
    assert!(include_str!("../../include/bounds.h").contains("sizeof(bounds_row) == 40 "));
    assert_eq!((size_of::<Row>(), align_of::<Row>()), (40, 8));
    let at = [offset_of!(Row, state), offset_of!(Row, lower), offset_of!(Row, upper)];
    assert_eq!(at, [0, 8, 24]);
}

/// `SelfTransition` as `SELF_TRANSITION`.
fn shouted(name: &str) -> String {
    let apart = name.chars().enumerate().flat_map(|(at, c)| {
        let gap = if at > 0 && c.is_uppercase() { Some('_') } else { None };
        gap.into_iter().chain(c.to_uppercase())
    });
    apart.collect()
}
