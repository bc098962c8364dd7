use core::fmt;

/// Why a model, or what was to be combined, was turned away.
#[derive(Clone, Copy, Debug, PartialEq, Eq)]
pub struct Refusal {
    pub reason: Reason,
    /// What it is the place of, [`Reason::place`] says.
    pub place: u64,
}

/// The documents' reasons. Later versions add to them.
#[derive(Clone, Copy, Debug, PartialEq, Eq)]
#[non_exhaustive]
pub enum Reason {
    TooManyWords,
    BudgetOutOfRange,
    WrongKind,
    BitSet,
    QuantityOutOfRange,
    FieldOutOfRange,
    SelfTransition,
    DuplicateTransition,
    TooManyTransitions,
    ProbabilitiesNotOne,
    StartWithoutExits,
    OverBudget,
    /// Only of [`crate::assess_rows`].
    TooFewRows,
    StateNotGreater,
    NamedStateWithExits,
    /// Only of [`crate::probabilistic_or`].
    PairCountOutOfRange,
    /// Only of [`crate::probabilistic_or`].
    PairOutOfRange,
}

/// Who can mend what a refusal names.
#[derive(Clone, Copy, Debug, PartialEq, Eq)]
#[non_exhaustive]
pub enum Party {
    Caller,
    WhoWroteTheWords,
    WhoDrewTheModel,
}

/// What a refusal's place is the place of.
#[derive(Clone, Copy, Debug, PartialEq, Eq)]
#[non_exhaustive]
pub enum Place {
    /// Nothing: it is 0.
    Nothing,
    /// A word, counted from 0; where the words ran out, it is their number.
    Word,
    /// A state.
    State,
    /// A number of rows: so many are needed.
    Rows,
    /// A pair of figures, counted from 0.
    Pair,
}

/// All that is known of a reason.
struct Entry {
    number: u64,
    party: Party,
    place: Place,
    sentence: &'static str,
    advice: &'static str,
}

impl Reason {
    pub const ALL: [Reason; 17] = [
        Reason::TooManyWords,
        Reason::BudgetOutOfRange,
        Reason::WrongKind,
        Reason::BitSet,
        Reason::QuantityOutOfRange,
        Reason::FieldOutOfRange,
        Reason::SelfTransition,
        Reason::DuplicateTransition,
        Reason::TooManyTransitions,
        Reason::ProbabilitiesNotOne,
        Reason::StartWithoutExits,
        Reason::OverBudget,
        Reason::TooFewRows,
        Reason::StateNotGreater,
        Reason::NamedStateWithExits,
        Reason::PairCountOutOfRange,
        Reason::PairOutOfRange,
    ];

    /// The rows of the table in docs/REPORT.md; tests/wording compares them.
    fn entry(self) -> Entry {
        match self {
            Reason::TooManyWords => Entry {
                number: 1,
                party: Party::Caller,
                place: Place::Nothing,
                sentence: "The model has more than 16,105 words.",
                advice: "The wrong file, more than 4,000 transitions, or more than 100 named states. Left-over bytes count as one more word.",
            },
            Reason::BudgetOutOfRange => Entry {
                number: 2,
                party: Party::Caller,
                place: Place::Nothing,
                sentence: "The budget must be from 1 to 1,000,000 steps.",
                advice: "The call. The report program always uses 1,000,000.",
            },
            Reason::WrongKind => Entry {
                number: 3,
                party: Party::WhoWroteTheWords,
                place: Place::Word,
                sentence: "Word PLACE is missing, or is not of the kind that belongs there.",
                advice: "Order of the words, a forgotten end word, something after it, left-over bytes, a file that ends early, bytes in the wrong order.",
            },
            Reason::BitSet => Entry {
                number: 4,
                party: Party::WhoWroteTheWords,
                place: Place::Word,
                sentence: "Word PLACE has a bit set that must be zero.",
                advice: "Bits 27 to 24 of a transition, 11 to 0 of the caps, 27 to 12 of a word that names a generator's state, 27 to 0 of the end.",
            },
            Reason::QuantityOutOfRange => Entry {
                number: 5,
                party: Party::WhoWroteTheWords,
                place: Place::Word,
                sentence: "The quantity in word PLACE is out of range.",
                advice: "Scale above 20 (probability: 12), coefficient above 999,999, or 0 where only P and deviations may be 0.",
            },
            Reason::FieldOutOfRange => Entry {
                number: 6,
                party: Party::WhoWroteTheWords,
                place: Place::Word,
                sentence: "Word PLACE has an edition, state or limit out of range.",
                advice: "Edition 1; N 1 to 1,000; states 1 to N; L and V 1 to 24.",
            },
            Reason::SelfTransition => Entry {
                number: 7,
                party: Party::WhoDrewTheModel,
                place: Place::Word,
                sentence: "The transition at word PLACE leads from a state to itself.",
                advice: "Leave it out, or draw the state it means.",
            },
            Reason::DuplicateTransition => Entry {
                number: 8,
                party: Party::WhoDrewTheModel,
                place: Place::Word,
                sentence: "The transition at word PLACE repeats an earlier one between the same two states.",
                advice: "Add the rates, or see \"Parallel transitions\" in MODELS.md.",
            },
            Reason::TooManyTransitions => Entry {
                number: 9,
                party: Party::WhoDrewTheModel,
                place: Place::Word,
                sentence: "Word PLACE is the 17th exit of its state, the 4,001st transition or the 101st word that names a generator's state.",
                advice: "Put exits together that lead to equal states; let one state stand for all that the generator dropped.",
            },
            Reason::ProbabilitiesNotOne => Entry {
                number: 10,
                party: Party::WhoDrewTheModel,
                place: Place::State,
                sentence: "The probabilities of the fast exits of state PLACE do not add up to exactly 1.",
                advice: "See \"Probabilities\" in MODELS.md. Every state is tested, reached or not.",
            },
            Reason::StartWithoutExits => Entry {
                number: 11,
                party: Party::WhoDrewTheModel,
                place: Place::State,
                sentence: "The start state PLACE has no exits.",
                advice: "The start field of the head, or a forgotten transition.",
            },
            Reason::OverBudget => Entry {
                number: 13,
                party: Party::Caller,
                place: Place::Nothing,
                sentence: "The model has more steps than the budget allows.",
                advice: "A caller below 1,000,000: raise the budget. Else raise P, or lower V or L, which as a rule makes `cut` greater.",
            },
            Reason::TooFewRows => Entry {
                number: 14,
                party: Party::Caller,
                place: Place::Rows,
                sentence: "Fewer rows were lent than the PLACE that the model needs.",
                advice: "The call. A row is needed for each state without exits that is a transition's target and not the generator's; 1,000 are always enough.",
            },
            Reason::StateNotGreater => Entry {
                number: 15,
                party: Party::WhoWroteTheWords,
                place: Place::Word,
                sentence: "The state named by word PLACE is not greater than the one named before it.",
                advice: "The generator's states are named once each, in rising order.",
            },
            Reason::NamedStateWithExits => Entry {
                number: 16,
                party: Party::WhoDrewTheModel,
                place: Place::State,
                sentence: "State PLACE is named as the generator's and has exits.",
                advice: "Take its exits out, or do not name it: a path that ends there is cut.",
            },
            Reason::PairCountOutOfRange => Entry {
                number: 17,
                party: Party::Caller,
                place: Place::Nothing,
                sentence: "There must be from 1 to 16 pairs of figures.",
                advice: "The number of pairs: combine no fewer than one and no more than sixteen.",
            },
            Reason::PairOutOfRange => Entry {
                number: 18,
                party: Party::Caller,
                place: Place::Pair,
                sentence: "Pair PLACE holds what is no figure, a power of ten outside -2,000 to 2,000, or a lower above 1 or above its upper.",
                advice: "The pair: nine digits from 100,000,000 to 999,999,999, or a zero with power 0; the lower at most 1 and at most the upper.",
            },
        }
    }

    /// The documents' number.
    pub fn number(self) -> u64 {
        self.entry().number
    }

    /// The reason of a number, if it is one that this version knows.
    pub fn of(number: u64) -> Option<Reason> {
        Reason::ALL.into_iter().find(|reason| reason.number() == number)
    }

    pub fn party(self) -> Party {
        self.entry().party
    }

    pub fn place(self) -> Place {
        self.entry().place
    }

    /// A sentence that a tool can show. Where it says PLACE, the place belongs; [`Refusal::sentence`] puts it there.
    pub fn sentence(self) -> &'static str {
        self.entry().sentence
    }

    /// What to look at.
    pub fn advice(self) -> &'static str {
        self.entry().advice
    }
}

impl Refusal {
    /// The sentence with the place in it.
    pub fn sentence(self) -> Sentence {
        Sentence(self)
    }
}

/// A refusal's sentence, with its place.
#[derive(Clone, Copy, Debug)]
pub struct Sentence(Refusal);

impl fmt::Display for Sentence {
    fn fmt(&self, out: &mut fmt::Formatter<'_>) -> fmt::Result {
        let Sentence(Refusal { reason, place }) = self;
        match reason.sentence().split_once("PLACE") {
            Some((before, behind)) => write!(out, "{before}{place}{behind}"),
            None => out.write_str(reason.sentence()),
        }
    }
}

/// As the report program prints it, without the newline.
impl fmt::Display for Refusal {
    fn fmt(&self, out: &mut fmt::Formatter<'_>) -> fmt::Result {
        write!(out, "refused {} at {}", self.reason.number(), self.place)
    }
}

impl core::error::Error for Refusal {}
