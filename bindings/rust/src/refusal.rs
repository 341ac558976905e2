//! Why a call was refused, with the numbers of the specification.

use std::fmt;

/// A refusal. After one nothing was written.
#[derive(Clone, Copy, Debug, PartialEq, Eq, Hash)]
#[non_exhaustive]
pub enum Refusal {
    SheetLength,
    Start,
    Counts,
    AcceptWord,
    Record,
    RecordOrder,
    Epsilon,
    Grammar,
    Utf8,
    Labels,
    OutputLength,
    States,
    Transitions,
    EpsilonRecord,
    NoAcceptingState,
    Names,
    AcceptingName,
    OuterMark,
}

const ALL: [(Refusal, u32, &str); 18] = [
    (
        Refusal::SheetLength,
        1,
        "a sheet too short for what its counts announce, or with words left over",
    ),
    (Refusal::Start, 2, "a start count other than 1, or a start index not below the state count"),
    (Refusal::Counts, 3, "a state count of 0 or over 256, or a transition count over 2,048"),
    (Refusal::AcceptWord, 4, "an accept word other than 0 or 1"),
    (
        Refusal::Record,
        5,
        "a record with a wrong kind, state index or range, or an epsilon with symbols",
    ),
    (Refusal::RecordOrder, 6, "a record not greater than the one before it"),
    (Refusal::Epsilon, 7, "an epsilon in a product"),
    (Refusal::Grammar, 8, "text outside the grammar, or a name over 64 bytes"),
    (Refusal::Utf8, 9, "malformed UTF-8"),
    (
        Refusal::Labels,
        10,
        "a label list with a wrong count, a length outside 1 to 64, or bytes missing or left over",
    ),
    (Refusal::OutputLength, 20, "an output shorter than its least size"),
    (Refusal::States, 21, "the result needs over 256 states"),
    (Refusal::Transitions, 22, "the result needs over 2,048 transitions"),
    (Refusal::EpsilonRecord, 30, "a record is an epsilon, which the grammar has no text for"),
    (Refusal::NoAcceptingState, 31, "no state that the text names accepts"),
    (
        Refusal::Names,
        32,
        "two labels in the text are equal, one is no name in the grammar, or the text is over 65,536 bytes",
    ),
    (Refusal::AcceptingName, 33, "an accepting name that is no state"),
    (Refusal::OuterMark, 34, "an outer mark over 1"),
];

impl Refusal {
    /// Its number in the specification.
    pub fn number(self) -> u32 {
        self.row().1
    }

    pub(crate) fn of_number(number: u32) -> Refusal {
        let found = ALL.iter().find(|row| row.1 == number);
        found.expect("the library returns 0 or a refusal's number").0
    }

    fn row(self) -> &'static (Refusal, u32, &'static str) {
        ALL.iter().find(|row| row.0 == self).expect("every refusal has its row")
    }
}

impl fmt::Display for Refusal {
    fn fmt(&self, f: &mut fmt::Formatter) -> fmt::Result {
        write!(f, "refusal {}: {}", self.number(), self.row().2)
    }
}

impl std::error::Error for Refusal {}
