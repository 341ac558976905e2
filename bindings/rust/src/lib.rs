//! Finite automata over ranges of ring widths, for patterns that ring series are matched against. Every function calls a function
//! of the static library `ringmatch`, which is proved to meet its contract.
//!
//! ```
//! use ringmatch::{Verdict, equality, parse_automaton};
//!
//! let (_, a) = parse_automaton("automaton A { init p; p -> q [0, 9]; accepting q; };")?;
//! let (_, c) = parse_automaton("automaton C { init p; p -> q [0, 8]; accepting q; };")?;
//! assert!(a.accepts_words(&[9])?);
//! assert!(!c.accepts_words(&[9])?);
//! assert_eq!(equality(&a, &c)?, Verdict::Different { word: vec![9] });
//! assert_eq!(a.to_string(), "automaton P { init p; p -> q [0, 9]; accepting q; };");
//! # Ok::<(), ringmatch::Refusal>(())
//! ```
//!
//! The names are those of the original's module; what takes an automaton by value there borrows one here. An operation that the original
//! can't refuse is refused here where its result is over 256 states or 2,048 transitions. [`Automaton::accepts_series`], [`equality`] and
//! [`write_automaton`] are added.

mod foreign;
mod refusal;

use std::fmt;

pub use refusal::Refusal;

/// The most states and transitions of an automaton, and the most bytes of a label.
pub const MAX_STATES: usize = 256;
pub const MAX_TRANSITIONS: usize = 2048;
pub const MAX_LABEL: usize = 64;

/// The outer marks of a ring series: its last ring is whole, or unfinished.
pub const WHOLE_RING: u32 = 0;
pub const UNFINISHED_RING: u32 = 1;

const SHEET_WORDS: usize = 10_500;
const LABEL_BYTES: usize = 16_642;
const DIFFERENCE_WORDS: usize = 510;
const TEXT_BYTES: usize = 65_536;

/// An automaton: its sheet, and the labels of its states as a label list (document 01). Whether the two are well-formed is checked by each
/// call, so that any words and bytes may stand in them.
#[derive(Clone, Debug, PartialEq, Eq, Hash)]
pub struct Automaton {
    pub sheet: Vec<u32>,
    pub labels: Vec<u8>,
}

/// What exact equality found.
#[derive(Clone, Debug, PartialEq, Eq)]
pub enum Verdict {
    /// Every word is accepted by both or by neither; so many joins of states were made.
    Same { joins: u64 },
    /// Exactly one of the two accepts the word.
    Different { word: Vec<u32> },
}

fn checked<T>(code: u32, answer: T) -> Result<T, Refusal> {
    if code == 0 { Ok(answer) } else { Err(Refusal::of_number(code)) }
}

/// The answer that a call gives.
fn answered(call: impl FnOnce(&mut u32) -> u32) -> Result<bool, Refusal> {
    let mut answer = 0;
    let code = call(&mut answer);
    checked(code, answer != 0)
}

/// The automaton that a call writes to the outputs and their lengths.
fn built(
    call: impl FnOnce(&mut [u32], &mut [u8], &mut u64, &mut u64) -> u32,
) -> Result<Automaton, Refusal> {
    let (mut sheet, mut labels) = (vec![0; SHEET_WORDS], vec![0; LABEL_BYTES]);
    let (mut words, mut bytes) = (0, 0);
    let code = call(&mut sheet, &mut labels, &mut words, &mut bytes);
    checked(code, ())?;
    sheet.truncate(words as usize);
    labels.truncate(bytes as usize);
    Ok(Automaton { sheet, labels })
}

/// An operation that keeps labels.
type Operation = fn(&[u32], &[u8], &mut [u32], &mut [u8], &mut u64, &mut u64) -> u32;

fn operate(call: Operation, a: &Automaton) -> Result<Automaton, Refusal> {
    built(|out, labels_out, words, bytes| call(&a.sheet, &a.labels, out, labels_out, words, bytes))
}

impl Automaton {
    /// Whether the text is accepted, as the word of its characters.
    pub fn accepts(&self, text: &str) -> Result<bool, Refusal> {
        self.accepts_bytes(text.as_bytes())
    }

    /// Whether the text in UTF-8 is accepted; malformed text is refused.
    pub fn accepts_bytes(&self, text: &[u8]) -> Result<bool, Refusal> {
        answered(|answer| foreign::ringmatch_accepts_text(&self.sheet, text, answer))
    }

    /// Whether the word is accepted: a ring series, oldest ring first.
    pub fn accepts_words(&self, word: &[u32]) -> Result<bool, Refusal> {
        answered(|answer| foreign::ringmatch_accepts_words(&self.sheet, word, answer))
    }

    /// Whether a ring series with an outer mark is accepted: an unfinished last ring ([`UNFINISHED_RING`]) is left off first, and an empty series
    /// stays empty. Another mark than these two is refused ([`Refusal::OuterMark`]).
    pub fn accepts_series(&self, series: &[u32], mark: u32) -> Result<bool, Refusal> {
        answered(|answer| foreign::ringmatch_accepts_series(&self.sheet, series, mark, answer))
    }

    /// Whether it has an epsilon, an overlap or a hole.
    pub fn is_nfa(&self) -> Result<bool, Refusal> {
        answered(|answer| foreign::ringmatch_is_nfa(&self.sheet, answer))
    }

    /// The automaton of the same words without epsilons.
    pub fn epsilon_eliminate(&self) -> Result<Automaton, Refusal> {
        operate(foreign::ringmatch_epsilon_eliminate, self)
    }

    /// The deterministic automaton of the same words, in which every symbol has one transition in every state.
    pub fn determinize(&self) -> Result<Automaton, Refusal> {
        built(|out, labels_out, words, bytes| {
            foreign::ringmatch_determinize(&self.sheet, out, labels_out, words, bytes)
        })
    }
}

/// The automaton with a sink to which the symbols lead that no range of a state holds; its words are the same.
pub fn totalize(a: &Automaton) -> Result<Automaton, Refusal> {
    operate(foreign::ringmatch_totalize, a)
}

/// The automaton with acceptance flipped, totalized first if `is_nfa`. Its words are the others only where no epsilon and no overlap stands:
/// determinize first otherwise.
pub fn complement(a: &Automaton) -> Result<Automaton, Refusal> {
    operate(foreign::ringmatch_complement, a)
}

/// The product. Where neither has an epsilon it accepts just the words that both accept.
pub fn intersection(a: &Automaton, b: &Automaton) -> Result<Automaton, Refusal> {
    built(|out, labels_out, words, bytes| {
        foreign::ringmatch_intersection(&a.sheet, &b.sheet, out, labels_out, words, bytes)
    })
}

/// Whether some word is accepted.
pub fn has_reachable_accepting_state(a: &Automaton) -> Result<bool, Refusal> {
    answered(|answer| foreign::ringmatch_has_reachable_accepting_state(&a.sheet, answer))
}

/// The older comparison by exact ranges. Without epsilons or overlaps true implies equal words; false implies nothing. For whether two
/// automata accept the same words see [`equality`].
pub fn is_equivalent(a: &Automaton, b: &Automaton) -> Result<bool, Refusal> {
    answered(|answer| foreign::ringmatch_is_equivalent(&a.sheet, &b.sheet, answer))
}

/// Whether the states, accepting states and start of `p` are those of `q` by their labels, and each transition of `p` is covered by one of `q`.
pub fn is_subautomaton(p: &Automaton, q: &Automaton) -> Result<bool, Refusal> {
    answered(|answer| {
        foreign::ringmatch_is_subautomaton(&p.sheet, &p.labels, &q.sheet, &q.labels, answer)
    })
}

/// The pattern at the front of a text, and the rest of the text. Each accepting name has to be a state ([`Refusal::AcceptingName`]).
pub fn parse_automaton(input: &str) -> Result<(&str, Automaton), Refusal> {
    let (rest, automaton) = parse_automaton_bytes(input.as_bytes())?;
    Ok((&input[input.len() - rest.len()..], automaton))
}

/// The same of bytes.
pub fn parse_automaton_bytes(input: &[u8]) -> Result<(&[u8], Automaton), Refusal> {
    let mut read = 0;
    let automaton = built(|out, labels_out, words, bytes| {
        foreign::ringmatch_parse_automaton(input, out, labels_out, &mut read, words, bytes)
    })?;
    Ok((&input[read as usize..], automaton))
}

/// The text of an automaton, such as `automaton P { init p; p -> q [0, 9]; accepting q; };`, always with the name P. It names
/// the start and the states of the transitions, and no others; [`parse_automaton`] reads it to its end as an automaton of just these states under
/// their labels, which accepts the same words.
pub fn write_automaton(a: &Automaton) -> Result<String, Refusal> {
    let (mut text, mut bytes) = (vec![0; TEXT_BYTES], 0);
    let code = foreign::ringmatch_write_automaton(&a.sheet, &a.labels, &mut text, &mut bytes);
    checked(code, ())?;
    text.truncate(bytes as usize);
    Ok(String::from_utf8(text).expect("a text of the grammar is ASCII"))
}

/// The text of [`write_automaton`]. Where that is refused, formatting fails with [`fmt::Error`], and `to_string` panics; the refusal itself is
/// the answer of [`write_automaton`].
impl fmt::Display for Automaton {
    fn fmt(&self, f: &mut fmt::Formatter) -> fmt::Result {
        f.write_str(&write_automaton(self).map_err(|_| fmt::Error)?)
    }
}

/// Exact equality: whether every word is accepted by both or by neither, and a word that tells them apart otherwise.
pub fn equality(a: &Automaton, b: &Automaton) -> Result<Verdict, Refusal> {
    let mut word = vec![0; DIFFERENCE_WORDS];
    let (mut same, mut number) = (0, 0);
    let code = foreign::ringmatch_equality(&a.sheet, &b.sheet, &mut word, &mut same, &mut number);
    checked(code, ())?;
    if same == 1 {
        return Ok(Verdict::Same { joins: number });
    }
    word.truncate(number as usize);
    Ok(Verdict::Different { word })
}
