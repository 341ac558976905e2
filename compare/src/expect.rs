//! What each call must answer: the original's answer, or a refusal by document 01's conditions.
//!
//! Refusal 20 is not told here, since it depends on the lent memory alone (`outputs`).

use crate::bounded::{self, Product};
use crate::oracle::{self, Automaton};
use crate::sheet::{
    MAX_RECORDS, MAX_STATES, OUT_BYTES, OUT_WORDS, Sheet, read_labels, write_labels,
};
use crate::{equality, paper, writer};

/// What a call answers, or the number of its refusal.
pub type Outcome<T> = Result<T, u32>;

/// An output sheet and its labels.
#[derive(Clone, Debug, PartialEq, Eq)]
pub struct Built {
    pub sheet: Vec<u32>,
    pub labels: Vec<u8>,
}

/// What the pattern reader answers.
#[derive(Clone, Debug, PartialEq, Eq)]
pub struct Parsed {
    /// The number of bytes read.
    pub read: u64,
    pub built: Built,
}

/// What exact equality answers.
#[derive(Clone, Debug, PartialEq, Eq)]
pub enum Verdict {
    Same {
        joins: u64,
    },
    /// Any word that exactly one automaton accepts will do, if it has at most `longest` symbols.
    Different {
        word: Vec<u32>,
        longest: u64,
    },
}

/// 20, where an output sheet or output labels are lent too little memory.
pub fn outputs(words: usize, bytes: usize) -> Outcome<()> {
    if words < OUT_WORDS || bytes < OUT_BYTES { Err(20) } else { Ok(()) }
}

/// An accepted sheet, or the number of its first fault.
pub fn accepted(words: &[u32]) -> Outcome<Sheet> {
    match paper::sheet_fault(words) {
        0 => Ok(Sheet::read(words)),
        fault => Err(fault),
    }
}

/// The labels of an accepted sheet, or 10.
fn accepted_labels(sheet: &Sheet, bytes: &[u8]) -> Outcome<Vec<Vec<u8>>> {
    match paper::labels_fault(sheet.states(), bytes) {
        0 => Ok(read_labels(bytes)),
        fault => Err(fault),
    }
}

/// A result of the original as an output, 21 before 22.
fn built(a: &Automaton) -> Outcome<Built> {
    let sheet = oracle::sheet(a);
    if sheet.states() > MAX_STATES {
        return Err(21);
    }
    if sheet.records.len() > MAX_RECORDS {
        return Err(22);
    }
    Ok(Built { sheet: sheet.words(), labels: write_labels(&oracle::labels(a)) })
}

pub fn accepts_words(sheet: &[u32], word: &[u32]) -> Outcome<u32> {
    let sheet = accepted(sheet)?;
    Ok(oracle::accepts_word(&oracle::automaton(&sheet), word) as u32)
}

pub fn accepts_text(sheet: &[u32], text: &[u8]) -> Outcome<u32> {
    let sheet = accepted(sheet)?;
    let text = str::from_utf8(text).map_err(|_| 9u32)?;
    Ok(oracle::automaton(&sheet).accepts(text) as u32)
}

/// The original's answer for a series without the last ring that a mark of 1 leaves off.
pub fn accepts_series(sheet: &[u32], series: &[u32], mark: u32) -> Outcome<u32> {
    accepted(sheet)?;
    let whole = match mark {
        0 => series,
        1 => &series[..series.len().saturating_sub(1)],
        _ => return Err(34),
    };
    accepts_words(sheet, whole)
}

/// A sheet's determinization by the original, 21 being decided before it is asked.
fn determinized(sheet: &Sheet) -> Outcome<Automaton> {
    match bounded::sets(sheet, MAX_STATES - 1) {
        Some(_) => Ok(oracle::determinize(sheet)),
        None => Err(21),
    }
}

pub fn determinize(sheet: &[u32]) -> Outcome<Built> {
    built(&determinized(&accepted(sheet)?)?)
}

pub fn intersection(a: &[u32], b: &[u32]) -> Outcome<Built> {
    let (a, b) = (accepted(a)?, accepted(b)?);
    match bounded::product(&a, &b) {
        Product::TooManyPairs => Err(21),
        Product::Epsilon => Err(7),
        Product::Clear => {
            let product = oracle::intersection(oracle::automaton(&a), oracle::automaton(&b));
            built(&product.expect("no epsilon is met"))
        }
    }
}

/// An operation of the original on an accepted sheet and its labels.
fn operation(
    sheet: &[u32],
    labels: &[u8],
    operation: impl FnOnce(Automaton) -> Automaton,
) -> Outcome<Built> {
    let sheet = accepted(sheet)?;
    let labels = accepted_labels(&sheet, labels)?;
    built(&operation(oracle::labelled(&sheet, &labels)))
}

pub fn totalize(sheet: &[u32], labels: &[u8]) -> Outcome<Built> {
    operation(sheet, labels, oracle::totalize)
}

pub fn complement(sheet: &[u32], labels: &[u8]) -> Outcome<Built> {
    operation(sheet, labels, oracle::complement)
}

pub fn epsilon_eliminate(sheet: &[u32], labels: &[u8]) -> Outcome<Built> {
    operation(sheet, labels, |a| a.epsilon_eliminate())
}

pub fn is_nfa(sheet: &[u32]) -> Outcome<u32> {
    Ok(oracle::automaton(&accepted(sheet)?).is_nfa() as u32)
}

pub fn has_reachable_accepting_state(sheet: &[u32]) -> Outcome<u32> {
    let a = oracle::automaton(&accepted(sheet)?);
    Ok(oracle::has_reachable_accepting_state(&a) as u32)
}

pub fn is_equivalent(a: &[u32], b: &[u32]) -> Outcome<u32> {
    let (a, b) = (accepted(a)?, accepted(b)?);
    Ok(oracle::is_equivalent(oracle::automaton(&a), oracle::automaton(&b)) as u32)
}

pub fn is_subautomaton(a: &[u32], a_labels: &[u8], b: &[u32], b_labels: &[u8]) -> Outcome<u32> {
    let (a, b) = (accepted(a)?, accepted(b)?);
    let a_labels = accepted_labels(&a, a_labels)?;
    let b_labels = accepted_labels(&b, b_labels)?;
    let (a, b) = (oracle::labelled(&a, &a_labels), oracle::labelled(&b, &b_labels));
    Ok(oracle::is_subautomaton(a, b) as u32)
}

/// The answer by the original's parser, with document 01's limit on names, and with 33 where it drops an accepting name.
#[cfg(parser)]
pub fn parse_automaton(text: &[u8]) -> Outcome<Parsed> {
    // The original reads strings only. Bytes over 127 belong to nothing of the grammar, so any
    // characters over 127 may stand for them.
    let string = str::from_utf8(text).map_or_else(|_| oracle::text_of(text), str::to_owned);
    let (a, read) = oracle::parse_automaton(&string).ok_or(8u32)?;
    if long_name(&text[..read]) {
        return Err(8);
    }
    let (pattern, _) = crate::grammar::read(text).expect("the original reads it");
    if crate::grammar::misspelt(&pattern) {
        return Err(33);
    }
    built(&a).map(|built| Parsed { read: read as u64, built })
}

/// The answer by document 01's grammar alone.
#[cfg(not(parser))]
pub use parse_by_grammar as parse_automaton;

/// Whether a text of the grammar has a name over 64 bytes, one that is no state included.
#[cfg(parser)]
fn long_name(text: &[u8]) -> bool {
    text.split(|&byte| !(byte.is_ascii_alphanumeric() || byte == b'_'))
        .any(|run| run.len() > crate::sheet::MAX_NAME && run[0].is_ascii_alphabetic())
}

/// What document 01's grammar makes of a text, without the original.
pub fn parse_by_grammar(text: &[u8]) -> Outcome<Parsed> {
    let (pattern, read) = crate::grammar::read(text).ok_or(8u32)?;
    if crate::grammar::misspelt(&pattern) {
        return Err(33);
    }
    let (sheet, labels) = crate::grammar::automaton(&pattern);
    built(&oracle::labelled(&sheet, &labels)).map(|built| Parsed { read: read as u64, built })
}

/// The text of a sheet and its labels.
pub fn write_automaton(sheet: &[u32], labels: &[u8]) -> Outcome<Vec<u8>> {
    let sheet = accepted(sheet)?;
    let labels = accepted_labels(&sheet, labels)?;
    writer::text(&sheet, &labels)
}

/// The determinization that exact equality walks, or its 21 or 22.
fn fitting(sheet: &Sheet) -> Outcome<Sheet> {
    let a = determinized(sheet)?;
    built(&a)?;
    Ok(oracle::sheet(&a))
}

pub fn equality(a: &[u32], b: &[u32]) -> Outcome<Verdict> {
    let (a, b) = (accepted(a)?, accepted(b)?);
    let (d, e) = (fitting(&a)?, fitting(&b)?);
    let states = d.states() + e.states();
    Ok(match equality::difference(&d, &e) {
        Some(word) => Verdict::Different { word, longest: states as u64 - 2 },
        None => Verdict::Same { joins: (states - equality::classes(&d, &e)) as u64 },
    })
}
