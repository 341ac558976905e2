//! One row of the table for each call, on an input that is given.

use std::hint::black_box;

use compare::oracle::{self, Automaton};
use compare::port;
use compare::sheet::{DIFFERENCE_WORDS, OUT_BYTES, OUT_WORDS, Sheet, plain_labels, write_labels};
#[cfg(parser)]
use compare::{sheet::TEXT_BYTES, writer};

use crate::row;

/// Memory for an output.
struct Output {
    sheet: Vec<u32>,
    labels: Vec<u8>,
    words: u64,
    bytes: u64,
}

impl Output {
    fn new() -> Output {
        Output { sheet: vec![0; OUT_WORDS], labels: vec![0; OUT_BYTES], words: 0, bytes: 0 }
    }
}

/// The word's symbols are characters.
pub fn accepts_text(case: &str, sheet: &Sheet, word: &[u32]) {
    let a = oracle::automaton(sheet);
    let sheet = sheet.words();
    let text: String = word.iter().map(|&s| char::from_u32(s).expect("a character")).collect();
    let (bytes, mut answer) = (text.as_bytes(), 0);
    row(
        "accepts_text",
        case,
        || a.accepts(black_box(&text)),
        port::accepts_text().map(|call| move || call(&sheet, bytes, &mut answer)),
    );
}

pub fn accepts_words(case: &str, sheet: &Sheet, word: &[u32]) {
    let a = oracle::automaton(sheet);
    let sheet = sheet.words();
    let mut answer = 0;
    row(
        "accepts_words",
        case,
        || oracle::accepts_word(&a, black_box(word)),
        port::accepts_words().map(|call| move || call(&sheet, word, &mut answer)),
    );
}

/// A series with an unfinished last ring; the original is given the series without it.
pub fn accepts_series(case: &str, sheet: &Sheet, series: &[u32]) {
    let a = oracle::automaton(sheet);
    let sheet = sheet.words();
    let (whole, mut answer) = (&series[..series.len() - 1], 0);
    row(
        "accepts_series",
        case,
        || oracle::accepts_word(&a, black_box(whole)),
        port::accepts_series().map(|call| move || call(&sheet, series, 1, &mut answer)),
    );
}

pub fn determinize(case: &str, sheet: &Sheet) {
    let a = oracle::automaton(sheet);
    let (sheet, mut out) = (sheet.words(), Output::new());
    row(
        "determinize",
        case,
        || Automaton::determinize(black_box(&a)),
        port::determinize().map(|call| {
            move || call(&sheet, &mut out.sheet, &mut out.labels, &mut out.words, &mut out.bytes)
        }),
    );
}

pub fn intersection(case: &str, a: &Sheet, b: &Sheet) {
    let (first, second) = (oracle::automaton(a), oracle::automaton(b));
    let (a, b, mut out) = (a.words(), b.words(), Output::new());
    row(
        "intersection",
        case,
        || oracle::intersection(first.clone(), second.clone()),
        port::intersection().map(|call| {
            move || call(&a, &b, &mut out.sheet, &mut out.labels, &mut out.words, &mut out.bytes)
        }),
    );
}

pub fn totalize(case: &str, sheet: &Sheet) {
    labelled("totalize", |a| oracle::totalize(a.clone()), port::totalize(), case, sheet);
}

pub fn complement(case: &str, sheet: &Sheet) {
    labelled("complement", |a| oracle::complement(a.clone()), port::complement(), case, sheet);
}

pub fn epsilon_eliminate(case: &str, sheet: &Sheet) {
    let rust = |a: &Automaton| a.epsilon_eliminate();
    labelled("epsilon_eliminate", rust, port::epsilon_eliminate(), case, sheet);
}

fn labelled(
    call: &str,
    rust: impl Fn(&Automaton) -> Automaton,
    port: Option<port::Operation>,
    case: &str,
    sheet: &Sheet,
) {
    let labels = write_labels(&plain_labels(sheet.states()));
    let a = oracle::automaton(sheet);
    let (sheet, mut out) = (sheet.words(), Output::new());
    row(
        call,
        case,
        || rust(&a),
        port.map(|call| {
            move || {
                call(
                    &sheet,
                    &labels,
                    &mut out.sheet,
                    &mut out.labels,
                    &mut out.words,
                    &mut out.bytes,
                )
            }
        }),
    );
}

#[cfg(parser)]
pub fn parse_automaton(case: &str, text: &str) {
    let (mut out, mut read) = (Output::new(), 0);
    row(
        "parse_automaton",
        case,
        || oracle::parse_automaton(black_box(text)),
        port::parse_automaton().map(|call| {
            move || {
                call(
                    text.as_bytes(),
                    &mut out.sheet,
                    &mut out.labels,
                    &mut read,
                    &mut out.words,
                    &mut out.bytes,
                )
            }
        }),
    );
}

#[cfg(not(parser))]
pub fn parse_automaton(case: &str, _text: &str) {
    println!("| `parse_automaton` | {case} | nom was not found |");
}

/// The original has no writer; its part is to read the same text.
#[cfg(parser)]
pub fn write_automaton(case: &str, sheet: &Sheet, labels: &[Vec<u8>]) {
    let text = writer::text(sheet, labels).expect("it can be written");
    let text = String::from_utf8(text).expect("it is ASCII");
    let (sheet, labels) = (sheet.words(), write_labels(labels));
    let (mut out, mut bytes) = (vec![0; TEXT_BYTES], 0);
    row(
        "write_automaton",
        case,
        || oracle::parse_automaton(black_box(&text)),
        port::write_automaton().map(|call| move || call(&sheet, &labels, &mut out, &mut bytes)),
    );
}

#[cfg(not(parser))]
pub fn write_automaton(case: &str, _sheet: &Sheet, _labels: &[Vec<u8>]) {
    println!("| `write_automaton` | {case} | nom was not found |");
}

pub fn is_nfa(case: &str, sheet: &Sheet) {
    question("is_nfa", Automaton::is_nfa, port::is_nfa(), case, sheet);
}

pub fn has_reachable_accepting_state(case: &str, sheet: &Sheet) {
    question(
        "has_reachable_accepting_state",
        oracle::has_reachable_accepting_state,
        port::has_reachable_accepting_state(),
        case,
        sheet,
    );
}

fn question(
    call: &str,
    rust: fn(&Automaton) -> bool,
    port: Option<port::Question>,
    case: &str,
    sheet: &Sheet,
) {
    let a = oracle::automaton(sheet);
    let sheet = sheet.words();
    let mut answer = 0;
    row(call, case, || rust(&a), port.map(|call| move || call(&sheet, &mut answer)));
}

/// An automaton with itself.
pub fn is_equivalent(case: &str, sheet: &Sheet) {
    equivalence(case, sheet, sheet);
}

pub fn equivalence(case: &str, a: &Sheet, b: &Sheet) {
    let (first, second) = (oracle::automaton(a), oracle::automaton(b));
    let (a, b, mut answer) = (a.words(), b.words(), 0);
    row(
        "is_equivalent",
        case,
        || oracle::is_equivalent(first.clone(), second.clone()),
        port::is_equivalent().map(|call| move || call(&a, &b, &mut answer)),
    );
}

/// An automaton with itself.
pub fn is_subautomaton(case: &str, sheet: &Sheet) {
    let labels = plain_labels(sheet.states());
    inclusion(case, (sheet, &labels), (sheet, &labels));
}

/// Two sheets with their labels.
pub fn inclusion(case: &str, a: (&Sheet, &[Vec<u8>]), b: (&Sheet, &[Vec<u8>])) {
    let (first, second) = (oracle::labelled(a.0, a.1), oracle::labelled(b.0, b.1));
    let (a, one) = (a.0.words(), write_labels(a.1));
    let (b, two) = (b.0.words(), write_labels(b.1));
    let mut answer = 0;
    row(
        "is_subautomaton",
        case,
        || oracle::is_subautomaton(first.clone(), second.clone()),
        port::is_subautomaton().map(|call| move || call(&a, &one, &b, &two, &mut answer)),
    );
}

/// Whether two automata are equal, as the original can tell: by the products of each determinization
/// with the other's complement.
fn equal(a: &Automaton, b: &Automaton) -> bool {
    oracle::crossed_products_are_empty(&Automaton::determinize(a), &Automaton::determinize(b))
}

pub fn equality(case: &str, a: &Sheet, b: &Sheet) {
    let (first, second) = (oracle::automaton(a), oracle::automaton(b));
    let (a, b) = (a.words(), b.words());
    let (mut word, mut same, mut number) = (vec![0; DIFFERENCE_WORDS], 0, 0);
    row(
        "equality",
        case,
        || equal(&first, &second),
        port::equality().map(|call| move || call(&a, &b, &mut word, &mut same, &mut number)),
    );
}
