//! Comparison of `write_automaton`.
//!
//! The original has no writer. The text is compared with one written from document 02, and read back by the original's parser.

use super::{Plan, Tally};
use crate::expect::{self, Outcome};
use crate::generate::{labels, patterns, written};
use crate::lent::{Lent, near, result_fault};
use crate::sheet::{EPSILON, MAX_STATES, Sheet, TEXT_BYTES, read_labels, write_labels};
use crate::{port, writer};

/// Lengths of texts and buffers at the limit.
const LENGTHS: [usize; 4] = [TEXT_BYTES - 1, TEXT_BYTES, TEXT_BYTES + 1, TEXT_BYTES + 1000];

/// Whether an accepted sheet has an epsilon.
fn has_epsilon(sheet: &[u32]) -> bool {
    Sheet::read(sheet).records.iter().any(|record| record[1] == EPSILON)
}

/// What is wrong with the call's result and what it wrote.
fn fault(
    result: u32,
    expected: &Outcome<Vec<u8>>,
    text: &Lent<u8>,
    bytes: &Lent<u64>,
) -> Option<String> {
    let (front, length) = match expected {
        Ok(text) => (&text[..], vec![text.len() as u64]),
        Err(_) => (&[][..], vec![]),
    };
    result_fault(result, expected)
        .or_else(|| bytes.fault("bytes", &length))
        .or_else(|| text.fault("text_out", front))
}

pub fn compare(call: port::WriteAutomaton, plan: &Plan, tally: &mut Tally) {
    let mut check = |sort, sheet: Vec<u32>, labels: Vec<u8>, room: usize| {
        let (mut text, mut bytes) = (Lent::new(room), Lent::new(1));
        let expected =
            if room < TEXT_BYTES { Err(20) } else { expect::write_automaton(&sheet, &labels) };
        let result = call(&sheet, &labels, &mut text, &mut bytes[0]);
        let fault = fault(result, &expected, &text, &bytes).or_else(|| {
            let length = expected.as_ref().ok()?.len();
            writer::read_back_fault(&Sheet::read(&sheet), &read_labels(&labels), &text[..length])
        });
        tally.note(
            sort,
            &expected,
            fault,
            &[("sheet", &sheet), ("labels", &labels), ("bytes lent", &room)],
        );
    };
    plan.sheets("write_automaton", |rng, sort, sheet| {
        // Fifteen in sixteen tiny sheets have an epsilon; few of these are enough.
        if sort == "tiny" && has_epsilon(&sheet) && !rng.one_in(16) {
            return;
        }
        let states = sheet.get(2).map_or(1, |&n| (n as usize).min(MAX_STATES + 1));
        let labels =
            if rng.one_in(8) { labels::list(rng, states) } else { written::list(rng, states) };
        let room = near(rng, TEXT_BYTES);
        check(sort, sheet, labels, room);
    });
    let mut rng = plan.rng("write_automaton of texts");
    for bytes in LENGTHS {
        for room in LENGTHS {
            for _ in 0..10 {
                let (sheet, labels) = written::sized(&mut rng, bytes);
                check("length", sheet.words(), write_labels(&labels), room);
            }
        }
    }
    for round in 0..plan.rounds {
        if round % 50 == 0 {
            let bytes = rng.within(TEXT_BYTES - 20, TEXT_BYTES + 20);
            let (sheet, labels) = written::sized(&mut rng, bytes);
            let room = near(&mut rng, TEXT_BYTES);
            check("length", sheet.words(), write_labels(&labels), room);
        }
        if let Ok(parsed) = expect::parse_automaton(&patterns::whole(&mut rng)) {
            let room = near(&mut rng, TEXT_BYTES);
            check("pattern", parsed.built.sheet, parsed.built.labels, room);
        }
    }
}
