//! Comparison of the operations on one sheet and its labels.

use super::{Plan, Tally};
use crate::expect::{Built, Outcome};
use crate::generate::labels;
use crate::port::Operation;
use crate::sheet::MAX_STATES;

/// Compares one such operation with what is expected of it.
pub fn compare(
    name: &str,
    call: Operation,
    expect: fn(&[u32], &[u8]) -> Outcome<Built>,
    plan: &Plan,
    tally: &mut Tally,
) {
    plan.sheets(name, |rng, sort, sheet| {
        let states = sheet.get(2).map_or(1, |&n| (n as usize).min(MAX_STATES + 1));
        let labels = labels::list(rng, states);
        tally.output(
            rng,
            sort,
            || expect(&sheet, &labels),
            &[("sheet", &sheet), ("labels", &labels)],
            |out, labels_out, words, bytes| call(&sheet, &labels, out, labels_out, words, bytes),
        );
    });
}
