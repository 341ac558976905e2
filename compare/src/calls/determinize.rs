//! Comparison of `determinize`.

use super::{Plan, Tally};
use crate::{expect, port};

pub fn compare(call: port::Determinize, plan: &Plan, tally: &mut Tally) {
    plan.sheets("determinize", |rng, sort, sheet| {
        tally.output(
            rng,
            sort,
            || expect::determinize(&sheet),
            &[("sheet", &sheet)],
            |out, labels_out, words, bytes| call(&sheet, out, labels_out, words, bytes),
        );
    });
}
