//! Comparison of `intersection`.

use super::{Plan, Tally};
use crate::{expect, port};

pub fn compare(call: port::Intersection, plan: &Plan, tally: &mut Tally) {
    plan.pairs("intersection", |rng, sort, a, b| {
        tally.output(
            rng,
            sort,
            || expect::intersection(&a, &b),
            &[("a", &a), ("b", &b)],
            |out, labels_out, words, bytes| call(&a, &b, out, labels_out, words, bytes),
        );
    });
}
