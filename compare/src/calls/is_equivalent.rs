//! Comparison of `is_equivalent`.

use super::{Plan, Tally};
use crate::{expect, port};

pub fn compare(call: port::IsEquivalent, plan: &Plan, tally: &mut Tally) {
    plan.pairs("is_equivalent", |_, sort, a, b| {
        let expected = expect::is_equivalent(&a, &b);
        tally.question(sort, expected, &[("a", &a), ("b", &b)], |answer| call(&a, &b, answer));
    });
}
