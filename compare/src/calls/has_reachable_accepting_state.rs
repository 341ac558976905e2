//! Comparison of `has_reachable_accepting_state`.

use super::{Plan, Tally, question};
use crate::{expect, port};

pub fn compare(call: port::Question, plan: &Plan, tally: &mut Tally) {
    question::compare(
        "has_reachable_accepting_state",
        call,
        expect::has_reachable_accepting_state,
        plan,
        tally,
    );
}
