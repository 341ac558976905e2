//! Comparison of `is_nfa`.

use super::{Plan, Tally, question};
use crate::{expect, port};

pub fn compare(call: port::Question, plan: &Plan, tally: &mut Tally) {
    question::compare("is_nfa", call, expect::is_nfa, plan, tally);
}
