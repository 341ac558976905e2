//! Comparison of `epsilon_eliminate`.

use super::{Plan, Tally, operation};
use crate::{expect, port};

pub fn compare(call: port::Operation, plan: &Plan, tally: &mut Tally) {
    operation::compare("epsilon_eliminate", call, expect::epsilon_eliminate, plan, tally);
}
