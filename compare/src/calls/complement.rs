//! Comparison of `complement`.

use super::{Plan, Tally, operation};
use crate::{expect, port};

pub fn compare(call: port::Operation, plan: &Plan, tally: &mut Tally) {
    operation::compare("complement", call, expect::complement, plan, tally);
}
