//! Comparison of `totalize`.

use super::{Plan, Tally, operation};
use crate::{expect, port};

pub fn compare(call: port::Operation, plan: &Plan, tally: &mut Tally) {
    operation::compare("totalize", call, expect::totalize, plan, tally);
}
