//! Comparison of the calls that ask a question of one sheet.

use super::{Plan, Tally};
use crate::expect::Outcome;
use crate::port::Question;

/// Compares one such call with what is expected of it.
pub fn compare(
    name: &str,
    call: Question,
    expect: fn(&[u32]) -> Outcome<u32>,
    plan: &Plan,
    tally: &mut Tally,
) {
    plan.sheets(name, |_, sort, sheet| {
        tally.question(sort, expect(&sheet), &[("sheet", &sheet)], |answer| call(&sheet, answer));
    });
}
