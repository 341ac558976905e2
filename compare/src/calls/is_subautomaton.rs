//! Comparison of `is_subautomaton`.

use super::{Plan, Tally};
use crate::generate::pairs;
use crate::{expect, port};

pub fn compare(call: port::IsSubautomaton, plan: &Plan, tally: &mut Tally) {
    let mut rng = plan.rng("is_subautomaton");
    for _ in 0..plan.rounds {
        let pairs::Labelled { sort, a, a_labels, b, b_labels } = pairs::labelled(&mut rng);
        tally.question(
            sort,
            expect::is_subautomaton(&a, &a_labels, &b, &b_labels),
            &[("a", &a), ("a_labels", &a_labels), ("b", &b), ("b_labels", &b_labels)],
            |answer| call(&a, &a_labels, &b, &b_labels, answer),
        );
    }
}
