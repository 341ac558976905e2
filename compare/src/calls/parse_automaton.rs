//! Comparison of `parse_automaton`.

use super::{Plan, Tally};
use crate::generate::{Rng, patterns};
use crate::lent::{Lent, Output};
use crate::{expect, port};

pub fn compare(call: port::ParseAutomaton, plan: &Plan, tally: &mut Tally) {
    let mut check = |rng: &mut Rng, sort, text: Vec<u8>| {
        let mut out = Output::new(rng);
        let mut read = Lent::new(1);
        let expected = out.outcome().and_then(|()| expect::parse_automaton(&text));
        let result = call(
            &text,
            &mut out.sheet,
            &mut out.labels,
            &mut read[0],
            &mut out.words[0],
            &mut out.bytes[0],
        );
        let bytes_read = expected.clone().map(|parsed| parsed.read);
        let built = expected.clone().map(|parsed| parsed.built);
        let fault =
            out.fault(result, &built).or_else(|| read.fault("read", bytes_read.ok().as_slice()));
        tally.note_output(sort, &expected, fault, &[("text", &text)], &out);
    };
    let mut rng = plan.rng("parse_automaton");
    for text in patterns::edits() {
        check(&mut rng, "one edit", text);
    }
    for text in patterns::rules() {
        check(&mut rng, "rule", text);
    }
    for _ in 0..plan.rounds {
        let (sort, text) = patterns::any(&mut rng);
        check(&mut rng, sort, text);
    }
}
