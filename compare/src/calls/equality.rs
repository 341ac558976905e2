//! Comparison of exact equality.
//!
//! The original has no such call. The verdict is compared with a plain search on its
//! determinizations, with its `is_equivalent` and its crossed products on them where they are small,
//! and a difference word with what its closures and steps accept.

use super::{Plan, Tally};
use crate::expect::{Outcome, Verdict};
use crate::lent::{Lent, near, result_fault};
use crate::sheet::{DIFFERENCE_WORDS, Sheet};
use crate::{expect, oracle, port};

/// What was lent to the call.
struct Lending {
    word: Lent<u32>,
    same: Lent<u32>,
    number: Lent<u64>,
}

impl Lending {
    /// What is wrong with the call's result and what it wrote.
    fn fault(
        &self,
        result: u32,
        expected: &Outcome<Verdict>,
        a: &[u32],
        b: &[u32],
    ) -> Option<String> {
        let written = |same: &[u32], number: &[u64], word: &[u32]| {
            self.same
                .fault("same", same)
                .or_else(|| self.number.fault("number", number))
                .or_else(|| self.word.fault("word_out", word))
        };
        result_fault(result, expected).or_else(|| match expected {
            Err(_) => written(&[], &[], &[]),
            Ok(Verdict::Same { joins }) => written(&[1], &[*joins], &[]),
            Ok(Verdict::Different { longest, .. }) => {
                let length = self.number[0];
                let word = self.word.get(..length as usize).unwrap_or_default();
                if self.same[0] == 0 && length > *longest {
                    return Some(format!("{length} symbols, over {longest}"));
                }
                written(&[0], &[length], word).or_else(|| difference_fault(a, b, word))
            }
        })
    }
}

/// What is wrong with a difference word of two accepted sheets.
fn difference_fault(a: &[u32], b: &[u32], word: &[u32]) -> Option<String> {
    let accepts = |sheet: &[u32]| {
        let a = oracle::automaton(&Sheet::read(sheet));
        oracle::accepts_word(&a, word)
    };
    let (first, second) = (accepts(a), accepts(b));
    (first == second).then(|| format!("difference word {word:?} accepted by both: {first}"))
}

/// The most pairs of states for which the original is asked too: its products have no limit.
const MOST_PAIRS: usize = 400;

/// Where the original's own comparisons of the determinizations contradict the verdict: its
/// `is_equivalent` says yes and the verdict is different, or the emptiness of the crossed products
/// is not the verdict.
fn original_fault(expected: &Outcome<Verdict>, a: &[u32], b: &[u32]) -> Option<String> {
    let verdict = expected.as_ref().ok()?;
    let (d, e) = (oracle::determinize(&Sheet::read(a)), oracle::determinize(&Sheet::read(b)));
    if oracle::sheet(&d).states() * oracle::sheet(&e).states() > MOST_PAIRS {
        return None;
    }
    let same = matches!(verdict, Verdict::Same { .. });
    if oracle::is_equivalent(d.clone(), e.clone()) && !same {
        return Some("the original's is_equivalent says yes".to_owned());
    }
    let empty = oracle::crossed_products_are_empty(&d, &e);
    (empty != same).then(|| format!("both crossed products empty: {empty}"))
}

pub fn compare(call: port::Equality, plan: &Plan, tally: &mut Tally) {
    plan.pairs("equality", |rng, sort, a, b| {
        let mut lent = Lending {
            word: Lent::new(near(rng, DIFFERENCE_WORDS)),
            same: Lent::new(1),
            number: Lent::new(1),
        };
        let expected =
            if lent.word.len() < DIFFERENCE_WORDS { Err(20) } else { expect::equality(&a, &b) };
        let result = call(&a, &b, &mut lent.word, &mut lent.same[0], &mut lent.number[0]);
        let fault =
            lent.fault(result, &expected, &a, &b).or_else(|| original_fault(&expected, &a, &b));
        let input: [(&str, &dyn super::Shown); 3] =
            [("a", &a), ("b", &b), ("words lent", &lent.word.len())];
        tally.note(sort, &expected, fault, &input);
    });
}
