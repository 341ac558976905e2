//! Comparison of `accepts_words`.

use super::{Plan, Tally};
use crate::generate::{sheets, tiny, words};
use crate::{expect, port};

/// Words that are tried on each tiny sheet, whose ranges end at these symbols.
pub const TINY_WORDS: [&[u32]; 9] =
    [&[], &[0], &[4], &[6], &[10], &[u32::MAX], &[0, 4], &[9, 3, 0], &[4, 10, 6, 2]];

pub fn compare(call: port::AcceptsWords, plan: &Plan, tally: &mut Tally) {
    let mut check = |sort, sheet: &Vec<u32>, word: Vec<u32>| {
        let expected = expect::accepts_words(sheet, &word);
        tally.question(sort, expected, &[("sheet", sheet), ("word", &word)], |answer| {
            call(sheet, &word, answer)
        });
    };
    for number in 0..tiny::ALL {
        let sheet = tiny::sheet(number).words();
        for word in TINY_WORDS {
            check("tiny", &sheet, word.to_vec());
        }
    }
    let mut rng = plan.rng("accepts_words");
    for round in 0..plan.rounds {
        let (sort, sheet) = sheets::any(&mut rng);
        let longest = if round % 100 == 0 { 2000 } else { 12 };
        for _ in 0..4 {
            let word = words::word_for(&mut rng, &sheet, longest);
            check(sort, &sheet, word);
        }
    }
}
