//! Comparison of `accepts_series`.

use super::accepts_words::TINY_WORDS;
use super::{Plan, Shown, Tally};
use crate::generate::{sheets, tiny, words};
use crate::{expect, port};

pub fn compare(call: port::AcceptsSeries, plan: &Plan, tally: &mut Tally) {
    let mut check = |sort, sheet: &Vec<u32>, series: &Vec<u32>, mark: u32| {
        let expected = expect::accepts_series(sheet, series, mark);
        let input: [(&str, &dyn Shown); 3] =
            [("sheet", sheet), ("series", series), ("mark", &mark)];
        tally.question(sort, expected, &input, |answer| call(sheet, series, mark, answer));
    };
    for number in 0..tiny::ALL {
        let sheet = tiny::sheet(number).words();
        for word in TINY_WORDS {
            for mark in 0..3 {
                check("tiny", &sheet, &word.to_vec(), mark);
            }
        }
    }
    let mut rng = plan.rng("accepts_series");
    for round in 0..plan.rounds {
        let (sort, sheet) = sheets::any(&mut rng);
        let longest = if round % 100 == 0 { 2000 } else { 12 };
        for _ in 0..4 {
            let mut series = words::word_for(&mut rng, &sheet, longest);
            let mark = words::mark(&mut rng);
            // A ring more, which is left off, so that what is matched follows the transitions.
            if mark == 1 && rng.one_in(2) {
                series.push(*rng.pick(&sheets::EDGES));
            }
            check(sort, &sheet, &series, mark);
        }
    }
}
