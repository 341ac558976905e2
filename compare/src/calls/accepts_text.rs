//! Comparison of `accepts_text`.

use super::{Plan, Tally};
use crate::generate::{sheets, words};
use crate::sheet::{RANGE, Sheet};
use crate::{expect, port};

/// Accepts the texts of one character between the surrogates and the top, to tell decoded values.
fn high_characters() -> Sheet {
    Sheet {
        start: 0,
        accept: vec![0, 1],
        records: vec![[0, RANGE, 0x41, 0xd7ff, 1], [0, RANGE, 0xe000, 0x10_fffe, 1]],
    }
}

pub fn compare(call: port::AcceptsText, plan: &Plan, tally: &mut Tally) {
    let mut check = |sort, sheet: &Vec<u32>, text: Vec<u8>| {
        let expected = expect::accepts_text(sheet, &text);
        tally.question(sort, expected, &[("sheet", sheet), ("text", &text)], |answer| {
            call(sheet, &text, answer)
        });
    };
    let sheet = high_characters().words();
    for text in words::short_texts() {
        check("short texts", &sheet, text);
    }
    for c in '\0'..=char::MAX {
        check("characters", &sheet, c.to_string().into_bytes());
    }
    let mut rng = plan.rng("accepts_text");
    for round in 0..plan.rounds {
        let (_, sheet) = sheets::any(&mut rng);
        let longest = if round % 100 == 0 { 2000 } else { 12 };
        for _ in 0..4 {
            let (sort, text) = words::bytes(&mut rng, &sheet, longest);
            check(sort, &sheet, text);
        }
    }
}
