//! Words and texts that tend to follow a sheet's transitions, and malformed UTF-8.

use super::{Rng, damaged, sheets::EDGES};
use crate::sheet::{EPSILON, Record, Sheet};

/// A symbol in a record's range or just beside it.
fn symbol_near(rng: &mut Rng, &[_, _, first, last, _]: &Record) -> u32 {
    match rng.below(12) {
        0..4 => first,
        4..8 => last,
        8 => first.wrapping_sub(1),
        9 => last.wrapping_add(1),
        _ => rng.symbol(first, last),
    }
}

/// A word of up to `longest` symbols that mostly follows the transitions from the start.
pub fn word(rng: &mut Rng, sheet: &Sheet, longest: usize) -> Vec<u32> {
    let mut state = sheet.start as usize;
    let mut word = Vec::new();
    let length = rng.below(longest + 1);
    // Epsilons add no symbol, so turns are counted and not symbols.
    for _ in 0..3 * length {
        if word.len() == length {
            break;
        }
        let run = sheet.run(state);
        if run.is_empty() || rng.one_in(20) {
            word.push(if rng.one_in(2) { *rng.pick(&EDGES) } else { rng.below(10) as u32 });
            continue;
        }
        let record = rng.pick(run);
        if record[1] != EPSILON {
            word.push(symbol_near(rng, record));
        }
        state = record[4] as usize;
    }
    word
}

/// A word for any words that may be a sheet.
pub fn word_for(rng: &mut Rng, words: &[u32], longest: usize) -> Vec<u32> {
    word(rng, &sheet_of(words), longest)
}

/// An outer mark, one in eight of them over 1.
pub fn mark(rng: &mut Rng) -> u32 {
    if rng.one_in(8) { *rng.pick(&[2, 3, 256, u32::MAX]) } else { rng.below(2) as u32 }
}

/// The sheet that words hold, or one without records.
fn sheet_of(words: &[u32]) -> Sheet {
    match crate::paper::sheet_fault(words) {
        0 => Sheet::read(words),
        _ => Sheet { start: 0, accept: vec![0], records: Vec::new() },
    }
}

/// A text of characters that mostly follow the transitions; symbols that are no character are moved
/// to one.
pub fn text(rng: &mut Rng, words: &[u32], longest: usize) -> String {
    let sheet = sheet_of(words);
    let symbols = word(rng, &sheet, longest);
    let character = |symbol: u32| {
        char::from_u32(symbol).or(char::from_u32(symbol % 0x11_0000)).unwrap_or('\u{d7ff}')
    };
    symbols.into_iter().map(character).collect()
}

/// Sequences that RFC 3629 does not allow.
const MALFORMED: [&[u8]; 24] = [
    b"\x80",
    b"\xbf",
    b"\xc0\x80",
    b"\xc1\xbf",
    b"\xc2",
    b"\xc2\x7f",
    b"\xc2\xc0",
    b"\xe0\x80\x80",
    b"\xe0\x9f\xbf",
    b"\xe1\x80",
    b"\xe1\x80\x7f",
    b"\xed\xa0\x80",
    b"\xed\xbf\xbf",
    b"\xef\xbf",
    b"\xf0\x80\x80\x80",
    b"\xf0\x8f\xbf\xbf",
    b"\xf0\x90\x80",
    b"\xf1\x80\x80\xc0",
    b"\xf4\x90\x80\x80",
    b"\xf5\x80\x80\x80",
    b"\xf8\x88\x80\x80\x80",
    b"\xfc\x84\x80\x80\x80\x80",
    b"\xfe",
    b"\xff",
];

/// The first and last characters of each length of sequence, and those beside the surrogates.
const BOUNDARIES: [char; 9] = [
    '\0',
    '\u{7f}',
    '\u{80}',
    '\u{7ff}',
    '\u{800}',
    '\u{d7ff}',
    '\u{e000}',
    '\u{ffff}',
    '\u{10000}',
];

/// Bytes that are mostly a text for `words`, else damaged or malformed.
pub fn bytes(rng: &mut Rng, words: &[u32], longest: usize) -> (&'static str, Vec<u8>) {
    let mut text = text(rng, words, longest);
    match rng.below(10) {
        0 => {
            let mut bytes = text.into_bytes();
            let at = rng.below(bytes.len() + 1);
            bytes.splice(at..at, rng.pick(&MALFORMED).iter().copied());
            ("malformed", bytes)
        }
        1 => ("damaged", damaged(rng, text.as_bytes(), |rng| rng.draw() as u8)),
        2 => ("any bytes", (0..rng.below(longest + 1)).map(|_| rng.draw() as u8).collect()),
        3 => {
            text.push(*rng.pick(&BOUNDARIES));
            text.push('\u{10ffff}');
            ("boundary", text.into_bytes())
        }
        _ => ("text", text.into_bytes()),
    }
}

/// Every text of one and two bytes, and those of three and four made of bytes where classes change.
pub fn short_texts() -> impl Iterator<Item = Vec<u8>> {
    const CLASSES: [u8; 22] = [
        0x00, 0x41, 0x7f, 0x80, 0x8f, 0x90, 0x9f, 0xa0, 0xbf, 0xc0, 0xc1, 0xc2, 0xdf, 0xe0, 0xe1,
        0xed, 0xee, 0xef, 0xf0, 0xf1, 0xf4, 0xf5,
    ];
    let one = (0..=255u8).map(|a| vec![a]);
    let two = (0..=65535u16).map(|number| number.to_be_bytes().to_vec());
    let long = (3..=4).flat_map(|length| {
        (0..CLASSES.len().pow(length)).map(move |number| {
            let digit = |i: u32| CLASSES[number / CLASSES.len().pow(i) % CLASSES.len()];
            (0..length).map(digit).collect()
        })
    });
    one.chain(two).chain(long)
}

#[cfg(test)]
mod tests {
    use super::*;
    use crate::generate::sheets;
    use crate::oracle;

    #[test]
    fn malformed_sequences_are_malformed() {
        for bytes in MALFORMED {
            assert!(str::from_utf8(bytes).is_err(), "{bytes:?}");
        }
    }

    #[test]
    fn words_are_accepted_often_enough() {
        let mut rng = Rng::new(5);
        let mut accepted = 0;
        for _ in 0..2000 {
            let sheet = sheets::small(&mut rng);
            let word = word(&mut rng, &sheet, 8);
            accepted += oracle::accepts_word(&oracle::automaton(&sheet), &word) as usize;
        }
        assert!((300..1700).contains(&accepted), "{accepted} of 2000");
    }
}
