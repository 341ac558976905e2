//! Labels for writing, most of them names of the grammar, and sheets whose text has a given length.

use std::collections::BTreeSet;

use super::{Rng, hostile, labels, patterns};
use crate::sheet::{MAX_NAME, RANGE, Sheet, plain_labels, write_labels};

const LETTERS: &[u8; 52] = b"abcdefghijklmnopqrstuvwxyzABCDEFGHIJKLMNOPQRSTUVWXYZ";

/// A name of the grammar.
fn name(rng: &mut Rng) -> Vec<u8> {
    let length = match rng.below(5) {
        0 => return rng.pick(&patterns::NAMES).as_bytes().to_vec(),
        1 => rng.within(1, 2),
        2 => rng.within(MAX_NAME - 1, MAX_NAME),
        _ => rng.within(1, 8),
    };
    let mut name = vec![*rng.pick(LETTERS)];
    name.extend((1..length).map(|_| match rng.below(4) {
        0 => *rng.pick(b"_0123456789"),
        _ => *rng.pick(LETTERS),
    }));
    name
}

/// A label that is no name: one byte of a name is another.
fn no_name(rng: &mut Rng) -> Vec<u8> {
    let mut label = name(rng);
    match rng.below(3) {
        0 => label[0] = *rng.pick(b"_09@[`{ \x00\xff"),
        1 => *label.last_mut().expect("a name has a byte") = *rng.pick(b" -/:@[^`{\n\x80"),
        _ => {
            let at = rng.below(label.len());
            label[at] = *rng.pick(b" ;,}>\t\x7f\xc3");
        }
    }
    label
}

/// Different names for `states` states.
fn names(rng: &mut Rng, states: usize) -> Vec<Vec<u8>> {
    match rng.below(5) {
        0 => plain_labels(states),
        1 if states > 30 => hostile::as_labels(hostile::long_names(states)),
        2 if states > 30 => hostile::as_labels(hostile::alike_at_both_ends(states)),
        _ => {
            let mut known = BTreeSet::new();
            std::iter::repeat_with(|| name(rng))
                .filter(|name| known.insert(name.clone()))
                .take(states)
                .collect()
        }
    }
}

/// A label list for `states` states: different names, one time in three with one that is no name, that another state has, or that is any bytes.
pub fn list(rng: &mut Rng, states: usize) -> Vec<u8> {
    let mut names = names(rng, states);
    if states > 0 && rng.one_in(3) {
        let at = rng.below(states);
        names[at] = match rng.below(4) {
            0 | 1 => no_name(rng),
            2 => names[rng.below(states)].clone(),
            _ => labels::label(rng),
        };
    }
    write_labels(&names)
}

/// A sheet and its labels whose text has so many bytes: 60,000 to 67,000.
pub fn sized(rng: &mut Rng, bytes: usize) -> (Sheet, Vec<Vec<u8>>) {
    let states = *rng.pick(&[1, 2, 7, 50, 256]);
    let names = names(rng, states);
    let start = rng.below(states);
    let accept: Vec<u32> = (0..states).map(|q| (q == 0 || rng.one_in(2)) as u32).collect();
    let accepting = (0..states).filter(|&q| accept[q] == 1).map(|q| names[q].len() + 2);
    // `automaton P { init ;`, ` accepting ` and `; };` have 35 bytes; before the first accepting name there is no comma and no blank.
    let mut length = 35 - 2 + names[start].len() + accepting.sum::<usize>();
    // Records of 20 digits, first those of a ring, so that every state is written.
    let mut ends = Vec::new();
    while length < bytes {
        let (from, to) = match ends.len() {
            i if i < states => (i, (i + 1) % states),
            _ => (rng.below(states), rng.below(states)),
        };
        length += 31 + names[from].len() + names[to].len();
        ends.push((from, to));
    }
    // What is too much is taken off the first numbers, up to six digits from each.
    let mut surplus = length - bytes;
    let records = ends.iter().enumerate().map(|(i, &(from, to))| {
        let digits = surplus.min(6);
        surplus -= digits;
        let first = 10u32.pow(9 - digits as u32) + i as u32;
        [from as u32, RANGE, first, u32::MAX - rng.below(1000) as u32, to as u32]
    });
    let mut sheet = Sheet { start: start as u32, accept, records: records.collect() };
    sheet.sort();
    (sheet, names)
}

#[cfg(test)]
mod tests {
    use super::*;
    use crate::sheet::{TEXT_BYTES, read_labels};
    use crate::{paper, writer};

    #[test]
    fn sized_texts_have_their_length() {
        let mut rng = Rng::new(5);
        for bytes in (TEXT_BYTES - 50..TEXT_BYTES).chain([60_000, TEXT_BYTES]) {
            let (sheet, labels) = sized(&mut rng, bytes);
            assert_eq!(paper::sheet_fault(&sheet.words()), 0);
            assert_eq!(writer::text(&sheet, &labels).map(|text| text.len()), Ok(bytes));
        }
        for bytes in [TEXT_BYTES + 1, 67_000] {
            let (sheet, labels) = sized(&mut rng, bytes);
            assert_eq!(paper::sheet_fault(&sheet.words()), 0);
            assert_eq!(writer::text(&sheet, &labels), Err(32));
        }
    }

    #[test]
    fn most_lists_are_of_different_names() {
        let mut rng = Rng::new(6);
        let mut refused = 0;
        for _ in 0..1000 {
            let states = rng.within(1, 256);
            let labels = read_labels(&list(&mut rng, states));
            let records = (1..states as u32).map(|to| [to - 1, RANGE, 0, 0, to]).collect();
            let sheet = Sheet { start: 0, accept: vec![1; states], records };
            refused += writer::text(&sheet, &labels).is_err() as usize;
        }
        assert!((200..400).contains(&refused), "{refused} of 1000");
    }
}
