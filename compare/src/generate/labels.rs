//! Label lists: for given numbers of states, well formed and damaged.

use super::{Rng, damaged, hostile};
use crate::sheet::{MAX_NAME, write_labels};

/// A label: a name that operations give or expect, one of the longest, or any bytes.
pub fn label(rng: &mut Rng) -> Vec<u8> {
    let length = match rng.below(4) {
        0 => {
            return rng.pick(&[&b"sink"[..], b"D0", b"D1", b"(0, 1)", b"p", b"q"]).to_vec();
        }
        1 => rng.within(1, 2),
        2 => rng.within(1, 8),
        _ => rng.within(MAX_NAME - 1, MAX_NAME),
    };
    (0..length).map(|_| rng.draw() as u8).collect()
}

/// Labels for `states` states, some of them perhaps equal.
pub fn some(rng: &mut Rng, states: usize) -> Vec<Vec<u8>> {
    match rng.below(4) {
        0 => (0..states).map(|i| format!("s{i}").into_bytes()).collect(),
        // Few names: states of equal label are frequent.
        1 => (0..states).map(|_| vec![b'a' + rng.below(4) as u8]).collect(),
        2 if states > 30 => match rng.below(3) {
            0 => vec![vec![b'x'; MAX_NAME]; states],
            1 => hostile::as_labels(hostile::long_names(states)),
            _ => hostile::as_labels(hostile::alike_at_both_ends(states)),
        },
        _ => (0..states).map(|_| label(rng)).collect(),
    }
}

/// A label list for `states` states, one in eight of them damaged.
pub fn list(rng: &mut Rng, states: usize) -> Vec<u8> {
    let bytes = write_labels(&some(rng, states));
    if !rng.one_in(8) {
        return bytes;
    }
    match rng.below(4) {
        0 => write_labels(&some(rng, states + 1)),
        1 => [&bytes[..], &[0]].concat(),
        _ => damaged(rng, &bytes, |rng| *rng.pick(&[0, 1, 2, 64, 65, 255])),
    }
}
