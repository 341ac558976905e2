//! Equality of two determinizations, decided by a plain search, and the classes of document 01.
//!
//! The original has no exact equality, so this rests on its determinizations and on document 01.

use std::collections::{HashSet, VecDeque};

use crate::sheet::{Record, Sheet};

/// The pairs of targets of two states, one for each range of symbols that both runs share, with the
/// first symbol of that range.
///
/// Both runs are those of determinizations: ascending, and each symbol held by exactly one record.
fn successors(p: &[Record], q: &[Record]) -> Vec<(u32, usize, usize)> {
    let mut pairs = Vec::new();
    let (mut i, mut j) = (0, 0);
    while i < p.len() && j < q.len() {
        let (r, s) = (p[i], q[j]);
        pairs.push((r[2].max(s[2]), r[4] as usize, s[4] as usize));
        i += (r[3] <= s[3]) as usize;
        j += (s[3] <= r[3]) as usize;
    }
    pairs
}

/// A shortest word that leads two determinizations to states that differ in acceptance.
pub fn difference(d: &Sheet, e: &Sheet) -> Option<Vec<u32>> {
    let start = (d.start as usize, e.start as usize);
    let mut seen = HashSet::from([start]);
    let mut open = VecDeque::from([(start, Vec::new())]);
    while let Some(((p, q), word)) = open.pop_front() {
        if d.accept[p] != e.accept[q] {
            return Some(word);
        }
        for (symbol, p, q) in successors(d.run(p), e.run(q)) {
            if seen.insert((p, q)) {
                open.push_back(((p, q), [&word[..], &[symbol]].concat()));
            }
        }
    }
    None
}

/// The number of classes of the smallest equivalence on the states of both that joins the starts
/// and, with two states, their successors under each symbol.
pub fn classes(d: &Sheet, e: &Sheet) -> usize {
    let offset = d.states();
    let total = offset + e.states();
    // The states of the second count on from those of the first; targets likewise.
    let runs: Vec<Vec<Record>> = (0..total)
        .map(|state| match state.checked_sub(offset) {
            None => d.run(state).to_vec(),
            Some(state) => {
                let shifted =
                    e.run(state).iter().map(|r| [r[0], r[1], r[2], r[3], r[4] + offset as u32]);
                shifted.collect()
            }
        })
        .collect();
    // Each state's class is the least state known to be in it.
    let mut class: Vec<usize> = (0..total).collect();
    join(&mut class, d.start as usize, offset + e.start as usize);
    loop {
        let mut grew = false;
        for state in 0..total {
            for (_, p, q) in successors(&runs[class[state]], &runs[state]) {
                grew |= join(&mut class, p, q);
            }
        }
        if !grew {
            break;
        }
    }
    (0..total).filter(|&state| class[state] == state).count()
}

/// Makes one class of two, and tells whether they were two.
fn join(class: &mut [usize], p: usize, q: usize) -> bool {
    let (kept, gone) = (class[p].min(class[q]), class[p].max(class[q]));
    for entry in class.iter_mut().filter(|entry| **entry == gone) {
        *entry = kept;
    }
    kept != gone
}
