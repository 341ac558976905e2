//! Pairs of sheets: variants of one another, families at the limits of products, and any two.

use super::{Rng, labels, sheets, tiny};
use crate::sheet::{EPSILON, MAX_STATES, RANGE, Sheet, write_labels};
use crate::{bounded, oracle};

/// The sheet with its states renumbered by `new`, which holds each number once.
fn renumbered(sheet: &Sheet, new: &[u32]) -> Sheet {
    let mut accept = vec![0; sheet.states()];
    for (state, &word) in sheet.accept.iter().enumerate() {
        accept[new[state] as usize] = word;
    }
    let records = sheet.records.iter().map(|&[from, kind, first, last, to]| {
        [new[from as usize], kind, first, last, new[to as usize]]
    });
    let mut result = Sheet { start: new[sheet.start as usize], accept, records: records.collect() };
    result.sort();
    result
}

/// The sheet with its states in another order.
fn permuted(rng: &mut Rng, sheet: &Sheet) -> Sheet {
    let mut new: Vec<u32> = (0..sheet.states() as u32).collect();
    for i in (1..new.len()).rev() {
        new.swap(i, rng.below(i + 1));
    }
    renumbered(sheet, &new)
}

/// The sheet with a copy of one state, to which some records that led to the state lead now.
fn doubled(rng: &mut Rng, sheet: &Sheet) -> Sheet {
    let mut result = sheet.clone();
    let (state, copy) = (rng.below(sheet.states()), sheet.states() as u32);
    result.accept.push(sheet.accept[state]);
    result.records.extend(sheet.run(state).iter().map(|r| [copy, r[1], r[2], r[3], r[4]]));
    for record in result.records.iter_mut().filter(|r| r[4] == state as u32) {
        if rng.one_in(2) {
            record[4] = copy;
        }
    }
    result.sort();
    result
}

/// The sheet with one range cut in two.
fn split(rng: &mut Rng, sheet: &Sheet) -> Sheet {
    let mut result = sheet.clone();
    let wide: Vec<usize> =
        (0..sheet.records.len()).filter(|&i| sheet.records[i][2] < sheet.records[i][3]).collect();
    if !wide.is_empty() {
        let record = &mut result.records[*rng.pick(&wide)];
        let cut = rng.symbol(record[2] + 1, record[3]);
        let high = [record[0], RANGE, cut, record[3], record[4]];
        record[3] = cut - 1;
        result.records.push(high);
        result.sort();
    }
    result
}

/// The sheet with one small change, which may change its words.
fn changed(rng: &mut Rng, sheet: &Sheet) -> Sheet {
    let mut result = sheet.clone();
    let states = sheet.states();
    if sheet.records.is_empty() || rng.one_in(4) {
        let state = rng.below(states);
        result.accept[state] ^= 1;
        return result;
    }
    let at = rng.below(sheet.records.len());
    match rng.below(5) {
        0 => drop(result.records.remove(at)),
        1 => result.records[at][4] = rng.below(states) as u32,
        2 => result.start = rng.below(states) as u32,
        3 => {
            result.records.push([rng.below(states) as u32, EPSILON, 0, 0, rng.below(states) as u32])
        }
        _ => {
            let [_, kind, first, last, _] = &mut result.records[at];
            if *kind == RANGE && *last < u32::MAX && rng.one_in(2) {
                *last += 1;
            } else if *first < *last {
                *last -= 1;
            }
        }
    }
    result.sort();
    result
}

/// A variant of a sheet: often with the same words, else close to it.
pub fn variant(rng: &mut Rng, sheet: &Sheet) -> Sheet {
    let mut result = sheet.clone();
    for _ in 0..rng.within(0, 2) {
        result = match rng.below(8) {
            0 | 1 => permuted(rng, &result),
            2 if result.states() < MAX_STATES => doubled(rng, &result),
            3 => split(rng, &result),
            4 if bounded::sets(&result, 20).is_some() => {
                oracle::sheet(&oracle::determinize(&result))
            }
            5 => oracle::sheet(&oracle::automaton(&result).epsilon_eliminate()),
            _ => changed(rng, &result),
        };
    }
    result
}

/// Two sheets at or near a limit of products or of equality.
fn limits(rng: &mut Rng) -> (Sheet, Sheet) {
    match rng.below(6) {
        // As many pairs as the least common multiple of the lengths.
        0 => {
            let (p, q) =
                *rng.pick(&[(255, 1), (256, 1), (1, 256), (16, 17), (3, 85), (8, 9), (2, 129)]);
            (sheets::chain(p, true), sheets::chain(q, true))
        }
        // As many pairs as states of the one times states of the other.
        1 => {
            let (p, q) = *rng.pick(&[(16, 16), (15, 17), (43, 6), (32, 8), (12, 22), (5, 51)]);
            (sheets::complete(p, 1), sheets::complete(q, 1))
        }
        // As many transitions as ranges of the one times ranges of the other.
        2 => {
            let (k, l) = *rng.pick(&[(32, 64), (3, 683), (2, 1024), (1, 2048), (45, 46)]);
            (sheets::nested(k, true), sheets::nested(l, false))
        }
        3 => {
            let (p, q) = (rng.within(250, 256), rng.within(250, 256));
            (sheets::chain(p, rng.one_in(2)), sheets::chain(q, rng.one_in(2)))
        }
        4 => {
            let k = rng.within(5, 8);
            let sheet = sheets::from_the_end(k);
            let other = variant(rng, &sheet);
            (sheet, other)
        }
        _ => {
            let sheet = sheets::limit(rng);
            let other = variant(rng, &sheet);
            (sheet, other)
        }
    }
}

/// Two rings of coprime lengths that part first on a word as long as both lengths less 2: their
/// accept words are a word of both periods.
fn coprime_rings(p: usize, q: usize) -> (Sheet, Sheet) {
    let length = p + q - 2;
    let mut class: Vec<usize> = (0..length).collect();
    for i in 0..length {
        for j in [i + p, i + q] {
            if j < length && class[i] != class[j] {
                let (old, new) = (class[j], class[i]);
                class.iter_mut().filter(|c| **c == old).for_each(|c| *c = new);
            }
        }
    }
    let accept = |n: usize| (0..n).map(|i| (class[i % length] == class[0]) as u32).collect();
    (sheets::ring(accept(p)), sheets::ring(accept(q)))
}

/// The sheet with an epsilon from its start to its start.
fn with_epsilon(mut sheet: Sheet) -> Sheet {
    sheet.records.push([sheet.start, EPSILON, 0, 0, sheet.start]);
    sheet.sort();
    sheet
}

/// Pairs on both sides of each limit: 256 and 257 pairs, with and without an epsilon beside them;
/// 2,048 and 2,049 transitions; 255 and 256 sets; and pairs that part only on one long word.
pub fn edges() -> Vec<(Sheet, Sheet)> {
    let ring = |n| sheets::chain(n, true);
    let chain = |n| sheets::chain(n, false);
    let products = [
        (ring(256), ring(2)),
        (sheets::lasso(1, 128), ring(256)),
        (ring(256), sheets::lasso(1, 128)),
        (sheets::complete(16, 1), sheets::complete(16, 1)),
        (sheets::complete(16, 1), sheets::complete(17, 1)),
    ];
    let mut result = products.to_vec();
    for (a, b) in products {
        result.push((with_epsilon(a.clone()), b.clone()));
        result.push((a, with_epsilon(b)));
    }
    result.extend([
        (sheets::nested(32, true), sheets::nested(64, false)),
        (sheets::nested(3, true), sheets::nested(683, false)),
        (sheets::nested(1, true), sheets::nested(2048, false)),
        (chain(255), chain(254)),
        (chain(255), chain(255)),
        (chain(256), chain(255)),
        (chain(255), chain(256)),
        (chain(255), ring(255)),
    ]);
    for (p, q) in [(2, 3), (5, 7), (16, 17), (127, 128), (254, 253), (255, 254), (255, 2)] {
        result.push(coprime_rings(p, q));
        result.push((ring(p), ring(q)));
    }
    result
}

/// Two sheets as words, with the name of their sort.
pub fn any(rng: &mut Rng) -> (&'static str, Vec<u32>, Vec<u32>) {
    match rng.below(100) {
        0..20 => {
            let (a, b) = (tiny::sheet(rng.below(tiny::ALL)), tiny::sheet(rng.below(tiny::ALL)));
            ("tiny", a.words(), b.words())
        }
        20..35 => ("small", sheets::small(rng).words(), sheets::small(rng).words()),
        35..60 => {
            let sheet = sheets::small(rng);
            ("variant", sheet.words(), variant(rng, &sheet).words())
        }
        60..78 => {
            let (states, parts) = (rng.within(1, 8), rng.within(1, 4));
            let sheet = sheets::total(rng, states, parts);
            ("total", sheet.words(), variant(rng, &sheet).words())
        }
        78..82 => {
            let (a, b) = limits(rng);
            ("limit", a.words(), b.words())
        }
        82..90 => ("any", sheets::any(rng).1, sheets::any(rng).1),
        90..95 => ("faulty", sheets::faulty(rng), sheets::small(rng).words()),
        _ => ("faulty", sheets::small(rng).words(), sheets::faulty(rng)),
    }
}

/// Two sheets with label lists, the first often a part of the second.
pub struct Labelled {
    pub sort: &'static str,
    pub a: Vec<u32>,
    pub a_labels: Vec<u8>,
    pub b: Vec<u32>,
    pub b_labels: Vec<u8>,
}

pub fn labelled(rng: &mut Rng) -> Labelled {
    if rng.one_in(3) {
        let (sort, a, b) = any(rng);
        let states = |sheet: &[u32]| sheet.get(2).map_or(1, |&n| (n as usize).min(MAX_STATES + 1));
        let a_labels = labels::list(rng, states(&a));
        let b_labels = labels::list(rng, states(&b));
        return Labelled { sort, a, a_labels, b, b_labels };
    }
    let b = sheets::small(rng);
    let b_labels = labels::some(rng, b.states());
    let (a, a_labels) = part(rng, &b, &b_labels);
    let (b, b_labels) = (b.words(), write_labels(&b_labels));
    Labelled { sort: "part", a: a.words(), a_labels: write_labels(&a_labels), b, b_labels }
}

/// A part of a sheet under the same labels: its states reordered, some records dropped or narrowed,
/// some states no longer accepting; one in four with a change on top.
fn part(rng: &mut Rng, sheet: &Sheet, labels: &[Vec<u8>]) -> (Sheet, Vec<Vec<u8>>) {
    let mut result = sheet.clone();
    for word in &mut result.accept {
        *word &= !rng.one_in(4) as u32;
    }
    result.records.retain(|_| !rng.one_in(4));
    for [_, _, first, last, _] in &mut result.records {
        if rng.one_in(3) {
            *first = rng.symbol(*first, *last);
            *last = rng.symbol(*first, *last);
        }
    }
    result.sort();
    if rng.one_in(4) {
        result = changed(rng, &result);
    }
    let mut new: Vec<u32> = (0..result.states() as u32).collect();
    if rng.one_in(2) {
        new.reverse();
    }
    let mut names = labels.to_vec();
    for (state, &number) in new.iter().enumerate() {
        names[number as usize] = labels[state].clone();
    }
    if rng.one_in(8) {
        *names.last_mut().expect("a sheet has a state") = b"other".to_vec();
    }
    (renumbered(&result, &new), names)
}

#[cfg(test)]
mod tests {
    use super::*;
    use crate::expect;

    #[test]
    fn answers_of_both_kinds_occur() {
        let mut rng = Rng::new(6);
        let mut same = [0; 2];
        let mut equivalent = [0; 2];
        let mut within = [0; 2];
        for _ in 0..3000 {
            let (_, a, b) = any(&mut rng);
            if let Ok(verdict) = expect::equality(&a, &b) {
                same[matches!(verdict, expect::Verdict::Same { .. }) as usize] += 1;
            }
            if let Ok(answer) = expect::is_equivalent(&a, &b) {
                equivalent[answer as usize] += 1;
            }
            let p = labelled(&mut rng);
            if let Ok(answer) = expect::is_subautomaton(&p.a, &p.a_labels, &p.b, &p.b_labels) {
                within[answer as usize] += 1;
            }
        }
        for counts in [same, equivalent, within] {
            assert!(counts.iter().all(|&count| count > 200), "{same:?} {equivalent:?} {within:?}");
        }
    }
}
