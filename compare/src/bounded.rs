//! Searches that stop at a limit: they decide refusals 21 and 7 before the original is asked.
//!
//! The original has no limits, so on some small sheets its determinization would not end in
//! reasonable time. These searches are written from document 01 and use nothing of the original.

use std::collections::{HashSet, VecDeque};

use crate::sheet::{EPSILON, MAX_STATES, RANGE, Record, Sheet};

/// A set of up to 256 states, one bit each.
type Set = [u64; MAX_STATES / 64];

fn insert(set: &mut Set, state: usize) {
    set[state / 64] |= 1 << (state % 64);
}

fn contains(set: &Set, state: usize) -> bool {
    set[state / 64] >> (state % 64) & 1 == 1
}

fn members(set: &Set) -> impl Iterator<Item = usize> {
    (0..MAX_STATES).filter(|&state| contains(set, state))
}

fn unite(set: &mut Set, other: &Set) {
    for (word, other) in set.iter_mut().zip(other) {
        *word |= other;
    }
}

/// Each state's closure under epsilons.
fn closures(sheet: &Sheet) -> Vec<Set> {
    (0..sheet.states())
        .map(|state| {
            let mut closure = Set::default();
            let mut open = vec![state];
            while let Some(state) = open.pop() {
                if !contains(&closure, state) {
                    insert(&mut closure, state);
                    let epsilons = sheet.run(state).iter().filter(|r| r[1] == EPSILON);
                    open.extend(epsilons.map(|r| r[4] as usize));
                }
            }
            closure
        })
        .collect()
}

/// The nonempty sets that one symbol leads to from `set`.
fn successors(sheet: &Sheet, closures: &[Set], set: &Set) -> Vec<Set> {
    // Each range opens at its first symbol and closes behind its last.
    let mut ends: Vec<(u64, bool, usize)> = Vec::new();
    for state in members(set) {
        for &[_, kind, first, last, to] in sheet.run(state) {
            if kind == RANGE {
                ends.push((first as u64, true, to as usize));
                ends.push((last as u64 + 1, false, to as usize));
            }
        }
    }
    ends.sort_unstable();
    let mut open = vec![0u32; sheet.states()];
    let mut result = Vec::new();
    for cut in ends.chunk_by(|a, b| a.0 == b.0) {
        for &(_, opens, to) in cut {
            open[to] = if opens { open[to] + 1 } else { open[to] - 1 };
        }
        let mut next = Set::default();
        for (to, &count) in open.iter().enumerate() {
            if count > 0 {
                unite(&mut next, &closures[to]);
            }
        }
        if next != Set::default() {
            result.push(next);
        }
    }
    result
}

/// The number of nonempty sets that words reach from the start's closure, unless it is over `limit`.
pub fn sets(sheet: &Sheet, limit: usize) -> Option<usize> {
    let closures = closures(sheet);
    let start = closures[sheet.start as usize];
    let mut seen = HashSet::from([start]);
    let mut open = VecDeque::from([start]);
    while let Some(set) = open.pop_front() {
        if seen.len() > limit {
            return None;
        }
        for next in successors(sheet, &closures, &set) {
            if seen.insert(next) {
                open.push_back(next);
            }
        }
    }
    (seen.len() <= limit).then_some(seen.len())
}

/// What a product comes to, as far as the original is not needed for it.
#[derive(Clone, Copy, Debug, PartialEq, Eq)]
pub enum Product {
    /// Over 256 pairs are reached.
    TooManyPairs,
    /// Some reached pair has records on both sides and an epsilon on at least one of them.
    Epsilon,
    /// Neither.
    Clear,
}

/// Searches the pairs of states that ranges that meet reach, going on past epsilons.
pub fn product(a: &Sheet, b: &Sheet) -> Product {
    let start = (a.start, b.start);
    let mut seen = HashSet::from([start]);
    let mut open = VecDeque::from([start]);
    let mut epsilon = false;
    while let Some((p, q)) = open.pop_front() {
        let (p_run, q_run) = (a.run(p as usize), b.run(q as usize));
        epsilon |= !p_run.is_empty()
            && !q_run.is_empty()
            && p_run.iter().chain(q_run).any(|record| record[1] == EPSILON);
        for r in p_run {
            for s in q_run.iter().filter(|s| meet(r, s)) {
                let pair = (r[4], s[4]);
                if seen.insert(pair) {
                    open.push_back(pair);
                }
            }
        }
        if seen.len() > MAX_STATES {
            return Product::TooManyPairs;
        }
    }
    if epsilon { Product::Epsilon } else { Product::Clear }
}

/// Whether two records are ranges with a common symbol.
fn meet(r: &Record, s: &Record) -> bool {
    r[1] == RANGE && s[1] == RANGE && r[2].max(s[2]) <= r[3].min(s[3])
}

#[cfg(test)]
mod tests {
    use super::*;
    use crate::generate::{Rng, sheets};
    use crate::oracle;

    #[test]
    fn sets_are_those_of_the_original() {
        let mut rng = Rng::new(1);
        for _ in 0..2000 {
            let sheet = sheets::small(&mut rng);
            let Some(sets) = sets(&sheet, 255) else {
                continue;
            };
            let determinized = oracle::sheet(&oracle::determinize(&sheet));
            assert_eq!(sets + 1, determinized.states(), "{:?}", sheet.words());
        }
    }

    #[test]
    fn epsilons_are_those_the_original_meets() {
        let mut rng = Rng::new(2);
        for _ in 0..2000 {
            let (a, b) = (sheets::small(&mut rng), sheets::small(&mut rng));
            let fails =
                oracle::intersection(oracle::automaton(&a), oracle::automaton(&b)).is_none();
            match product(&a, &b) {
                Product::TooManyPairs => {}
                Product::Epsilon => assert!(fails, "{:?} {:?}", a.words(), b.words()),
                Product::Clear => assert!(!fails, "{:?} {:?}", a.words(), b.words()),
            }
        }
    }
}
