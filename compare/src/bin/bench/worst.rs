//! Small patterns, and the slowest inputs known for each call at sizes that double.

use compare::generate::{Rng, hostile, sheets, written};
use compare::sheet::{RANGE, Sheet, TEXT_BYTES, plain_labels};

use crate::calls;

/// Names of 64 bytes, and where they differ.
const LONG_NAMES: [(&str, fn(usize) -> Vec<String>); 2] =
    [("in their last bytes", hostile::long_names), ("in the middle", hostile::alike_at_both_ends)];

/// An eighth, a quarter, a half and the whole of `most`.
fn doubling(most: usize) -> impl Iterator<Item = usize> {
    (0..4).map(move |k| most >> (3 - k))
}

/// Texts A and B of document 01 and their sheets: what a call costs at least.
pub fn small() {
    let a = Sheet { start: 0, accept: vec![0, 1], records: vec![[0, RANGE, 0, 9, 1]] };
    let records = vec![[0, RANGE, 0, 4, 1], [0, RANGE, 5, 9, 2]];
    let b = Sheet { start: 0, accept: vec![0, 1, 1], records };
    let (one, both) = ("sample A", "samples A and B");
    calls::accepts_words(one, &a, &[9]);
    calls::accepts_series(one, &a, &[9, 14]);
    calls::determinize(one, &a);
    calls::intersection(both, &a, &b);
    calls::totalize(one, &a);
    calls::complement(one, &a);
    calls::epsilon_eliminate(one, &a);
    let text = "automaton B { init s; s -> t [0, 4]; s -> u [5, 9]; accepting t, u; };";
    calls::parse_automaton("sample B", text);
    calls::write_automaton("sample B", &b, &[b"s".to_vec(), b"t".to_vec(), b"u".to_vec()]);
    calls::is_nfa(one, &a);
    calls::has_reachable_accepting_state(one, &a);
    calls::equivalence(both, &a, &b);
    calls::inclusion(both, (&a, &plain_labels(2)), (&b, &plain_labels(3)));
    calls::equality(both, &a, &b);
}

pub fn all() {
    determinizing();
    equality();
    products();
    others();
    acceptance();
    parsing();
    writing();
}

fn determinizing() {
    for (case, each, nested) in
        [("ends shuffled", 3000, false), ("nested", 3000, true), ("8 a state", 8, false)]
    {
        for n in doubling(if each == 8 { 1792 } else { 2020 }) {
            let sheet = hostile::overlapping(n, each, &hostile::RINGS, nested);
            calls::determinize(&format!("253 sets, {n} overlapping loops, {case}"), &sheet);
        }
    }
    for n in doubling(1776) {
        let sheet = hostile::one_missing(127, n);
        calls::determinize(&format!("127 targets, one missing at each of {n} symbols"), &sheet);
    }
    for n in doubling(254) {
        let sheet = hostile::colliding_sets(n as u32);
        calls::determinize(&format!("{} sets that start at one place", n + 1), &sheet);
    }
    for n in doubling(2040) {
        calls::determinize(&format!("{n} loops from 0"), &hostile::from_zero(n));
    }
    for n in doubling(2040) {
        calls::determinize(&format!("{n} loops, ends shuffled"), &hostile::shuffled_ends(n / 2));
    }
    for n in doubling(1000) {
        calls::determinize(&format!("{n} even points"), &sheets::comb(0, n));
    }
}

fn equality() {
    for n in doubling(1792) {
        let (a, b) = (hostile::from_zero(n), hostile::overlapping(n, 8, &hostile::RINGS, false));
        calls::equality(&format!("second refused, 253 sets, {n} loops, 8 a state"), &a, &b);
    }
    for n in doubling(2040) {
        let a = hostile::shuffled_ends(n / 2);
        calls::equality(&format!("{n} loops, ends shuffled, itself"), &a, &a);
    }
    for n in doubling(2040) {
        let a = hostile::adjacent(n);
        calls::equality(&format!("{n} adjacent points, itself"), &a, &a);
    }
    for n in doubling(1000) {
        let a = sheets::comb(0, n);
        calls::equality(&format!("{n} even points, itself"), &a, &a);
    }
}

fn products() {
    for n in doubling(2048) {
        let a = hostile::adjacent(n);
        calls::intersection(&format!("{n} points against as many"), &a, &a);
    }
    for (case, pairs, most) in [("1 pair", 1, 2040), ("256 pairs", 256, 1792)] {
        for n in doubling(most) {
            let (a, b) = hostile::equal_transitions(n, pairs);
            let case = format!("{case}, {n} ranges each, equal transitions");
            calls::intersection(&case, &a, &b);
        }
    }
}

fn reachable(case: &str, ring: fn(usize) -> Sheet) {
    for n in doubling(2048) {
        let case = format!("{n} records of 256 states{case}");
        calls::has_reachable_accepting_state(&case, &ring(n));
    }
}

fn others() {
    for n in doubling(256) {
        let case = format!("ring of {n} epsilons, the same 7 ranges");
        calls::epsilon_eliminate(&case, &hostile::same_ranges(n, 7));
    }
    reachable("", hostile::around);
    reachable(", downward", hostile::downward);
    reachable(", in no order", hostile::in_no_order);
    reachable(", in no order, none accepts", hostile::unreached);
    for n in doubling(256) {
        let (a, b) = hostile::many_targets(n);
        calls::equivalence(&format!("{n} states, 7 triggers, 1 with {n} targets each"), &a, &b);
    }
    let same = vec![b"s".to_vec(); 256];
    for n in doubling(2048) {
        let (a, b) = hostile::uncovered(n);
        let case = format!("labels equal, {n} records of 256 states");
        calls::inclusion(&case, (&a, &same), (&b, &same));
    }
    for (case, names) in LONG_NAMES {
        for n in doubling(256) {
            let labels = hostile::as_labels(names(n));
            let a = Sheet { start: 0, accept: vec![1; n], records: Vec::new() };
            let case = format!("{n} labels of 64 bytes that differ {case}");
            calls::inclusion(&case, (&a, &labels), (&a, &labels));
        }
    }
}

fn acceptance() {
    let mut rng = Rng::new(9);
    let word: Vec<u32> = (0..100_000).map(|_| rng.below(2047) as u32).collect();
    let points = hostile::adjacent(2047);
    for n in doubling(100_000) {
        calls::accepts_words(
            &format!("2,047 points of one state, {n} symbols"),
            &points,
            &word[..n],
        );
    }
}

fn parsing() {
    for (case, names) in [
        ("2 bytes", hostile::short_names(256)),
        ("64 bytes that differ in their last bytes", hostile::long_names(256)),
        ("64 bytes that differ in their last bytes, one remainder", hostile::colliding_names(256)),
        ("64 bytes that differ in the middle", hostile::alike_at_both_ends(256)),
    ] {
        for n in doubling(16_384) {
            let case = format!("{n} transitions, 256 names of {case}");
            calls::parse_automaton(&case, &hostile::text(&names, n));
        }
    }
    for n in doubling(2048) {
        let case = format!("chain of {n} states, all accepting");
        calls::parse_automaton(&case, &hostile::accepting_chain(n));
    }
    for n in [625, 1250, 2500, 5000] {
        let case = format!("65,536 bytes, {n} transitions, the rest accepting names");
        calls::parse_automaton(&case, &hostile::accepting_again(n));
    }
}

fn writing() {
    for (case, names) in LONG_NAMES {
        for n in doubling(256) {
            let labels = hostile::as_labels(names(n));
            let case = format!("ring of {n} names of 64 bytes that differ {case}");
            calls::write_automaton(&case, &sheets::chain(n, true), &labels);
        }
    }
    let mut rng = Rng::new(10);
    let (sheet, labels) = written::sized(&mut rng, TEXT_BYTES);
    calls::write_automaton("65,536 bytes", &sheet, &labels);
}
