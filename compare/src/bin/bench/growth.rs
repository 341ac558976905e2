//! Inputs that grow: states, records or symbols by doubling, all else kept.

use compare::generate::{Rng, sheets, texts};
use compare::sheet::plain_labels;

use crate::calls;

/// As many as asked, doubled three times and at most `most`.
fn doubling(first: usize, most: usize) -> impl Iterator<Item = usize> {
    (0..4).map(move |k| (first << k).min(most))
}

pub fn all() {
    acceptance();
    operations();
    parsing();
    writing();
    questions();
}

fn acceptance() {
    let mut rng = Rng::new(1);
    let mut word = |length: usize, symbols: usize| -> Vec<u32> {
        (0..length).map(|_| 2 * rng.below(symbols) as u32).collect()
    };
    for n in doubling(12_500, 100_000) {
        let sheet = sheets::comb(0, 100);
        calls::accepts_words(&format!("{n} symbols, 100 loops"), &sheet, &word(n, 100));
    }
    for n in doubling(250, 2000) {
        let sheet = sheets::comb(0, n);
        calls::accepts_words(&format!("{n} loops, 10,000 symbols"), &sheet, &word(10_000, n));
    }
    for n in doubling(32, 255) {
        let sheet = sheets::ring(vec![1; n]);
        calls::accepts_words(&format!("ring of {n} states, 10,000 symbols"), &sheet, &[0; 10_000]);
    }
}

fn operations() {
    for n in doubling(32, 255) {
        calls::determinize(&format!("chain of {n}"), &sheets::chain(n, false));
    }
    for n in doubling(125, 1000) {
        calls::determinize(&format!("{n} points"), &sheets::comb(1, n));
    }
    for k in 4..8 {
        let case = format!("{k}th from the end, {} sets", 1 << k);
        calls::determinize(&case, &sheets::from_the_end(k));
    }
    for n in doubling(32, 255) {
        let ring = sheets::chain(n, true);
        calls::intersection(&format!("rings of {n}, {n} pairs"), &ring, &ring);
    }
    for n in doubling(8, 45) {
        let case = format!("nested, {n} and {n} ranges");
        calls::intersection(&case, &sheets::nested(n, true), &sheets::nested(n, false));
    }
    for n in doubling(32, 255) {
        calls::totalize(&format!("chain of {n}"), &sheets::chain(n, false));
    }
    for n in doubling(125, 1000) {
        calls::totalize(&format!("{n} points"), &sheets::comb(1, n));
    }
    for n in doubling(32, 255) {
        calls::epsilon_eliminate(&format!("chain of {n}"), &sheets::chain(n, false));
    }
    for n in doubling(12, 100) {
        let case = format!("{} ranges in reverse order", 10 * n);
        calls::epsilon_eliminate(&case, &sheets::descent(10, n));
    }
}

fn parsing() {
    for n in doubling(32, 255) {
        calls::parse_automaton(&format!("chain of {n} names"), &texts::chain(n));
    }
    for n in doubling(256, 2048) {
        calls::parse_automaton(&format!("{n} transitions in order"), &texts::points(n, false));
    }
    for n in doubling(256, 2048) {
        let case = format!("{n} transitions in reverse order");
        calls::parse_automaton(&case, &texts::points(n, true));
    }
}

fn writing() {
    for n in doubling(32, 255) {
        let sheet = sheets::chain(n, false);
        calls::write_automaton(&format!("chain of {n} names"), &sheet, &plain_labels(n));
    }
    for n in doubling(256, 2048) {
        let sheet = sheets::comb(0, n);
        calls::write_automaton(&format!("{n} transitions"), &sheet, &plain_labels(1));
    }
}

fn questions() {
    for n in doubling(32, 256) {
        let total = sheets::total(&mut Rng::new(2), n, 4);
        calls::has_reachable_accepting_state(&format!("total, {n} states"), &total);
    }
    for n in doubling(32, 255) {
        let chain = sheets::chain(n, false);
        calls::equality(&format!("chain of {n}, itself"), &chain, &chain);
    }
    for n in doubling(125, 1000) {
        let comb = sheets::comb(1, n);
        calls::equality(&format!("{n} points, itself"), &comb, &comb);
    }
}
