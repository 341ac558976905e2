//! Each call on a few inputs, among them the patterns of request M-109.

use compare::generate::{Rng, sheets, texts};
use compare::sheet::{RANGE, Sheet, plain_labels};

use crate::calls;

/// The symbols of a long word.
const LENGTH: usize = 100_000;

pub fn all() {
    acceptance();
    determinizing();
    products();
    labelled();
    calls::parse_automaton("chain of 255 names", &texts::chain(255));
    calls::parse_automaton("2,000 transitions in order", &texts::points(2000, false));
    calls::parse_automaton("2,000 transitions in reverse order", &texts::points(2000, true));
    writing();
    questions();
    equality();
}

fn acceptance() {
    let mut rng = Rng::new(1);
    let a = Sheet { start: 0, accept: vec![0, 1], records: vec![[0, RANGE, 0, 9, 1]] };
    let ring = sheets::ring(vec![1; 255]);
    let zeros = vec![0; LENGTH];
    let comb = sheets::comb(0, 1000);
    let evens: Vec<u32> = (0..LENGTH).map(|_| 2 * rng.below(1000) as u32).collect();
    let bits: Vec<u32> = (0..LENGTH).map(|_| rng.below(2) as u32).collect();
    let ending = |word: &[u32], last: u32| [&word[..LENGTH - 1], &[last]].concat();
    for (case, sheet, word) in [
        ("sample A, 1 symbol", &a, vec![9]),
        ("ring of 255, 100,000, yes", &ring, zeros.clone()),
        ("ring of 255, 100,000, no", &ring, ending(&zeros, 1)),
        ("1,000 loops, 100,000, yes", &comb, evens.clone()),
        ("1,000 loops, 100,000, no", &comb, ending(&evens, 1)),
        ("8th from the end, 100,000", &sheets::from_the_end(8), bits),
    ] {
        calls::accepts_text(case, sheet, &word);
        calls::accepts_words(case, sheet, &word);
    }
    calls::accepts_series("ring of 255, 100,000, last unfinished", &ring, &ending(&zeros, 1));
}

fn determinizing() {
    calls::determinize("7th from the end, 128 sets", &sheets::from_the_end(7));
    calls::determinize("chain of 255", &sheets::chain(255, false));
    calls::determinize("1,000 points", &sheets::comb(1, 1000));
    calls::determinize("200 states, 8 ranges each", &sheets::total(&mut Rng::new(7), 200, 8));
}

fn products() {
    let rings = (sheets::chain(3, true), sheets::chain(85, true));
    calls::intersection("rings of 3 and 85, 255 pairs", &rings.0, &rings.1);
    let complete = sheets::complete(16, 1);
    calls::intersection("complete, 16 and 16 states", &complete, &complete);
    let nested = (sheets::nested(32, true), sheets::nested(64, false));
    calls::intersection("nested, 32 and 64 ranges", &nested.0, &nested.1);
}

fn labelled() {
    for call in [calls::totalize, calls::complement, calls::epsilon_eliminate] {
        call("chain of 255", &sheets::chain(255, false));
        call("1,000 points", &sheets::comb(1, 1000));
        call("epsilons from 8 to 250 points", &sheets::fan(8, 250));
    }
    calls::epsilon_eliminate("1,000 ranges in reverse order", &sheets::descent(10, 100));
}

fn writing() {
    for (case, sheet) in [
        ("chain of 255 names", sheets::chain(255, false)),
        ("2,000 transitions", sheets::comb(0, 2000)),
    ] {
        calls::write_automaton(case, &sheet, &plain_labels(sheet.states()));
    }
}

fn questions() {
    let total = sheets::total(&mut Rng::new(2), 256, 4);
    let case = "total, 256 states";
    calls::is_nfa(case, &total);
    calls::has_reachable_accepting_state(case, &total);
    calls::is_equivalent(case, &total);
    calls::is_subautomaton(case, &total);
}

fn equality() {
    let (end, chain) = (sheets::from_the_end(7), sheets::chain(255, false));
    calls::equality("7th from the end, itself", &end, &end);
    calls::equality("chain of 255, itself", &chain, &chain);
    calls::equality("chains of 254 and 255", &sheets::chain(254, false), &chain);
}
