//! The entries of docs/DIFFERENCES.md, each shown by running the original on its input.

use compare::expect;
use compare::generate::sheets;
use compare::oracle::{self, DSU};
use compare::sheet::{EPSILON, MAX_RECORDS, MAX_STATES, RANGE, Sheet, plain_labels, write_labels};
use std::panic::catch_unwind;

/// A sheet's label list.
fn labels(sheet: &Sheet) -> Vec<u8> {
    write_labels(&plain_labels(sheet.states()))
}

/// The original's result: states, transitions.
fn size(a: &oracle::Automaton) -> (usize, usize) {
    let sheet = oracle::sheet(a);
    (sheet.states(), sheet.records.len())
}

#[cfg(parser)]
mod parser {
    use super::*;

    #[test]
    fn names_over_64_bytes_are_read() {
        for name in ["n".repeat(64), "n".repeat(65)] {
            let over = name.len() > 64;
            for text in [
                format!("automaton {name}{{init p;accepting p;}};"),
                format!("automaton A{{init {name};accepting {name};}};"),
                format!("automaton A{{init p;{name}->p[0,0];accepting p;}};"),
            ] {
                assert!(oracle::parse_automaton(&text).is_some());
                let expected = expect::parse_automaton(text.as_bytes());
                assert_eq!(expected.err(), over.then_some(8), "{text}");
            }
            // An accepting name that is no state is measured too.
            let text = format!("automaton A{{init p;accepting {name};}};");
            let expected = expect::parse_automaton(text.as_bytes());
            assert_eq!(expected.err(), Some(if over { 8 } else { 33 }), "{text}");
        }
    }

    #[test]
    fn patterns_over_the_limits_are_read() {
        let states: String = (1..257).map(|i| format!("s{} -> s{i} [0, 0];", i - 1)).collect();
        let records: String = (0..2049).map(|i| format!("s0 -> s0 [{i}, {i}];")).collect();
        for (body, number) in [(states, 21), (records, 22)] {
            let text = format!("automaton A{{init s0;{body}accepting s0;}};");
            assert!(oracle::parse_automaton(&text).is_some());
            assert_eq!(expect::parse_automaton(text.as_bytes()).err(), Some(number));
        }
    }

    #[test]
    fn accepting_names_of_no_state_are_dropped() {
        let text = "automaton A{init p;accepting q;};";
        let (a, read) = oracle::parse_automaton(text).expect("it is in the grammar");
        assert_eq!(oracle::sheet(&a).words(), [1, 0, 1, 0, 0]);
        assert_eq!(read, text.len());
        assert_eq!(expect::parse_automaton(text.as_bytes()).err(), Some(33));
    }
}

#[test]
fn product_stops_at_the_first_epsilon() {
    // 272 pairs, and an epsilon at the start.
    let mut a = sheets::chain(16, true);
    let b = sheets::chain(17, true);
    a.records.push([0, EPSILON, 0, 0, 0]);
    a.sort();
    assert!(oracle::intersection(oracle::automaton(&a), oracle::automaton(&b)).is_none());
    assert_eq!(expect::intersection(&a.words(), &b.words()), Err(21));
}

#[test]
fn results_over_the_limits_are_built() {
    // Determinizing: 256 sets and the sink; 128 sets of 16 records and the sink's loop.
    let a = sheets::from_the_end(8);
    assert_eq!(size(&oracle::determinize(&a)).0, MAX_STATES + 1);
    assert_eq!(expect::determinize(&a.words()), Err(21));
    let a = sheets::from_the_end_cut(7, 14);
    assert_eq!(size(&oracle::determinize(&a)), (129, MAX_RECORDS + 1));
    assert_eq!(expect::determinize(&a.words()), Err(22));

    // Totalizing and complement: 256 states and the sink; 1,024 points, as many holes, the loop.
    for (a, expected, number) in
        [(sheets::chain(256, false), (257, 512), 21), (sheets::comb(0, 1024), (2, 2049), 22)]
    {
        assert_eq!(size(&oracle::totalize(oracle::automaton(&a))), expected);
        assert_eq!(size(&oracle::complement(oracle::automaton(&a))), expected);
        assert_eq!(expect::totalize(&a.words(), &labels(&a)), Err(number));
        assert_eq!(expect::complement(&a.words(), &labels(&a)), Err(number));
    }

    // Eliminating epsilons: three states of 683 records each.
    let a = sheets::fan(3, 683);
    assert_eq!(size(&oracle::automaton(&a).epsilon_eliminate()), (3, 2049));
    assert_eq!(expect::epsilon_eliminate(&a.words(), &labels(&a)), Err(22));

    // Product: 16 times 17 pairs; 3 times 683 transitions.
    let product = |a: &Sheet, b: &Sheet| {
        let product = oracle::intersection(oracle::automaton(a), oracle::automaton(b));
        size(&product.expect("there are no epsilons"))
    };
    let (a, b) = (sheets::chain(16, true), sheets::chain(17, true));
    assert_eq!(product(&a, &b).0, 272);
    assert_eq!(expect::intersection(&a.words(), &b.words()), Err(21));
    let (a, b) = (sheets::nested(3, true), sheets::nested(683, false));
    assert_eq!(product(&a, &b), (1, 2049));
    assert_eq!(expect::intersection(&a.words(), &b.words()), Err(22));
}

#[test]
fn join_sets_panic_on_an_element_outside() {
    assert!(catch_unwind(|| DSU::new(0).find(0)).is_err());
    assert!(catch_unwind(|| DSU::new(1).union(0, 1)).is_err());
    // Over 512 elements are made.
    assert_eq!(DSU::new(513).find(512), 512);
}

#[test]
fn symbols_that_are_no_character_need_closures_and_steps() {
    let a = Sheet { start: 0, accept: vec![0, 1], records: vec![[0, RANGE, 0xd800, u32::MAX, 1]] };
    for symbol in [0xd800, 0x11_0000, u32::MAX] {
        assert_eq!(char::from_u32(symbol), None);
        assert_eq!(expect::accepts_words(&a.words(), &[symbol]), Ok(1));
    }
}

#[test]
fn a_determinization_labels_its_sink_like_its_other_states() {
    let a = Sheet::read(&[1, 0, 1, 0, 0]);
    let determinized = oracle::determinize(&a);
    assert_eq!(oracle::labels(&determinized), [b"D0", b"D1"]);
    let total = oracle::totalize(oracle::labelled(&a, &[b"sink".to_vec()]));
    assert_eq!(oracle::labels(&total), [b"sink", b"sink"]);
}
