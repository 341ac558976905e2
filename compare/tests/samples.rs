//! Document 01's samples, asked of the original.

use compare::expect::{self, Verdict};
use compare::generate::sheets;
use compare::oracle::{self, has_overlapping_ranges, missing_ranges, partition_ranges};
use compare::paper::sheet_fault;
use compare::sheet::{RANGE, Sheet};

const A: &str = "automaton A { init p; p -> q [0, 9]; accepting q; };";
const B: &str = "automaton B { init s; s -> t [0, 4]; s -> u [5, 9]; accepting t, u; };";
const C: &str = "automaton C { init p; p -> q [0, 8]; accepting q; };";

fn sheet(text: &str) -> Vec<u32> {
    let parsed = expect::parse_automaton(text.as_bytes()).expect("it is in the grammar");
    assert_eq!(parsed.read, text.len() as u64);
    parsed.built.sheet
}

#[test]
fn text_a_has_its_sheet() {
    assert_eq!(sheet(A), [1, 0, 2, 0, 1, 1, 0, 1, 0, 9, 1]);
}

#[test]
fn texts_are_written_back() {
    for text in [A, B, C] {
        let read = expect::parse_automaton(text.as_bytes()).expect("it is in the grammar").built;
        let written =
            expect::write_automaton(&read.sheet, &read.labels).expect("it can be written");
        let (name, rest) = text.split_once(" {").expect("a name stands before the brace");
        assert_eq!(name.len(), "automaton P".len());
        assert_eq!(String::from_utf8(written), Ok(format!("automaton P {{{rest}")));
    }
}

#[test]
fn holes() {
    assert_eq!(missing_ranges(&[], 0, u32::MAX), [(0, u32::MAX)]);
    assert_eq!(missing_ranges(&[(5, u32::MAX)], 0, u32::MAX), [(0, 4)]);
}

#[test]
fn overlaps_and_common_symbols() {
    assert!(has_overlapping_ranges(vec![(0, 5), (5, 9)]));
    assert!(!has_overlapping_ranges(vec![(0, 4), (5, 9)]));
    assert_eq!(oracle::intersect_ranges((0, 5), (5, 9)), Some((5, 5)));
}

#[test]
fn parts() {
    assert_eq!(
        partition_ranges(&vec![(0, 5, 1), (3, 9, 2)]),
        [((0, 2), vec![1]), ((3, 5), vec![1, 2]), ((6, 9), vec![2])]
    );
}

#[test]
fn a_accepts_9() {
    for (word, answer) in [(&[9][..], 1), (&[10], 0), (&[], 0)] {
        assert_eq!(expect::accepts_words(&sheet(A), word), Ok(answer));
    }
}

#[test]
fn a_accepts_9_and_an_unfinished_ring() {
    for (series, mark, answer) in
        [(&[9][..], 0, Ok(1)), (&[9], 1, Ok(0)), (&[9, 14], 0, Ok(0)), (&[9, 14], 1, Ok(1))]
    {
        assert_eq!(expect::accepts_series(&sheet(A), series, mark), answer);
    }
    for mark in [0, 1] {
        assert_eq!(expect::accepts_series(&sheet(A), &[], mark), Ok(0));
    }
    assert_eq!(expect::accepts_series(&sheet(A), &[9], 2), Err(34));
    assert_eq!(expect::accepts_series(&[], &[9], 2), Err(1));
}

#[test]
fn a_determinized() {
    let built = expect::determinize(&sheet(A)).expect("it fits");
    let determinized = Sheet::read(&built.sheet);
    assert_eq!((determinized.states(), determinized.records.len()), (3, 4));
}

#[test]
fn an_overlap_and_its_complement_accept_the_same_word() {
    let overlap = Sheet {
        start: 0,
        accept: vec![0, 1, 0],
        records: vec![[0, RANGE, 0, 9, 1], [0, RANGE, 0, 9, 2]],
    };
    let a = oracle::automaton(&overlap);
    assert!(oracle::accepts_word(&a, &[5]));
    assert!(oracle::accepts_word(&oracle::complement(a), &[5]));
}

#[test]
fn limits_of_the_sheet() {
    assert_eq!(sheet_fault(&sheets::chain(256, false).words()), 0);
    assert_eq!(sheet_fault(&sheets::chain(257, false).words()), 3);
    assert_eq!(sheet_fault(&sheets::comb(0, 2048).words()), 0);
    assert_eq!(sheet_fault(&sheets::comb(0, 2049).words()), 3);
}

#[test]
fn verdicts() {
    assert_eq!(expect::equality(&sheet(A), &sheet(B)), Ok(Verdict::Same { joins: 4 }));
    let different = Verdict::Different { word: vec![9], longest: 4 };
    assert_eq!(expect::equality(&sheet(A), &sheet(C)), Ok(different));
}
