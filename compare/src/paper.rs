//! The checks of sheets and of label lists, written from document 01's words.
//!
//! The original has neither sheets nor refusals, so these rest on document 01 alone.

use crate::sheet::{EPSILON, MAX_NAME, MAX_RECORDS, MAX_STATES, Record};

/// The number of the first fault of a sheet in the order that "The sheet" gives, or 0.
pub fn sheet_fault(words: &[u32]) -> u32 {
    // Start section: under two words, then miscounted.
    let [count, start, rest @ ..] = words else {
        return 1;
    };
    if *count != 1 {
        return 2;
    }
    // State count: missing or wrong.
    let Some((&states, rest)) = rest.split_first() else {
        return 1;
    };
    if states == 0 || states as usize > MAX_STATES {
        return 3;
    }
    // Accept words missing, start index, accept words.
    let Some((accept, rest)) = rest.split_at_checked(states as usize) else {
        return 1;
    };
    if *start >= states {
        return 2;
    }
    if accept.iter().any(|&word| word > 1) {
        return 4;
    }
    // Transition count: missing or wrong.
    let Some((&count, rest)) = rest.split_first() else {
        return 1;
    };
    if count as usize > MAX_RECORDS {
        return 3;
    }
    // Total length.
    if rest.len() != 5 * count as usize {
        return 1;
    }
    // Then each record, 5 before 6.
    let mut before: Option<&Record> = None;
    for record in rest.as_chunks().0 {
        if record_fault(record, states) {
            return 5;
        }
        if before.is_some_and(|before| record <= before) {
            return 6;
        }
        before = Some(record);
    }
    0
}

/// Whether a record breaks a rule by itself.
fn record_fault(&[from, kind, first, last, to]: &Record, states: u32) -> bool {
    kind > 1
        || from >= states
        || to >= states
        || first > last
        || (kind == EPSILON && (first != 0 || last != 0))
}

/// 10 where a label list for `states` states has a fault, else 0.
pub fn labels_fault(states: usize, bytes: &[u8]) -> u32 {
    let [low, high, rest @ ..] = bytes else {
        return 10;
    };
    if u16::from_le_bytes([*low, *high]) as usize != states {
        return 10;
    }
    let mut rest = rest;
    for _ in 0..states {
        let Some((&length, after)) = rest.split_first() else {
            return 10;
        };
        if length == 0 || length as usize > MAX_NAME || length as usize > after.len() {
            return 10;
        }
        rest = &after[length as usize..];
    }
    if rest.is_empty() { 0 } else { 10 }
}

#[cfg(test)]
mod tests {
    use super::*;
    use crate::sheet::{RANGE, Sheet, plain_labels, write_labels};

    /// Automaton A of document 01's samples.
    const A: [u32; 11] = [1, 0, 2, 0, 1, 1, 0, 1, 0, 9, 1];

    /// The fault of A with one word replaced.
    fn changed(at: usize, word: u32) -> u32 {
        let mut words = A;
        words[at] = word;
        sheet_fault(&words)
    }

    #[test]
    fn sample_has_no_fault() {
        assert_eq!(sheet_fault(&A), 0);
        assert_eq!(Sheet::read(&A).words(), A);
    }

    #[test]
    fn lengths() {
        for length in 0..A.len() {
            assert_eq!(sheet_fault(&A[..length]), 1, "{length} words");
        }
        assert_eq!(sheet_fault(&[&A[..], &[0]].concat()), 1);
        assert_eq!(sheet_fault(&[&A[..], &A[6..]].concat()), 1);
    }

    #[test]
    fn single_words() {
        assert_eq!(changed(0, 0), 2);
        assert_eq!(changed(0, 2), 2);
        assert_eq!(changed(1, 2), 2);
        assert_eq!(changed(2, 0), 3);
        assert_eq!(changed(2, 257), 3);
        assert_eq!(changed(2, 256), 1);
        assert_eq!(changed(3, 2), 4);
        assert_eq!(changed(5, 2049), 3);
        assert_eq!(changed(5, 2048), 1);
        assert_eq!(changed(6, 2), 5);
        assert_eq!(changed(7, 0), 5);
        assert_eq!(changed(7, 2), 5);
        assert_eq!(changed(8, 10), 5);
        assert_eq!(changed(10, 2), 5);
    }

    #[test]
    fn order_of_faults() {
        // A missing accept word comes before the start index, that before a bad accept word.
        assert_eq!(sheet_fault(&[1, 9, 2, 7]), 1);
        assert_eq!(sheet_fault(&[1, 9, 2, 7, 7]), 2);
        assert_eq!(sheet_fault(&[1, 0, 2, 7, 7]), 4);
        assert_eq!(sheet_fault(&[1, 0, 2, 1, 1]), 1);
        // A start count of 2 alone is short before it is miscounted.
        assert_eq!(sheet_fault(&[2]), 1);
        assert_eq!(sheet_fault(&[2, 0]), 2);
    }

    #[test]
    fn records_one_by_one() {
        let sheet = |records: Vec<Record>| {
            let accept = vec![0, 1];
            sheet_fault(&Sheet { start: 0, accept, records }.words())
        };
        let (low, high, bad) = ([0, 1, 0, 4, 1], [0, 1, 5, 9, 1], [0, 2, 0, 0, 1]);
        assert_eq!(sheet(vec![low, high]), 0);
        assert_eq!(sheet(vec![low, low]), 6);
        assert_eq!(sheet(vec![high, low]), 6);
        assert_eq!(sheet(vec![high, low, bad]), 6);
        assert_eq!(sheet(vec![high, bad, low]), 5);
        // Both at one record: it starts below the one before it and has a kind over 1.
        assert_eq!(sheet(vec![[1, 0, 0, 0, 0], bad]), 5);
    }

    #[test]
    fn limits() {
        let chain =
            |states: usize| Sheet { start: 0, accept: vec![0; states], records: Vec::new() };
        assert_eq!(sheet_fault(&chain(256).words()), 0);
        assert_eq!(sheet_fault(&chain(257).words()), 3);
        let comb = |records: u32| Sheet {
            start: 0,
            accept: vec![1],
            records: (0..records).map(|i| [0, RANGE, i, i, 0]).collect(),
        };
        assert_eq!(sheet_fault(&comb(2048).words()), 0);
        assert_eq!(sheet_fault(&comb(2049).words()), 3);
    }

    #[test]
    fn label_lists() {
        let two = write_labels(&[b"p".to_vec(), b"q".to_vec()]);
        assert_eq!(labels_fault(2, &two), 0);
        assert_eq!(labels_fault(1, &two), 10);
        assert_eq!(labels_fault(3, &two), 10);
        for length in 0..two.len() {
            assert_eq!(labels_fault(2, &two[..length]), 10);
        }
        assert_eq!(labels_fault(2, &[&two[..], &[0]].concat()), 10);
        assert_eq!(labels_fault(1, &write_labels(&[vec![]])), 10);
        assert_eq!(labels_fault(1, &write_labels(&[vec![b'a'; 64]])), 0);
        assert_eq!(labels_fault(1, &write_labels(&[vec![b'a'; 65]])), 10);
        assert_eq!(labels_fault(256, &write_labels(&plain_labels(256))), 0);
    }
}
