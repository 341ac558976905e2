//! The text of a sheet and its labels, written from the words of document 02 (M-100).
//!
//! The original has no writer. That its parser reads such a text as the same automaton is compared beside it (`read_back_fault`).

use std::collections::{BTreeSet, HashSet};

use crate::expect::{self, Outcome};
use crate::sheet::{EPSILON, MAX_NAME, Sheet, TEXT_BYTES, read_labels};

/// The states that are written: the start, and those that a record touches.
pub fn written(sheet: &Sheet) -> BTreeSet<usize> {
    let touched = sheet.records.iter().flat_map(|record| [record[0], record[4]]);
    touched.chain([sheet.start]).map(|state| state as usize).collect()
}

/// Whether a label is a name in the grammar.
fn is_name(label: &[u8]) -> bool {
    label.first().is_some_and(u8::is_ascii_alphabetic)
        && label.iter().all(|byte| byte.is_ascii_alphanumeric() || *byte == b'_')
        && label.len() <= MAX_NAME
}

/// The text of an accepted sheet and its labels, or 30, 31 or 32.
pub fn text(sheet: &Sheet, labels: &[Vec<u8>]) -> Outcome<Vec<u8>> {
    if sheet.records.iter().any(|record| record[1] == EPSILON) {
        return Err(30);
    }
    let written = written(sheet);
    let accepting: Vec<usize> =
        written.iter().copied().filter(|&state| sheet.accept[state] == 1).collect();
    if accepting.is_empty() {
        return Err(31);
    }
    let names: HashSet<&[u8]> = written.iter().map(|&state| &labels[state][..]).collect();
    if names.len() < written.len() || !names.into_iter().all(is_name) {
        return Err(32);
    }
    let name = |state: usize| str::from_utf8(&labels[state]).expect("names are ASCII");
    let mut text = format!("automaton P {{ init {};", name(sheet.start as usize));
    for &[from, _, first, last, to] in &sheet.records {
        let (from, to) = (name(from as usize), name(to as usize));
        text += &format!(" {from} -> {to} [{first}, {last}];");
    }
    let accepting: Vec<&str> = accepting.into_iter().map(name).collect();
    text += &format!(" accepting {}; }};", accepting.join(", "));
    if text.len() > TEXT_BYTES { Err(32) } else { Ok(text.into_bytes()) }
}

/// What is wrong with a text of an accepted sheet and its labels, read by the original's parser: it must be read to its end, to the written
/// states under their labels, with the start, the accept words and the records of the sheet, in any numbering.
pub fn read_back_fault(sheet: &Sheet, labels: &[Vec<u8>], text: &[u8]) -> Option<String> {
    let parsed = match expect::parse_automaton(text) {
        Ok(parsed) => parsed,
        Err(number) => return Some(format!("the text is refused with {number}")),
    };
    if parsed.read != text.len() as u64 {
        return Some(format!("{} of {} bytes are read", parsed.read, text.len()));
    }
    let (read, names) = (Sheet::read(&parsed.built.sheet), read_labels(&parsed.built.labels));
    let written = written(sheet);
    if read.states() != written.len() {
        return Some(format!("{} states are read, {} are written", read.states(), written.len()));
    }
    // The number under which a written state is read. The labels read are all different.
    let number = |state: usize| names.iter().position(|name| *name == labels[state]);
    let mut renumbered = Sheet { start: 0, accept: vec![0; written.len()], records: Vec::new() };
    for &state in &written {
        let Some(new) = number(state) else {
            return Some(format!("the label of {state} is not read"));
        };
        renumbered.accept[new] = sheet.accept[state];
    }
    let number = |state: u32| number(state as usize).expect("a written state") as u32;
    renumbered.start = number(sheet.start);
    renumbered.records = sheet
        .records
        .iter()
        .map(|&[from, kind, first, last, to]| [number(from), kind, first, last, number(to)])
        .collect();
    renumbered.sort();
    (read != renumbered).then(|| format!("the text is read as {:?}", read.words()))
}

#[cfg(test)]
mod tests {
    use super::*;
    use crate::sheet::RANGE;

    fn labels(names: &[&str]) -> Vec<Vec<u8>> {
        names.iter().map(|name| name.as_bytes().to_vec()).collect()
    }

    /// Three states, of which the second is the start and no record touches the third.
    fn three() -> Sheet {
        let records = vec![[0, RANGE, 5, 9, 1], [1, RANGE, 0, 4, 0], [1, RANGE, 0, 4, 1]];
        Sheet { start: 1, accept: vec![1, 1, 1], records }
    }

    #[test]
    fn a_text() {
        let names = labels(&["b", "a", " "]);
        let text = text(&three(), &names).expect("both written labels are names");
        let expected =
            "automaton P { init a; b -> a [5, 9]; a -> b [0, 4]; a -> a [0, 4]; accepting b, a; };";
        assert_eq!(str::from_utf8(&text), Ok(expected));
        assert_eq!(read_back_fault(&three(), &names, &text), None);
        for (old, new) in [("b, a", "b"), ("init a", "init b"), ("9", "8"), ("};", "}; ")] {
            let other = expected.replace(old, new);
            let fault = read_back_fault(&three(), &names, other.as_bytes());
            assert!(fault.is_some(), "{other}");
        }
    }

    #[test]
    fn refusals() {
        let good = labels(&["b", "a", "c"]);
        let mut epsilon = three();
        epsilon.records.insert(0, [0, EPSILON, 0, 0, 0]);
        epsilon.accept = vec![0; 3];
        assert_eq!(text(&epsilon, &labels(&["b", "b", "c"])), Err(30));
        let mut none = three();
        none.accept = vec![0, 0, 1];
        assert_eq!(text(&none, &labels(&["b", "b", "c"])), Err(31));
        assert!(text(&three(), &good).is_ok());
        for names in [["b", "b", "c"], ["1", "a", "c"], ["b", "_", "c"], ["b", "a b", "c"]] {
            assert_eq!(text(&three(), &labels(&names)), Err(32), "{names:?}");
        }
        // The label of a state that is not written may be any.
        for name in ["a", "1", "_", "a b"] {
            assert!(text(&three(), &labels(&["b", "a", name])).is_ok(), "{name}");
        }
    }
}
