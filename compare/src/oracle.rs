//! The original's operations on sheets, words and texts.
//!
//! Labels are bytes and the original's names are strings, so a byte stands for the character of its
//! number. This keeps equal labels equal and different ones different, and leaves ASCII as it is.

use crate::automata::utils;
use crate::automata::{Trigger, access, operations};
use crate::sheet::{EPSILON, RANGE, Sheet, plain_labels};

pub use crate::automata::Automaton;
pub use crate::automata::access::{Parts, partition_ranges, state_closures, step, totalize};
pub use crate::automata::dsu::DSU;
pub use crate::automata::operations::{
    complement, has_reachable_accepting_state, is_equivalent, is_subautomaton,
};
pub use crate::automata::utils::{has_overlapping_ranges, missing_ranges};

/// The determinization of a sheet.
pub fn determinize(sheet: &Sheet) -> Automaton {
    Automaton::determinize(&automaton(sheet))
}

/// Two automata's product, or nothing where the original met an epsilon.
pub fn intersection(a: Automaton, b: Automaton) -> Option<Automaton> {
    operations::intersection(a, b).ok()
}

/// Whether the product of each of two determinizations with the other's complement is empty.
pub fn crossed_products_are_empty(d: &Automaton, e: &Automaton) -> bool {
    let is_empty = |d: &Automaton, e: &Automaton| {
        let product = intersection(d.clone(), complement(e.clone()));
        !has_reachable_accepting_state(&product.expect("there are no epsilons"))
    };
    is_empty(d, e) && is_empty(e, d)
}

/// The common symbols of two ranges.
pub fn intersect_ranges(a: (u32, u32), b: (u32, u32)) -> Option<(u32, u32)> {
    utils::intersect_ranges(Trigger::Range(a), Trigger::Range(b)).expect("both are ranges")
}

/// The automaton of a sheet, with labels of no meaning.
pub fn automaton(sheet: &Sheet) -> Automaton {
    labelled(sheet, &plain_labels(sheet.states()))
}

/// The automaton of a sheet and its labels.
pub fn labelled(sheet: &Sheet, labels: &[Vec<u8>]) -> Automaton {
    let states =
        labels.iter().zip(&sheet.accept).map(|(label, &accept)| (text_of(label), accept == 1));
    let transitions = sheet.records.iter().map(|&[from, kind, first, last, to]| {
        let trigger = match kind {
            EPSILON => Trigger::Epsilon,
            _ => Trigger::Range((first, last)),
        };
        (from as usize, trigger, to as usize)
    });
    access::build(sheet.start as usize, states, transitions)
}

/// The sheet of an automaton.
pub fn sheet(a: &Automaton) -> Sheet {
    let records = access::transitions(a).map(|(from, trigger, to)| match *trigger {
        Trigger::Epsilon => [from as u32, EPSILON, 0, 0, to as u32],
        Trigger::Range((first, last)) => [from as u32, RANGE, first, last, to as u32],
    });
    Sheet {
        start: access::start(a) as u32,
        accept: access::states(a).map(|(_, accept)| accept as u32).collect(),
        records: records.collect(),
    }
}

/// The labels of an automaton's states.
pub fn labels(a: &Automaton) -> Vec<Vec<u8>> {
    access::states(a).map(|(id, _)| id.chars().map(|c| c as u8).collect()).collect()
}

/// Bytes as the string whose characters have their numbers.
pub fn text_of(bytes: &[u8]) -> String {
    bytes.iter().map(|&byte| byte as char).collect()
}

/// Whether an automaton accepts a word: from the start's closure, one step a symbol.
pub fn accepts_word(a: &Automaton, word: &[u32]) -> bool {
    let closures = state_closures(a);
    let mut current = closures[access::start(a)].clone();
    for &symbol in word {
        current = step(a, &current, symbol, &closures);
    }
    let accept: Vec<bool> = access::states(a).map(|(_, accept)| accept).collect();
    current.iter().any(|&state| accept[state])
}

/// What the original's parser makes of a text: the automaton and the number of bytes read.
#[cfg(parser)]
pub fn parse_automaton(text: &str) -> Option<(Automaton, usize)> {
    let (rest, a) = crate::automata::parser::parse_automaton(text).ok()?;
    Some((a, text.len() - rest.len()))
}

#[cfg(test)]
mod tests {
    use super::*;

    #[test]
    fn sheets_come_back() {
        let sheet = Sheet {
            start: 1,
            accept: vec![0, 1, 0],
            records: vec![
                [0, EPSILON, 0, 0, 2],
                [0, RANGE, 0, 5, 1],
                [0, RANGE, 0, 5, 2],
                [0, RANGE, 0, 9, 0],
                [2, RANGE, 7, u32::MAX, 1],
            ],
        };
        let names = vec![b"a".to_vec(), vec![0, 127, 128, 255], b"sink".to_vec()];
        let a = labelled(&sheet, &names);
        assert_eq!(super::sheet(&a), sheet);
        assert_eq!(labels(&a), names);
    }
}
