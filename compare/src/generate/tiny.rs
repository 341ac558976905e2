//! Every automaton of one or two states over a few ranges and epsilons.

use crate::sheet::{EPSILON, RANGE, Sheet};

/// Kind, first and last of a record.
type Trigger = (u32, u32, u32);

const ONE_STATE: [Trigger; 4] =
    [(EPSILON, 0, 0), (RANGE, 0, 5), (RANGE, 3, 9), (RANGE, 6, u32::MAX)];

/// The ranges of the one family overlap, those of the other meet without a gap.
const TWO_STATES: [[Trigger; 3]; 2] = [
    [(EPSILON, 0, 0), (RANGE, 0, 5), (RANGE, 3, u32::MAX)],
    [(EPSILON, 0, 0), (RANGE, 0, 5), (RANGE, 6, u32::MAX)],
];

/// The number of sheets of one state: each set of 4 records, accepting or not.
pub const ONE: usize = 1 << (4 + 1);

/// The number of all: of two states, for each family each set of 12 records, both accept words and
/// the start. Sheets without the second range are in both families.
pub const ALL: usize = ONE + (1 << (12 + 2 + 1 + 1));

/// The sheet of a number below `ALL`; those below `ONE` have one state.
pub fn sheet(number: usize) -> Sheet {
    match number.checked_sub(ONE) {
        None => one_state(number),
        Some(number) => two_states(number),
    }
}

fn bit(number: usize, at: usize) -> u32 {
    (number >> at & 1) as u32
}

fn one_state(number: usize) -> Sheet {
    let triggers = ONE_STATE.iter().enumerate();
    let chosen = triggers.filter(|(i, _)| bit(number, *i) == 1);
    Sheet {
        start: 0,
        accept: vec![bit(number, 4)],
        records: chosen.map(|(_, &(kind, first, last))| [0, kind, first, last, 0]).collect(),
    }
}

fn two_states(number: usize) -> Sheet {
    let family = TWO_STATES[bit(number, 15) as usize];
    let mut records = Vec::new();
    for from in 0..2 {
        for (i, (kind, first, last)) in family.into_iter().enumerate() {
            for to in 0..2 {
                if bit(number, from * 6 + i * 2 + to) == 1 {
                    records.push([from as u32, kind, first, last, to as u32]);
                }
            }
        }
    }
    Sheet { start: bit(number, 12), accept: vec![bit(number, 13), bit(number, 14)], records }
}

#[cfg(test)]
mod tests {
    use super::*;
    use crate::paper::sheet_fault;
    use std::collections::HashSet;

    #[test]
    fn sheets_are_accepted_and_different() {
        let sheets: HashSet<Vec<u32>> = (0..ALL).map(|number| sheet(number).words()).collect();
        // In both families: each set of 8 records, three bits.
        assert_eq!(sheets.len(), ALL - (1 << (8 + 3)));
        assert!(sheets.iter().all(|sheet| sheet_fault(sheet) == 0));
    }
}
