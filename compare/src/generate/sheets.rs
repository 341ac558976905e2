//! Sheets: random ones of every size, ones at the limits, and damaged copies.

use super::{Rng, damaged, hostile};
use crate::sheet::{EPSILON, MAX_RECORDS, MAX_STATES, RANGE, Record, Sheet};

/// Symbols at which something changes: in the sheets, in UTF-8, or in the machine's numbers.
pub const EDGES: [u32; 24] = [
    0,
    1,
    4,
    5,
    9,
    10,
    0x7f,
    0x80,
    0x7ff,
    0x800,
    0xd7ff,
    0xd800,
    0xdfff,
    0xe000,
    0xffff,
    0x1_0000,
    0x10_ffff,
    0x11_0000,
    0x7fff_ffff,
    0x8000_0000,
    u32::MAX - 5,
    u32::MAX - 4,
    u32::MAX - 1,
    u32::MAX,
];

/// Where the ends of a sheet's ranges come from.
#[derive(Clone, Copy)]
enum Ends {
    /// Few symbols above 0: overlaps and adjacent ranges abound.
    Low,
    /// The same below 4294967295.
    High,
    /// The symbols where something changes.
    Edges,
    /// Any symbols.
    Any,
    /// Letters: what texts are made of.
    Letters,
}

impl Ends {
    fn draw(self, rng: &mut Rng) -> u32 {
        match self {
            Ends::Low => rng.below(10) as u32,
            Ends::High => u32::MAX - rng.below(10) as u32,
            Ends::Edges => *rng.pick(&EDGES),
            Ends::Any => rng.draw() as u32,
            Ends::Letters => rng.symbol('a' as u32, 'f' as u32),
        }
    }

    fn range(self, rng: &mut Rng) -> (u32, u32) {
        let (a, b) = (self.draw(rng), self.draw(rng));
        if rng.one_in(3) { (a, a) } else { (a.min(b), a.max(b)) }
    }
}

fn ends(rng: &mut Rng) -> Ends {
    *rng.pick(&[Ends::Low, Ends::Low, Ends::High, Ends::Edges, Ends::Any, Ends::Letters])
}

/// A sheet of `states` states and about `records` records, fewer where too many are alike.
/// One record in `epsilons` is an epsilon; 0 means none.
pub fn random(rng: &mut Rng, states: usize, records: usize, epsilons: usize) -> Sheet {
    let ends = ends(rng);
    let accepting = rng.within(1, 4);
    let state = |rng: &mut Rng| rng.below(states) as u32;
    let record = |rng: &mut Rng| -> Record {
        if epsilons > 0 && rng.one_in(epsilons) {
            [state(rng), EPSILON, 0, 0, state(rng)]
        } else {
            let (first, last) = ends.range(rng);
            [state(rng), RANGE, first, last, state(rng)]
        }
    };
    let mut sheet = Sheet {
        start: state(rng),
        accept: (0..states).map(|_| rng.one_in(accepting) as u32).collect(),
        records: (0..records).map(|_| record(rng)).collect(),
    };
    sheet.sort();
    sheet
}

/// A sheet of up to 6 states.
pub fn small(rng: &mut Rng) -> Sheet {
    let (states, records) = (rng.within(1, 6), rng.below(13));
    let epsilons = *rng.pick(&[0, 0, 3, 5]);
    random(rng, states, records, epsilons)
}

/// A deterministic total sheet: each state's ranges hold every symbol once.
pub fn total(rng: &mut Rng, states: usize, parts: usize) -> Sheet {
    let ends = ends(rng);
    let mut sheet = Sheet {
        start: rng.below(states) as u32,
        accept: (0..states).map(|_| rng.below(2) as u32).collect(),
        records: Vec::new(),
    };
    for from in 0..states as u32 {
        let mut cuts: Vec<u32> = (1..parts).map(|_| ends.draw(rng).max(1)).collect();
        cuts.push(0);
        cuts.sort_unstable();
        cuts.dedup();
        for (i, &first) in cuts.iter().enumerate() {
            let last = cuts.get(i + 1).map_or(u32::MAX, |next| next - 1);
            sheet.records.push([from, RANGE, first, last, rng.below(states) as u32]);
        }
    }
    sheet
}

/// A chain: each state leads to the next by (0, 0), the last one accepts; closed, it is a ring.
pub fn chain(states: usize, closed: bool) -> Sheet {
    let mut records: Vec<Record> = (1..states as u32).map(|to| [to - 1, RANGE, 0, 0, to]).collect();
    if closed {
        records.push([states as u32 - 1, RANGE, 0, 0, 0]);
    }
    let mut accept = vec![0; states];
    accept[states - 1] = 1;
    Sheet { start: 0, accept, records }
}

/// A ring of states, each led to the next by (0, 0), with the given accept words.
pub fn ring(accept: Vec<u32>) -> Sheet {
    let states = accept.len() as u32;
    let records = (0..states).map(|from| [from, RANGE, 0, 0, (from + 1) % states]).collect();
    Sheet { start: 0, accept, records }
}

/// A chain of `tail` states that leads into a ring of `length` states, the last of which accepts.
pub fn lasso(tail: usize, length: usize) -> Sheet {
    let mut sheet = chain(tail + length, false);
    sheet.records.push([(tail + length) as u32 - 1, RANGE, 0, 0, tail as u32]);
    sheet
}

/// Accepts where the symbol `k` from the end is 1: `k` + 1 states, 2 to the `k` sets.
pub fn from_the_end(k: usize) -> Sheet {
    let mut records = vec![[0, RANGE, 0, 1, 0], [0, RANGE, 1, 1, 1]];
    records.extend((1..k as u32).map(|from| [from, RANGE, 0, 1, from + 1]));
    let mut accept = vec![0; k + 1];
    accept[k] = 1;
    Sheet { start: 0, accept, records }
}

/// The same, with loops at the start that cut each set's symbols into `cuts` + 1 parts and a hole.
pub fn from_the_end_cut(k: usize, cuts: usize) -> Sheet {
    let mut sheet = from_the_end(k);
    sheet.records.extend((2..=cuts as u32).map(|last| [0, RANGE, 0, last, 0]));
    sheet.sort();
    sheet
}

/// One state that loops on `points` single symbols with holes between them, from `first` on.
pub fn comb(first: u32, points: usize) -> Sheet {
    let records = (0..points as u32).map(|i| [0, RANGE, first + 2 * i, first + 2 * i, 0]);
    Sheet { start: 0, accept: vec![1], records: records.collect() }
}

/// One state that loops on nested ranges, all from 0 or all to 4294967295. The product of `k` of
/// the one sort and `l` of the other has `k` times `l` transitions.
pub fn nested(ranges: usize, from_zero: bool) -> Sheet {
    let range = |i: u32| {
        if from_zero { (0, u32::MAX - i) } else { (i, u32::MAX) }
    };
    let records = (0..ranges as u32).map(range).map(|(first, last)| [0, RANGE, first, last, 0]);
    let mut sheet = Sheet { start: 0, accept: vec![1], records: records.collect() };
    sheet.sort();
    sheet
}

/// Epsilons from every state to the last, which has `points` records: eliminating them gives each
/// state as many.
pub fn fan(states: usize, points: usize) -> Sheet {
    let last = states as u32 - 1;
    let mut records: Vec<Record> = (0..last).map(|from| [from, EPSILON, 0, 0, last]).collect();
    records.extend((0..points as u32).map(|i| [last, RANGE, i, i, last]));
    Sheet { start: 0, accept: vec![1; states], records }
}

/// Epsilons from the first state to the others; each state has `points` records, of symbols below those
/// of the state before it, so that the first state's come in descending order.
pub fn descent(states: usize, points: usize) -> Sheet {
    let epsilons = (1..states as u32).map(|to| [0, EPSILON, 0, 0, to]);
    let point = |i: usize| {
        let (from, symbol) =
            ((i / points) as u32, ((states - i / points) * points + i % points) as u32);
        [from, RANGE, symbol, symbol, 0]
    };
    let mut sheet = Sheet { start: 0, accept: vec![1; states], records: epsilons.collect() };
    sheet.records.extend((0..states * points).map(point));
    sheet.sort();
    sheet
}

/// A ring of epsilons, so that every state is in each closure; every state reads one symbol.
pub fn epsilon_ring(states: usize) -> Sheet {
    let next = |state: u32| (state + 1) % states as u32;
    let pair = |from: u32| [[from, EPSILON, 0, 0, next(from)], [from, RANGE, from, from, from]];
    let mut accept = vec![0; states];
    accept[states - 1] = 1;
    Sheet { start: 0, accept, records: (0..states as u32).flat_map(pair).collect() }
}

/// Every state leads to every state by each of some ranges.
pub fn complete(states: usize, ranges: usize) -> Sheet {
    let mut records = Vec::new();
    for from in 0..states as u32 {
        for i in 0..ranges as u32 {
            records.extend((0..states as u32).map(|to| [from, RANGE, i, i + 1, to]));
        }
    }
    Sheet { start: 0, accept: vec![1; states], records }
}

/// A sheet at or near one of the limits.
pub fn limit(rng: &mut Rng) -> Sheet {
    let near = |rng: &mut Rng, number: usize| number + rng.below(3) - 1;
    match rng.below(12) {
        0 => chain(rng.within(MAX_STATES - 3, MAX_STATES), rng.one_in(2)),
        1 => from_the_end(rng.within(6, 9)),
        2 => comb(rng.below(2) as u32, near(rng, 1023)),
        3 => fan(8, near(rng, 255)),
        4 => fan(2, near(rng, 1023)),
        5 => nested(rng.within(1, 64), rng.one_in(2)),
        6 => complete(rng.within(2, 45), 1),
        7 => {
            let states = rng.within(MAX_STATES - 2, MAX_STATES);
            random(rng, states, MAX_RECORDS, 4)
        }
        8 => {
            let states = rng.within(MAX_STATES - 2, MAX_STATES);
            total(rng, states, 3)
        }
        9 => epsilon_ring(rng.within(MAX_STATES - 2, MAX_STATES)),
        10 => from_the_end_cut(7, rng.within(12, 15)),
        _ => random(rng, 1, MAX_RECORDS, 0),
    }
}

/// Words that are no sheet, or seldom: a damaged sheet, one over a limit, or any words.
pub fn faulty(rng: &mut Rng) -> Vec<u32> {
    let word = |rng: &mut Rng| match rng.below(4) {
        0 => rng.draw() as u32,
        1 => *rng.pick(&EDGES),
        _ => rng.below(4) as u32,
    };
    match rng.below(8) {
        0 => (0..rng.below(12)).map(|_| word(rng)).collect(),
        1 => chain(rng.within(256, 258), false).words(),
        2 => comb(0, rng.within(2047, 2050)).words(),
        3 => {
            let sheet = limit(rng).words();
            damaged(rng, &sheet, word)
        }
        _ => {
            let sheet = small(rng).words();
            damaged(rng, &sheet, word)
        }
    }
}

/// Few states with many ranges, so that one set of states has over 64 of them.
pub fn wide(rng: &mut Rng) -> Sheet {
    match rng.below(5) {
        0 => hostile::overlapping(rng.within(60, 120), rng.within(1, 120), &[2, 3], rng.one_in(2)),
        1 => hostile::one_missing(rng.within(2, 20), rng.within(40, 120)),
        2 => hostile::colliding_sets(rng.within(8, 255) as u32),
        _ => {
            let (states, records) = (rng.within(1, 5), rng.within(60, 250));
            let epsilons = *rng.pick(&[0, 20]);
            random(rng, states, records, epsilons)
        }
    }
}

/// A sheet of any sort, with the name of the sort. Most are small, so that many can be tried.
pub fn any(rng: &mut Rng) -> (&'static str, Vec<u32>) {
    match rng.below(100) {
        0..45 => ("small", small(rng).words()),
        45..60 => {
            let (states, parts) = (rng.within(1, 8), rng.within(1, 5));
            ("total", total(rng, states, parts).words())
        }
        60..70 => {
            let (states, records) = (rng.within(1, 40), rng.below(120));
            let epsilons = *rng.pick(&[0, 2, 8]);
            ("medium", random(rng, states, records, epsilons).words())
        }
        70..73 => {
            let (states, records) = (rng.within(1, MAX_STATES), rng.below(MAX_RECORDS + 1));
            let epsilons = *rng.pick(&[0, 2, 8, 100]);
            ("large", random(rng, states, records, epsilons).words())
        }
        73..77 => ("limit", limit(rng).words()),
        77..80 => ("wide", wide(rng).words()),
        _ => ("faulty", faulty(rng)),
    }
}

#[cfg(test)]
mod tests {
    use super::*;
    use crate::paper::sheet_fault;
    use std::collections::HashSet;

    #[test]
    fn sheets_are_accepted() {
        let mut rng = Rng::new(3);
        for _ in 0..3000 {
            let (sort, sheet) = any(&mut rng);
            assert!(sort == "faulty" || sheet_fault(&sheet) == 0, "{sort} {sheet:?}");
        }
    }

    #[test]
    fn faulty_sheets_have_every_fault() {
        let mut rng = Rng::new(4);
        let faults: HashSet<u32> = (0..20_000).map(|_| sheet_fault(&faulty(&mut rng))).collect();
        assert_eq!(faults, HashSet::from_iter(0..=6));
    }
}
