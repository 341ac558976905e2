//! Inputs within the limits that are made to be slow: many ranges that overlap, many equal
//! transitions, pairs, names and sets that a simple table would put into one place.

use super::Rng;
use crate::sheet::{EPSILON, RANGE, Record, Sheet, TEXT_BYTES};

const MAX: u32 = u32::MAX;

/// How long the rings are that make many sets of states: as many as the least common multiple.
pub const RINGS: [u32; 3] = [4, 7, 9];

/// The numbers below `n` in an order without pattern.
fn shuffled(n: usize, seed: u64) -> Vec<u32> {
    let (mut numbers, mut rng) = ((0..n as u32).collect::<Vec<_>>(), Rng::new(seed));
    for i in (1..n).rev() {
        numbers.swap(i, rng.below(i + 1));
    }
    numbers
}

fn sheet(states: usize, start: u32, records: Vec<Record>) -> Sheet {
    let mut sheet = Sheet { start, accept: vec![1; states], records };
    sheet.sort();
    sheet
}

/// Rings of the given lengths in the last of 256 states, each symbol leading on, behind a start that
/// leads by epsilons into all of them and to the first `also` states.
fn ringed(also: usize, rings: &[u32], mut records: Vec<Record>) -> Sheet {
    let mut first = 256 - rings.iter().sum::<u32>();
    let start = first - 1;
    records.extend((0..also as u32).map(|to| [start, EPSILON, 0, 0, to]));
    for &length in rings {
        records.push([start, EPSILON, 0, 0, first]);
        let step = |i: u32| [first + i, RANGE, 0, MAX, first + (i + 1) % length];
        records.extend((0..length).map(step));
        first += length;
    }
    sheet(256, start, records)
}

/// `loops` overlapping loops, `each` on each of the first states, which are in every set; no two share
/// an end but the one of each state that holds every symbol. The rings make the sets; they stand
/// last, so that sets differ in their last word only.
pub fn overlapping(loops: usize, each: usize, rings: &[u32], nested: bool) -> Sheet {
    let lasts = if nested { (0..loops as u32).collect() } else { shuffled(loops, 1) };
    let record = |i: usize| {
        let state = (i / each) as u32;
        match i % each {
            0 => [state, RANGE, 0, MAX, state],
            _ => [state, RANGE, i as u32, MAX - 1 - lasts[i], state],
        }
    };
    ringed(loops.div_ceil(each), rings, (0..loops).map(record).collect())
}

/// One state leads by every symbol to itself and, but for `gaps` symbols, to `targets` others; at each of
/// these one target is missing, in turn. Each target leads by an epsilon to a state of its own.
pub fn one_missing(targets: usize, gaps: usize) -> Sheet {
    let n = targets as u32;
    let mut records: Vec<Record> = (0..n).map(|t| [1 + t, EPSILON, 0, 0, 1 + n + t]).collect();
    records.push([0, RANGE, 0, MAX, 0]);
    for target in 0..n {
        let mut first = 0;
        for gap in (target..gaps as u32).step_by(targets) {
            records.push([0, RANGE, first, 2 * gap, 1 + target]);
            first = 2 * gap + 2;
        }
        records.push([0, RANGE, first, MAX, 1 + target]);
    }
    sheet(2 * targets + 1, 0, records)
}

/// State 0 leads by the symbols from 1 on to `sets` sets of states that are all looked up from one place on, like the
/// set of the start: their numbers, the sums of 2^q over their states q, have the remainder 1 by 509.
pub fn colliding_sets(sets: u32) -> Sheet {
    let number = |k: u32| 1018 * ((1u64 << (14 + k / 8)) / 1018 + u64::from(k % 8)) + 1528;
    let states = |k: u32| (0..64).filter(move |q| (number(k) >> q) & 1 == 1);
    let records = (1..=sets).flat_map(|k| states(k).map(move |q| [0, RANGE, k, k, q]));
    sheet(64, 0, records.collect())
}

/// One state with `loops` loops from 0 on.
pub fn from_zero(loops: usize) -> Sheet {
    sheet(1, 0, (0..loops as u32).map(|i| [0, RANGE, 0, 2 * i, 0]).collect())
}

/// One state with twice `pairs` loops, two from each of `pairs` symbols, whose ends are shuffled.
pub fn shuffled_ends(pairs: usize) -> Sheet {
    let (one, two) = (shuffled(pairs, 1), shuffled(pairs, 2));
    let record = |i: usize, last: u32| [0, RANGE, i as u32, pairs as u32 + last, 0];
    let records = (0..pairs).flat_map(|i| [record(i, one[i]), record(i, two[i])]);
    sheet(1, 0, records.collect())
}

/// One state that loops on `points` adjacent symbols.
pub fn adjacent(points: usize) -> Sheet {
    sheet(1, 0, (0..points as u32).map(|i| [0, RANGE, i, i, 0]).collect())
}

/// Two sheets whose product has `pairs` pairs, all with the same remainder of 37 p + q by 256, and in
/// which `ranges` ranges of the one state meet as many of the other, with only `ranges` different
/// transitions, in no order.
pub fn equal_transitions(ranges: usize, pairs: u32) -> (Sheet, Sheet) {
    let (n, base, order) = (ranges as u32, 1 << 20, shuffled(ranges, 3));
    let (mut a, mut b) = (Vec::new(), Vec::new());
    for p in 1..pairs {
        a.push([0, RANGE, p, p, p]);
        b.push([0, RANGE, p, p, (256 - 37 * p % 256) % 256]);
    }
    for i in 0..n {
        a.push([0, RANGE, base + n, MAX - i, 0]);
        b.push([0, RANGE, base + i, base + n + order[i as usize], 0]);
    }
    (sheet(256, 0, a), sheet(256, 0, b))
}

/// A ring of epsilons in which each state has the same ranges.
pub fn same_ranges(states: usize, ranges: usize) -> Sheet {
    let next = |state: u32| (state + 1) % states as u32;
    let own = |state: u32| {
        let ranges = (0..ranges as u32).map(move |i| [state, RANGE, 7 * i, 7 * i, i]);
        [[state, EPSILON, 0, 0, next(state)]].into_iter().chain(ranges)
    };
    sheet(states, 0, (0..states as u32).flat_map(own).collect())
}

/// `records` records over 256 states, each of which leads to the next in this order, from 0 on; only the last accepts.
fn ring(records: usize, order: &[u32]) -> Sheet {
    let mut next = [0; 256];
    for (i, state) in order.iter().enumerate() {
        next[*state as usize] = order[(i + 1) % 256];
    }
    let record = |i: u32| [i % 256, RANGE, i, i, next[i as usize % 256]];
    let mut ring = sheet(256, 0, (0..records as u32).map(record).collect());
    ring.accept = vec![0; 256];
    ring.accept[order[255] as usize] = 1;
    ring
}

/// A ring upward: 0, 1, 2 and so on.
pub fn around(records: usize) -> Sheet {
    ring(records, &(0..256).collect::<Vec<_>>())
}

/// A ring downward: 0, 255, 254 and so on.
pub fn downward(records: usize) -> Sheet {
    ring(records, &(0..256).map(|i| (256 - i) % 256).collect::<Vec<_>>())
}

/// A ring in no order.
pub fn in_no_order(records: usize) -> Sheet {
    let others = shuffled(255, 4).into_iter().map(|state| state + 1);
    ring(records, &std::iter::once(0).chain(others).collect::<Vec<_>>())
}

/// A ring in no order of all states but the one that accepts, which no record leads to.
pub fn unreached(records: usize) -> Sheet {
    let mut ring = in_no_order(records);
    let last = ring.accept.iter().position(|&word| word == 1).unwrap_or_default() as u32;
    for record in &mut ring.records {
        if record[4] == last {
            record[4] = ring.start;
        }
    }
    ring
}

/// Two sheets of 256 states with `records` records each, where no record of the one covers one of the other.
pub fn uncovered(records: usize) -> (Sheet, Sheet) {
    let (n, each) = (records as u32, (records / 256) as u32);
    let high = (0..n).map(|i| [i / each, RANGE, MAX - i, MAX - i, 0]);
    let low = (0..n - 1).map(|i| [i / each, RANGE, i, i, 0]);
    let all = low.chain([[255, RANGE, n, MAX, 255]]);
    (sheet(256, 0, high.collect()), sheet(256, 0, all.collect()))
}

/// One state with 7 triggers that each lead to `targets` states, and as many states with 7 triggers.
pub fn many_targets(targets: usize) -> (Sheet, Sheet) {
    let n = targets as u32;
    let one = (0..7).flat_map(|t| (0..n).map(move |to| [0, RANGE, t, t, to]));
    let many = (0..n).flat_map(|q| (0..7).map(move |t| [q, RANGE, t, t, (q + 1) % n]));
    (sheet(256, 0, one.collect()), sheet(256, 0, many.collect()))
}

/// Names of 64 bytes that differ in their last five only.
pub fn long_names(count: usize) -> Vec<String> {
    (0..count).map(|i| format!("{}{i:05}", "s".repeat(59))).collect()
}

/// Names of two bytes.
pub fn short_names(count: usize) -> Vec<String> {
    let letter = |i: usize| char::from(b'a' + (i % 26) as u8);
    (0..count).map(|i| format!("{}{}", letter(i / 26), letter(i))).collect()
}

/// Names of 64 bytes that differ in their last bytes, all with one remainder by 256 of the polynomial in 31 that has the bytes as coefficients.
pub fn colliding_names(count: usize) -> Vec<String> {
    let remainder = |name: &str| name.bytes().fold(0u32, |h, b| (31 * h + u32::from(b)) % 256);
    let letters: Vec<char> = ('a'..='z').chain('A'..='Z').chain('0'..='9').collect();
    let letter = |i: usize, k: u32| letters[i / 62usize.pow(k) % 62];
    let name = |i: usize| "s".repeat(59) + &(0..5).map(|k| letter(i, k)).collect::<String>();
    (0..).map(name).filter(|name| remainder(name) == 7).take(count).collect()
}

/// Names of 64 bytes that differ in the middle only, where neither end tells them apart.
pub fn alike_at_both_ends(count: usize) -> Vec<String> {
    (0..count).map(|i| format!("{}{i:05}{}", "s".repeat(30), "t".repeat(29))).collect()
}

/// Names as labels.
pub fn as_labels(names: Vec<String>) -> Vec<Vec<u8>> {
    names.into_iter().map(String::into_bytes).collect()
}

/// A text with `transitions` transitions over the names, 1,700 different ones between the first two.
pub fn text(names: &[String], transitions: usize) -> String {
    let own = names.iter().enumerate().map(|(i, name)| format!(" {name} -> {name} [{i}, {i}];"));
    let (from, to) = (&names[0], &names[1 % names.len()]);
    let between = |i: usize| format!(" {from} -> {to} [{k}, {k}];", k = i % 1700);
    let arrows: String = own.chain((names.len()..transitions).map(between)).collect();
    format!("automaton A {{ init {from};{arrows} accepting {from}; }};")
}

/// A text of a chain of `states` states, all of them accepting, the last one first.
pub fn accepting_chain(states: usize) -> String {
    let arrows: String = (1..states).map(|i| format!("s{:x}->s{i:x}[0,0];", i - 1)).collect();
    let accepting: Vec<String> = (0..states).rev().map(|i| format!("s{i:x}")).collect();
    format!("automaton A{{init s0;{arrows}accepting {};}};", accepting.join(","))
}

/// A text of 65,536 bytes at most with `transitions` transitions, each between two names of two bytes, and as many accepting names as there is room for:
/// the states in their order, again and again.
pub fn accepting_again(transitions: usize) -> String {
    let letters: Vec<char> = ('a'..='z').chain('A'..='Z').collect();
    let name = |i: usize| format!("{}{}", letters[i % 52], letters[i / 52 % 52]);
    let arrow = |i: usize| format!("{}->{}[0,0];", name(2 * i), name(2 * i + 1));
    let arrows: String = (0..transitions).map(arrow).collect();
    let mut text = format!("automaton A{{init aa;{arrows}accepting aa");
    let end = ";};";
    for i in (0..(2 * transitions).min(52 * 52)).cycle() {
        let more = format!(",{}", name(i));
        if text.len() + more.len() + end.len() > TEXT_BYTES {
            break;
        }
        text += &more;
    }
    text + end
}
