//! The kinds of lists, each with what draws one case.

use super::Case;
use crate::expect::{self, Verdict};
use crate::generate::{Rng, labels, pairs, patterns, sheets, tiny, words, written};
use crate::oracle;
use crate::paper;
use crate::sheet::{Sheet, write_labels};

/// Draws one case.
type Draw = fn(&mut Rng) -> Case;

/// The kinds by name; `compare/README.md` has their formats.
pub const KINDS: [(&str, Draw); 21] = [
    ("sheets", sheets),
    ("labels", labels),
    ("accepts", accepts),
    ("text", text),
    ("series", series),
    ("ranges", ranges),
    ("closures", closures),
    ("parts", parts),
    ("determinize", determinize),
    ("product", product),
    ("totalize", |rng| operation(rng, expect::totalize)),
    ("complement", |rng| operation(rng, expect::complement)),
    ("epsilon_eliminate", |rng| operation(rng, expect::epsilon_eliminate)),
    ("is_nfa", |rng| question(rng, expect::is_nfa)),
    ("nonempty", |rng| question(rng, expect::has_reachable_accepting_state)),
    ("is_equivalent", is_equivalent),
    ("is_subautomaton", is_subautomaton),
    ("parse", parse),
    ("write", write),
    ("equality", equality),
    ("utf8", utf8),
];

/// An accepted sheet of few words.
fn few(rng: &mut Rng) -> Sheet {
    let (states, records) = (rng.within(1, 4), rng.below(6));
    match rng.below(5) {
        0 => tiny::sheet(rng.below(tiny::ALL)),
        1 => sheets::total(rng, states, 2),
        _ => {
            let epsilons = *rng.pick(&[0, 0, 3]);
            sheets::random(rng, states, records, epsilons)
        }
    }
}

/// Two accepted sheets of few words, often alike.
fn two(rng: &mut Rng) -> (Sheet, Sheet) {
    let first = few(rng);
    let second = if rng.one_in(3) { few(rng) } else { pairs::variant(rng, &first) };
    (first, second)
}

/// The answer where the inputs are known to be accepted.
fn answered(outcome: expect::Outcome<u32>) -> u32 {
    outcome.expect("the input is accepted")
}

fn sheets(rng: &mut Rng) -> Case {
    let words = if rng.one_in(4) { few(rng).words() } else { sheets::faulty(rng) };
    Case::default().list(&words).number(paper::sheet_fault(&words))
}

fn labels(rng: &mut Rng) -> Case {
    let states = rng.within(1, 4);
    let bytes = labels::list(rng, states);
    let fault = paper::labels_fault(states, &bytes);
    Case::default().number(states as u64).list(&bytes).number(fault)
}

fn accepts(rng: &mut Rng) -> Case {
    let sheet = few(rng);
    let word = words::word(rng, &sheet, 8);
    let sheet = sheet.words();
    let answer = answered(expect::accepts_words(&sheet, &word));
    Case::default().list(&sheet).list(&word).number(answer)
}

fn text(rng: &mut Rng) -> Case {
    let sheet = few(rng).words();
    let (_, text) = words::bytes(rng, &sheet, 8);
    let answer = expect::accepts_text(&sheet, &text).unwrap_or_else(|number| number);
    Case::default().list(&sheet).list(&text).number(answer)
}

fn series(rng: &mut Rng) -> Case {
    let sheet = few_words(rng);
    let series = words::word_for(rng, &sheet, 8);
    let mark = words::mark(rng);
    let case = Case::default().list(&sheet).list(&series).number(mark);
    match expect::accepts_series(&sheet, &series, mark) {
        Ok(answer) => case.number(0u32).number(answer),
        Err(number) => case.number(number),
    }
}

/// A text alone, with the characters in it or 9.
fn utf8(rng: &mut Rng) -> Case {
    let sheet = few(rng).words();
    let (_, bytes) = words::bytes(rng, &sheet, 8);
    let case = Case::default().list(&bytes);
    match str::from_utf8(&bytes) {
        Ok(text) => {
            let characters: Vec<u32> = text.chars().map(u32::from).collect();
            case.number(0u32).list(&characters)
        }
        Err(_) => case.number(9u32),
    }
}

/// The ranges of a state as a sheet has them: ascending, equal ones with different targets.
fn some_ranges(rng: &mut Rng) -> Vec<(u32, u32)> {
    let count = rng.below(6);
    let sheet =
        if rng.one_in(4) { sheets::total(rng, 1, 4) } else { sheets::random(rng, 1, count, 0) };
    let mut ranges: Vec<(u32, u32)> = sheet.records.iter().map(|r| (r[2], r[3])).collect();
    if !ranges.is_empty() && rng.one_in(6) {
        let at = rng.below(ranges.len());
        ranges.insert(at, ranges[at]);
    }
    ranges
}

fn flat(ranges: &[(u32, u32)]) -> Vec<u32> {
    ranges.iter().flat_map(|&(first, last)| [first, last]).collect()
}

fn ranges(rng: &mut Rng) -> Case {
    if rng.one_in(3) {
        let pair = sheets::random(rng, 1, 8, 0).records;
        let range = |i: usize| pair.get(i).map_or((0, u32::MAX), |r| (r[2], r[3]));
        let (a, b) = if rng.one_in(2) { (range(0), range(1)) } else { (range(1), range(0)) };
        let common: Vec<(u32, u32)> = oracle::intersect_ranges(a, b).into_iter().collect();
        return Case::default().number(1u32).numbers(&flat(&[a, b])).list(&flat(&common));
    }
    let ranges = some_ranges(rng);
    Case::default()
        .number(0u32)
        .list(&flat(&ranges))
        .number(oracle::has_overlapping_ranges(ranges.clone()))
        .list(&flat(&oracle::missing_ranges(&ranges, 0, u32::MAX)))
}

fn closures(rng: &mut Rng) -> Case {
    let (states, records) = (rng.within(1, 8), rng.below(12));
    let sheet = sheets::random(rng, states, records, 2);
    let case = Case::default().list(&sheet.words());
    let closures = oracle::state_closures(&oracle::automaton(&sheet));
    closures.iter().fold(case, |case, closure| {
        let closure: Vec<u64> = closure.iter().map(|&state| state as u64).collect();
        case.list(&closure)
    })
}

fn parts(rng: &mut Rng) -> Case {
    let (states, records) = (rng.within(1, 4), rng.below(6));
    let sheet = sheets::random(rng, states, records, 0);
    let edges: Vec<[u32; 3]> = sheet.records.iter().map(|r| [r[2], r[3], r[4]]).collect();
    let asked = edges.iter().map(|e| (e[0], e[1], e[2] as usize)).collect();
    let parts = oracle::partition_ranges(&asked);
    let case = Case::default().list(&edges.concat()).number(parts.len() as u64);
    parts.iter().fold(case, |case, ((first, last), targets)| {
        let targets: Vec<u64> = targets.iter().map(|&state| state as u64).collect();
        case.number(*first).number(*last).list(&targets)
    })
}

/// The words of a sheet of few words, one in fifteen of them faulty.
fn few_words(rng: &mut Rng) -> Vec<u32> {
    if rng.one_in(15) { sheets::faulty(rng) } else { few(rng).words() }
}

fn determinize(rng: &mut Rng) -> Case {
    // The one has 256 sets, the other 2,049 transitions.
    let sheet = match rng.below(40) {
        0 => sheets::from_the_end(8).words(),
        1 => sheets::from_the_end_cut(7, 14).words(),
        _ => few_words(rng),
    };
    Case::default().list(&sheet).outcome(expect::determinize(&sheet))
}

fn product(rng: &mut Rng) -> Case {
    let (a, b) = match rng.below(30) {
        // 272 pairs.
        0 => (sheets::chain(16, true).words(), sheets::chain(17, true).words()),
        1 => (few_words(rng), few_words(rng)),
        _ => {
            let (a, b) = two(rng);
            (a.words(), b.words())
        }
    };
    Case::default().list(&a).list(&b).outcome(expect::intersection(&a, &b))
}

/// Names of one letter, which leave room for more records; some may be equal.
fn letters(rng: &mut Rng, states: usize) -> Vec<Vec<u8>> {
    (0..states).map(|_| vec![b'a' + rng.below(26) as u8]).collect()
}

fn operation(rng: &mut Rng, expect: fn(&[u32], &[u8]) -> expect::Outcome<expect::Built>) -> Case {
    let sheet = few(rng);
    let labels = if rng.one_in(15) {
        labels::list(rng, sheet.states())
    } else {
        write_labels(&letters(rng, sheet.states()))
    };
    let sheet = if rng.one_in(15) { few_words(rng) } else { sheet.words() };
    Case::default().list(&sheet).list(&labels).outcome(expect(&sheet, &labels))
}

fn question(rng: &mut Rng, expect: fn(&[u32]) -> expect::Outcome<u32>) -> Case {
    let sheet = match rng.below(3) {
        0 => {
            let (states, parts) = (rng.within(1, 3), rng.within(1, 4));
            sheets::total(rng, states, parts)
        }
        _ => few(rng),
    };
    let sheet = sheet.words();
    let answer = answered(expect(&sheet));
    Case::default().list(&sheet).number(answer)
}

fn is_equivalent(rng: &mut Rng) -> Case {
    let (a, b) = two(rng);
    let (a, b) = (a.words(), b.words());
    let answer = answered(expect::is_equivalent(&a, &b));
    Case::default().list(&a).list(&b).number(answer)
}

fn is_subautomaton(rng: &mut Rng) -> Case {
    let pairs::Labelled { a, a_labels, b, b_labels, .. } = pairs::labelled(rng);
    match expect::is_subautomaton(&a, &a_labels, &b, &b_labels) {
        Ok(answer) => {
            let case = Case::default().list(&a).list(&a_labels);
            case.list(&b).list(&b_labels).number(answer)
        }
        Err(_) => is_subautomaton(rng),
    }
}

fn parse(rng: &mut Rng) -> Case {
    let text = patterns::short(rng);
    let case = Case::default().list(&text);
    match expect::parse_automaton(&text) {
        Ok(parsed) => {
            let case = case.number(0u32).number(parsed.read);
            case.list(&parsed.built.sheet).list(&parsed.built.labels)
        }
        Err(number) => case.number(number),
    }
}

fn write(rng: &mut Rng) -> Case {
    let mut sheet = if rng.one_in(3) {
        few(rng)
    } else {
        let (states, records) = (rng.within(1, 3), rng.below(4));
        sheets::random(rng, states, records, 0)
    };
    if rng.one_in(2) {
        let state = rng.below(sheet.states());
        sheet.accept[state] = 1;
    }
    let labels = match rng.below(15) {
        0 => labels::list(rng, sheet.states()),
        1..7 => written::list(rng, sheet.states()),
        _ => write_labels(&letters(rng, sheet.states())),
    };
    let sheet = if rng.one_in(15) { sheets::faulty(rng) } else { sheet.words() };
    let case = Case::default().list(&sheet).list(&labels);
    match expect::write_automaton(&sheet, &labels) {
        Ok(text) => case.number(0u32).list(&text),
        Err(number) => case.number(number),
    }
}

fn equality(rng: &mut Rng) -> Case {
    let (a, b) = two(rng);
    let (a, b) = (a.words(), b.words());
    let case = Case::default().list(&a).list(&b);
    match expect::equality(&a, &b) {
        Ok(Verdict::Same { joins }) => case.number(0u32).number(1u32).number(joins),
        Ok(Verdict::Different { longest, .. }) => case.number(0u32).number(0u32).number(longest),
        Err(number) => case.number(number),
    }
}
