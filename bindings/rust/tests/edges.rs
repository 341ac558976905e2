//! Each call at its edges: nothing checks a foreign declaration against the library, so wrong ones show here.

use ringmatch::*;

const A: &str = "automaton A { init p; p -> q [0, 9]; accepting q; };";
const B: &str = "automaton B { init s; s -> t [0, 4]; s -> u [5, 9]; accepting t, u; };";
const C: &str = "automaton C { init p; p -> q [0, 8]; accepting q; };";

fn read(text: &str) -> Automaton {
    parse_automaton(text).expect("a text of the grammar").1
}

/// A label list of the names.
fn labels(names: &[&str]) -> Vec<u8> {
    let mut list = (names.len() as u16).to_le_bytes().to_vec();
    for name in names {
        list.push(name.len() as u8);
        list.extend(name.bytes());
    }
    list
}

/// States in a chain, each led to the next by (0, 0), the last one accepting.
fn chain(states: usize) -> Automaton {
    let mut sheet = vec![1, 0, states as u32];
    sheet.extend((1..=states).map(|i| (i == states) as u32));
    sheet.push(states as u32 - 1);
    sheet.extend((1..states as u32).flat_map(|to| [to - 1, 1, 0, 0, to]));
    let names: Vec<String> = (0..states).map(|i| format!("s{i}")).collect();
    Automaton { sheet, labels: labels(&names.iter().map(String::as_str).collect::<Vec<_>>()) }
}

fn with_sheet(sheet: &[u32]) -> Automaton {
    Automaton { sheet: sheet.to_vec(), labels: labels(&["p"]) }
}

#[test]
fn parse_automaton_gives_sheet_labels_and_rest() {
    let text = format!("{A} rest");
    let (rest, a) = parse_automaton(&text).expect("a pattern");
    assert_eq!(rest, " rest");
    assert_eq!(a.sheet, [1, 0, 2, 0, 1, 1, 0, 1, 0, 9, 1]);
    assert_eq!(a.labels, labels(&["p", "q"]));
    assert_eq!(parse_automaton(""), Err(Refusal::Grammar));
    assert_eq!(parse_automaton_bytes(b"\xff"), Err(Refusal::Grammar));
    let bytes = [A.as_bytes(), b"\xff"].concat();
    assert_eq!(parse_automaton_bytes(&bytes).expect("a pattern").0, b"\xff");
    let many: String = (1..257).map(|i| format!(" s{} -> s{i} [0, 0];", i - 1)).collect();
    let text = format!("automaton L {{ init s0;{many} accepting s0; }};");
    assert_eq!(parse_automaton(&text), Err(Refusal::States));
    // The last of them is a state too; a misspelt name is none, wherever it stands.
    assert_eq!(parse_automaton(&text.replace("g s0;", "g s256;")), Err(Refusal::States));
    assert_eq!(
        parse_automaton(&text.replace("g s0;", "g s256, s257;")),
        Err(Refusal::AcceptingName)
    );
    let misspelt = A.replace("accepting q", "accepting q, r");
    assert_eq!(parse_automaton(&misspelt), Err(Refusal::AcceptingName));
    assert_eq!(parse_automaton(&misspelt.replace("};", "}")), Err(Refusal::Grammar));
}

#[test]
fn acceptance() {
    let a = read(A);
    assert_eq!(a.accepts_words(&[9]), Ok(true));
    assert_eq!(a.accepts_words(&[10]), Ok(false));
    assert_eq!(a.accepts_words(&[]), Ok(false));
    assert_eq!(a.accepts_words(&[u32::MAX]), Ok(false));
    assert_eq!(a.accepts("\t"), Ok(true));
    assert_eq!(a.accepts(""), Ok(false));
    assert_eq!(a.accepts_bytes(b"\x80"), Err(Refusal::Utf8));
    let top = with_sheet(&[1, 0, 1, 1, 1, 0, 1, u32::MAX, u32::MAX, 0]);
    assert_eq!(top.accepts_words(&[u32::MAX, u32::MAX]), Ok(true));
    assert_eq!(top.accepts_words(&[u32::MAX - 1]), Ok(false));
}

#[test]
fn acceptance_of_marked_series() {
    let a = read(A);
    assert_eq!(a.accepts_series(&[9], WHOLE_RING), Ok(true));
    assert_eq!(a.accepts_series(&[9], UNFINISHED_RING), Ok(false));
    assert_eq!(a.accepts_series(&[9, 14], WHOLE_RING), Ok(false));
    for ring in [0, 9, 14, u32::MAX] {
        assert_eq!(a.accepts_series(&[9, ring], UNFINISHED_RING), Ok(true));
    }
    // A series of no rings stays one.
    let empty = with_sheet(&[1, 0, 1, 1, 0]);
    for mark in [WHOLE_RING, UNFINISHED_RING] {
        assert_eq!(a.accepts_series(&[], mark), Ok(false));
        assert_eq!(empty.accepts_series(&[], mark), Ok(true));
    }
    assert_eq!(empty.accepts_series(&[7], UNFINISHED_RING), Ok(true));
    assert_eq!(a.accepts_series(&[9], 2), Err(Refusal::OuterMark));
    assert_eq!(a.accepts_series(&[], u32::MAX), Err(Refusal::OuterMark));
    assert_eq!(with_sheet(&[]).accepts_series(&[9], 2), Err(Refusal::SheetLength));
    assert_eq!(Refusal::OuterMark.number(), 34);
}

#[test]
fn faulty_sheets_are_refused() {
    let cases: [(&[u32], Refusal); 7] = [
        (&[], Refusal::SheetLength),
        (&[2, 0], Refusal::Start),
        (&[1, 0, 257], Refusal::Counts),
        (&[1, 0, 1, 2, 0], Refusal::AcceptWord),
        (&[1, 0, 1, 0, 1, 0, 2, 0, 0, 0], Refusal::Record),
        (&[1, 0, 1, 0, 2, 0, 1, 0, 0, 0, 0, 1, 0, 0, 0], Refusal::RecordOrder),
        (&[1, 0, 1, 0, 0, 0], Refusal::SheetLength),
    ];
    let good = read(A);
    for (sheet, refusal) in cases {
        let a = with_sheet(sheet);
        assert_eq!(a.accepts_words(&[]), Err(refusal));
        assert_eq!(a.accepts(""), Err(refusal));
        assert_eq!(a.is_nfa(), Err(refusal));
        assert_eq!(a.determinize(), Err(refusal));
        assert_eq!(a.epsilon_eliminate(), Err(refusal));
        assert_eq!(totalize(&a), Err(refusal));
        assert_eq!(complement(&a), Err(refusal));
        assert_eq!(write_automaton(&a), Err(refusal));
        assert_eq!(has_reachable_accepting_state(&a), Err(refusal));
        for (x, y) in [(&a, &good), (&good, &a)] {
            assert_eq!(intersection(x, y), Err(refusal));
            assert_eq!(is_equivalent(x, y), Err(refusal));
            assert_eq!(is_subautomaton(x, y), Err(refusal));
            assert_eq!(equality(x, y), Err(refusal));
        }
    }
}

#[test]
fn faulty_labels_are_refused() {
    let good = read(A);
    let bad = Automaton { labels: labels(&["p"]), ..good.clone() };
    assert_eq!(totalize(&bad), Err(Refusal::Labels));
    assert_eq!(complement(&bad), Err(Refusal::Labels));
    assert_eq!(bad.epsilon_eliminate(), Err(Refusal::Labels));
    assert_eq!(write_automaton(&bad), Err(Refusal::Labels));
    assert_eq!(is_subautomaton(&bad, &good), Err(Refusal::Labels));
    assert_eq!(is_subautomaton(&good, &bad), Err(Refusal::Labels));
}

#[test]
fn determinize_is_total() {
    let d = read(A).determinize().expect("3 states");
    assert_eq!(d.sheet[2], 3);
    assert_eq!(d.labels, labels(&["D0", "D1", "D2"]));
    assert_eq!(d.is_nfa(), Ok(false));
    assert_eq!(read(A).is_nfa(), Ok(true));
    assert!(chain(255).determinize().is_ok());
    assert_eq!(chain(256).determinize(), Err(Refusal::States));
}

#[test]
fn totalize_and_complement() {
    let a = read(A);
    let t = totalize(&a).expect("3 states");
    assert_eq!(t.labels, labels(&["p", "q", "sink"]));
    assert_eq!(equality(&a, &t), Ok(Verdict::Same { joins: 3 }));
    let c = complement(&a).expect("3 states");
    assert_eq!(c.accepts_words(&[9]), Ok(false));
    assert_eq!(c.accepts_words(&[10]), Ok(true));
    assert_eq!(totalize(&chain(256)), Err(Refusal::States));
}

#[test]
fn epsilon_eliminate_keeps_words() {
    let a = Automaton {
        sheet: vec![1, 0, 2, 0, 1, 2, 0, 0, 0, 0, 1, 1, 1, 5, 5, 1],
        labels: labels(&["p", "q"]),
    };
    let e = a.epsilon_eliminate().expect("2 transitions");
    assert_eq!(e.sheet, [1, 0, 2, 1, 1, 2, 0, 1, 5, 5, 1, 1, 1, 5, 5, 1]);
    assert!(matches!(equality(&a, &e), Ok(Verdict::Same { .. })));
}

#[test]
fn intersection_and_emptiness() {
    let (a, c) = (read(A), read(C));
    let p = intersection(&a, &c).expect("2 pairs");
    assert_eq!(p.labels, labels(&["(0, 0)", "(1, 1)"]));
    assert_eq!(has_reachable_accepting_state(&p), Ok(true));
    assert!(matches!(equality(&p, &c), Ok(Verdict::Same { .. })));
    let none = intersection(&chain(2), &chain(3)).expect("2 pairs");
    assert_eq!(has_reachable_accepting_state(&none), Ok(false));
    let epsilon = with_sheet(&[1, 0, 1, 1, 1, 0, 0, 0, 0, 0]);
    assert_eq!(intersection(&epsilon, &a), Err(Refusal::Epsilon));
}

#[test]
fn comparisons() {
    let (a, b, c) = (read(A), read(B), read(C));
    assert_eq!(equality(&a, &b), Ok(Verdict::Same { joins: 4 }));
    assert_eq!(equality(&a, &c), Ok(Verdict::Different { word: vec![9] }));
    assert_eq!(equality(&chain(256), &a), Err(Refusal::States));
    assert_eq!(is_equivalent(&a, &a), Ok(true));
    assert_eq!(is_equivalent(&a, &b), Ok(false));
    assert_eq!(is_subautomaton(&c, &a), Ok(true));
    assert_eq!(is_subautomaton(&a, &c), Ok(false));
}

#[test]
fn a_long_difference() {
    let Ok(Verdict::Different { word }) = equality(&chain(255), &chain(254)) else {
        panic!("chains of different lengths differ");
    };
    assert!(word.len() == 253 || word.len() == 254);
    assert!(word.iter().all(|&x| x == 0));
}

#[test]
fn texts_are_written_and_read_back() {
    let a = read(A);
    assert_eq!(write_automaton(&a), Ok(A.replace("automaton A", "automaton P")));
    for text in [A, B, C] {
        let a = read(text);
        let written = write_automaton(&a).expect("names, no epsilon, an accepting state");
        assert_eq!(parse_automaton(&written), Ok(("", a)));
    }
    // Only the start is named where there is no record.
    let lone = Automaton { sheet: vec![1, 1, 3, 1, 1, 1, 0], labels: labels(&["p", "q", "p"]) };
    assert_eq!(write_automaton(&lone).as_deref(), Ok("automaton P { init q; accepting q; };"));
    let chain = chain(256);
    assert_eq!(parse_automaton(&chain.to_string()), Ok(("", chain)));
}

#[test]
fn texts_are_refused() {
    let epsilon = with_sheet(&[1, 0, 1, 0, 1, 0, 0, 0, 0, 0]);
    assert_eq!(write_automaton(&epsilon), Err(Refusal::EpsilonRecord));
    let none = with_sheet(&[1, 0, 1, 0, 0]);
    assert_eq!(write_automaton(&none), Err(Refusal::NoAcceptingState));
    let a = read(A);
    for names in [["p", "p"], ["p", "2"], ["p", "q r"], ["é", "q"]] {
        let named = Automaton { labels: labels(&names), ..a.clone() };
        assert_eq!(write_automaton(&named), Err(Refusal::Names), "{names:?}");
    }
    // 2,048 loops of 33 bytes each.
    let mut sheet = vec![1, 0, 1, 1, 2048];
    sheet.extend((0..2048).flat_map(|i| [0, 1, 1_000_000_000 + i, 1_000_000_000 + i, 0]));
    assert_eq!(write_automaton(&with_sheet(&sheet)), Err(Refusal::Names));
}

#[test]
fn display_is_the_text_or_an_error() {
    use std::fmt::Write;
    let mut out = String::new();
    assert_eq!(write!(out, "{}", read(C)), Ok(()));
    assert_eq!(out, "automaton P { init p; p -> q [0, 8]; accepting q; };");
    assert_eq!(write!(out, "{}", with_sheet(&[1, 0, 1, 0, 0])), Err(std::fmt::Error));
}

#[test]
fn refusals_have_their_numbers() {
    assert_eq!(Refusal::SheetLength.number(), 1);
    assert_eq!(Refusal::Transitions.number(), 22);
    assert_eq!(Refusal::EpsilonRecord.number(), 30);
    assert_eq!(Refusal::NoAcceptingState.number(), 31);
    assert_eq!(Refusal::Names.number(), 32);
    assert_eq!(Refusal::AcceptingName.number(), 33);
    assert_eq!(Refusal::States.to_string(), "refusal 21: the result needs over 256 states");
}
