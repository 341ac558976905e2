//! The comparison finds nothing in calls that answer as expected, and finds the sham ones.
//!
//! The calls here stand in for the port's; they have its signatures over slices and answer by `expect`.

use compare::calls::{self, Plan, Tally};
use compare::expect::{self, Built, Outcome, Verdict};
use compare::sheet::{DIFFERENCE_WORDS, Sheet, TEXT_BYTES, plain_labels, write_labels};
use compare::{grammar, port, writer};

const PLAN: Plan = Plan { seed: 1, rounds: 500 };

/// Writes an output as the port must.
fn write(
    outcome: impl FnOnce() -> Outcome<Built>,
    out: &mut [u32],
    labels_out: &mut [u8],
    words: &mut u64,
    bytes: &mut u64,
) -> u32 {
    match expect::outputs(out.len(), labels_out.len()).and_then(|()| outcome()) {
        Ok(Built { sheet, labels }) => {
            out[..sheet.len()].copy_from_slice(&sheet);
            labels_out[..labels.len()].copy_from_slice(&labels);
            (*words, *bytes) = (sheet.len() as u64, labels.len() as u64);
            0
        }
        Err(number) => number,
    }
}

/// Answers a question as the port must.
fn tell(outcome: Outcome<u32>, answer: &mut u32) -> u32 {
    match outcome {
        Ok(value) => {
            *answer = value;
            0
        }
        Err(number) => number,
    }
}

/// A call that asks a question, under the name that `expect` has for it.
macro_rules! question_call {
    ($name:ident($($list:ident: $type:ty),+)) => {
        fn $name($($list: &[$type],)+ answer: &mut u32) -> u32 {
            tell(expect::$name($($list),+), answer)
        }
    };
}

question_call!(accepts_words(sheet: u32, word: u32));
question_call!(accepts_text(sheet: u32, text: u8));
question_call!(is_nfa(sheet: u32));
question_call!(has_reachable_accepting_state(sheet: u32));
question_call!(is_equivalent(a: u32, b: u32));
question_call!(is_subautomaton(a: u32, a_labels: u8, b: u32, b_labels: u8));

/// A call on a series with its outer mark, whose outcome is `$outcome` of its inputs.
macro_rules! series_call {
    ($name:ident, $outcome:expr) => {
        fn $name(sheet: &[u32], series: &[u32], mark: u32, answer: &mut u32) -> u32 {
            tell($outcome(sheet, series, mark), answer)
        }
    };
}

series_call!(accepts_series, expect::accepts_series);
series_call!(mark_ignored, |sheet, series, mark| {
    expect::accepts_series(sheet, series, if mark == 1 { 0 } else { mark })
});
series_call!(first_left_off, |sheet, series: &[u32], mark| {
    let whole = if mark == 1 { &series[series.len().min(1)..] } else { series };
    expect::accepts_series(sheet, whole, if mark == 1 { 0 } else { mark })
});
series_call!(two_left_off, |sheet, series: &[u32], mark| {
    let fewer = if mark == 1 { series.len().saturating_sub(1) } else { series.len() };
    expect::accepts_series(sheet, &series[..fewer], mark)
});
series_call!(mark_first, |sheet, series, mark| {
    if mark > 1 { Err(34) } else { expect::accepts_series(sheet, series, mark) }
});
series_call!(no_mark_refused, |sheet, series, mark: u32| {
    expect::accepts_series(sheet, series, mark.min(1))
});

fn parse_automaton(
    text: &[u8],
    out: &mut [u32],
    labels_out: &mut [u8],
    read: &mut u64,
    words: &mut u64,
    bytes: &mut u64,
) -> u32 {
    let outcome = expect::parse_automaton(text);
    let count = outcome.clone().map_or(0, |parsed| parsed.read);
    let result = write(|| outcome.map(|parsed| parsed.built), out, labels_out, words, bytes);
    if result == 0 {
        *read = count;
    }
    result
}

/// A call with an output sheet, whose outcome is `$outcome` of its inputs.
macro_rules! output_call {
    ($name:ident($($list:ident: $type:ty),+), $outcome:expr) => {
        fn $name(
            $($list: &[$type],)+
            out: &mut [u32], labels_out: &mut [u8], words: &mut u64, bytes: &mut u64,
        ) -> u32 {
            write(|| $outcome($($list),+), out, labels_out, words, bytes)
        }
    };
}

output_call!(determinize(s: u32), expect::determinize);
output_call!(intersection(a: u32, b: u32), expect::intersection);
output_call!(totalize(s: u32, l: u8), expect::totalize);
output_call!(complement(s: u32, l: u8), expect::complement);
output_call!(epsilon_eliminate(s: u32, l: u8), expect::epsilon_eliminate);

// Sham builds that document 01 names, and some that suggest themselves.
output_call!(hands_back(s: u32), |s: &[u32]| {
    let sheet = expect::accepted(s)?;
    let labels = write_labels(&plain_labels(sheet.states()));
    Ok(Built { sheet: s.to_vec(), labels })
});
output_call!(early_21(s: u32), |s| expect::accepted(s).and(Err(21)));
output_call!(refuses_all(a: u32, b: u32), |a, b| {
    expect::accepted(a)?;
    expect::accepted(b)?;
    Err(7)
});
output_call!(late_epsilon(a: u32, b: u32), |a, b| {
    // 7 wherever both sheets have records and one an epsilon, reached or not.
    let (s, t) = (expect::accepted(a)?, expect::accepted(b)?);
    let epsilon = s.records.iter().chain(&t.records).any(|record| record[1] == 0);
    if epsilon && !s.records.is_empty() && !t.records.is_empty() {
        return Err(7);
    }
    expect::intersection(a, b)
});
output_call!(totalizes_always(s: u32, l: u8), |s, l| {
    let total = expect::totalize(s, l)?;
    let mut flipped = total.clone();
    let states = flipped.sheet[2] as usize;
    for word in &mut flipped.sheet[3..3 + states] {
        *word ^= 1;
    }
    Ok(flipped)
});

/// A call that writes a text, which `$outcome` gives of the sheet and its labels, and says that it has `$more` bytes more.
macro_rules! write_call {
    ($name:ident, $outcome:expr, $more:expr) => {
        fn $name(sheet: &[u32], labels: &[u8], text_out: &mut [u8], bytes: &mut u64) -> u32 {
            if text_out.len() < TEXT_BYTES {
                return 20;
            }
            match $outcome(sheet, labels) {
                Ok(text) => {
                    text_out[..text.len()].copy_from_slice(&text);
                    *bytes = text.len() as u64 + $more;
                    0
                }
                Err(number) => number,
            }
        }
    };
}

/// The expected text with the first of one piece replaced.
fn replaced(sheet: &[u32], labels: &[u8], old: &str, new: &str) -> Outcome<Vec<u8>> {
    let text = String::from_utf8(expect::write_automaton(sheet, labels)?).expect("it is ASCII");
    Ok(text.replacen(old, new, 1).into_bytes())
}

write_call!(write_automaton, expect::write_automaton, 0);
write_call!(one_byte_more, expect::write_automaton, 1);
write_call!(no_blank, |sheet, labels| replaced(sheet, labels, ", ", ","), 0);
write_call!(named_otherwise, |sheet, labels| replaced(sheet, labels, " P ", " A "), 0);
write_call!(
    no_accepting_first,
    |sheet, labels| match expect::write_automaton(sheet, labels) {
        Err(30) if !Sheet::read(sheet).accept.contains(&1) => Err(31),
        outcome => outcome,
    },
    0
);
write_call!(
    every_state_written,
    |sheet, labels| {
        let text = expect::write_automaton(sheet, labels)?;
        let read = Sheet::read(sheet);
        let touched = writer::written(&read);
        let all = (0..read.states()).all(|q| read.accept[q] == 0 || touched.contains(&q));
        if all { Ok(text) } else { Err(32) }
    },
    0
);
write_call!(
    accepting_by_appearance,
    |sheet, labels| {
        let text = expect::write_automaton(sheet, labels)?;
        let (pattern, _) = grammar::read(&text).expect("it is in the grammar");
        let (read, names) = grammar::automaton(&pattern);
        let accepting = (0..names.len()).filter(|&q| read.accept[q] == 1);
        let accepting: Vec<&[u8]> = accepting.map(|q| &names[q][..]).collect();
        let end = text.len() - pattern.accepting.join(&b", "[..]).len() - "; };".len();
        Ok([&text[..end], &accepting.join(&b", "[..]), b"; };"].concat())
    },
    0
);

/// Exact equality by `$verdict`, which is given the expected verdict.
macro_rules! equality_call {
    ($name:ident, $verdict:expr) => {
        fn $name(
            a: &[u32],
            b: &[u32],
            word_out: &mut [u32],
            same: &mut u32,
            number: &mut u64,
        ) -> u32 {
            if word_out.len() < DIFFERENCE_WORDS {
                return 20;
            }
            match expect::equality(a, b).map($verdict) {
                Err(number) => return number,
                Ok(Verdict::Same { joins }) => (*same, *number) = (1, joins),
                Ok(Verdict::Different { word, .. }) => {
                    word_out[..word.len()].copy_from_slice(&word);
                    (*same, *number) = (0, word.len() as u64);
                }
            }
            0
        }
    };
}

equality_call!(equality, |verdict| verdict);
equality_call!(always_same, |verdict| match verdict {
    Verdict::Different { .. } => Verdict::Same { joins: 1 },
    same => same,
});
equality_call!(always_different, |_| Verdict::Different { word: vec![0], longest: 0 });
equality_call!(one_join_more, |verdict| match verdict {
    Verdict::Same { joins } => Verdict::Same { joins: joins + 1 },
    different => different,
});
equality_call!(wrong_word, |verdict| match verdict {
    Verdict::Different { mut word, longest } => {
        word.push(7);
        Verdict::Different { word, longest }
    }
    same => same,
});

/// The number of disagreements that a comparison finds.
fn disagreements(compare: impl FnOnce(&Plan, &mut Tally)) -> u64 {
    let mut tally = Tally::new("call");
    compare(&PLAN, &mut tally);
    println!("{tally}");
    tally.disagreements
}

#[test]
fn expected_answers_agree() {
    use calls::*;
    assert_eq!(disagreements(|p, t| accepts_words::compare(crate::accepts_words, p, t)), 0);
    assert_eq!(disagreements(|p, t| accepts_text::compare(crate::accepts_text, p, t)), 0);
    assert_eq!(disagreements(|p, t| accepts_series::compare(crate::accepts_series, p, t)), 0);
    assert_eq!(disagreements(|p, t| is_nfa::compare(crate::is_nfa, p, t)), 0);
    assert_eq!(
        disagreements(|p, t| {
            has_reachable_accepting_state::compare(crate::has_reachable_accepting_state, p, t)
        }),
        0
    );
    assert_eq!(disagreements(|p, t| is_equivalent::compare(crate::is_equivalent, p, t)), 0);
    assert_eq!(disagreements(|p, t| is_subautomaton::compare(crate::is_subautomaton, p, t)), 0);
    assert_eq!(disagreements(|p, t| parse_automaton::compare(crate::parse_automaton, p, t)), 0);
    assert_eq!(disagreements(|p, t| write_automaton::compare(crate::write_automaton, p, t)), 0);
    assert_eq!(disagreements(|p, t| determinize::compare(crate::determinize, p, t)), 0);
    assert_eq!(disagreements(|p, t| intersection::compare(crate::intersection, p, t)), 0);
    assert_eq!(disagreements(|p, t| totalize::compare(crate::totalize, p, t)), 0);
    assert_eq!(disagreements(|p, t| complement::compare(crate::complement, p, t)), 0);
    assert_eq!(disagreements(|p, t| epsilon_eliminate::compare(crate::epsilon_eliminate, p, t)), 0);
    assert_eq!(disagreements(|p, t| equality::compare(crate::equality, p, t)), 0);
}

#[test]
fn sham_answers_are_found() {
    use calls::*;
    assert!(disagreements(|p, t| determinize::compare(hands_back, p, t)) > 0);
    assert!(disagreements(|p, t| determinize::compare(early_21, p, t)) > 0);
    assert!(disagreements(|p, t| intersection::compare(refuses_all, p, t)) > 0);
    assert!(disagreements(|p, t| intersection::compare(late_epsilon, p, t)) > 0);
    assert!(disagreements(|p, t| complement::compare(totalizes_always, p, t)) > 0);
    assert!(disagreements(|p, t| complement::compare(crate::totalize, p, t)) > 0);
    for call in [mark_ignored, first_left_off, two_left_off, mark_first, no_mark_refused] {
        assert!(disagreements(|p, t| accepts_series::compare(call, p, t)) > 0);
    }
    for call in [
        one_byte_more,
        no_blank,
        named_otherwise,
        no_accepting_first,
        every_state_written,
        accepting_by_appearance,
    ] {
        assert!(disagreements(|p, t| write_automaton::compare(call, p, t)) > 0);
    }
    assert!(disagreements(|p, t| equality::compare(always_same, p, t)) > 0);
    assert!(disagreements(|p, t| equality::compare(always_different, p, t)) > 0);
    assert!(disagreements(|p, t| equality::compare(one_join_more, p, t)) > 0);
    assert!(disagreements(|p, t| equality::compare(wrong_word, p, t)) > 0);
}

#[test]
fn stray_writes_are_found() {
    let behind: port::Determinize = |sheet, out, labels_out, words, bytes| {
        let result = determinize(sheet, out, labels_out, words, bytes);
        if let (0, Some(word)) = (result, out.get_mut(*words as usize)) {
            *word ^= 1;
        }
        result
    };
    let after_refusal: port::Determinize = |sheet, out, labels_out, words, bytes| {
        let result = determinize(sheet, out, labels_out, words, bytes);
        if result != 0 {
            *bytes = 0;
        }
        result
    };
    for call in [behind, after_refusal] {
        assert!(disagreements(|p, t| calls::determinize::compare(call, p, t)) > 0);
    }
}
