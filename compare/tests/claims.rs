//! What document 01 says of the operations' words and answers, tried on the original.

use std::collections::{HashSet, VecDeque};

use compare::bounded::{self, Product};
use compare::expect::{self, Verdict};
use compare::generate::{Rng, pairs, sheets, tiny, words};
use compare::oracle::{self, Automaton};
use compare::sheet::{EPSILON, Record, Sheet, plain_labels, write_labels};

const ROUNDS: usize = 5000;

/// A sheet of few states: small, tiny or deterministic and total.
fn some(rng: &mut Rng) -> Sheet {
    match rng.below(3) {
        0 => sheets::small(rng),
        1 => tiny::sheet(rng.below(tiny::ALL)),
        _ => {
            let (states, parts) = (rng.within(1, 5), rng.within(1, 4));
            sheets::total(rng, states, parts)
        }
    }
}

/// Whether an automaton accepts each of some words that mostly follow a sheet's transitions.
fn each_word(rng: &mut Rng, sheet: &Sheet, mut check: impl FnMut(&[u32], bool)) {
    let a = oracle::automaton(sheet);
    for _ in 0..6 {
        let word = words::word(rng, sheet, 6);
        check(&word, oracle::accepts_word(&a, &word));
    }
}

fn has_epsilon(sheet: &Sheet) -> bool {
    sheet.records.iter().any(|record| record[1] == EPSILON)
}

fn has_overlap(sheet: &Sheet) -> bool {
    (0..sheet.states()).any(|state| {
        let run = sheet.run(state).iter().filter(|record| record[1] != EPSILON);
        oracle::has_overlapping_ranges(run.map(|record| (record[2], record[3])).collect())
    })
}

/// Asserts that an operation keeps a sheet's words.
fn keeps_words(name: &str, operation: impl Fn(Automaton) -> Automaton) {
    let mut rng = Rng::named(1, name);
    for _ in 0..ROUNDS {
        let sheet = some(&mut rng);
        let result = operation(oracle::automaton(&sheet));
        each_word(&mut rng, &sheet, |word, accepted| {
            assert_eq!(oracle::accepts_word(&result, word), accepted, "{sheet:?} {word:?}");
        });
    }
}

#[test]
fn operations_keep_words() {
    keeps_words("determinize", |a| Automaton::determinize(&a));
    keeps_words("epsilon_eliminate", |a| a.epsilon_eliminate());
    keeps_words("totalize", oracle::totalize);
}

#[test]
fn a_determinization_has_one_transition_a_symbol() {
    let mut rng = Rng::new(2);
    for _ in 0..ROUNDS {
        let determinized = oracle::sheet(&oracle::determinize(&some(&mut rng)));
        for state in 0..determinized.states() {
            let run: &[Record] = determinized.run(state);
            assert!(run[0][2] == 0 && run[run.len() - 1][3] == u32::MAX);
            assert!(run.windows(2).all(|w| w[0][3] + 1 == w[1][2]));
        }
        assert!(!oracle::automaton(&determinized).is_nfa());
    }
}

#[test]
fn complement_accepts_the_other_words() {
    let mut rng = Rng::new(3);
    for _ in 0..ROUNDS {
        let sheet = some(&mut rng);
        if has_epsilon(&sheet) || has_overlap(&sheet) {
            continue;
        }
        let complement = oracle::complement(oracle::automaton(&sheet));
        each_word(&mut rng, &sheet, |word, accepted| {
            assert_ne!(oracle::accepts_word(&complement, word), accepted, "{sheet:?} {word:?}");
        });
    }
}

#[test]
fn product_accepts_what_both_accept() {
    let mut rng = Rng::new(4);
    for _ in 0..ROUNDS {
        let (a, b) = (some(&mut rng), some(&mut rng));
        if has_epsilon(&a) || has_epsilon(&b) {
            continue;
        }
        assert_eq!(bounded::product(&a, &b), Product::Clear);
        let second = oracle::automaton(&b);
        let product = oracle::intersection(oracle::automaton(&a), second.clone());
        let product = product.expect("there are no epsilons");
        each_word(&mut rng, &a, |word, accepted| {
            let both = accepted && oracle::accepts_word(&second, word);
            assert_eq!(oracle::accepts_word(&product, word), both, "{a:?} {b:?} {word:?}");
        });
    }
}

#[test]
fn text_is_the_word_of_its_characters() {
    let mut rng = Rng::new(5);
    for _ in 0..ROUNDS {
        let sheet = some(&mut rng);
        let text = words::text(&mut rng, &sheet.words(), 8);
        let word: Vec<u32> = text.chars().map(u32::from).collect();
        let a = oracle::automaton(&sheet);
        assert_eq!(a.accepts(&text), oracle::accepts_word(&a, &word), "{sheet:?} {text:?}");
    }
}

/// Whether no pair reached by equal triggers, each followed along its first record, differs in
/// acceptance or in its set of triggers. The original takes triggers in the order of a hash set and
/// leaves out pairs that are already joined; its answer is to depend on neither.
fn equivalent(a: &Sheet, b: &Sheet) -> bool {
    let trigger = |record: &Record| [record[1], record[2], record[3]];
    let start = (a.start as usize, b.start as usize);
    let mut seen = HashSet::from([start]);
    let mut open = VecDeque::from([start]);
    while let Some((p, q)) = open.pop_front() {
        let triggers: HashSet<_> = a.run(p).iter().map(trigger).collect();
        if a.accept[p] != b.accept[q] || triggers != b.run(q).iter().map(trigger).collect() {
            return false;
        }
        for wanted in triggers {
            let to = |run: &[Record]| {
                let first = run.iter().find(|record| trigger(record) == wanted);
                first.expect("both have the trigger")[4] as usize
            };
            let pair = (to(a.run(p)), to(b.run(q)));
            if seen.insert(pair) {
                open.push_back(pair);
            }
        }
    }
    true
}

#[test]
fn is_equivalent_follows_equal_triggers() {
    let mut rng = Rng::new(6);
    for _ in 0..ROUNDS {
        let a = some(&mut rng);
        let b = if rng.one_in(4) { some(&mut rng) } else { pairs::variant(&mut rng, &a) };
        let (first, second) = (oracle::automaton(&a), oracle::automaton(&b));
        let answer = oracle::is_equivalent(first.clone(), second.clone());
        assert_eq!(answer, equivalent(&a, &b), "{a:?} {b:?}");
        let plain = |sheet| !has_epsilon(sheet) && !has_overlap(sheet);
        if answer && plain(&a) && plain(&b) {
            let verdict = expect::equality(&a.words(), &b.words());
            assert!(matches!(verdict, Ok(Verdict::Same { .. })), "{a:?} {b:?}");
        }
    }
}

/// The last sentence of demand 3, and the bound on a difference word.
#[test]
fn crossed_products_are_empty_where_the_words_are_equal() {
    let mut rng = Rng::new(8);
    for _ in 0..ROUNDS {
        let a = some(&mut rng);
        let b = pairs::variant(&mut rng, &a);
        let (d, e) = (oracle::determinize(&a), oracle::determinize(&b));
        let differ = !oracle::crossed_products_are_empty(&d, &e);
        match expect::equality(&a.words(), &b.words()).expect("both fit") {
            Verdict::Same { .. } => assert!(!differ, "{a:?} {b:?}"),
            Verdict::Different { word, longest } => {
                assert!(differ && word.len() as u64 <= longest, "{a:?} {b:?}");
            }
        }
    }
}

/// A sheet without epsilons, written and read back by the original, accepts the same words.
#[test]
fn a_text_keeps_words() {
    let mut rng = Rng::new(9);
    let mut texts = 0;
    for _ in 0..ROUNDS {
        let sheet = some(&mut rng);
        let labels = write_labels(&plain_labels(sheet.states()));
        let Ok(text) = expect::write_automaton(&sheet.words(), &labels) else {
            continue;
        };
        let read = expect::parse_automaton(&text).expect("it is in the grammar");
        let back = oracle::automaton(&Sheet::read(&read.built.sheet));
        each_word(&mut rng, &sheet, |word, accepted| {
            assert_eq!(oracle::accepts_word(&back, word), accepted, "{sheet:?} {word:?}");
        });
        texts += 1;
    }
    assert!(texts > ROUNDS / 4, "{texts} of {ROUNDS}");
}

#[test]
fn emptiness_is_the_lack_of_accepted_words() {
    let mut rng = Rng::new(7);
    for _ in 0..ROUNDS {
        let sheet = some(&mut rng);
        let determinized = oracle::sheet(&oracle::determinize(&sheet));
        // Each of its states but the sink is reached.
        let empty = determinized.accept.iter().all(|&word| word == 0);
        let answer = oracle::has_reachable_accepting_state(&oracle::automaton(&sheet));
        assert_eq!(answer, !empty, "{sheet:?}");
    }
}
