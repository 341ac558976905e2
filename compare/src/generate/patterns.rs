//! Texts of patterns: by the grammar with space where it may stand, at the limits, and damaged.

use super::{Rng, damaged, sheets::EDGES};
use crate::sheet::MAX_NAME;

/// Names that are keywords or look like them, and plain ones.
pub const NAMES: [&str; 14] = [
    "p",
    "q",
    "r",
    "s",
    "t",
    "A",
    "Z9_",
    "x_1",
    "init",
    "accepting",
    "automaton",
    "acceptingq",
    "initp",
    "sink",
];

fn name(rng: &mut Rng) -> String {
    match rng.below(40) {
        0 => "n".repeat(MAX_NAME),
        1 if rng.one_in(4) => "n".repeat(MAX_NAME + 1),
        2 => format!("a{}", "_9Z".repeat(rng.within(1, 20))),
        _ => (*rng.pick(&NAMES)).to_owned(),
    }
}

/// Optional space.
fn space(rng: &mut Rng) -> &'static str {
    rng.pick::<&str>(&["", "", "", " ", " ", "\n", "\t", "\r\n", " \n\t "])
}

/// Space that must stand.
fn needed(rng: &mut Rng) -> &'static str {
    rng.pick::<&str>(&[" ", " ", "\n", "\t", "\r\n  "])
}

fn number(rng: &mut Rng, value: u32) -> String {
    match rng.below(20) {
        0 => format!("{}{value}", "0".repeat(rng.within(1, 70))),
        1 if rng.one_in(4) => (u32::MAX as u64 + 1).to_string(),
        2 if rng.one_in(8) => "99999999999999999999999999".to_owned(),
        _ => value.to_string(),
    }
}

fn transition(rng: &mut Rng, text: &mut String, from: &str, to: &str) {
    let value = |rng: &mut Rng| match rng.below(3) {
        0 => *rng.pick(&EDGES),
        _ => rng.below(10) as u32,
    };
    let (a, b) = (value(rng), value(rng));
    let (first, last) = if rng.one_in(40) { (a, b) } else { (a.min(b), a.max(b)) };
    for token in [from, "->", to, "[", &number(rng, first), ",", &number(rng, last)] {
        *text += token;
        // No space before `]`, nor between a name that was just written and nothing.
        *text += space(rng);
    }
    while text.ends_with([' ', '\t', '\r', '\n']) {
        text.pop();
    }
    *text += "];";
}

/// A text of up to `most` transitions by the grammar, apart from a name, a number or a range that
/// may break it. One in five has accepting names that may be no states.
fn pattern(rng: &mut Rng, most: usize) -> String {
    let names: Vec<String> = (0..rng.within(1, 6)).map(|_| name(rng)).collect();
    let mut text = format!("automaton{}{}{}{{", needed(rng), name(rng), space(rng));
    let mut states = vec![rng.pick(&names).clone()];
    text += &format!("{}init{}{};", space(rng), needed(rng), states[0]);
    for _ in 0..rng.within(0, most) {
        text += space(rng);
        let (from, to) = (rng.pick(&names).clone(), rng.pick(&names).clone());
        transition(rng, &mut text, &from, &to);
        states.extend([from, to]);
    }
    let any = rng.one_in(5);
    text += &format!("{}accepting{}", space(rng), needed(rng));
    for i in 0..rng.within(1, 3) {
        if i > 0 {
            text += &format!("{},{}", space(rng), space(rng));
        }
        text += &match any {
            true if rng.one_in(2) => name(rng),
            true => rng.pick(&names).clone(),
            false => rng.pick(&states).clone(),
        };
    }
    text + ";" + space(rng) + "};"
}

/// A pattern of that many states, with these accepting names.
fn with_states(states: usize, accepting: &[String]) -> String {
    let chain: String = (1..states).map(|i| format!(" s{} -> s{i} [0, 0];", i - 1)).collect();
    format!("automaton L {{ init s0;{chain} accepting {}; }};", accepting.join(", "))
}

/// Accepting names of a pattern with that many states: one or hundreds, in no order, sometimes with one that is no state at any place.
fn accepting(rng: &mut Rng, states: usize) -> Vec<String> {
    let count = *rng.pick(&[1, 2, 255, 256, 257, 300, 511, 512, 513]);
    let mut names: Vec<String> = (0..count).map(|_| format!("s{}", rng.below(states))).collect();
    if rng.one_in(3) {
        let at = rng.below(count);
        names[at] = format!("s{states}");
    }
    names
}

/// A pattern of that many transitions; a repeated one counts once.
fn with_transitions(transitions: usize) -> String {
    let repeats = |i| if i == 5 { 3 } else { 1 };
    let loops: String =
        (0..transitions).map(|i| format!(" s0 -> s0 [{i}, {i}];").repeat(repeats(i))).collect();
    format!("automaton L {{ init s0;{loops} accepting s0; }};")
}

/// A pattern whose states or transitions are at a limit.
fn limit(rng: &mut Rng) -> String {
    if rng.one_in(2) {
        let states = *rng.pick(&[255, 256, 257, 258, 600]);
        let accepting = accepting(rng, states);
        with_states(states, &accepting)
    } else {
        with_transitions(rng.within(2047, 2050))
    }
}

/// Something behind a pattern, which is left unread.
fn rest(rng: &mut Rng) -> Vec<u8> {
    match rng.below(5) {
        0 => b" automaton B { init p; accepting p; };".to_vec(),
        1 => vec![rng.draw() as u8; rng.below(4)],
        2 => b"\xff\xc0".to_vec(),
        3 => "ring ∅ 木".into(),
        _ => Vec::new(),
    }
}

/// A byte to damage a text with.
fn byte(rng: &mut Rng) -> u8 {
    match rng.below(4) {
        0 => rng.draw() as u8,
        _ => *rng.pick(b" \t\n;,[]{}->a0_9p"),
    }
}

/// A text of up to seven transitions with nothing behind it, one in twenty at a limit.
pub fn whole(rng: &mut Rng) -> Vec<u8> {
    let text = if rng.one_in(20) { limit(rng) } else { pattern(rng, 7) };
    text.into_bytes()
}

/// A text of up to two transitions, one in three damaged.
pub fn short(rng: &mut Rng) -> Vec<u8> {
    let text = pattern(rng, 2).into_bytes();
    if rng.one_in(3) { damaged(rng, &text, byte) } else { text }
}

/// A text with every piece of the grammar and every sort of space.
const FULL: &str = "automaton\tP_1 {\r\n init p;\n p -> q [0, 007];\taccepting->p[8 ,9];\n q->p [ 4294967295,4294967295]; p -> q [0, 7];\n accepting q , p,accepting;\n};x";

/// The full text with one byte changed, one left out or one put in, and every prefix of it.
pub fn edits() -> Vec<Vec<u8>> {
    let full = FULL.as_bytes();
    let mut texts = vec![full.to_vec()];
    for at in 0..=full.len() {
        texts.push(full[..at].to_vec());
        for byte in 0..=255 {
            let (before, behind) = (&full[..at], &full[at..]);
            texts.push([before, &[byte], behind].concat());
            if let Some(rest) = behind.get(1..) {
                texts.push([before, &[byte], rest].concat());
                texts.push([before, rest].concat());
            }
        }
    }
    texts
}

/// Each rule of the grammar broken in turn, and names, states and transitions at their limits.
pub fn rules() -> Vec<Vec<u8>> {
    let long = "n".repeat(MAX_NAME);
    let longer = "n".repeat(MAX_NAME + 1);
    let mut texts: Vec<String> = [
        " automaton A { init p; accepting p; };",
        "automaton A { init p ; accepting p; };",
        "automaton A { init p; accepting p ; };",
        "automaton A { init p; p -> p [0, 9 ]; accepting p; };",
        "automaton A { init p; p -> p [0, 9] ; accepting p; };",
        "automaton A { init p; accepting p; } ;",
        "automaton A{init p;accepting p;};",
        "automatonA { init p; accepting p; };",
        "automaton A { initp; accepting p; };",
        "automaton A { init p; acceptingp; };",
        "automaton A { init p; accepting; };",
        "automaton A { init p; accepting p,; };",
        "automaton A { init p; accepting p q; };",
        "automaton A { accepting p; };",
        "automaton A { init p; };",
        "automaton A { init p; accepting p; }",
        "automaton 1A { init p; accepting p; };",
        "automaton A { init _p; accepting p; };",
        "automaton A { init p; p -> p [9, 0]; accepting p; };",
        "automaton A { init p; p -> p [0, 4294967296]; accepting p; };",
        "automaton A { init p; p -> p [, 9]; accepting p; };",
        "automaton A { init p; p -> p [0 9]; accepting p; };",
        "automaton A { init p; p - > p [0, 9]; accepting p; };",
        "automaton A { init p; p -> p (0, 9); accepting p; };",
        "automaton A { init accepting; accepting -> p [0, 9]; accepting p; };",
        "automaton A { init init; init -> automaton [0, 9]; accepting automaton; };",
        "automaton A { init p; accepting q; };",
        "automaton A { init p; p -> p [-1, 9]; accepting p; };",
        "automaton A { init p; p -> p [+1, 9]; accepting p; };",
        "automaton A { init p; accepting p; accepting p; };",
        "automaton A { init p; accepting p; p -> p [0, 9]; };",
        "automaton\u{b}A { init p; accepting p; };",
        "automaton\u{a0}A { init p; accepting p; };",
    ]
    .map(str::to_owned)
    .to_vec();
    for name in [&long, &longer] {
        texts.push(format!("automaton {name} {{ init p; accepting p; }};"));
        texts.push(format!("automaton A {{ init {name}; accepting {name}; }};"));
        texts.push(format!("automaton A {{ init p; {name} -> p [0, 9]; accepting p; }};"));
        texts.push(format!("automaton A {{ init p; p -> {name} [0, 9]; accepting p; }};"));
        texts.push(format!("automaton A {{ init p; accepting p, {name}; }};"));
        texts.push(format!("automaton A {{ init p; accepting p; }};{name}"));
    }
    let names = |numbers: &[usize]| numbers.iter().map(|i| format!("s{i}")).collect::<Vec<_>>();
    for states in [255, 256, 257] {
        let text = with_states(states, &names(&[0]));
        texts.push(text.clone() + " ;");
        texts.push(text.replace("};", "} ;"));
        texts.push(text);
        // The last state, and a name that none has: alone, first and last.
        for accepting in [&[states - 1][..], &[states], &[states, 0], &[0, states]] {
            texts.push(with_states(states, &names(accepting)));
        }
    }
    // A name that no state has, before and behind 256 others, and all states.
    let all: Vec<usize> = (0..600).collect();
    texts.push(with_states(600, &names(&all)));
    for at in [0, 255, 256, 257, 511, 512, 599] {
        let mut accepting = all.clone();
        accepting[at] = 600;
        texts.push(with_states(600, &names(&accepting)));
    }
    for transitions in [2047, 2048, 2049] {
        texts.push(with_transitions(transitions));
    }
    texts.into_iter().map(String::into_bytes).collect()
}

/// A text, with the name of its sort.
pub fn any(rng: &mut Rng) -> (&'static str, Vec<u8>) {
    match rng.below(100) {
        0..55 => {
            let mut text = pattern(rng, 7).into_bytes();
            text.extend(rest(rng));
            ("pattern", text)
        }
        55..95 => {
            let text = pattern(rng, 7);
            ("damaged", damaged(rng, text.as_bytes(), byte))
        }
        95..97 => ("limit", limit(rng).into_bytes()),
        _ => ("any bytes", (0..rng.below(60)).map(|_| byte(rng)).collect()),
    }
}

#[cfg(test)]
mod tests {
    use super::*;
    use crate::expect;

    /// The original's parser and document 01's grammar make the same of every text.
    #[test]
    fn grammar_is_that_of_the_original() {
        let mut rng = Rng::new(7);
        let mut read = 0;
        for _ in 0..30_000 {
            let (_, text) = any(&mut rng);
            let expected = expect::parse_automaton(&text);
            read += expected.is_ok() as usize;
            let shown = String::from_utf8_lossy(&text);
            assert_eq!(expect::parse_by_grammar(&text), expected, "{shown}");
        }
        assert!((5_000..25_000).contains(&read), "{read} of 30000");
    }
}
