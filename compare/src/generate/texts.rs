//! Texts of patterns of a given size.

/// A chain of `states` names, each led to the next by one range.
pub fn chain(states: usize) -> String {
    let arrow = |i: usize| format!(" s{} -> s{i} [0, {i}];", i - 1);
    let arrows: String = (1..states).map(arrow).collect();
    format!("automaton A {{ init s0;{arrows} accepting s{}; }};", states - 1)
}

/// One state that loops on `transitions` single symbols, told upwards or downwards.
pub fn points(transitions: usize, downwards: bool) -> String {
    let arrow = |i: usize| format!(" s -> s [{i}, {i}];");
    let arrows: String = match downwards {
        true => (0..transitions).rev().map(arrow).collect(),
        false => (0..transitions).map(arrow).collect(),
    };
    format!("automaton A {{ init s;{arrows} accepting s; }};")
}
