//! Builds and reads the original's automata, whose fields and helpers are private to its module.

use super::{Automaton, State, StateId, Transition, Trigger, utils};

/// A state's symbols cut into parts, each with its targets.
pub type Parts = Vec<((u32, u32), Vec<StateId>)>;

/// An automaton of the given states (name, accepting) and transitions (from, trigger, to).
pub fn build(
    start: StateId,
    states: impl IntoIterator<Item = (String, bool)>,
    transitions: impl IntoIterator<Item = (StateId, Trigger, StateId)>,
) -> Automaton {
    let mut all_states: Vec<State> =
        states.into_iter().map(|(id, accept)| State::new(&id, accept)).collect();
    for (from, trigger, to) in transitions {
        all_states[from].transitions.insert(Transition::new(to, trigger));
    }
    Automaton { name: "automaton".to_owned(), all_states, initial_state: start }
}

pub fn name(a: &Automaton) -> &str {
    &a.name
}

pub fn start(a: &Automaton) -> StateId {
    a.initial_state
}

/// The states: name, accepting.
pub fn states(a: &Automaton) -> impl ExactSizeIterator<Item = (&str, bool)> {
    a.all_states.iter().map(|state| (state.id.as_str(), state.accept))
}

/// The transitions state by state, each state's in the order of the set that holds them.
pub fn transitions(a: &Automaton) -> impl Iterator<Item = (StateId, &Trigger, StateId)> {
    a.all_states
        .iter()
        .enumerate()
        .flat_map(|(from, state)| state.transitions.iter().map(move |t| (from, &t.trigger, t.to)))
}

pub fn state_closures(a: &Automaton) -> Vec<Vec<StateId>> {
    a.state_closures()
}

pub fn step(
    a: &Automaton,
    current: &[StateId],
    symbol: u32,
    closures: &[Vec<StateId>],
) -> Vec<StateId> {
    a.step(current, symbol, closures)
}

pub fn partition_ranges(edges: &Vec<(u32, u32, StateId)>) -> Parts {
    Automaton::partition_ranges(edges)
        .into_iter()
        .map(|(part, targets)| (part, targets.into_iter().collect()))
        .collect()
}

/// The automaton with its states totalized; the original does this on bare lists of states.
pub fn totalize(a: Automaton) -> Automaton {
    Automaton { all_states: utils::totalize(a.all_states), ..a }
}
