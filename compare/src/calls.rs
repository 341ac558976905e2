//! The comparison, one module a call.

pub mod accepts_series;
pub mod accepts_text;
pub mod accepts_words;
pub mod complement;
pub mod determinize;
pub mod epsilon_eliminate;
pub mod equality;
pub mod has_reachable_accepting_state;
pub mod intersection;
pub mod is_equivalent;
pub mod is_nfa;
pub mod is_subautomaton;
pub mod operation;
pub mod parse_automaton;
pub mod question;
pub mod totalize;
pub mod write_automaton;

use std::collections::BTreeMap;
use std::fmt::{self, Display};

use crate::expect::{Built, Outcome};
use crate::generate::{Rng, pairs, sheets, tiny};
use crate::lent::{Lent, Output, answer_fault};
use crate::port;

/// How much is compared, and from which seed.
#[derive(Clone, Copy, Debug)]
pub struct Plan {
    pub seed: u64,
    pub rounds: usize,
}

impl Plan {
    /// The numbers for one call.
    pub fn rng(&self, call: &str) -> Rng {
        Rng::named(self.seed, call)
    }

    /// Gives every tiny sheet and then random ones to `check`, with the numbers for one call.
    fn sheets(&self, call: &str, mut check: impl FnMut(&mut Rng, &'static str, Vec<u32>)) {
        let mut rng = self.rng(call);
        for number in 0..tiny::ALL {
            check(&mut rng, "tiny", tiny::sheet(number).words());
        }
        for _ in 0..self.rounds {
            let (sort, sheet) = sheets::any(&mut rng);
            check(&mut rng, sort, sheet);
        }
    }

    /// The same with pairs: of tiny sheets with one state, the edges, and then random ones.
    fn pairs(&self, call: &str, mut check: impl FnMut(&mut Rng, &'static str, Vec<u32>, Vec<u32>)) {
        let mut rng = self.rng(call);
        for first in 0..tiny::ONE {
            for second in 0..tiny::ONE {
                let (a, b) = (tiny::sheet(first), tiny::sheet(second));
                check(&mut rng, "tiny", a.words(), b.words());
            }
        }
        for (a, b) in pairs::edges() {
            check(&mut rng, "edge", a.words(), b.words());
        }
        for _ in 0..self.rounds {
            let (sort, a, b) = pairs::any(&mut rng);
            check(&mut rng, sort, a, b);
        }
    }
}

/// What the comparison of one call came to.
#[derive(Debug, Default)]
pub struct Tally {
    call: &'static str,
    sorts: BTreeMap<&'static str, u64>,
    outcomes: BTreeMap<u32, u64>,
    pub disagreements: u64,
    /// The shortest input on which the two disagree, and how.
    shortest: Option<String>,
}

impl Tally {
    pub fn new(call: &'static str) -> Tally {
        Tally { call, ..Tally::default() }
    }

    /// Counts one input, and keeps it where there is a fault and it is the shortest so far.
    pub fn note<T>(
        &mut self,
        sort: &'static str,
        expected: &Outcome<T>,
        fault: Option<String>,
        input: &[(&str, &dyn Shown)],
    ) {
        *self.sorts.entry(sort).or_default() += 1;
        let number = expected.as_ref().err().copied().unwrap_or(0);
        *self.outcomes.entry(number).or_default() += 1;
        let Some(fault) = fault else { return };
        self.disagreements += 1;
        let mut shown = fault;
        for (name, value) in input {
            shown += &format!("\n    {name}: {}", value.shown());
        }
        if self.shortest.as_ref().is_none_or(|shortest| shown.len() < shortest.len()) {
            self.shortest = Some(shown);
        }
    }

    /// Counts an input of a call to which an output was lent.
    fn note_output<T>(
        &mut self,
        sort: &'static str,
        expected: &Outcome<T>,
        fault: Option<String>,
        input: &[(&str, &dyn Shown)],
        out: &Output,
    ) {
        let (words, bytes) = (out.sheet.len(), out.labels.len());
        let lent: [(&str, &dyn Shown); 2] = [("words lent", &words), ("bytes lent", &bytes)];
        self.note(sort, expected, fault, &[input, &lent].concat());
    }

    /// Makes a call that answers a question, and compares what it wrote.
    fn question(
        &mut self,
        sort: &'static str,
        expected: Outcome<u32>,
        input: &[(&str, &dyn Shown)],
        call: impl FnOnce(&mut u32) -> u32,
    ) {
        let mut answer = Lent::new(1);
        let result = call(&mut answer[0]);
        let fault = answer_fault(result, &answer, &expected);
        self.note(sort, &expected, fault, input);
    }

    /// Makes a call that writes a sheet and its labels, and compares what it wrote. `expect` tells
    /// what is expected of it where it is lent enough.
    fn output(
        &mut self,
        rng: &mut Rng,
        sort: &'static str,
        expect: impl FnOnce() -> Outcome<Built>,
        input: &[(&str, &dyn Shown)],
        call: impl FnOnce(&mut [u32], &mut [u8], &mut u64, &mut u64) -> u32,
    ) {
        let mut out = Output::new(rng);
        let expected = out.outcome().and_then(|()| expect());
        let result = call(&mut out.sheet, &mut out.labels, &mut out.words[0], &mut out.bytes[0]);
        let fault = out.fault(result, &expected);
        self.note_output(sort, &expected, fault, input, &out);
    }
}

impl Display for Tally {
    fn fmt(&self, f: &mut fmt::Formatter) -> fmt::Result {
        let inputs: u64 = self.sorts.values().sum();
        write!(f, "{}: {inputs} inputs (", self.call)?;
        for (i, (sort, count)) in self.sorts.iter().enumerate() {
            write!(f, "{}{sort} {count}", if i > 0 { ", " } else { "" })?;
        }
        write!(f, ");")?;
        for (number, count) in &self.outcomes {
            match number {
                0 => write!(f, " answered {count}")?,
                number => write!(f, ", refused {number}: {count}")?,
            }
        }
        write!(f, "; disagreements {}", self.disagreements)?;
        match &self.shortest {
            Some(shortest) => write!(f, "\n  {shortest}"),
            None => Ok(()),
        }
    }
}

/// An input as the report shows it.
pub trait Shown {
    fn shown(&self) -> String;
}

impl<T: Display> Shown for Vec<T> {
    fn shown(&self) -> String {
        let numbers: Vec<String> = self.iter().map(T::to_string).collect();
        numbers.join(" ")
    }
}

impl Shown for usize {
    fn shown(&self) -> String {
        self.to_string()
    }
}

impl Shown for u32 {
    fn shown(&self) -> String {
        self.to_string()
    }
}

/// Compares each call that the archive has, or just the one named, and reports as it goes.
/// Answers the number of disagreements.
pub fn run(plan: &Plan, only: Option<&str>) -> u64 {
    let mut disagreements = 0;
    macro_rules! run {
        ($($call:ident)+) => {$(
            let name = stringify!($call);
            if only.is_none_or(|only| only == name) {
                match port::$call() {
                    Some(call) => {
                        let mut tally = Tally::new(name);
                        $call::compare(call, plan, &mut tally);
                        println!("{tally}");
                        disagreements += tally.disagreements;
                    }
                    None => println!("{name}: not in the archive, skipped"),
                }
            }
        )+};
    }
    run! {
        accepts_words accepts_text accepts_series determinize intersection totalize complement
        epsilon_eliminate is_nfa has_reachable_accepting_state is_equivalent is_subautomaton parse_automaton write_automaton
        equality
    }
    disagreements
}
