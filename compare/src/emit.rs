//! Fixed lists of inputs with the answers that the original gives, as decimal text.
//!
//! A case is a line of numbers. A list within it is its length and then its elements.

mod kinds;

use crate::expect::{Built, Outcome};
use crate::generate::Rng;

pub use kinds::KINDS;

/// What a line may have on average, so that 200 cases stay below 64 KiB.
const LINE: usize = 320;

/// What a list may have beyond the average, so that some lines may be long.
const SPARE: usize = 1000;

/// The numbers of one case.
#[derive(Default)]
pub struct Case(Vec<u64>);

impl Case {
    pub fn number(mut self, number: impl Into<u64>) -> Case {
        self.0.push(number.into());
        self
    }

    pub fn numbers<T: Copy + Into<u64>>(mut self, numbers: &[T]) -> Case {
        self.0.extend(numbers.iter().map(|&number| number.into()));
        self
    }

    /// A list: its length, then its elements.
    pub fn list<T: Copy + Into<u64>>(self, list: &[T]) -> Case {
        self.number(list.len() as u64).numbers(list)
    }

    /// A refusal's number, or 0 and the output's sheet and labels.
    pub fn outcome(self, outcome: Outcome<Built>) -> Case {
        match outcome {
            Ok(built) => self.number(0u32).list(&built.sheet).list(&built.labels),
            Err(number) => self.number(number),
        }
    }

    fn line(&self) -> String {
        let numbers: Vec<String> = self.0.iter().map(u64::to_string).collect();
        numbers.join(" ") + "\n"
    }
}

/// A list of `count` cases of a kind: their number on the first line, then one line a case.
pub fn list(kind: &str, seed: u64, count: usize) -> Option<String> {
    let &(_, case) = KINDS.iter().find(|(name, _)| *name == kind)?;
    let mut rng = Rng::named(seed, kind);
    let mut text = format!("{count}\n");
    let mut cases = 0;
    while cases < count {
        let line = case(&mut rng).line();
        // A line that is too long for now is passed over.
        if text.len() + line.len() <= LINE * (cases + 1) + SPARE {
            text += &line;
            cases += 1;
        }
    }
    Some(text)
}

#[cfg(test)]
mod tests {
    use super::*;

    #[test]
    fn lists_are_short_and_the_same_for_a_seed() {
        for (kind, _) in KINDS {
            let text = list(kind, 1, 200).expect("the kind is known");
            assert_eq!(text.lines().count(), 201, "{kind}");
            assert!(text.len() < 65_536, "{kind}: {} bytes", text.len());
            assert_eq!(list(kind, 1, 200), Some(text), "{kind}");
        }
    }
}
