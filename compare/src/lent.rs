//! Memory lent to a call, filled with a pattern, so that every word written can be told.

use std::fmt::Debug;
use std::ops::{Deref, DerefMut};

use crate::expect::{self, Built, Outcome};
use crate::generate::Rng;
use crate::sheet::{OUT_BYTES, OUT_WORDS};

/// The elements before and behind the lent ones, which a call has no business with.
const GUARD: usize = 64;

/// What memory is filled with.
pub trait Pattern: Copy + PartialEq + Debug {
    fn at(place: usize) -> Self;
}

impl Pattern for u8 {
    fn at(place: usize) -> u8 {
        (place.wrapping_mul(0x9d) ^ 0xa5) as u8
    }
}

impl Pattern for u32 {
    fn at(place: usize) -> u32 {
        (place as u32).wrapping_mul(0x9e37_79b9) ^ 0xa5a5_5a5a
    }
}

impl Pattern for u64 {
    fn at(place: usize) -> u64 {
        (place as u64).wrapping_mul(0x9e37_79b9_7f4a_7c15) ^ 0xa5a5_5a5a_a5a5_5a5a
    }
}

/// Lent memory: the middle of a longer piece.
pub struct Lent<T> {
    memory: Vec<T>,
    len: usize,
}

impl<T: Pattern> Lent<T> {
    pub fn new(len: usize) -> Lent<T> {
        let memory = (0..len + 2 * GUARD).map(T::at).collect();
        Lent { memory, len }
    }

    /// What is wrong, where `front` should stand at the front and all else be as it was.
    pub fn fault(&self, name: &str, front: &[T]) -> Option<String> {
        let expected = |place: usize| match place.checked_sub(GUARD) {
            Some(at) if at < front.len() => front[at],
            _ => T::at(place),
        };
        let place = (0..self.memory.len()).find(|&place| self.memory[place] != expected(place))?;
        let at = place as isize - GUARD as isize;
        let (found, expected) = (self.memory[place], expected(place));
        Some(format!("{name} has {found:?} at {at} in place of {expected:?}"))
    }
}

/// The lent elements.
impl<T> Deref for Lent<T> {
    type Target = [T];

    fn deref(&self) -> &[T] {
        &self.memory[GUARD..GUARD + self.len]
    }
}

impl<T> DerefMut for Lent<T> {
    fn deref_mut(&mut self) -> &mut [T] {
        &mut self.memory[GUARD..GUARD + self.len]
    }
}

/// What is wrong with a call's result, where it is to be 0 or a refusal's number.
pub fn result_fault<T>(result: u32, expected: &Outcome<T>) -> Option<String> {
    let expected = expected.as_ref().err().copied().unwrap_or(0);
    (result != expected).then(|| format!("result {result} in place of {expected}"))
}

/// What is wrong with the result and the answer of a question.
pub fn answer_fault(result: u32, answer: &Lent<u32>, expected: &Outcome<u32>) -> Option<String> {
    result_fault(result, expected).or_else(|| answer.fault("answer", expected.ok().as_slice()))
}

/// What is lent for an output sheet and its labels, with their lengths.
pub struct Output {
    pub sheet: Lent<u32>,
    pub labels: Lent<u8>,
    pub words: Lent<u64>,
    pub bytes: Lent<u64>,
}

impl Output {
    /// Mostly of the fixed sizes, sometimes longer or too short.
    pub fn new(rng: &mut Rng) -> Output {
        Output {
            sheet: Lent::new(near(rng, OUT_WORDS)),
            labels: Lent::new(near(rng, OUT_BYTES)),
            words: Lent::new(1),
            bytes: Lent::new(1),
        }
    }

    /// 20, where it is too short.
    pub fn outcome(&self) -> Outcome<()> {
        expect::outputs(self.sheet.len(), self.labels.len())
    }

    /// What is wrong with a call's result and what it wrote.
    pub fn fault(&self, result: u32, expected: &Outcome<Built>) -> Option<String> {
        let (sheet, labels, words, bytes) = match expected {
            Ok(built) => (
                &built.sheet[..],
                &built.labels[..],
                vec![built.sheet.len() as u64],
                vec![built.labels.len() as u64],
            ),
            Err(_) => (&[][..], &[][..], vec![], vec![]),
        };
        result_fault(result, expected)
            .or_else(|| self.words.fault("words", &words))
            .or_else(|| self.bytes.fault("bytes", &bytes))
            .or_else(|| self.sheet.fault("out", sheet))
            .or_else(|| self.labels.fault("labels_out", labels))
    }
}

/// A length at, above or below a fixed size, mostly at it.
pub fn near(rng: &mut Rng, size: usize) -> usize {
    match rng.below(40) {
        0 => size - 1,
        1 => rng.below(size),
        2 => 0,
        3..6 => size + rng.within(1, 100),
        _ => size,
    }
}

#[cfg(test)]
mod tests {
    use super::*;

    #[test]
    fn every_write_is_told() {
        for place in 0..10 + 2 * GUARD {
            let mut lent = Lent::<u32>::new(10);
            assert_eq!(lent.fault("lent", &[]), None);
            lent.memory[place] ^= 1;
            assert!(lent.fault("lent", &[]).is_some(), "{place}");
        }
        let mut lent = Lent::<u8>::new(3);
        lent.memory[GUARD] = 7;
        assert_eq!(lent.fault("lent", &[7]), None);
        assert!(lent.fault("lent", &[8]).is_some());
        assert!(lent.fault("lent", &[7, 7]).is_some());
    }
}
