//! Inputs for comparisons, all drawn from one seeded generator of numbers.

pub mod hostile;
pub mod labels;
pub mod pairs;
pub mod patterns;
pub mod sheets;
pub mod texts;
pub mod tiny;
pub mod words;
pub mod written;

/// A generator of numbers (splitmix64): the same seed gives the same numbers.
#[derive(Clone, Debug)]
pub struct Rng(u64);

impl Rng {
    pub fn new(seed: u64) -> Rng {
        Rng(seed)
    }

    /// A generator of its own for one purpose, so that the numbers of others don't move it.
    pub fn named(seed: u64, name: &str) -> Rng {
        let mut rng = Rng(seed);
        for byte in name.bytes() {
            rng.0 = rng.draw() ^ byte as u64;
        }
        rng
    }

    pub fn draw(&mut self) -> u64 {
        self.0 = self.0.wrapping_add(0x9e37_79b9_7f4a_7c15);
        let mut z = self.0;
        z = (z ^ (z >> 30)).wrapping_mul(0xbf58_476d_1ce4_e5b9);
        z = (z ^ (z >> 27)).wrapping_mul(0x94d0_49bb_1331_11eb);
        z ^ (z >> 31)
    }

    /// A number below `n`, which is not 0.
    pub fn below(&mut self, n: usize) -> usize {
        (self.draw() % n as u64) as usize
    }

    /// A number from `low` to `high`.
    pub fn within(&mut self, low: usize, high: usize) -> usize {
        low + self.below(high - low + 1)
    }

    /// A symbol from `first` to `last`.
    pub fn symbol(&mut self, first: u32, last: u32) -> u32 {
        first + (self.draw() % (last as u64 - first as u64 + 1)) as u32
    }

    /// True once in `n` times.
    pub fn one_in(&mut self, n: usize) -> bool {
        self.below(n) == 0
    }

    pub fn pick<'a, T>(&mut self, items: &'a [T]) -> &'a T {
        &items[self.below(items.len())]
    }
}

/// A damaged copy: one element changed, inserted, dropped or doubled, two swapped, or the end cut off.
pub fn damaged<T: Copy>(rng: &mut Rng, list: &[T], any: impl Fn(&mut Rng) -> T) -> Vec<T> {
    let mut list = list.to_vec();
    if list.is_empty() {
        return vec![any(rng)];
    }
    let at = rng.below(list.len());
    match rng.below(6) {
        0 => list[at] = any(rng),
        1 => list.insert(at, any(rng)),
        2 => drop(list.remove(at)),
        3 => list.insert(at, list[at]),
        4 => {
            let other = rng.below(list.len());
            list.swap(at, other);
        }
        _ => list.truncate(at),
    }
    list
}
