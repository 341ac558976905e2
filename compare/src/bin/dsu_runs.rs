//! Prints runs of the original join sets, which the program `dsu_replay` replays: `dsu_runs SEED | dsu_replay`.
//!
//! A line has ten bytes, a letter and two numbers of three digits. `n a`: fresh sets of a. `f a b`: `find` of a answered b.
//! `u a b`: `union` of a and b. After a run, `r a b`: the parent of a is b; `s a b`: the size at a is b.

/// The original, with its private fields shown.
mod original {
    include!(concat!(env!("OUT_DIR"), "/automata/dsu.rs"));

    pub fn arrays(sets: &DSU) -> (&[usize], &[usize]) {
        (&sets.repr, &sets.size)
    }
}

use original::DSU;

/// A linear congruential generator.
struct Rng(u64);

impl Rng {
    fn below(&mut self, bound: usize) -> usize {
        self.0 = self.0.wrapping_mul(6364136223846793005).wrapping_add(1442695040888963407);
        ((self.0 >> 33) as usize) % bound
    }
}

/// One run over n elements, of which so many tenths of the operations are finds.
fn run(rng: &mut Rng, n: usize, operations: usize, finds: usize) {
    println!("n {n:03} 000");
    let mut sets = DSU::new(n);
    for _ in 0..if n == 0 { 0 } else { operations } {
        if rng.below(10) < finds {
            let x = rng.below(n);
            println!("f {:03} {:03}", x, sets.find(x));
        } else {
            let (x, y) = (rng.below(n), rng.below(n));
            sets.union(x, y);
            println!("u {x:03} {y:03}");
        }
    }
    let (parents, sizes) = original::arrays(&sets);
    for (i, parent) in parents.iter().enumerate() {
        println!("r {i:03} {parent:03}");
    }
    for (i, size) in sizes.iter().enumerate() {
        println!("s {i:03} {size:03}");
    }
}

fn main() {
    let seed =
        std::env::args().nth(1).map_or(20240607, |seed| seed.parse().expect("a seed is a number"));
    let mut rng = Rng(seed);
    for n in [0, 1, 2, 3, 5, 8] {
        run(&mut rng, n, 12, 4);
    }
    run(&mut rng, 16, 40, 4);
    run(&mut rng, 64, 120, 3);
    run(&mut rng, 512, 600, 4);
}
