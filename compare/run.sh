#!/bin/sh
# The whole comparison with the original Rust: every C function, the program verdict, the join sets, and the harness's own tests. Prints the
# inputs of each call by sort, the answers and refusals, and the disagreements; ends with 1 if there is any.
# usage: run.sh [SEED [ROUNDS]]      RINGMATCH_RUST names the folder that holds the original's src/automata (see README.md)
set -eu
seed=${1:-1}
rounds=${2:-10000}
here=$(cd "$(dirname "$0")" && pwd)
cd "$here/.."
tools/archive > /dev/null
# A program that is run is proved and built first, and stays as out/NAME.
for program in verdict dsu_replay; do
    (cd "crates/$program" && rt run < stdin > /dev/null)
done
cd "$here"
cargo build --release --quiet
cargo test --release --quiet
cargo run --release --quiet -- --seed "$seed" --rounds "$rounds"
cargo run --release --quiet --bin verdict_runs -- ../crates/verdict/out/verdict "$seed" "$rounds"
cargo run --release --quiet --bin dsu_runs -- "$seed" | ../crates/dsu_replay/out/dsu_replay
