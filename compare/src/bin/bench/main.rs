//! Times the port against the original in one run and prints ratios; it asserts no times.
//!
//! The original works on automata that stand ready and gives automata; the port reads and checks a
//! sheet and writes one. An operation of the original that takes its automata by value is given
//! clones, and the cloning counts. Both are compiled optimised.
//!
//! `bench` prints all tables, `bench small`, `bench calls`, `bench growth`, `bench worst` and `bench stack` one of them; a second word
//! leaves only the rows whose call or input has it.

mod calls;
mod growth;
mod inputs;
mod stack;
mod worst;

use std::collections::BTreeMap;
use std::hint::black_box;
use std::sync::Mutex;
use std::time::{Duration, Instant};
use std::{env, thread};

/// The most of the stack that each call was seen to use, where this is asked instead of times.
static DEPTHS: Mutex<Option<BTreeMap<String, usize>>> = Mutex::new(None);

/// The runs of which the median counts.
const RUNS: usize = 9;
/// What one run should take at least.
const RUN: Duration = Duration::from_millis(20);

/// A call that takes longer is timed once.
const LONG: Duration = Duration::from_millis(400);

/// The time of one call among so many.
fn run<T>(call: &mut impl FnMut() -> T, repeats: u32) -> Duration {
    let start = Instant::now();
    for _ in 0..repeats {
        black_box(call());
    }
    start.elapsed() / repeats
}

/// The times of one call's runs.
struct Runs {
    once: Duration,
    others: Vec<Duration>,
}

impl Runs {
    fn first<T>(call: &mut impl FnMut() -> T) -> Self {
        Self { once: run(call, 1).max(Duration::from_nanos(50)), others: Vec::new() }
    }

    fn next<T>(&mut self, call: &mut impl FnMut() -> T) {
        if self.once <= LONG {
            let repeats = (RUN.as_nanos() / self.once.as_nanos()).clamp(1, 1_000_000) as u32;
            self.others.push(run(call, repeats));
        }
    }

    fn median(mut self) -> Duration {
        self.others.sort_unstable();
        self.others.get(RUNS / 2).copied().unwrap_or(self.once)
    }
}

/// The median times of two calls, whose runs take turns.
fn times<A, B>(mut rust: impl FnMut() -> A, mut port: impl FnMut() -> B) -> (Duration, Duration) {
    let (mut rusts, mut ports) = (Runs::first(&mut rust), Runs::first(&mut port));
    for _ in 0..RUNS {
        rusts.next(&mut rust);
        ports.next(&mut port);
    }
    (rusts.median(), ports.median())
}

/// A time in three digits.
fn shown(time: Duration) -> String {
    let nanos = time.as_nanos() as f64;
    let (value, unit) = match nanos {
        n if n < 1e3 => (n, "ns"),
        n if n < 1e6 => (n / 1e3, "µs"),
        n => (n / 1e6, "ms"),
    };
    let digits = if value < 10.0 { 2 } else { usize::from(value < 100.0) };
    format!("{value:.digits$} {unit}")
}

/// What the row before was about, with the original's and the port's time.
struct Last {
    row: String,
    rust: Duration,
    port: Duration,
}

static LAST: Mutex<Option<Last>> = Mutex::new(None);

/// How the times grew since the row before, as exponents of the port and the original, where it was the same input of half the size.
fn growth(row: String, rust: Duration, port: Duration) -> String {
    let last =
        LAST.lock().expect("no thread has failed").replace(Last { row: row.clone(), rust, port });
    let exponent =
        |now: Duration, before: Duration| (now.as_secs_f64() / before.as_secs_f64()).log2();
    match last {
        Some(last) if last.row == row => {
            format!(" {:.1}, {:.1} |", exponent(port, last.port), exponent(rust, last.rust))
        }
        _ => " |".to_string(),
    }
}

/// Times both and prints a row of the table. The port's closure answers the call's result.
fn row<T>(call: &str, case: &str, rust: impl FnMut() -> T, port: Option<impl FnMut() -> u32>) {
    let asked = env::args().nth(2).is_none_or(|part| call.contains(&part) || case.contains(&part));
    if !asked {
        return;
    }
    let Some(mut port) = port else {
        println!("| `{call}` | {case} | not in the archive |");
        return;
    };
    if let Some(depths) = &mut *DEPTHS.lock().expect("no thread has failed") {
        let most = depths.entry(call.to_string()).or_default();
        *most = stack::depth(port).max(*most);
        return;
    }
    let refused = match port() {
        0 => String::new(),
        number => format!(", refused {number}"),
    };
    let (rust, port) = times(rust, port);
    let ratio = port.as_secs_f64() / rust.as_secs_f64();
    let input: String = case.chars().filter(|c| !c.is_ascii_digit()).collect();
    let growth = growth(format!("{call} {input}"), rust, port);
    println!(
        "| `{call}` | {case}{refused} | {} | {} | {ratio:.2} |{growth}",
        shown(rust),
        shown(port)
    );
}

fn head(title: &str) {
    println!(
        "\n{title}\n\n| call | input | Rust | port | ratio | exponents |\n|---|---|---|---|---|---|"
    );
}

/// The stack of each call, on the inputs of all tables.
fn stacks() {
    *DEPTHS.lock().expect("no thread has failed") = Some(BTreeMap::new());
    let measuring = || {
        worst::small();
        inputs::all();
        growth::all();
        worst::all();
    };
    let thread = thread::Builder::new().stack_size(stack::STACK).spawn(measuring);
    thread.expect("a thread can be started").join().expect("every call returns");
    let depths = DEPTHS.lock().expect("no thread has failed").take().unwrap_or_default();
    println!("\nStack\n\n| call | bytes |\n|---|---|");
    for (call, bytes) in depths {
        println!("| `{call}` | {bytes} |");
    }
}

fn main() {
    let only = env::args().nth(1);
    let asked = |table: &str| only.as_deref().is_none_or(|name| name == table);
    if asked("small") {
        head("Small patterns");
        worst::small();
    }
    if asked("calls") {
        head("Each call");
        inputs::all();
    }
    if asked("growth") {
        head("Inputs that grow");
        growth::all();
    }
    if asked("worst") {
        head("Worst cases");
        worst::all();
    }
    if asked("stack") {
        stacks();
    }
}
