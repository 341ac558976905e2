//! Compares the port with the original Rust call by call, or prints lists of the original's answers.

use std::process::ExitCode;
use std::str::FromStr;
use std::{env, thread};

use compare::calls::{self, Plan};
use compare::emit;

const USAGE: &str = "\
compare [--seed S] [--rounds N] [--only CALL] [--stack KIB]
    compares each call that the archive has; ends with 1 if anything disagrees
compare --emit KIND [--seed S] [--count N]
    prints a list of N cases of a kind with the original's answers";

/// What the command line asks for.
struct Options {
    plan: Plan,
    only: Option<String>,
    emit: Option<String>,
    count: usize,
    stack_kib: usize,
}

/// Reads the command line; a wrong one gives nothing.
fn options(mut arguments: impl Iterator<Item = String>) -> Option<Options> {
    let mut options = Options {
        plan: Plan { seed: 1, rounds: 10_000 },
        only: None,
        emit: None,
        count: 200,
        stack_kib: 8192,
    };
    while let Some(name) = arguments.next() {
        let value = arguments.next()?;
        match name.as_str() {
            "--seed" => options.plan.seed = number(&value)?,
            "--rounds" => options.plan.rounds = number(&value)?,
            "--count" => options.count = number(&value)?,
            "--stack" => options.stack_kib = number(&value)?,
            "--only" => options.only = Some(value),
            "--emit" => options.emit = Some(value),
            _ => return None,
        }
    }
    Some(options)
}

fn number<T: FromStr>(text: &str) -> Option<T> {
    text.parse().ok()
}

fn main() -> ExitCode {
    let Some(options) = options(env::args().skip(1)) else {
        eprintln!("{USAGE}");
        return ExitCode::from(2);
    };
    if !cfg!(parser) {
        eprintln!(
            "nom was not found: patterns are read by document 01's grammar, not the original"
        );
    }
    if let Some(kind) = &options.emit {
        return emit(kind, &options);
    }
    // In a thread of its own, so that the stack that the calls are given is known.
    let (plan, only) = (options.plan, options.only);
    println!("seed {}, {} rounds a call", plan.seed, plan.rounds);
    let comparison = thread::Builder::new()
        .stack_size(options.stack_kib * 1024)
        .spawn(move || calls::run(&plan, only.as_deref()))
        .expect("a thread can be started");
    match comparison.join() {
        Ok(0) => ExitCode::SUCCESS,
        _ => ExitCode::FAILURE,
    }
}

/// Prints a list, or the kinds there are.
fn emit(kind: &str, options: &Options) -> ExitCode {
    match emit::list(kind, options.plan.seed, options.count) {
        Some(list) => {
            print!("{list}");
            ExitCode::SUCCESS
        }
        None => {
            let kinds: Vec<&str> = emit::KINDS.iter().map(|(name, _)| *name).collect();
            eprintln!("the kinds are {}", kinds.join(", "));
            ExitCode::from(2)
        }
    }
}
