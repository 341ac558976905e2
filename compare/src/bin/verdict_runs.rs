//! Runs the program `verdict` on pairs of texts and compares its lines with what document 01 asks, by the original's parser and
//! determinizations: `verdict_runs PROGRAM SEED ROUNDS`.

use compare::expect::{self, Verdict};
use compare::generate::{Rng, patterns};
use compare::oracle;
use compare::sheet::Sheet;
use std::io::Write;
use std::process::{Command, Stdio};

const MOST: usize = 65_536;

fn is_space(byte: &u8) -> bool {
    b" \t\r\n".contains(byte)
}

fn after_space(input: &[u8], at: usize) -> usize {
    at + input[at..].iter().take_while(|byte| is_space(byte)).count()
}

/// The outcome of reading the text at a place, and where it ends if it is one of the grammar.
fn read(input: &[u8], at: usize) -> Option<(Result<Vec<u32>, u32>, usize)> {
    match expect::parse_automaton(&input[at..]) {
        Ok(parsed) => Some((Ok(parsed.built.sheet), at + parsed.read as usize)),
        Err(8) => None,
        Err(number) => {
            let (_, read) = compare::grammar::read(&input[at..])
                .expect("a text with another number is one of the grammar");
            Some((Err(number), at + read))
        }
    }
}

/// The verdict on an input, with both sheets where they were read.
fn expected(input: &[u8]) -> (Result<Verdict, u32>, Vec<Vec<u32>>) {
    let both = || {
        let (first, end) = (input.len() <= MOST).then(|| read(input, 0))??;
        let (second, end) = read(input, after_space(input, end))?;
        (after_space(input, end) == input.len()).then_some((first, second))
    };
    match both() {
        None => (Err(8), Vec::new()),
        Some((Err(number), _) | (Ok(_), Err(number))) => (Err(number), Vec::new()),
        Some((Ok(a), Ok(b))) => (expect::equality(&a, &b), vec![a, b]),
    }
}

/// What is wrong with the line.
fn fault(line: &str, input: &[u8]) -> Option<String> {
    let (verdict, sheets) = expected(input);
    let exact = |text: String| (line != text).then_some(format!("expected {text:?}"));
    match verdict {
        Err(number) => exact(format!("refused {number}\n")),
        Ok(Verdict::Same { joins }) => exact(format!("same {joins}\n")),
        Ok(Verdict::Different { longest, .. }) => {
            let Some(symbols) =
                line.strip_prefix("differ").and_then(|rest| rest.strip_suffix('\n'))
            else {
                return Some("expected a difference".to_owned());
            };
            let word: Vec<u32> =
                symbols.split(' ').skip(1).map(|x| x.parse().unwrap_or(u32::MAX)).collect();
            if word.len() as u64 > longest {
                return Some(format!("over {longest} symbols"));
            }
            let accepts = |sheet: &[u32]| {
                oracle::accepts_word(&oracle::automaton(&Sheet::read(sheet)), &word)
            };
            (accepts(&sheets[0]) == accepts(&sheets[1]))
                .then_some("a word that both or neither accept".to_owned())
        }
    }
}

fn run(program: &str, input: &[u8]) -> String {
    let mut child = Command::new(program)
        .stdin(Stdio::piped())
        .stdout(Stdio::piped())
        .spawn()
        .expect("the program starts");
    // A program that has read enough may close its input.
    let _ = child.stdin.take().expect("its input is a pipe").write_all(input);
    let output = child.wait_with_output().expect("the program ends");
    String::from_utf8(output.stdout).expect("its line is ASCII")
}

/// A text, one in eight damaged or with something behind it.
fn text(rng: &mut Rng) -> Vec<u8> {
    if rng.one_in(8) { patterns::any(rng).1 } else { patterns::whole(rng) }
}

/// Two texts, one in three twice the same, with space between and after; one in eight with something else there.
fn input(rng: &mut Rng) -> Vec<u8> {
    let first = text(rng);
    let second = if rng.one_in(3) { first.clone() } else { text(rng) };
    let gap = rng.pick::<&[u8]>(&[b"", b" ", b"\n", b"\r\n\t ", b" ", b"\n", b"", b"x"]);
    let end = rng.pick::<&[u8]>(&[b"", b"\n", b" \n", b"\t", b"", b"\n", b"", b";"]);
    [first.as_slice(), *gap, &second, *end].concat()
}

fn main() {
    let args: Vec<String> = std::env::args().collect();
    let [_, program, seed, rounds] = args.as_slice() else {
        panic!("usage: verdict_runs PROGRAM SEED ROUNDS");
    };
    let mut rng = Rng::new(seed.parse().expect("a seed"));
    let rounds: usize = rounds.parse().expect("a number of rounds");
    let a = "automaton A { init p; p -> q [0, 9]; accepting q; };";
    let b = "automaton B { init s; s -> t [0, 4]; s -> u [5, 9]; accepting t, u; };";
    let c = "automaton C { init p; p -> q [0, 8]; accepting q; };";
    let mut inputs: Vec<Vec<u8>> =
        [[a, "\n", b], [a, "", c], [a, "", ""], ["", "", ""], [" ", a, b], [a, b, b]]
            .map(|parts| parts.concat().into_bytes())
            .to_vec();
    for length in [MOST - 1, MOST, MOST + 1, MOST + 2] {
        let mut padded = [a, b].concat().into_bytes();
        padded.resize(length, b' ');
        inputs.push(padded);
    }
    inputs.extend((0..rounds).map(|_| input(&mut rng)));
    let mut counts = std::collections::BTreeMap::new();
    let mut disagreements = 0;
    for input in &inputs {
        let line = run(program, input);
        *counts
            .entry(line.split([' ', '\n']).next().unwrap_or_default().to_owned())
            .or_insert(0) += 1;
        if let Some(fault) = fault(&line, input) {
            disagreements += 1;
            println!("{:?} gave {line:?}: {fault}", String::from_utf8_lossy(input));
        }
    }
    println!("verdict: {} inputs {counts:?}; disagreements {disagreements}", inputs.len());
    if disagreements > 0 {
        std::process::exit(1);
    }
}
