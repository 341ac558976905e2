//! Finds the original Rust, the port's archive and the calls that it exports, and tells the compiler.

use std::path::{Path, PathBuf};
use std::process::Command;
use std::{env, fs, os::unix::fs::symlink};

/// The original's files, `mod.rs` being the root of its module.
const FILES: [&str; 5] = ["mod.rs", "dsu.rs", "operations.rs", "parser.rs", "utils.rs"];

/// What stands in for the parser where nom is missing.
const NO_PARSER: &str = "// Left out: nom was not found.\n";

/// The calls that the port exports sooner or later, without the prefix `ringmatch_`.
const CALLS: [&str; 15] = [
    "accepts_words",
    "accepts_text",
    "accepts_series",
    "determinize",
    "intersection",
    "totalize",
    "complement",
    "epsilon_eliminate",
    "is_nfa",
    "has_reachable_accepting_state",
    "is_equivalent",
    "is_subautomaton",
    "parse_automaton",
    "write_automaton",
    "equality",
];

fn main() {
    println!("cargo::rerun-if-changed=build.rs");
    let top = PathBuf::from(env::var_os("CARGO_MANIFEST_DIR").expect("cargo sets it")).join("..");
    let out = PathBuf::from(env::var_os("OUT_DIR").expect("cargo sets it"));

    println!("cargo::rustc-check-cfg=cfg(parser)");
    let parser = env::var_os("DEP_NOM7_FOUND").is_some();
    if parser {
        println!("cargo::rustc-cfg=parser");
    }
    link_original(&named("RINGMATCH_RUST", top.join("../shared/docs/src")), &out, parser);
    link_port(&named("RINGMATCH_LIB", top.join("target/staticlib/libringmatch.a")), &out);
}

/// The path that an environment variable names, or else `default`.
fn named(variable: &str, default: PathBuf) -> PathBuf {
    println!("cargo::rerun-if-env-changed={variable}");
    env::var_os(variable).map_or(default, PathBuf::from)
}

/// Makes the folder `automata` in `out`, with a link to each of the original's files.
///
/// A folder of links lets the original be compiled where it lies and lets the parser be left out.
fn link_original(source: &Path, out: &Path, parser: bool) {
    let source = source.join("src/automata");
    let source = source.canonicalize().unwrap_or_else(|_| {
        panic!("the original is not at {}: name its folder in RINGMATCH_RUST", source.display())
    });
    let folder = out.join("automata");
    fs::create_dir_all(&folder).expect("OUT_DIR can be written");
    for file in FILES {
        let original = source.join(file);
        println!("cargo::rerun-if-changed={}", original.display());
        let link = folder.join(file);
        // Left from an earlier build, which may have seen another folder.
        let _ = fs::remove_file(&link);
        if file == "parser.rs" && !parser {
            fs::write(&link, NO_PARSER).expect("OUT_DIR can be written");
        } else {
            symlink(&original, &link).expect("OUT_DIR can be written");
        }
    }
}

/// Links the archive, where `tools/archive` or RINGMATCH_LIB put one, and sets `has_CALL` for each call found in it.
fn link_port(archive: &Path, out: &Path) {
    println!("cargo::rerun-if-changed={}", archive.display());
    for call in CALLS {
        println!("cargo::rustc-check-cfg=cfg(has_{call})");
    }
    if !archive.exists() {
        return;
    }
    // Under the name that `static=ringmatch` asks for, whatever RINGMATCH_LIB calls it.
    fs::copy(archive, out.join("libringmatch.a")).expect("OUT_DIR can be written");
    println!("cargo::rustc-link-search=native={}", out.display());
    println!("cargo::rustc-link-lib=static=ringmatch");
    let listing = Command::new("nm")
        .args(["--extern-only", "--defined-only", "--format=posix"])
        .arg(archive)
        .output()
        .expect("nm, of the package binutils, lists the archive");
    let listing = String::from_utf8_lossy(&listing.stdout);
    let symbols: Vec<&str> = listing
        .lines()
        .filter_map(|line| line.split(' ').next())
        .filter_map(|symbol| symbol.strip_prefix("ringmatch_"))
        .collect();
    for call in CALLS.iter().filter(|call| symbols.contains(call)) {
        println!("cargo::rustc-cfg=has_{call}");
    }
    for symbol in symbols.iter().filter(|symbol| !CALLS.contains(symbol)) {
        println!("cargo::warning=ringmatch_{symbol} is exported and not compared");
    }
}
