//! Compiles nom 7 and the two crates it needs from the Debian package `librust-nom-dev`, where that is installed.
//!
//! Cargo itself would ask for the package even where the parser is left out, since it resolves optional dependencies too.
//! So the three crates are handed to rustc here, and where they are missing this crate is empty.

use std::path::{Path, PathBuf};
use std::process::Command;
use std::{env, fs};

/// Where Debian's packages put the sources of Rust crates.
const REGISTRY: &str = "/usr/share/cargo/registry";

/// A crate as rustc is told of it.
struct Source {
    name: &'static str,
    /// What the name of its folder starts with.
    folder: &'static str,
    features: &'static [&'static str],
    /// Crates compiled before it that it uses.
    uses: &'static [&'static str],
}

const CRATES: [Source; 3] = [
    Source {
        name: "memchr",
        folder: "memchr-2.",
        features: &["std"],
        uses: &[],
    },
    Source {
        name: "minimal_lexical",
        folder: "minimal-lexical-0.2.",
        features: &["std"],
        uses: &[],
    },
    Source {
        name: "nom7",
        folder: "nom-7.",
        features: &["std", "alloc"],
        uses: &["memchr", "minimal_lexical"],
    },
];

fn main() {
    println!("cargo::rustc-check-cfg=cfg(found)");
    println!("cargo::rerun-if-changed=build.rs");
    println!("cargo::rerun-if-changed={REGISTRY}");
    let out = PathBuf::from(env::var_os("OUT_DIR").expect("cargo sets OUT_DIR"));
    for source in &CRATES {
        let Some(root) = root(source.folder) else {
            return;
        };
        if !compile(source, &root, &out) {
            println!("cargo::warning=could not compile {}", root.display());
            return;
        }
    }
    println!("cargo::rustc-link-search=all={}", out.display());
    println!("cargo::rustc-cfg=found");
    println!("cargo::metadata=found=1");
}

/// The root file of the crate whose folder starts with `prefix`.
fn root(prefix: &str) -> Option<PathBuf> {
    fs::read_dir(REGISTRY)
        .ok()?
        .filter_map(Result::ok)
        .find(|entry| entry.file_name().to_string_lossy().starts_with(prefix))
        .map(|entry| entry.path().join("src/lib.rs"))
}

/// Compiles one crate into `out`, without its own warnings.
fn compile(source: &Source, root: &Path, out: &Path) -> bool {
    let mut rustc = Command::new(env::var_os("RUSTC").expect("cargo sets RUSTC"));
    rustc
        .args(["--crate-name", source.name, "--crate-type", "rlib"])
        .args(["--edition", "2018", "-C", "opt-level=3", "--cap-lints", "allow"])
        .arg("-L")
        .arg(out)
        .arg("--out-dir")
        .arg(out)
        .arg(root);
    for feature in source.features {
        rustc.arg("--cfg").arg(format!("feature=\"{feature}\""));
    }
    for name in source.uses {
        // By path: the compiler's own library has a crate named memchr too.
        let rlib = out.join(format!("lib{name}.rlib"));
        rustc.arg("--extern").arg(format!("{name}={}", rlib.display()));
    }
    rustc.status().is_ok_and(|status| status.success())
}
