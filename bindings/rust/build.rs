//! Links the static library that `tools/archive` puts below `target` at the top of the repository, or the one that the variable
//! RINGMATCH_LIB names.

use std::path::PathBuf;

fn main() {
    println!("cargo::rerun-if-env-changed=RINGMATCH_LIB");
    let top = PathBuf::from(std::env::var("CARGO_MANIFEST_DIR").expect("cargo names the folder"));
    let archive = std::env::var("RINGMATCH_LIB")
        .map_or_else(|_| top.join("../../target/staticlib/libringmatch.a"), PathBuf::from);
    println!("cargo::rerun-if-changed={}", archive.display());
    assert!(
        archive.is_file(),
        "{} is missing: run `tools/archive`, or name the archive in RINGMATCH_LIB",
        archive.display()
    );
    let folder = archive.parent().expect("an archive stands in a folder");
    println!("cargo::rustc-link-search=native={}", folder.display());
    println!("cargo::rustc-link-lib=static=ringmatch");
}
