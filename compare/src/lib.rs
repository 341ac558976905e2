//! The original Rust behind a plain interface, and what it takes to compare the port with it.

pub mod ast;
pub mod bounded;
pub mod calls;
pub mod checker;
pub mod emit;
pub mod equality;
pub mod expect;
pub mod generate;
pub mod grammar;
pub mod lent;
pub mod oracle;
pub mod paper;
pub mod port;
pub mod sheet;
pub mod writer;

/// The original, compiled from its own files and with its own style.
#[allow(clippy::all)]
#[cfg_attr(not(parser), allow(dead_code))]
pub mod automata {
    include!(concat!(env!("OUT_DIR"), "/automata/mod.rs"));

    pub mod access;
}
