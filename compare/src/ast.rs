//! Stands in for the original's syntax trees, of which its automata use these names alone.
//!
//! They serve the conversion of regular expressions, which is not compared.

pub use std::rc::Rc;

use crate::automata::Automaton;

/// A constant of a term.
#[derive(Debug, Clone)]
pub enum Constant {
    String(String),
    RegLan(String, Automaton),
}

/// An operator on regular expressions.
#[derive(Debug, Clone)]
pub enum Operator {
    ReAll,
    ReAllChar,
    ReComplement,
    ReConcat,
    ReDiff,
    ReIntersection,
    ReKleeneClosure,
    ReKleeneCross,
    ReNone,
    ReOption,
    ReRange,
    ReUnion,
    StrToRe,
}

/// A term.
#[derive(Debug, Clone)]
pub enum Term {
    Const(Constant),
    Op(Operator, Vec<Rc<Term>>),
}

impl Term {
    /// A string constant.
    pub fn new_string(s: &str) -> Term {
        Term::Const(Constant::String(s.to_owned()))
    }
}

pub mod pool {
    //! Stands in for the store of terms.

    use super::{Rc, Term};

    /// A store of terms; this one shares nothing.
    #[derive(Debug, Default)]
    pub struct Pool;

    impl Pool {
        /// Puts a term into the store.
        pub fn add(&mut self, term: Term) -> Rc<Term> {
            Rc::new(term)
        }
    }
}
