//! Stands in for the original's errors, of which its automata use these names alone.

pub mod error {
    //! The errors that the automata name.

    use crate::ast::{Rc, Term};
    use crate::automata::Trigger;

    /// An error of the theory of strings.
    #[derive(Debug)]
    pub enum StringError {
        ExpectedRangesToCalculateTheIntersection(Trigger, Trigger),
        ExpectedStringConstantInsideStrToRe(Rc<Term>),
        UnexpectedTermOnAutomatonConversion(Rc<Term>),
    }

    /// An error of the checker.
    #[derive(Debug)]
    pub enum CheckerError {
        String(StringError),
    }

    impl From<StringError> for CheckerError {
        fn from(error: StringError) -> CheckerError {
            CheckerError::String(error)
        }
    }
}
