//! The part of nom 8's surface that the original's parser uses, each combinator handed to nom 7.
//!
//! nom 8 made `Parser` a trait with an associated output and lets a tuple be a parser; nom 7 has
//! `tuple` for that. Nothing is parsed here: each function turns its arguments into the closures
//! that nom 7 takes and passes them on.
#![cfg(found)]

extern crate nom7;

pub use nom7::IResult;

/// Something that reads from the front of an input.
pub trait Parser<I> {
    /// What it makes of what it read.
    type Output;

    /// Reads from the front of `input`.
    fn parse(&mut self, input: I) -> IResult<I, Self::Output>;
}

impl<I, O, F: FnMut(I) -> IResult<I, O>> Parser<I> for F {
    type Output = O;

    fn parse(&mut self, input: I) -> IResult<I, O> {
        self(input)
    }
}

/// A tuple of parsers reads one after the other.
macro_rules! tuple_parser {
    ($($parser:ident),+) => {
        impl<I: Clone, $($parser: Parser<I>),+> Parser<I> for ($($parser,)+) {
            type Output = ($($parser::Output,)+);

            #[allow(non_snake_case)]
            fn parse(&mut self, input: I) -> IResult<I, Self::Output> {
                let ($($parser,)+) = self;
                nom7::sequence::tuple(($(|rest| $parser.parse(rest),)+))(input)
            }
        }
    };
}

tuple_parser!(A, B);
tuple_parser!(A, B, C);

pub mod bytes {
    pub mod complete {
        use crate::IResult;

        pub fn tag<'a>(word: &'static str) -> impl FnMut(&'a str) -> IResult<&'a str, &'a str> {
            nom7::bytes::complete::tag(word)
        }

        pub fn take_while<'a>(
            keep: impl Fn(char) -> bool,
        ) -> impl FnMut(&'a str) -> IResult<&'a str, &'a str> {
            nom7::bytes::complete::take_while(keep)
        }
    }
}

pub mod character {
    pub mod complete {
        use crate::IResult;

        pub fn alpha1(input: &str) -> IResult<&str, &str> {
            nom7::character::complete::alpha1(input)
        }

        pub fn char<'a>(c: char) -> impl FnMut(&'a str) -> IResult<&'a str, char> {
            nom7::character::complete::char(c)
        }

        pub fn digit1(input: &str) -> IResult<&str, &str> {
            nom7::character::complete::digit1(input)
        }

        pub fn multispace0(input: &str) -> IResult<&str, &str> {
            nom7::character::complete::multispace0(input)
        }

        pub fn multispace1(input: &str) -> IResult<&str, &str> {
            nom7::character::complete::multispace1(input)
        }
    }
}

pub mod combinator {
    use crate::{IResult, Parser};

    pub fn map<I, F: Parser<I>, O>(
        mut parser: F,
        change: impl FnMut(F::Output) -> O,
    ) -> impl FnMut(I) -> IResult<I, O> {
        nom7::combinator::map(move |input| parser.parse(input), change)
    }

    pub fn map_res<I: Clone, F: Parser<I>, O, E>(
        mut parser: F,
        change: impl FnMut(F::Output) -> Result<O, E>,
    ) -> impl FnMut(I) -> IResult<I, O> {
        nom7::combinator::map_res(move |input| parser.parse(input), change)
    }

    pub fn recognize<'a, F: Parser<&'a str>>(
        mut parser: F,
    ) -> impl FnMut(&'a str) -> IResult<&'a str, &'a str> {
        nom7::combinator::recognize(move |input| parser.parse(input))
    }

    pub fn verify<I: Clone, F: Parser<I>>(
        mut parser: F,
        test: impl Fn(&F::Output) -> bool,
    ) -> impl FnMut(I) -> IResult<I, F::Output> {
        nom7::combinator::verify(move |input| parser.parse(input), test)
    }
}

pub mod multi {
    use crate::{IResult, Parser};

    pub fn many0<'a, F: Parser<&'a str>>(
        mut parser: F,
    ) -> impl FnMut(&'a str) -> IResult<&'a str, Vec<F::Output>> {
        nom7::multi::many0(move |input| parser.parse(input))
    }

    pub fn separated_list1<'a, S: Parser<&'a str>, F: Parser<&'a str>>(
        mut separator: S,
        mut parser: F,
    ) -> impl FnMut(&'a str) -> IResult<&'a str, Vec<F::Output>> {
        nom7::multi::separated_list1(
            move |input| separator.parse(input),
            move |input| parser.parse(input),
        )
    }
}

pub mod sequence {
    use crate::{IResult, Parser};

    pub fn delimited<I, F: Parser<I>, G: Parser<I>, H: Parser<I>>(
        mut before: F,
        mut parser: G,
        mut after: H,
    ) -> impl FnMut(I) -> IResult<I, G::Output> {
        nom7::sequence::delimited(
            move |input| before.parse(input),
            move |input| parser.parse(input),
            move |input| after.parse(input),
        )
    }

    pub fn pair<I, F: Parser<I>, G: Parser<I>>(
        mut first: F,
        mut second: G,
    ) -> impl FnMut(I) -> IResult<I, (F::Output, G::Output)> {
        nom7::sequence::pair(
            move |input| first.parse(input),
            move |input| second.parse(input),
        )
    }

    pub fn preceded<I, F: Parser<I>, G: Parser<I>>(
        mut before: F,
        mut parser: G,
    ) -> impl FnMut(I) -> IResult<I, G::Output> {
        nom7::sequence::preceded(
            move |input| before.parse(input),
            move |input| parser.parse(input),
        )
    }

    pub fn separated_pair<I, F: Parser<I>, G: Parser<I>, H: Parser<I>>(
        mut first: F,
        mut between: G,
        mut second: H,
    ) -> impl FnMut(I) -> IResult<I, (F::Output, H::Output)> {
        nom7::sequence::separated_pair(
            move |input| first.parse(input),
            move |input| between.parse(input),
            move |input| second.parse(input),
        )
    }

    pub fn terminated<I, F: Parser<I>, G: Parser<I>>(
        mut parser: F,
        mut after: G,
    ) -> impl FnMut(I) -> IResult<I, F::Output> {
        nom7::sequence::terminated(
            move |input| parser.parse(input),
            move |input| after.parse(input),
        )
    }
}
