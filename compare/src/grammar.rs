//! The grammar of patterns, written from document 01's words.
//!
//! It is used beside the original's parser, and alone where nom is missing.

use std::collections::HashSet;

use crate::sheet::{MAX_NAME, RANGE, Sheet};

/// A pattern as its text gives it.
#[derive(Debug, PartialEq, Eq)]
pub struct Pattern<'a> {
    pub name: &'a [u8],
    pub initial: &'a [u8],
    pub transitions: Vec<Transition<'a>>,
    pub accepting: Vec<&'a [u8]>,
}

/// A transition of a pattern.
#[derive(Debug, PartialEq, Eq)]
pub struct Transition<'a> {
    pub from: &'a [u8],
    pub to: &'a [u8],
    pub first: u32,
    pub last: u32,
}

/// A place in a text. Each piece of the grammar answers what it read, or nothing.
#[derive(Clone)]
struct Cursor<'a> {
    text: &'a [u8],
    at: usize,
}

impl<'a> Cursor<'a> {
    /// The bytes from here on that `keep` holds of.
    fn while_(&mut self, keep: impl Fn(u8) -> bool) -> &'a [u8] {
        let rest = &self.text[self.at..];
        let length = rest.iter().position(|&byte| !keep(byte)).unwrap_or(rest.len());
        self.at += length;
        &rest[..length]
    }

    fn token(&mut self, token: &str) -> Option<()> {
        self.text[self.at..].starts_with(token.as_bytes()).then(|| self.at += token.len())
    }

    /// Blank, tab, CR, LF, any number.
    fn space(&mut self) -> &mut Self {
        self.while_(|byte| b" \t\r\n".contains(&byte));
        self
    }

    /// Blank, tab, CR, LF, one or more.
    fn needed_space(&mut self) -> Option<()> {
        let before = self.at;
        (self.space().at > before).then_some(())
    }

    /// An ASCII letter, then letters, digits, `_`; at most 64 bytes.
    fn name(&mut self) -> Option<&'a [u8]> {
        self.text.get(self.at).filter(|byte| byte.is_ascii_alphabetic())?;
        let name = self.while_(|byte| byte.is_ascii_alphanumeric() || byte == b'_');
        (name.len() <= MAX_NAME).then_some(name)
    }

    /// Digits that fit u32, leading zeros allowed.
    fn number(&mut self) -> Option<u32> {
        let digits = self.while_(|byte| byte.is_ascii_digit());
        let value = digits.iter().try_fold(0u32, |value, digit| {
            value.checked_mul(10)?.checked_add((digit - b'0') as u32)
        });
        value.filter(|_| !digits.is_empty())
    }

    /// `a -> b [first, last];`
    fn transition(&mut self) -> Option<Transition<'a>> {
        let from = self.name()?;
        self.space().token("->")?;
        let to = self.space().name()?;
        self.space().token("[")?;
        let first = self.space().number()?;
        self.space().token(",")?;
        let last = self.space().number()?;
        self.token("]")?;
        self.token(";")?;
        (first <= last).then_some(Transition { from, to, first, last })
    }

    /// `accepting` space names by commas `;`
    fn accepting(&mut self) -> Option<Vec<&'a [u8]>> {
        self.token("accepting")?;
        self.needed_space()?;
        let mut names = vec![self.name()?];
        // A space is read only where a comma follows it.
        while let Some(mut after) = self.comma() {
            names.push(after.space().name()?);
            *self = after;
        }
        self.token(";")?;
        Some(names)
    }

    /// The place behind optional space and a comma.
    fn comma(&self) -> Option<Cursor<'a>> {
        let mut after = self.clone();
        after.space().token(",")?;
        Some(after)
    }

    /// The whole pattern.
    fn pattern(&mut self) -> Option<Pattern<'a>> {
        self.token("automaton")?;
        self.needed_space()?;
        let name = self.name()?;
        self.space().token("{")?;
        self.space().token("init")?;
        self.needed_space()?;
        let initial = self.name()?;
        self.token(";")?;
        let mut transitions = Vec::new();
        let accepting = loop {
            self.space();
            // A transition may start at a state called `accepting`, so it is tried first.
            let mut after = self.clone();
            match after.transition() {
                Some(transition) => transitions.push(transition),
                None => break self.accepting()?,
            }
            *self = after;
        };
        self.space().token("}")?;
        self.token(";")?;
        Some(Pattern { name, initial, transitions, accepting })
    }
}

/// The pattern at the front of a text, and the number of bytes read.
pub fn read(text: &[u8]) -> Option<(Pattern<'_>, usize)> {
    let mut cursor = Cursor { text, at: 0 };
    let pattern = cursor.pattern()?;
    Some((pattern, cursor.at))
}

/// Whether some accepting name is no state.
pub fn misspelt(pattern: &Pattern) -> bool {
    let states: HashSet<&[u8]> =
        pattern.transitions.iter().flat_map(|t| [t.from, t.to]).chain([pattern.initial]).collect();
    pattern.accepting.iter().any(|name| !states.contains(name))
}

/// A pattern's sheet and labels: states number by appearance, the initial one first.
pub fn automaton(pattern: &Pattern) -> (Sheet, Vec<Vec<u8>>) {
    let mut labels: Vec<Vec<u8>> = Vec::new();
    let mut number = |name: &[u8]| {
        let known = labels.iter().position(|label| label == name);
        known.unwrap_or_else(|| {
            labels.push(name.to_vec());
            labels.len() - 1
        }) as u32
    };
    let start = number(pattern.initial);
    let records = pattern.transitions.iter().map(|t| {
        let from = number(t.from);
        [from, RANGE, t.first, t.last, number(t.to)]
    });
    let records = records.collect();
    let accept =
        labels.iter().map(|label| pattern.accepting.contains(&label.as_slice()) as u32).collect();
    let mut sheet = Sheet { start, accept, records };
    sheet.sort();
    (sheet, labels)
}
