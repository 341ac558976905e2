//! Sheets and label lists as plain values, and their written form by document 01.

/// The most states of a sheet.
pub const MAX_STATES: usize = 256;
/// The most transitions of a sheet.
pub const MAX_RECORDS: usize = 2048;
/// The longest label, and the longest name of the grammar.
pub const MAX_NAME: usize = 64;
/// The words that an output sheet must be lent.
pub const OUT_WORDS: usize = 10_500;
/// The bytes that output labels must be lent.
pub const OUT_BYTES: usize = 16_642;
/// The words that a difference word must be lent.
pub const DIFFERENCE_WORDS: usize = 510;
/// The bytes that a text must be lent, and the longest text.
pub const TEXT_BYTES: usize = 65_536;

/// Kind of a record that reads no symbol.
pub const EPSILON: u32 = 0;
/// Kind of a record that reads one symbol of a range.
pub const RANGE: u32 = 1;

/// A transition as five words: from, kind, first, last, to.
pub type Record = [u32; 5];

/// An automaton as a sheet has it. The counts may lie above the limits.
#[derive(Clone, Debug, Default, PartialEq, Eq)]
pub struct Sheet {
    pub start: u32,
    pub accept: Vec<u32>,
    pub records: Vec<Record>,
}

impl Sheet {
    /// The number of states.
    pub fn states(&self) -> usize {
        self.accept.len()
    }

    /// The sheet's words.
    pub fn words(&self) -> Vec<u32> {
        let mut words = vec![1, self.start, self.accept.len() as u32];
        words.extend(&self.accept);
        words.push(self.records.len() as u32);
        words.extend(self.records.iter().flatten());
        words
    }

    /// The sheet that stands in words in which `paper::sheet_fault` finds no fault.
    pub fn read(words: &[u32]) -> Sheet {
        let states = words[2] as usize;
        let (accept, records) = words[3..].split_at(states);
        Sheet {
            start: words[1],
            accept: accept.to_vec(),
            records: records[1..].as_chunks().0.to_vec(),
        }
    }

    /// The records of one state.
    pub fn run(&self, state: usize) -> &[Record] {
        let first = self.records.partition_point(|r| (r[0] as usize) < state);
        let end = self.records.partition_point(|r| (r[0] as usize) <= state);
        &self.records[first..end]
    }

    /// Puts the records in ascending order, each once.
    pub fn sort(&mut self) {
        self.records.sort_unstable();
        self.records.dedup();
    }
}

/// A label list's bytes.
pub fn write_labels(labels: &[Vec<u8>]) -> Vec<u8> {
    let mut bytes = (labels.len() as u16).to_le_bytes().to_vec();
    for label in labels {
        bytes.push(label.len() as u8);
        bytes.extend(label);
    }
    bytes
}

/// The labels of a list in which `paper::labels_fault` finds no fault.
pub fn read_labels(bytes: &[u8]) -> Vec<Vec<u8>> {
    let mut labels = Vec::new();
    let mut rest = &bytes[2..];
    while let Some((&length, after)) = rest.split_first() {
        let (label, after) = after.split_at(length as usize);
        labels.push(label.to_vec());
        rest = after;
    }
    labels
}

/// Labels for calls that are given none.
pub fn plain_labels(states: usize) -> Vec<Vec<u8>> {
    (0..states).map(|i| format!("s{i}").into_bytes()).collect()
}
