//! What a door is lent: words with a fence on each side, which no call touches.

use super::words::{Told, RECORD_WORDS, WORDS};

/// Words on each side.
const FENCE: usize = 4;
/// What stands in them.
const POST: u32 = 0xfe9c_e5fe;

/// Words between two fences.
pub struct Fenced {
    words: Vec<u32>,
}

impl Fenced {
    /// No words yet.
    pub fn new() -> Fenced {
        Fenced { words: vec![POST; 2 * FENCE] }
    }

    /// Fences these words, and nothing else.
    pub fn load(&mut self, words: &[u32]) {
        self.words.clear();
        self.words.extend_from_slice(&[POST; FENCE]);
        self.words.extend_from_slice(words);
        self.words.extend_from_slice(&[POST; FENCE]);
    }

    /// The words between the fences.
    pub fn words(&self) -> &[u32] {
        &self.words[FENCE..self.words.len() - FENCE]
    }

    /// The same, to be lent.
    pub fn lend(&mut self) -> &mut [u32] {
        let end = self.words.len() - FENCE;
        &mut self.words[FENCE..end]
    }

    /// The word before the words, and the one after them.
    pub fn posts(&mut self) -> [&mut u32; 2] {
        let end = self.words.len() - FENCE;
        let (before, after) = self.words.split_at_mut(end);
        [&mut before[FENCE - 1], &mut after[0]]
    }

    /// Whether both fences stand.
    pub fn stands(&self) -> bool {
        let end = self.words.len() - FENCE;
        self.words[..FENCE].iter().chain(&self.words[end..]).all(|&word| word == POST)
    }
}

impl Default for Fenced {
    fn default() -> Fenced {
        Fenced::new()
    }
}

/// The record, with the places for the answer's values, and the two tables.
#[derive(Default)]
pub struct Lent {
    pub record: Fenced,
    pub committed: Fenced,
    pub pending: Fenced,
}

impl Lent {
    pub fn load(&mut self, record: &[u32; RECORD_WORDS], committed: &[u32], pending: &[u32]) {
        let mut words = [0; WORDS];
        words[..RECORD_WORDS].copy_from_slice(record);
        self.record.load(&words);
        self.committed.load(committed);
        self.pending.load(pending);
    }

    /// The answer of this kind with the values that stand after the record.
    pub fn told(&self, kind: u32) -> Told {
        let words = self.record.words();
        Told { kind, values: [words[RECORD_WORDS], words[RECORD_WORDS + 1]] }
    }
}
