//! One sheet and one lent list by a door and by the reference: the count, every
//! word of the list and what stands beside it, and every byte of the sheet.

use super::tally::Tally;
use crate::compared::lent::Fenced;
use crate::sheet::fill;
use std::fmt::{self, Display};

/// So many of the words that differ are told.
const TOLD: usize = 6;

/// Something that fills a lent list with the levels of a sheet, three words for
/// each task, and says how many tasks there are; 0 refuses.
pub trait Door {
    fn fill(&mut self, sheet: &[u8], list: &mut Fenced) -> usize;
}

/// A sheet and a list on which the door differs from the reference.
pub struct Difference {
    pub sheet: Vec<u8>,
    /// The list's length in words.
    pub length: usize,
    /// What differs.
    pub what: Vec<String>,
}

impl Display for Difference {
    fn fmt(&self, f: &mut fmt::Formatter) -> fmt::Result {
        writeln!(
            f,
            "with a list of {} words, a sheet of {} bytes:",
            self.length,
            self.sheet.len()
        )?;
        for line in self.sheet.split_inclusive(|&byte| byte == b'\n') {
            writeln!(f, "  {}", line.escape_ascii())?;
        }
        let (first, rest) = self.what.split_at(self.what.len().min(TOLD));
        write!(f, "{}", first.join("\n"))?;
        if rest.is_empty() {
            return Ok(());
        }
        write!(f, "\nand {} more", rest.len())
    }
}

/// Compares lists, and counts what it met.
pub struct Judge<D> {
    pub door: D,
    pub tally: Tally,
    list: Fenced,
}

impl<D: Door> Judge<D> {
    pub fn new(door: D) -> Judge<D> {
        Judge { door, tally: Tally::default(), list: Fenced::new() }
    }

    /// Lends both the sheet and a list that holds these words.
    pub fn lend(&mut self, sheet: &[u8], words: &[u32]) -> Result<(), Difference> {
        // A box has no byte after its last.
        let lent: Box<[u8]> = sheet.into();
        self.list.load(words);
        let told = self.door.fill(&lent, &mut self.list);
        let mut right = words.to_vec();
        let count = fill(sheet, &mut right);
        let what = self.differences(told, count, &right, *lent == *sheet);
        if what.is_empty() {
            return Ok(());
        }
        Err(Difference { sheet: sheet.to_vec(), length: words.len(), what })
    }

    /// What the door left otherwise than the reference.
    fn differences(&self, told: usize, count: usize, right: &[u32], kept: bool) -> Vec<String> {
        let mut what = Vec::new();
        if told != count {
            what.push(format!("count: {told}, not {count}"));
        }
        for (place, (word, right)) in self.list.words().iter().zip(right).enumerate() {
            if word != right {
                what.push(format!("word {place}: {word}, not {right}"));
            }
        }
        if !self.list.stands() {
            what.push("a word beside the list".to_string());
        }
        if !kept {
            what.push("a byte of the sheet".to_string());
        }
        what
    }
}
