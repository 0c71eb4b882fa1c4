//! One call by a door and by the reference: the answer, every field of the
//! record, every word of both tables and what stands beside them.

use super::lent::{Fenced, Lent};
use super::tally::Tally;
use super::words::{name_of, spell, Told, RECORD_WORDS};
use crate::answer::Answer;
use crate::call::Call;
use crate::machine::dispatch;
use crate::record::Record;
use std::fmt::{self, Display};

/// Something that makes a call on what it is lent, and says the answer's kind;
/// the answer's values and the record after the call stand in the words then.
pub trait Door {
    fn call(&mut self, given: &Record, call: Call, lent: &mut Lent) -> u32;
}

/// The record and the two tables.
#[derive(Clone)]
pub struct World {
    pub record: Record,
    pub committed: Vec<u32>,
    pub pending: Vec<u32>,
}

/// A call on which the door differs from the reference.
pub struct Difference {
    /// How the call came about.
    pub part: &'static str,
    pub given: Box<Record>,
    pub call: Call,
    /// The lengths of the two tables.
    pub lengths: (usize, usize),
    /// What differs.
    pub what: Vec<String>,
}

impl Display for Difference {
    fn fmt(&self, f: &mut fmt::Formatter) -> fmt::Result {
        let (committed, pending) = self.lengths;
        writeln!(f, "{}: {:?}, tables of {committed} and {pending} words", self.part, self.call)?;
        for what in &self.what {
            writeln!(f, "  {what}")?;
        }
        write!(f, "on the record {:?}", self.given)
    }
}

/// Compares calls, and counts what it met.
pub struct Judge<D> {
    pub door: D,
    pub tally: Tally,
    lent: Lent,
}

impl<D: Door> Judge<D> {
    pub fn new(door: D) -> Judge<D> {
        Judge { door, tally: Tally::default(), lent: Lent::default() }
    }

    /// Makes the call by both on this world, which is then as the reference
    /// left it.
    pub fn call(
        &mut self,
        part: &'static str,
        world: &mut World,
        call: Call,
    ) -> Result<Answer, Difference> {
        let given = world.record;
        let lengths = (world.committed.len(), world.pending.len());
        self.lent.load(&spell(&given), &world.committed, &world.pending);
        let kind = self.door.call(&given, call, &mut self.lent);
        let (answer, after) = dispatch(given, call, &mut world.committed, &mut world.pending);
        world.record = after;
        let told = self.lent.told(kind);
        if let Some(what) = self.differences(told, answer.into(), world) {
            return Err(Difference { part, given: Box::new(given), call, lengths, what });
        }
        self.tally.count(part, &given, call, answer, world);
        Ok(answer)
    }

    /// What the door left otherwise than the reference.
    fn differences(&self, told: Told, answer: Told, after: &World) -> Option<Vec<String>> {
        let right = spell(&after.record);
        let alike = told == answer
            && self.lent.record.words()[..RECORD_WORDS] == right
            && self.lent.committed.words() == after.committed
            && self.lent.pending.words() == after.pending
            && self.fences().into_iter().all(|(_, fenced)| fenced.stands());
        if alike {
            return None;
        }
        let mut what = Vec::new();
        if told != answer {
            what.push(format!("answer: {told:?}, the reference's {answer:?}"));
        }
        let words = &self.lent.record.words()[..RECORD_WORDS];
        what.extend(unlike(words, &right, name_of));
        what.extend(unlike(self.lent.committed.words(), &after.committed, |place| {
            format!("committed word {place}")
        }));
        what.extend(unlike(self.lent.pending.words(), &after.pending, |place| {
            format!("pending word {place}")
        }));
        for (name, fenced) in self.fences() {
            if !fenced.stands() {
                what.push(format!("a word beside the {name}"));
            }
        }
        Some(what)
    }

    fn fences(&self) -> [(&'static str, &Fenced); 3] {
        let Lent { record, committed, pending } = &self.lent;
        [("record", record), ("committed values", committed), ("pending values", pending)]
    }
}

/// Each place where words differ, with both.
fn unlike(words: &[u32], right: &[u32], name: impl Fn(usize) -> String) -> Vec<String> {
    let pairs = words.iter().zip(right).enumerate();
    let differ = pairs.filter(|(_, (word, right))| word != right);
    differ.map(|(place, (word, right))| format!("{}: {word}, not {right}", name(place))).collect()
}
