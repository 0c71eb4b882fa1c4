//! Demand 2: the committed values handed to any one attempt, also one that was
//! struck, given up or is open, stood together after setup or after one commit,
//! and no later than the attempt's last read. A version is the count of commits
//! that wrote the object when it was read.

use super::history::{Event, Happening, History};
use super::report::{Claim, Report};
use super::tables::{Tables, Word};
use crate::set::{only, Set};

/// A read of a committed value.
struct Handed {
    call: usize,
    object: usize,
    value: u32,
    version: Option<u32>,
}

impl Handed {
    fn stood_in(&self, table: &[Word]) -> bool {
        let word = table[self.object];
        word.value == self.value && self.version.is_none_or(|version| version == word.version)
    }
}

pub(super) fn check(history: &History, tables: &Tables, report: &mut Report) {
    for (own, transaction) in history.transactions.iter().enumerate() {
        for attempt in transaction.attempts() {
            stood_together(own, &handed(attempt), tables, report);
            versions(own, attempt, tables, report);
        }
    }
}

/// The committed values that an attempt read: what it reads of its own writes
/// is not committed.
fn handed(attempt: &[Happening]) -> Vec<Handed> {
    let mut written: Set = 0;
    let mut handed = Vec::new();
    for happening in attempt {
        match happening.event {
            Event::Wrote { object, .. } => written |= only(object),
            Event::Read { object, value, version } if written & only(object) == 0 => {
                handed.push(Handed { call: happening.call, object, value, version })
            }
            _ => {}
        }
    }
    handed
}

fn stood_together(own: usize, handed: &[Handed], tables: &Tables, report: &mut Report) {
    let Some(last) = handed.last() else {
        return;
    };
    let all_in = |table: &[Word]| handed.iter().all(|read| read.stood_in(table));
    if !tables.before(last.call).any(all_in) {
        report.add(last.call, Claim::StoodTogether, Some(own));
    }
}

fn versions(own: usize, attempt: &[Happening], tables: &Tables, report: &mut Report) {
    for happening in attempt {
        let Event::Read { object, version: Some(version), .. } = happening.event else {
            continue;
        };
        let now = tables.before(happening.call).next();
        if now.is_some_and(|table| table[object].version != version) {
            report.add(happening.call, Claim::Versions, Some(own));
        }
    }
}
