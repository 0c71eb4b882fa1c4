//! commit: the commit rule, as paper 4 of document 02 amends it for read-only
//! transactions.

use super::admit::Admitted;
use crate::answer::Answer;
use crate::record::Record;
use crate::set::{only, Set};

impl Record {
    /// Set back for a zombie. One with an empty write set commits when requested,
    /// whatever earlier ones in progress have written; for any other the answer is
    /// waits if a conflicting transaction has a smaller ticket, with the core of
    /// the smallest, and nothing else changes. Otherwise committed with the count
    /// of aborts (setbacks).
    pub fn commit(mut self, core: u32, committed: &mut [u32], pending: &[u32]) -> (Answer, Record) {
        let c = match self.admit_commit(core, committed, pending) {
            Ok(c) => c,
            Err(number) => return (Answer::Refused(number), self),
        };
        if self.core[c].zombie {
            return self.tell_set_back(c);
        }
        if !self.core[c].read_only() {
            if let Some(first) = self.first_in_the_way(c) {
                return (Answer::Waits { core: first as u32 }, self);
            }
        }
        let ending = self.core[c];
        self.core[c] = ending.without_transaction();
        self.commits += 1;
        self.publish(c, ending.write_set, committed, pending);
        self.strike(ending.write_set);
        (Answer::Committed(ending.aborts), self)
    }

    fn admit_commit(&self, core: u32, committed: &[u32], pending: &[u32]) -> Admitted<usize> {
        self.admit_sound()?;
        self.admit_tables(committed, pending)?;
        let c = self.admit_core(core)?;
        self.admit_in_progress(c)?;
        Ok(c)
    }

    /// The core with the smallest conflicting ticket, if that is smaller than
    /// this core's own.
    fn first_in_the_way(&self, core: usize) -> Option<usize> {
        self.in_the_way(core).min_by_key(|&other| self.core[other].ticket)
    }

    /// The cores that hold a conflicting transaction with a smaller ticket.
    pub fn in_the_way(&self, core: usize) -> impl Iterator<Item = usize> + '_ {
        let own = &self.core[core];
        (0..self.present().len()).filter(|&place| {
            let other = &self.core[place];
            other.in_progress && other.ticket < own.ticket && own.conflicts_with(other)
        })
    }

    /// The write set's pending values become committed; each written object's
    /// version rises by one, also when the value is equal.
    fn publish(&mut self, core: usize, write_set: Set, committed: &mut [u32], pending: &[u32]) {
        for object in (0..committed.len()).filter(|&d| write_set & only(d) != 0) {
            committed[object] = pending[self.pending_place(core, object)];
            self.versions[object] += 1;
        }
    }

    /// Every transaction whose data set meets the write set is set back. The
    /// one that committed has left its core before.
    fn strike(&mut self, write_set: Set) {
        for other in self.core.iter_mut() {
            if other.data_set() & write_set != 0 {
                other.read_set = 0;
                other.write_set = 0;
                other.aborts += 1;
                other.zombie = true;
            }
        }
    }
}
