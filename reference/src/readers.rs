//! What commits show of readers: of read-only transactions (paper 4 of document
//! 02), and of two that have read one card and written others. A wrong rule is
//! seen where another one would have answered otherwise.

use crate::answer::Answer;
use crate::call::Call;
use crate::record::{Core, Record, MAX_CORES};
use crate::set::only;

/// The cases, and what each is.
pub const CASES: [&str; 9] = [
    "committed with nothing written, past an earlier one in conflict",
    "committed with ten read and nothing written, past an earlier one in conflict",
    "waits, the first in the way has written nothing",
    "committed after a setback, read again and wrote in no attempt",
    "committed with nothing written, wrote in an earlier attempt",
    "committed with nothing touched, an earlier one has written",
    "waits, all that was written is the committed value",
    "committed with something written, past an earlier one that has read the same",
    "committed with something written, one that has read the same is not struck",
];

/// Follows the calls of a run.
#[derive(Clone, Copy, Debug, Default)]
pub struct ReaderCases {
    /// For each core whether its transaction has written, in any attempt.
    wrote: [bool; MAX_CORES],
}

impl ReaderCases {
    /// Which of the cases a call shows, by the record before it and the tables
    /// after it.
    pub fn see(
        &mut self,
        given: &Record,
        call: Call,
        answer: Answer,
        committed: &[u32],
        pending: &[u32],
    ) -> [bool; CASES.len()] {
        let none = [false; CASES.len()];
        let Some(core) = call.core().map(|core| core as usize).filter(|&core| core < MAX_CORES)
        else {
            return none;
        };
        match (call, answer) {
            (_, Answer::Begun(_)) => self.wrote[core] = false,
            (_, Answer::Written) => self.wrote[core] = true,
            (Call::Commit { .. }, Answer::Committed(aborts)) => {
                return self.committed(given, core, aborts)
            }
            (Call::Commit { .. }, Answer::Waits { core: first }) => {
                let for_reader = given.core[first as usize].read_only();
                let keeps = keeps_all(given, core, committed, pending);
                return [false, false, for_reader, false, false, false, keeps, false, false];
            }
            _ => {}
        }
        none
    }

    fn committed(&self, given: &Record, core: usize, aborts: u32) -> [bool; CASES.len()] {
        let own = &given.core[core];
        let some = |test: &dyn Fn(&Core) -> bool| given.transactions().any(test);
        let earlier_wrote = some(&|other| other.ticket < own.ticket && !other.read_only());
        let past = given.in_the_way(core).next().is_some();
        let shares = |other: &Core| other.read_set & own.read_set != 0;
        let struck = |other: &Core| other.data_set() & own.write_set != 0;
        let past_reader = some(&|other| other.ticket < own.ticket && shares(other));
        let spares = some(&|other| other.ticket != own.ticket && shares(other) && !struck(other));
        let (reads, wrote) = (own.read_only(), !own.read_only());
        [
            reads && past,
            reads && past && own.read_set.count_ones() >= 10,
            false,
            reads && aborts > 0 && own.read_set != 0 && !self.wrote[core],
            reads && self.wrote[core],
            reads && own.data_set() == 0 && earlier_wrote,
            false,
            wrote && past_reader,
            wrote && spares,
        ]
    }
}

/// Whether each word that the attempt wrote is the committed one.
fn keeps_all(given: &Record, core: usize, committed: &[u32], pending: &[u32]) -> bool {
    let written = |d: &usize| given.core[core].write_set & only(*d) != 0;
    let mut places = (0..committed.len()).filter(written);
    places.all(|d| pending[given.pending_place(core, d)] == committed[d])
}
