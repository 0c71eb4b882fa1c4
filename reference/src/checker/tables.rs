//! The committed values and versions after setup and after each commit, as
//! the calls and answers give them.

use super::history::{Event, History};
use super::Run;

/// An object's committed value and the count of commits that wrote it.
#[derive(Clone, Copy, Debug, Default, PartialEq, Eq)]
pub(super) struct Word {
    pub value: u32,
    pub version: u32,
}

/// One table for the setup and one more for each commit.
pub(super) struct Tables {
    stood: Vec<Vec<Word>>,
    commit_calls: Vec<usize>,
}

impl Tables {
    /// Stores the writes of each committed last attempt in turn.
    pub(super) fn of(run: &Run, history: &History) -> Tables {
        let mut tables = Tables {
            stood: vec![vec![Word::default(); run.objects as usize]],
            commit_calls: Vec::new(),
        };
        for &committed in &history.commits {
            let transaction = &history.transactions[committed];
            let before = &tables.stood[tables.stood.len() - 1];
            let mut after = before.clone();
            for happening in transaction.attempts().last().into_iter().flatten() {
                if let Event::Wrote { object, value } = happening.event {
                    after[object].value = value;
                    after[object].version = before[object].version + 1;
                }
            }
            tables.stood.push(after);
            tables.commit_calls.extend(transaction.end);
        }
        tables
    }

    /// The tables that stood before this call, the newest first.
    pub(super) fn before(&self, call: usize) -> impl Iterator<Item = &[Word]> {
        let commits = self.commit_calls.partition_point(|&commit| commit < call);
        self.stood[..=commits].iter().rev().map(Vec::as_slice)
    }
}
