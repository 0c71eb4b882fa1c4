//! Demand 3, the bound: a transaction T that is not given up commits within
//! (k + 1) x (L + 2) rounds. L is the greatest number of reads and writes in
//! any attempt of T and of the k in progress at its begin, over the whole run.
//!
//! The rounds may lie anywhere after the begin and need not touch; the checker
//! counts the most that fit apart from each other. A round started later never
//! ends sooner: whoever must still act in it must act in the one started
//! before too, at that call or an earlier one. So it is best to start a round
//! at once, end it as soon as all have acted, and start the next.

use super::history::{Event, Happening, History, Transaction};
use super::report::{Claim, Nearest, Report};

pub(super) fn check(history: &History, report: &mut Report) {
    for (own, transaction) in history.transactions.iter().enumerate() {
        let gave_up = |happening: &Happening| matches!(happening.event, Event::GaveUp);
        if transaction.happenings.iter().any(gave_up) {
            continue;
        }
        let mut group = transaction.contenders.clone();
        group.push(own);
        let bound = group.len() as u64 * (longest(history, &group) + 2);
        let ends = round_ends(history, transaction, &group);
        if let Some(&call) = ends.get(bound as usize - 1) {
            report.add(call, Claim::RoundsBound, Some(own));
        }
        let nearest =
            Nearest { rounds: ends.len() as u64 + u64::from(transaction.end.is_some()), bound };
        report.nearest = Some(report.nearest.map_or(nearest, |old| old.nearer(nearest)));
    }
}

/// L: the most reads and writes in any attempt of the group.
fn longest(history: &History, group: &[usize]) -> u64 {
    let attempts = group.iter().flat_map(|&member| history.transactions[member].attempts());
    attempts.map(reads_and_writes).max().unwrap_or(0)
}

fn reads_and_writes(attempt: &[Happening]) -> u64 {
    let counts = |happening: &&Happening| {
        matches!(happening.event, Event::Read { .. } | Event::Wrote { .. })
    };
    attempt.iter().filter(counts).count() as u64
}

/// The last calls of the rounds that fit while the transaction is in progress.
fn round_ends(history: &History, transaction: &Transaction, group: &[usize]) -> Vec<usize> {
    let must_act = |call| {
        let in_progress = |&member: &usize| history.transactions[member].in_progress_at(call);
        group.iter().copied().filter(in_progress).collect::<Vec<_>>()
    };
    let end = transaction.end.unwrap_or(history.acts.len());
    let mut ends = Vec::new();
    let mut lacking = must_act(transaction.begin + 1);
    for call in transaction.begin + 1..end {
        lacking.retain(|&member| history.acts[call] != Some(member));
        if lacking.is_empty() {
            ends.push(call);
            lacking = must_act(call + 1);
        }
    }
    ends
}

#[cfg(test)]
mod tests {
    use super::*;
    use crate::contended::Contention;
    use crate::machine::Machine;

    /// Whether the stretch from first to last, both included, is a round.
    fn is_round(history: &History, group: &[usize], first: usize, last: usize) -> bool {
        let acts = &history.acts[first..=last];
        let fits = |&member: &usize| {
            !history.transactions[member].in_progress_at(first) || acts.contains(&Some(member))
        };
        group.iter().all(fits)
    }

    /// The most rounds that lie apart, found by trying every stretch.
    fn most_rounds(history: &History, transaction: &Transaction, group: &[usize]) -> usize {
        let end = transaction.end.unwrap_or(history.acts.len());
        let mut most = vec![0; end + 1];
        for first in (transaction.begin + 1..end).rev() {
            let rounds = (first..end).filter(|&last| is_round(history, group, first, last));
            let with = rounds.map(|last| 1 + most[last + 1]).max();
            most[first] = most[first + 1].max(with.unwrap_or(0));
        }
        most[(transaction.begin + 1).min(end)]
    }

    #[test]
    fn no_choice_of_stretches_gives_more_rounds() {
        for seed in 0..300 {
            let run = Contention::new(seed).run(&mut Machine::blank(), 60);
            let history = History::of(&run);
            for (own, transaction) in history.transactions.iter().enumerate() {
                let mut group = transaction.contenders.clone();
                group.push(own);
                let counted = round_ends(&history, transaction, &group).len();
                assert_eq!(counted, most_rounds(&history, transaction, &group));
            }
        }
    }
}
