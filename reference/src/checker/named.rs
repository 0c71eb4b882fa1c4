//! Demand 3, with paper 1 of document 02: whom waits names is in progress, was
//! begun earlier than the one that waits and is in conflict with it, and of all
//! such none was begun before the one named.

use super::history::{Event, History};
use super::report::{Claim, Report};

pub(super) fn check(history: &History, report: &mut Report) {
    for (own, transaction) in history.transactions.iter().enumerate() {
        for happening in &transaction.happenings {
            let Event::Waited { named, in_conflict, .. } = &happening.event else {
                continue;
            };
            for claim in broken(own, *named, in_conflict) {
                report.add(happening.call, claim, Some(own));
            }
        }
    }
}

/// The parts that do not hold, each tested alone. If nobody is in progress on
/// the core named, there is nobody to say more of.
fn broken(own: usize, named: Option<usize>, in_conflict: &[usize]) -> Vec<Claim> {
    let Some(named) = named else {
        return vec![Claim::NamedInProgress];
    };
    let before = |&other: &usize| other < own && other < named;
    let parts = [
        (Claim::NamedEarlier, named < own),
        (Claim::NamedInConflict, in_conflict.contains(&named)),
        (Claim::NamedFirst, !in_conflict.iter().any(before)),
    ];
    parts.into_iter().filter(|(_, holds)| !holds).map(|(claim, _)| claim).collect()
}
