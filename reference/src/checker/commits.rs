//! Demand 3, with paper 4 of document 02: a commit answers waits only while an
//! earlier transaction is in conflict, and committed only while there is none or
//! if the present attempt has written nothing.

use super::history::{Event, History};
use super::report::{Claim, Report};

pub(super) fn check(history: &History, report: &mut Report) {
    for (own, transaction) in history.transactions.iter().enumerate() {
        let blocked = |in_conflict: &[usize]| in_conflict.iter().any(|&other| other < own);
        for happening in &transaction.happenings {
            let claim = match &happening.event {
                Event::Waited { in_conflict, .. } if !blocked(in_conflict) => {
                    Claim::WaitsForEarlier
                }
                Event::Committed { in_conflict, read_only: false, .. } if blocked(in_conflict) => {
                    Claim::CommitsInTurn
                }
                _ => continue,
            };
            report.add(happening.call, claim, Some(own));
        }
    }
}
