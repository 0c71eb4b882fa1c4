//! Demand 3: a transaction is struck at most k times, k being the number of
//! transactions in progress at its begin, and never by a later one.

use super::history::{Event, History};
use super::report::{Claim, Report};

pub(super) fn check(history: &History, report: &mut Report) {
    for (own, transaction) in history.transactions.iter().enumerate() {
        let mut strikes = 0;
        for happening in &transaction.happenings {
            let Event::Struck { by } = happening.event else {
                continue;
            };
            strikes += 1;
            if strikes > transaction.contenders.len() {
                report.add(happening.call, Claim::StrikesAtMostK, Some(own));
            }
            if by > own {
                report.add(happening.call, Claim::StruckByEarlier, Some(own));
            }
        }
    }
}
