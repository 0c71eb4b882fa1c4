//! Demand 3: set back is answered once after each strike, before any other
//! read, write or commit of the transaction is answered, and never without a
//! strike. The aborts that a commit reports are the strikes on it and the calls
//! of it that were answered set back.

use super::history::{Event, History, Transaction};
use super::report::{Claim, Report};

pub(super) fn check(history: &History, report: &mut Report) {
    for (own, transaction) in history.transactions.iter().enumerate() {
        check_one(own, transaction, report);
    }
}

fn check_one(own: usize, transaction: &Transaction, report: &mut Report) {
    let (mut strikes, mut told) = (0, 0);
    for happening in &transaction.happenings {
        let fits = match happening.event {
            Event::Struck { .. } => {
                strikes += 1;
                true
            }
            Event::Told => {
                told += 1;
                told <= strikes
            }
            Event::GaveUp | Event::Refused { .. } => true,
            _ => told >= strikes,
        };
        if !fits {
            report.add(happening.call, Claim::ToldOnce, Some(own));
        }
        if let Event::Committed { aborts, .. } = happening.event {
            if aborts != strikes || aborts != told {
                report.add(happening.call, Claim::AbortsReported, Some(own));
            }
        }
    }
}
