//! Paper 4 of document 02: an unmarked read-only attempt ends with its own commit
//! when that is requested: it never waits, and it is not refused. That it is not
//! set back either without a strike that was not told is checked in `told`.

use super::history::{Event, History};
use super::report::{Claim, Report};

pub(super) fn check(history: &History, report: &mut Report) {
    for (own, transaction) in history.transactions.iter().enumerate() {
        for happening in &transaction.happenings {
            let claim = match happening.event {
                Event::Waited { read_only: true, .. } => Claim::ReadOnlyNeverWaits,
                Event::Refused { read_only: true } => Claim::ReadOnlyNeverRefused,
                _ => continue,
            };
            report.add(happening.call, claim, Some(own));
        }
    }
}
