//! Demand 2: the committed last attempts run one by one, in the order of their
//! commits, over a table of their own that starts from zeros. Every read gives
//! what the run answered, own writes included, and the table after each commit
//! is the machine's, word for word, where the machine's is known.

use super::history::{Event, Happening, History};
use super::report::{Claim, Report};
use super::Run;

pub(super) fn check(run: &Run, history: &History, report: &mut Report) {
    let mut table = vec![0; run.objects as usize];
    for (place, &own) in history.commits.iter().enumerate() {
        let transaction = &history.transactions[own];
        for happening in transaction.attempts().last().into_iter().flatten() {
            if !replay(&mut table, happening) {
                report.add(happening.call, Claim::SerialReads, Some(own));
            }
        }
        let known = run.tables.as_ref().and_then(|tables| tables.get(place));
        if known.is_some_and(|known| *known != table) {
            let call = transaction.end.unwrap_or(transaction.begin);
            report.add(call, Claim::SerialTable, Some(own));
        }
    }
    if run.last_table.as_ref().is_some_and(|last| *last != table) {
        report.add(run.steps.len().saturating_sub(1), Claim::SerialTable, None);
    }
}

/// Works one event on the replay's table; false if a read gives another value.
fn replay(table: &mut [u32], happening: &Happening) -> bool {
    match happening.event {
        Event::Wrote { object, value } => {
            table[object] = value;
            true
        }
        Event::Read { object, value, .. } => table[object] == value,
        _ => true,
    }
}
