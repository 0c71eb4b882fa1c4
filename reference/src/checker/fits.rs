//! An answer fits its call: a read answers with a value or set back, only a
//! transaction in progress is read, written, committed or given up for, and
//! none begins on a core that has one.

use super::history::History;
use super::report::{Claim, Report};

pub(super) fn check(history: &History, report: &mut Report) {
    for &call in &history.misfits {
        report.add(call, Claim::AnswerFits, None);
    }
}
