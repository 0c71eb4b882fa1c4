//! Judges a whole run by demands 2 and 3 of document 01, and by what papers 1 and
//! 4 of document 02 say of waits and of read-only transactions, from its calls and
//! answers alone: no record and no rule of the machine is consulted. Each claim
//! has a file of its own over one history.

mod commits;
mod fits;
mod history;
mod named;
mod read_only;
mod report;
mod rounds;
mod serial;
mod strikes;
mod tables;
mod together;
mod told;
mod walk;

pub use report::{Broken, Claim, Nearest, Report};

use crate::answer::Answer;
use crate::call::Call;
use history::History;
use tables::Tables;

/// How much the answers of a run show.
#[derive(Clone, Copy, Debug, PartialEq, Eq)]
pub enum Detail {
    /// Everything.
    Whole,
    /// What a listing shows: the version that comes with a value is unknown,
    /// and its number here says nothing.
    Listed,
}

/// The calls after an accepted setup, each with its answer.
#[derive(Clone, Debug)]
pub struct Run {
    pub cores: u32,
    pub objects: u32,
    pub steps: Vec<(Call, Answer)>,
    pub detail: Detail,
    /// The machine's committed values after each commit, if they are known.
    pub tables: Option<Vec<Vec<u32>>>,
    /// The machine's committed values at the end, if they are known.
    pub last_table: Option<Vec<u32>>,
}

/// Reports every broken claim of the run, in the order of the calls.
pub fn check(run: &Run) -> Report {
    let history = History::of(run);
    let tables = Tables::of(run, &history);
    let mut report = Report::default();
    fits::check(&history, &mut report);
    serial::check(run, &history, &mut report);
    together::check(&history, &tables, &mut report);
    strikes::check(&history, &mut report);
    commits::check(&history, &mut report);
    read_only::check(&history, &mut report);
    named::check(&history, &mut report);
    told::check(&history, &mut report);
    rounds::check(&history, &mut report);
    report.broken.sort_by_key(|broken| broken.call);
    report
}
