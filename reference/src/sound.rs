//! The standing rules of a record, in document 01's order. A record that
//! breaks any of them is unsound.

use crate::record::{Core, Job, Record, MAX_CORES, MAX_JOBS, MAX_OBJECTS};

/// A standing rule: its name, and whether a record keeps it.
pub type Rule = (&'static str, fn(&Record) -> bool);

/// Every standing rule.
pub const RULES: [Rule; 12] = [
    ("counts in range", counts_in_range),
    ("sets within objects", sets_within_objects),
    ("transaction needs job", transaction_needs_job),
    ("idle core is clear", idle_core_is_clear),
    ("zombie has empty sets", zombie_has_empty_sets),
    ("list at most full", list_at_most_full),
    ("unused places zero", unused_places_zero),
    ("owner has least deadline", owner_has_least_deadline),
    ("tickets differ", tickets_differ),
    ("tickets counted", tickets_counted),
    ("versions within commits", versions_within_commits),
    ("aborts bounded", aborts_bounded),
];

/// Whether the record keeps every standing rule.
pub fn sound(record: &Record) -> bool {
    RULES.iter().all(|(_, keeps)| keeps(record))
}

/// Cores and cards are in range.
fn counts_in_range(record: &Record) -> bool {
    in_range(record.cores, record.objects)
}

/// Whether a machine can have so many cores and objects.
pub fn in_range(cores: u32, objects: u32) -> bool {
    (1..=MAX_CORES as u32).contains(&cores) && (1..=MAX_OBJECTS as u32).contains(&objects)
}

/// Sets lie within the cards.
fn sets_within_objects(record: &Record) -> bool {
    let beyond = u64::MAX.checked_shl(record.objects).unwrap_or(0);
    let within = |core: &Core| core.data_set() & beyond == 0;
    record.present().iter().all(within)
}

/// A transaction needs a job.
fn transaction_needs_job(record: &Record) -> bool {
    record.transactions().all(|core| core.owner < core.job_count)
}

/// A core without a transaction has empty sets, no mark, and owner's place,
/// ticket and setbacks 0.
fn idle_core_is_clear(record: &Record) -> bool {
    let clear = |core: &Core| core.in_progress || *core == core.without_transaction();
    record.present().iter().all(clear)
}

/// A marked one has empty sets.
fn zombie_has_empty_sets(record: &Record) -> bool {
    let empty = |core: &Core| !core.zombie || core.data_set() == 0;
    record.transactions().all(empty)
}

/// A list has at most 8 jobs.
fn list_at_most_full(record: &Record) -> bool {
    record.present().iter().all(|core| core.job_count <= MAX_JOBS)
}

/// Unused job places, and places for cores and cards that the machine lacks,
/// hold zeros.
fn unused_places_zero(record: &Record) -> bool {
    let unused = |core: &Core| core.jobs[core.listed().len()..].iter().all(is_zero);
    let lacking = &record.versions[MAX_OBJECTS.min(record.objects as usize)..];
    record.present().iter().all(unused)
        && record.absent().iter().all(|core| *core == Core::default())
        && lacking.iter().all(|&version| version == 0)
}

fn is_zero(job: &Job) -> bool {
    *job == Job::default()
}

/// While a transaction is in progress, every job listed before its own has a
/// greater deadline.
fn owner_has_least_deadline(record: &Record) -> bool {
    let keeps = |core: &Core| match core.listed().split_at_checked(core.owner) {
        Some((before, [own, ..])) => before.iter().all(|job| job.deadline > own.deadline),
        _ => true,
    };
    record.transactions().all(keeps)
}

/// Tickets in progress differ and are smaller than the count of tickets given.
fn tickets_differ(record: &Record) -> bool {
    let held = |ticket| record.transactions().filter(|core| core.ticket == ticket).count();
    let keeps = |core: &Core| core.ticket < record.tickets && held(core.ticket) == 1;
    record.transactions().all(keeps)
}

/// That count is commits + give-ups + transactions in progress.
fn tickets_counted(record: &Record) -> bool {
    let in_progress = record.transactions().count() as u64;
    u64::from(record.tickets)
        == u64::from(record.commits) + u64::from(record.give_ups) + in_progress
}

/// No version exceeds the commits.
fn versions_within_commits(record: &Record) -> bool {
    let has = MAX_OBJECTS.min(record.objects as usize);
    record.versions[..has].iter().all(|&version| version <= record.commits)
}

/// A transaction's setbacks plus the number of smaller tickets in progress is
/// at most cores - 1.
fn aborts_bounded(record: &Record) -> bool {
    let smaller = |ticket| record.transactions().filter(|core| core.ticket < ticket).count();
    let keeps = |core: &Core| {
        u64::from(core.aborts) + (smaller(core.ticket) as u64) < u64::from(record.cores)
    };
    record.transactions().all(keeps)
}
