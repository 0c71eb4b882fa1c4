//! Each standing rule, broken by a record that keeps all the others, and a
//! twin of it that is sound.

mod common;

use cards_reference::answer::Answer;
use cards_reference::machine::dispatch;
use cards_reference::record::{Core, Job, Record};
use cards_reference::sound::{sound, RULES};
use common::{call, machine};

/// Three cores, five objects. Core 0 has ticket 2, owned by the second of its
/// jobs; core 1 is a zombie with ticket 1; core 2 has committed ticket 0 and
/// keeps its job.
fn standing() -> Record {
    machine(&[
        "setup 3 5 -",
        "release 0 4 50",
        "release 0 5 40",
        "release 1 6 9",
        "release 2 7 9",
        "begin 2 - -",
        "begin 1 - -",
        "begin 0 - -",
        "read 0 0 -",
        "write 0 4 1",
        "write 2 2 8",
        "read 1 2 -",
        "commit 2 - -",
    ])
    .record
}

/// The largest machine, just set up.
fn fresh() -> Record {
    machine(&["setup 16 64 -"]).record
}

type Change = fn(&mut Record);

/// Rule, change to the fresh record that breaks it, change that does not.
const FRESH_PAIRS: &[(&str, Change, Change)] = &[
    ("counts in range", |r| r.cores = 0, |r| r.cores = 1),
    ("counts in range", |r| r.objects = 0, |r| r.objects = 1),
    ("counts in range", |r| r.cores = 17, |r| r.cores = 16),
    ("counts in range", |r| r.objects = 65, |r| r.objects = 64),
    ("counts in range", |r| r.cores = u32::MAX, |r| r.cores = 2),
    ("counts in range", |r| r.objects = u32::MAX, |r| r.objects = 2),
];

/// The same, on the standing record.
const STANDING_PAIRS: &[(&str, Change, Change)] = &[
    ("sets within objects", |r| r.core[0].read_set = 1 << 5, |r| r.core[0].read_set = 1 << 4),
    ("sets within objects", |r| r.core[0].write_set = 1 << 63, |r| r.core[0].write_set = 31),
    ("transaction needs job", |r| r.core[0].owner = 2, |r| r.core[0].owner = 1),
    ("transaction needs job", |r| r.core[1].owner = usize::MAX, |r| r.core[1].owner = 0),
    ("transaction needs job", no_job, |_| ()),
    ("idle core is clear", |r| r.core[2].read_set = 1, |r| r.core[2].read_set = 0),
    ("idle core is clear", |r| r.core[2].write_set = 1, |r| r.core[2].write_set = 0),
    ("idle core is clear", |r| r.core[2].zombie = true, |r| r.core[2].zombie = false),
    ("idle core is clear", |r| r.core[2].owner = 1, |r| r.core[2].owner = 0),
    ("idle core is clear", |r| r.core[2].ticket = 1, |r| r.core[2].ticket = 0),
    ("idle core is clear", |r| r.core[2].aborts = 1, |r| r.core[2].aborts = 0),
    ("zombie has empty sets", |r| r.core[1].read_set = 1, told_and_read),
    ("zombie has empty sets", |r| r.core[1].write_set = 2, |r| r.core[1].write_set = 0),
    ("list at most full", |r| r.core[2].job_count = 9, |r| r.core[2].job_count = 8),
    ("list at most full", |r| r.core[2].job_count = usize::MAX, |r| r.core[2].job_count = 2),
    ("unused places zero", |r| r.core[2].jobs[1].number = 1, add_job),
    ("unused places zero", |r| r.core[0].jobs[7].deadline = 1, |r| r.core[0].jobs[7].deadline = 0),
    ("unused places zero", |r| r.core[3].jobs[0].number = 1, |r| r.core[3].jobs[0].number = 0),
    ("unused places zero", |r| r.core[3].job_count = 1, |r| r.core[3].job_count = 0),
    ("unused places zero", |r| r.core[15].in_progress = true, |_| ()),
    ("unused places zero", |r| r.core[3].owner = 1, |r| r.core[3].owner = 0),
    ("unused places zero", |r| r.core[3].ticket = 1, |r| r.core[3].ticket = 0),
    ("unused places zero", |r| r.core[3].aborts = 1, |r| r.core[3].aborts = 0),
    ("unused places zero", |r| r.core[3].zombie = true, |r| r.core[3].zombie = false),
    ("unused places zero", |r| r.core[3].read_set = 1, |r| r.core[3].read_set = 0),
    ("unused places zero", |r| r.core[15].write_set = 1, |r| r.core[15].write_set = 0),
    ("unused places zero", |r| r.versions[5] = 1, |r| r.versions[4] = 1),
    ("unused places zero", |r| r.versions[63] = 1, |r| r.versions[63] = 0),
    (
        "owner has least deadline",
        |r| r.core[0].jobs[0].deadline = 40,
        |r| r.core[0].jobs[0].deadline = 41,
    ),
    ("owner has least deadline", |r| r.core[0].jobs[0].deadline = 0, urgent_job_after),
    ("tickets differ", |r| r.core[0].ticket = 1, |r| r.core[0].ticket = 0),
    ("tickets differ", |r| r.core[0].ticket = 3, |r| r.core[0].ticket = 2),
    ("tickets counted", |r| r.tickets = 4, |r| r.tickets = 3),
    ("tickets counted", |r| r.commits = 2, |r| r.commits = 1),
    ("tickets counted", |r| r.give_ups = 1, one_given_up),
    ("tickets counted", sum_wraps, |_| ()),
    ("versions within commits", |r| r.versions[0] = 2, |r| r.versions[0] = 1),
    ("aborts bounded", |r| r.core[0].aborts = 2, |r| r.core[0].aborts = 1),
    ("aborts bounded", |r| r.core[1].aborts = 3, |r| r.core[1].aborts = 2),
    ("aborts bounded", |r| r.core[1].aborts = u32::MAX, |r| r.core[1].aborts = 0),
];

fn no_job(record: &mut Record) {
    record.core[1].jobs[0] = Job::default();
    record.core[1].job_count = 0;
}

fn told_and_read(record: &mut Record) {
    record.core[1].zombie = false;
    record.core[1].read_set = 1;
}

fn add_job(record: &mut Record) {
    record.core[2].jobs[1].number = 1;
    record.core[2].job_count = 2;
}

fn urgent_job_after(record: &mut Record) {
    record.core[0].job_count = 3;
}

fn one_given_up(record: &mut Record) {
    record.give_ups = 1;
    record.tickets = 4;
}

/// Commits, give-ups and transactions make 2^32 + 3 together.
fn sum_wraps(record: &mut Record) {
    record.commits = u32::MAX;
    record.give_ups = 2;
}

fn broken_rules(record: &Record) -> Vec<&'static str> {
    let broken = RULES.iter().filter(|(_, keeps)| !keeps(record));
    broken.map(|(name, _)| *name).collect()
}

/// Every call but setup refuses the record with 2, changes no word and hands
/// it back.
fn refuses_all(record: Record) {
    for line in [
        "release 2 1 1",
        "begin 2 - -",
        "read 0 0 -",
        "write 0 0 1",
        "commit 0 - -",
        "giveup 0 - -",
        "finish 2 - -",
    ] {
        let (mut committed, mut pending) = ([3; 5], [4; 15]);
        let (answer, after) = dispatch(record, call(line), &mut committed, &mut pending);
        assert_eq!(answer, Answer::Refused(2), "{line}");
        assert_eq!(after, record);
        assert_eq!((committed, pending), ([3; 5], [4; 15]));
    }
}

fn try_pair(base: Record, (rule, breaks, mends): (&str, Change, Change), place: usize) {
    let mut broken = base;
    breaks(&mut broken);
    assert_eq!(broken_rules(&broken), [rule], "pair {place}");
    assert!(!sound(&broken));
    refuses_all(broken);
    let mut mended = base;
    mends(&mut mended);
    assert_eq!(broken_rules(&mended), [""; 0], "twin of pair {place}");
    assert!(sound(&mended));
}

#[test]
fn counts_out_of_range() {
    for (place, pair) in FRESH_PAIRS.iter().enumerate() {
        try_pair(fresh(), *pair, place);
    }
}

#[test]
fn each_rule_broken_alone() {
    for (place, pair) in STANDING_PAIRS.iter().enumerate() {
        try_pair(standing(), *pair, place);
    }
}

#[test]
fn every_rule_is_tried() {
    let pairs = FRESH_PAIRS.iter().chain(STANDING_PAIRS);
    let tried: Vec<&str> = pairs.map(|(rule, _, _)| *rule).collect();
    assert!(RULES.iter().all(|(name, _)| tried.contains(name)));
}

#[test]
fn the_blank_record_is_all_zeros_and_unsound() {
    let blank = Record::blank();
    assert_eq!(blank.core, [Core::default(); 16]);
    assert!(!sound(&blank));
}
