//! A record spelt in words of 32 bits, every field of it, and an answer in
//! three: its kind and two values. A door takes and gives both so.

use crate::answer::Answer;
use crate::call::Call;
use crate::record::{Core, Record, MAX_CORES, MAX_JOBS, MAX_OBJECTS};

/// The fields before the cores.
pub const COUNTS: [&str; 5] = ["cores", "objects", "tickets", "commits", "give ups"];
/// The fields of a core after its jobs; a set has its lower half first.
pub const CORE_FIELDS: [&str; 10] = [
    "job count",
    "in progress",
    "owner",
    "aborts",
    "ticket",
    "zombie",
    "read set, lower half",
    "read set, upper half",
    "write set, lower half",
    "write set, upper half",
];
/// Words of a core's jobs, each a number and a deadline.
pub const JOB_WORDS: usize = 2 * MAX_JOBS;
/// Words of a core.
pub const CORE_WORDS: usize = JOB_WORDS + CORE_FIELDS.len();
/// Where the versions stand.
pub const VERSIONS: usize = COUNTS.len() + MAX_CORES * CORE_WORDS;
/// Words of a record.
pub const RECORD_WORDS: usize = VERSIONS + MAX_OBJECTS;
/// Words of a record and, after it, the answer's two values.
pub const WORDS: usize = RECORD_WORDS + 2;

/// Where the words of a core begin.
pub fn core_place(core: usize) -> usize {
    COUNTS.len() + core * CORE_WORDS
}

/// Spells a record. Its numbers fit the width that the first implementation
/// gives them: a count of cores, objects or jobs, an owner's place and the
/// aborts are bytes there.
pub fn spell(record: &Record) -> [u32; RECORD_WORDS] {
    let mut words = [0; RECORD_WORDS];
    let counts =
        [byte(record.cores), byte(record.objects), record.tickets, record.commits, record.give_ups];
    words[..counts.len()].copy_from_slice(&counts);
    for (place, core) in record.core.iter().enumerate() {
        spell_core(core, &mut words[core_place(place)..][..CORE_WORDS]);
    }
    words[VERSIONS..].copy_from_slice(&record.versions);
    words
}

fn spell_core(core: &Core, words: &mut [u32]) {
    for (place, job) in core.jobs.iter().enumerate() {
        words[2 * place] = job.number.into();
        words[2 * place + 1] = job.deadline;
    }
    words[JOB_WORDS..].copy_from_slice(&[
        byte(core.job_count as u32),
        core.in_progress.into(),
        byte(core.owner as u32),
        byte(core.aborts),
        core.ticket,
        core.zombie.into(),
        core.read_set as u32,
        (core.read_set >> 32) as u32,
        core.write_set as u32,
        (core.write_set >> 32) as u32,
    ]);
}

fn byte(number: u32) -> u32 {
    assert!(number < 256, "a number that a byte holds");
    number
}

/// What a word of a record is.
pub fn name_of(place: usize) -> String {
    if let Some(count) = COUNTS.get(place) {
        return count.to_string();
    }
    if place >= VERSIONS {
        return format!("version of object {}", place - VERSIONS);
    }
    let (core, word) = ((place - COUNTS.len()) / CORE_WORDS, (place - COUNTS.len()) % CORE_WORDS);
    match word.checked_sub(JOB_WORDS) {
        Some(field) => format!("core {core}: {}", CORE_FIELDS[field]),
        None if word % 2 == 0 => format!("core {core}: number of job {}", word / 2),
        None => format!("core {core}: deadline of job {}", word / 2),
    }
}

/// The kinds of answers, from 1; 0 is no answer.
pub const KINDS: [&str; 13] = [
    "none",
    "ready",
    "running",
    "queued",
    "begun",
    "value",
    "written",
    "waits",
    "committed",
    "set back",
    "ended",
    "finished",
    "refused",
];

/// An answer's kind and its two values, 0 where it has none.
#[derive(Clone, Copy, Debug, PartialEq, Eq)]
pub struct Told {
    pub kind: u32,
    pub values: [u32; 2],
}

impl From<Answer> for Told {
    fn from(answer: Answer) -> Told {
        let (kind, values) = match answer {
            Answer::Ready => (1, [0, 0]),
            Answer::Running => (2, [0, 0]),
            Answer::Queued => (3, [0, 0]),
            Answer::Begun(ticket) => (4, [ticket, 0]),
            Answer::Value { value, version } => (5, [value, version]),
            Answer::Written => (6, [0, 0]),
            Answer::Waits { core } => (7, [core, 0]),
            Answer::Committed(aborts) => (8, [aborts, 0]),
            Answer::SetBack => (9, [0, 0]),
            Answer::Ended => (10, [0, 0]),
            Answer::Finished(job) => (11, [job.into(), 0]),
            Answer::Refused(number) => (12, [number, 0]),
        };
        Told { kind, values }
    }
}

/// The calls, in the order of their numbers.
pub const CALLS: [&str; 8] =
    ["setup", "release", "begin", "read", "write", "commit", "give up", "finish"];

/// A call's number and its three arguments, 0 where it has none. Setup's sizes
/// stand for core and object, a job number for the object, a deadline for the
/// value.
pub fn numbers(call: Call) -> [u32; 4] {
    match call {
        Call::Setup { cores, objects } => [0, cores, objects, 0],
        Call::Release { core, job, deadline } => [1, core, job.into(), deadline],
        Call::Begin { core } => [2, core, 0, 0],
        Call::Read { core, object } => [3, core, object, 0],
        Call::Write { core, object, value } => [4, core, object, value],
        Call::Commit { core } => [5, core, 0, 0],
        Call::GiveUp { core } => [6, core, 0, 0],
        Call::Finish { core } => [7, core, 0, 0],
    }
}

/// The call of a number with these arguments.
pub fn call_of(number: usize, core: u32, object: u32, value: u32) -> Call {
    match number {
        0 => Call::Setup { cores: core, objects: object },
        1 => Call::Release { core, job: object as u16, deadline: value },
        2 => Call::Begin { core },
        3 => Call::Read { core, object },
        4 => Call::Write { core, object, value },
        5 => Call::Commit { core },
        6 => Call::GiveUp { core },
        _ => Call::Finish { core },
    }
}
