//! Records near the border of soundness: sound ones with a few fields changed
//! to a number beside a limit.

use crate::random::Random;
use crate::record::{Core, Record, MAX_CORES, MAX_JOBS, MAX_OBJECTS};

/// The record with one to three fields changed. The count of tickets is set
/// right again in some cases, so that another rule decides.
pub fn near(record: &Record, random: &mut Random) -> Record {
    let mut changed = *record;
    for _ in 0..1 + random.below(3) {
        match random.below(10) {
            0 => change_counts(&mut changed, random),
            1 => change_version(&mut changed, random),
            _ => change_core(&mut changed, random),
        }
    }
    if random.percent(50) {
        let open = changed.transactions().count() as u32;
        let sum = changed.commits.checked_add(changed.give_ups);
        let counted = sum.and_then(|sum| sum.checked_add(open));
        changed.tickets = counted.unwrap_or(changed.tickets);
    }
    changed
}

/// The number, one beside it, or one of the limits; all below the end.
fn beside(random: &mut Random, number: u32, limits: &[u32], most: u32) -> u32 {
    let near = match random.below(3) {
        0 => number.saturating_add(1),
        1 => number.saturating_sub(1),
        _ => *random.pick(limits),
    };
    near.min(most)
}

fn change_counts(record: &mut Record, random: &mut Random) {
    let Record { cores, objects, tickets, commits, give_ups, .. } = *record;
    match random.below(6) {
        0 => record.cores = beside(random, cores, &[0, 1, 15, 16, 17, 255], 255),
        1 => record.objects = beside(random, objects, &[0, 1, 63, 64, 65, 255], 255),
        2 => record.tickets = beside(random, tickets, &[0, commits, u32::MAX], u32::MAX),
        3 => record.commits = beside(random, commits, &[0, tickets, u32::MAX], u32::MAX),
        4 => {
            // Mostly their sum grows by 2^32.
            record.commits = commits.wrapping_add(1 << 31);
            record.give_ups = give_ups.wrapping_add(1 << 31);
        }
        _ => record.give_ups = beside(random, give_ups, &[0, tickets, u32::MAX], u32::MAX),
    }
}

fn change_version(record: &mut Record, random: &mut Random) {
    let object = random.place(MAX_OBJECTS);
    let limits = [0, 1, record.commits, record.commits.saturating_add(1), u32::MAX];
    record.versions[object] = beside(random, record.versions[object], &limits, u32::MAX);
}

/// Mostly a core of the machine, mostly one with a transaction.
fn some_place(record: &Record, random: &mut Random) -> usize {
    let any = random.place(MAX_CORES);
    let present = random.place(record.present().len().max(1));
    let open: Vec<usize> = (0..MAX_CORES).filter(|&c| record.core[c].in_progress).collect();
    match random.below(10) {
        0 => any,
        1..=3 => present,
        _ if open.is_empty() => present,
        _ => *random.pick(&open),
    }
}

fn change_core(record: &mut Record, random: &mut Random) {
    let (tickets, cores, objects) = (record.tickets, record.cores, record.objects);
    let other = record.core[some_place(record, random)];
    let place = some_place(record, random);
    let core = &mut record.core[place];
    match random.below(9) {
        0 => change_job(core, random),
        1 => {
            let count = beside(random, core.job_count as u32, &[0, 1, 7, 8, 9, 255], 255);
            core.job_count = count as usize;
        }
        2 => core.in_progress = !core.in_progress,
        3 => {
            let limits = [0, core.job_count as u32, 7, 8, 255];
            core.owner = beside(random, core.owner as u32, &limits, 255) as usize;
        }
        4 => {
            let limits = [0, other.ticket, tickets, tickets.saturating_sub(1), u32::MAX];
            core.ticket = beside(random, core.ticket, &limits, u32::MAX);
        }
        5 => {
            let limits = [0, cores, cores.saturating_sub(1), 15, 16, 255];
            core.aborts = beside(random, core.aborts, &limits, 255);
        }
        6 => core.zombie = !core.zombie,
        7 => core.read_set = change_set(core.read_set, objects, random),
        _ => core.write_set = change_set(core.write_set, objects, random),
    }
}

fn change_job(core: &mut Core, random: &mut Random) {
    let place = random.place(MAX_JOBS);
    let owner = core.jobs[core.owner.min(MAX_JOBS - 1)].deadline;
    let job = &mut core.jobs[place];
    if random.percent(25) {
        job.number = beside(random, job.number.into(), &[0, 65_535], 65_535) as u16;
    } else {
        let limits = [0, owner, owner.saturating_add(1), u32::MAX];
        job.deadline = beside(random, job.deadline, &limits, u32::MAX);
    }
}

/// The set without members, or with one object more or less, mostly one near
/// the last of the machine.
fn change_set(set: u64, objects: u32, random: &mut Random) -> u64 {
    let last = objects.saturating_sub(1).min(63);
    match random.below(4) {
        0 => 0,
        1 => set ^ 1 << random.below(64),
        2 => set ^ 1 << last,
        _ => set ^ 1 << objects.min(63),
    }
}
