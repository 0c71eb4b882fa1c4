//! Records with a transaction on nearly every core, their tickets in any order
//! and anywhere up to the limit: for most commits there are several in the way,
//! earlier ones that are not in conflict and later ones that are. Some are read-only.

use crate::random::Random;
use crate::record::{Core, Job, Record, MAX_TICKETS};
use crate::set::{only, Set};
use std::collections::BTreeSet;

/// A sound record with the jobs of this one and other transactions.
pub fn crowd(record: &Record, random: &mut Random) -> Record {
    let mut crowd = *record;
    for core in &mut crowd.core {
        *core = core.without_transaction();
    }
    let open = record.cores - random.below(record.cores.div_ceil(4));
    crowd.tickets = *random.pick(&[open, 3 * open, 70_000, MAX_TICKETS]);
    let objects = some_objects(record, random);
    let places = random.shuffled(record.cores);
    for (rank, ticket) in tickets(open, crowd.tickets, random).into_iter().enumerate() {
        let core = &mut crowd.core[places[rank] as usize];
        begin(core, ticket, random);
        core.aborts = random.below(record.cores - rank as u32);
        touch(core, &objects, record.objects, random);
    }
    count(&mut crowd);
    crowd
}

/// Up to three objects of the machine.
fn some_objects(record: &Record, random: &mut Random) -> Vec<usize> {
    (0..1 + random.below(3)).map(|_| random.below(record.objects) as usize).collect()
}

/// So many different tickets of those given, the smallest first.
fn tickets(count: u32, given: u32, random: &mut Random) -> BTreeSet<u32> {
    let mut tickets = BTreeSet::new();
    while tickets.len() < count as usize {
        tickets.insert(random.below(given));
    }
    tickets
}

/// A transaction of the running job; a core without jobs is given one.
fn begin(core: &mut Core, ticket: u32, random: &mut Random) {
    if core.job_count == 0 {
        core.jobs[0] = Job { number: random.below(65_536) as u16, deadline: random.below(9) };
        core.job_count = 1;
    }
    core.owner = core.running().unwrap_or(0);
    (core.in_progress, core.ticket) = (true, ticket);
}

/// Up to one read and one write, or many reads on a display; few are marked and
/// have touched nothing since.
fn touch(core: &mut Core, objects: &[usize], of: u32, random: &mut Random) {
    let some = |random: &mut Random, share: u32| -> Set {
        match random.percent(share) {
            true => only(*random.pick(objects)),
            false => 0,
        }
    };
    core.zombie = core.aborts > 0 && random.percent(10);
    if core.zombie {
        return;
    }
    core.read_set = some(random, 50);
    match random.percent(10) {
        true => core.read_set |= random.bits() & (Set::MAX >> (64 - of)),
        false => core.write_set = some(random, 70),
    }
}

/// Commits and give-ups that go with the tickets, and versions with the commits.
fn count(record: &mut Record) {
    let ended = record.tickets - record.transactions().count() as u32;
    record.commits = record.commits.min(ended);
    record.give_ups = ended - record.commits;
    for version in &mut record.versions {
        *version = (*version).min(record.commits);
    }
}
