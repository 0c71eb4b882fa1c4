//! Records that break one standing rule and keep all the others, made from
//! sound ones by seed. Document 01's rules name several fields each; there is
//! a way for each field and each side of a limit.

use crate::random::Random;
use crate::record::{Core, Job, Record, MAX_CORES, MAX_JOBS, MAX_OBJECTS};
use crate::sound::RULES;

/// Changes a record; false if this record cannot be changed so.
type Change = fn(&mut Record, &mut Random) -> Option<()>;

/// The rule that is broken, how, and the change that does it.
pub type Way = (&'static str, &'static str, Change);

/// Every way.
pub const WAYS: &[Way] = &[
    ("counts in range", "no cores", |r, _| idle(r, |r| r.cores = 0)),
    ("counts in range", "too many cores", |r, random| {
        let cores = over(random, MAX_CORES);
        idle(r, |r| r.cores = cores)
    }),
    ("counts in range", "no objects", |r, _| idle(r, |r| r.objects = 0)),
    ("counts in range", "too many objects", |r, random| {
        r.objects = over(random, MAX_OBJECTS);
        Some(())
    }),
    ("sets within objects", "a read set beyond the objects", |r, random| {
        let object = lacking_object(r, random)?;
        some_core(r, random, |core| core.in_progress && !core.zombie)?.read_set |= 1 << object;
        Some(())
    }),
    ("sets within objects", "a write set beyond the objects", |r, random| {
        let object = lacking_object(r, random)?;
        some_core(r, random, |core| core.in_progress && !core.zombie)?.write_set |= 1 << object;
        Some(())
    }),
    ("transaction needs job", "an owner after the list", |r, random| {
        let core = some_core(r, random, |core| core.in_progress)?;
        core.owner = core.job_count + random.place(256 - core.job_count);
        Some(())
    }),
    ("transaction needs job", "a transaction without jobs", |r, random| {
        let core = some_core(r, random, |core| core.in_progress)?;
        (core.jobs, core.job_count, core.owner) = Default::default();
        Some(())
    }),
    ("idle core is clear", "an idle core with a read set", |r, random| {
        let object = random.below(r.objects);
        some_idle(r, random)?.read_set = 1 << object;
        Some(())
    }),
    ("idle core is clear", "an idle core with a write set", |r, random| {
        let object = random.below(r.objects);
        some_idle(r, random)?.write_set = 1 << object;
        Some(())
    }),
    ("idle core is clear", "an idle zombie", |r, random| {
        some_idle(r, random)?.zombie = true;
        Some(())
    }),
    ("idle core is clear", "an idle core with an owner", |r, random| {
        let owner = 1 + random.place(255);
        some_idle(r, random)?.owner = owner;
        Some(())
    }),
    ("idle core is clear", "an idle core with a ticket", |r, random| {
        let ticket = nonzero(random);
        some_idle(r, random)?.ticket = ticket;
        Some(())
    }),
    ("idle core is clear", "an idle core with aborts", |r, random| {
        let aborts = 1 + random.below(255);
        some_idle(r, random)?.aborts = aborts;
        Some(())
    }),
    ("zombie has empty sets", "a zombie with a read set", |r, random| {
        let object = random.below(r.objects);
        let core = some_core(r, random, |core| core.in_progress)?;
        (core.zombie, core.read_set, core.write_set) = (true, 1 << object, 0);
        Some(())
    }),
    ("zombie has empty sets", "a zombie with a write set", |r, random| {
        let object = random.below(r.objects);
        let core = some_core(r, random, |core| core.in_progress)?;
        (core.zombie, core.read_set, core.write_set) = (true, 0, 1 << object);
        Some(())
    }),
    ("list at most full", "a list of more than 8", |r, random| {
        let count = over(random, MAX_JOBS) as usize;
        some_core(r, random, |_| true)?.job_count = count;
        Some(())
    }),
    ("unused places zero", "a job number after the list", |r, random| {
        some_unused(r, random)?.number = 1 << random.below(16);
        Some(())
    }),
    ("unused places zero", "a deadline after the list", |r, random| {
        some_unused(r, random)?.deadline = nonzero(random);
        Some(())
    }),
    ("unused places zero", "a lacking core with a job number", |r, random| {
        let job = random.place(MAX_JOBS);
        some_lacking(r, random)?.jobs[job].number = 1 << random.below(16);
        Some(())
    }),
    ("unused places zero", "a lacking core with a deadline", |r, random| {
        let job = random.place(MAX_JOBS);
        some_lacking(r, random)?.jobs[job].deadline = nonzero(random);
        Some(())
    }),
    ("unused places zero", "a lacking core with a job count", |r, random| {
        let count = 1 + random.place(255);
        some_lacking(r, random)?.job_count = count;
        Some(())
    }),
    ("unused places zero", "a lacking core in progress", |r, random| {
        some_lacking(r, random)?.in_progress = true;
        Some(())
    }),
    ("unused places zero", "a lacking core with an owner", |r, random| {
        let owner = 1 + random.place(255);
        some_lacking(r, random)?.owner = owner;
        Some(())
    }),
    ("unused places zero", "a lacking core with a ticket", |r, random| {
        some_lacking(r, random)?.ticket = nonzero(random);
        Some(())
    }),
    ("unused places zero", "a lacking core with aborts", |r, random| {
        let aborts = 1 + random.below(255);
        some_lacking(r, random)?.aborts = aborts;
        Some(())
    }),
    ("unused places zero", "a lacking zombie", |r, random| {
        some_lacking(r, random)?.zombie = true;
        Some(())
    }),
    ("unused places zero", "a lacking core with a read set", |r, random| {
        some_lacking(r, random)?.read_set = 1 << random.below(64);
        Some(())
    }),
    ("unused places zero", "a lacking core with a write set", |r, random| {
        some_lacking(r, random)?.write_set = 1 << random.below(64);
        Some(())
    }),
    ("unused places zero", "a lacking object with a version", |r, random| {
        let object = lacking_object(r, random)?;
        r.versions[object] = nonzero(random);
        Some(())
    }),
    ("owner has least deadline", "an equal deadline before the owner's", |r, random| {
        before_owner(r, random, |own, _| Some(own))
    }),
    ("owner has least deadline", "a smaller deadline before the owner's", |r, random| {
        before_owner(r, random, |own, random| (own > 0).then(|| random.below(own)))
    }),
    ("tickets differ", "two of one ticket", |r, random| {
        let ticket = some_core(r, random, |core| core.in_progress)?.ticket;
        some_core(r, random, |core| core.in_progress && core.ticket != ticket)?.ticket = ticket;
        Some(())
    }),
    ("tickets differ", "a ticket that is not given yet", |r, random| {
        let more = if random.percent(50) { 0 } else { random.below((u32::MAX - r.tickets).max(1)) };
        let ticket = r.tickets + more;
        some_core(r, random, |core| core.in_progress)?.ticket = ticket;
        Some(())
    }),
    ("tickets counted", "a ticket too many", |r, _| {
        r.tickets = r.tickets.checked_add(1)?;
        Some(())
    }),
    ("tickets counted", "a ticket too few", |r, _| {
        r.tickets = r.tickets.checked_sub(1)?;
        Some(())
    }),
    ("tickets counted", "a commit too many", |r, _| {
        r.commits = r.commits.checked_add(1)?;
        Some(())
    }),
    ("tickets counted", "a give up too many", |r, _| {
        r.give_ups = r.give_ups.checked_add(1)?;
        Some(())
    }),
    ("tickets counted", "a count right but for 32 bits", |r, _| {
        let open = r.transactions().count() as u32;
        (r.commits, r.give_ups) = (u32::MAX, r.tickets.checked_sub(open)?.checked_add(1)?);
        Some(())
    }),
    ("versions within commits", "a version beyond the commits", |r, random| {
        let object = random.below(r.objects) as usize;
        let more =
            if random.percent(50) { 1 } else { 1 + random.below((u32::MAX - r.commits).max(1)) };
        r.versions[object] = r.commits.checked_add(more)?;
        Some(())
    }),
    ("aborts bounded", "an abort too many", |r, random| {
        let ticket = some_core(r, random, |core| core.in_progress)?.ticket;
        let smaller = r.transactions().filter(|core| core.ticket < ticket).count() as u32;
        let aborts = r.cores - smaller;
        some_core(r, random, |core| core.in_progress && core.ticket == ticket)?.aborts = aborts;
        Some(())
    }),
    ("aborts bounded", "many aborts too many", |r, random| {
        let aborts = 16 + random.below(240);
        some_core(r, random, |core| core.in_progress)?.aborts = aborts;
        Some(())
    }),
];

/// The record changed so that it breaks the rule of this way and no other; none
/// if it has nothing to change.
pub fn broken(way: usize, record: &Record, random: &mut Random) -> Option<Record> {
    let (rule, _, change) = WAYS[way];
    let mut changed = *record;
    change(&mut changed, random)?;
    (broken_rules(&changed) == [rule]).then_some(changed)
}

/// The rules that a record breaks.
pub fn broken_rules(record: &Record) -> Vec<&'static str> {
    let broken = RULES.iter().filter(|(_, keeps)| !keeps(record));
    broken.map(|(name, _)| *name).collect()
}

/// Takes away jobs, transactions and versions, and then makes the change.
fn idle(record: &mut Record, change: impl Fn(&mut Record)) -> Option<()> {
    record.give_ups = record.give_ups.checked_add(record.transactions().count() as u32)?;
    record.core = Default::default();
    record.versions = [0; MAX_OBJECTS];
    change(record);
    Some(())
}

/// A number beyond the limit that a byte holds.
fn over(random: &mut Random, limit: usize) -> u32 {
    let limit = limit as u32;
    if random.percent(50) {
        limit + 1
    } else {
        limit + 1 + random.below(255 - limit)
    }
}

/// A number with any digit, or with one.
fn nonzero(random: &mut Random) -> u32 {
    if random.percent(50) {
        1 << random.below(32)
    } else {
        1 + random.below(u32::MAX)
    }
}

/// An object that the machine lacks.
fn lacking_object(record: &Record, random: &mut Random) -> Option<usize> {
    let has = record.objects as usize;
    (has < MAX_OBJECTS).then(|| has + random.place(MAX_OBJECTS - has))
}

/// Some core of the machine of which this holds.
fn some_core<'a>(
    record: &'a mut Record,
    random: &mut Random,
    holds: impl Fn(&Core) -> bool,
) -> Option<&'a mut Core> {
    let places: Vec<usize> =
        (0..record.cores as usize).filter(|&place| holds(&record.core[place])).collect();
    (!places.is_empty()).then(|| &mut record.core[*random.pick(&places)])
}

fn some_idle<'a>(record: &'a mut Record, random: &mut Random) -> Option<&'a mut Core> {
    some_core(record, random, |core| !core.in_progress)
}

/// Some core that the machine lacks.
fn some_lacking<'a>(record: &'a mut Record, random: &mut Random) -> Option<&'a mut Core> {
    let has = record.cores as usize;
    (has < MAX_CORES).then(|| &mut record.core[has + random.place(MAX_CORES - has)])
}

/// Some job place after the list of a core of the machine.
fn some_unused<'a>(record: &'a mut Record, random: &mut Random) -> Option<&'a mut Job> {
    let core = some_core(record, random, |core| core.job_count < MAX_JOBS)?;
    let count = core.job_count;
    Some(&mut core.jobs[count + random.place(MAX_JOBS - count)])
}

/// Makes a job of a list that is not its first the owner's, and gives one
/// before it another deadline, by the owner's.
fn before_owner(
    record: &mut Record,
    random: &mut Random,
    deadline: fn(u32, &mut Random) -> Option<u32>,
) -> Option<()> {
    let core = some_core(record, random, |core| core.in_progress && core.job_count > 1)?;
    core.owner = 1 + random.place(core.job_count - 1);
    let before = random.place(core.owner);
    core.jobs[before].deadline = deadline(core.jobs[core.owner].deadline, random)?;
    Some(())
}
