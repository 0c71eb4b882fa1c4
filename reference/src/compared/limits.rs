//! Records whose counts are near their limits, which no run by seed is long
//! enough to reach.

use crate::random::Random;
use crate::record::{Core, Record, MAX_TICKETS};

/// The record as if it had been at work for long: a few tickets are left, and
/// the rest were committed or given up.
pub fn near_limits(record: &Record, random: &mut Random) -> Record {
    let mut old = *record;
    let left = random.below(6).saturating_sub(1).min(MAX_TICKETS - record.tickets);
    let more = MAX_TICKETS - left - record.tickets;
    if random.percent(70) {
        for core in old.core.iter_mut().filter(|core| core.in_progress) {
            core.ticket += more;
        }
    }
    old.tickets += more;
    if random.percent(40) {
        keep_one(&mut old, random);
    }
    let ended = old.tickets - old.transactions().count() as u32;
    old.commits = match random.below(4) {
        0 => 0,
        1 => random.below(ended.max(1)),
        _ => ended,
    };
    old.give_ups = ended - old.commits;
    for version in &mut old.versions[..record.objects as usize] {
        *version = match random.below(3) {
            0 => random.below(old.commits.max(1)),
            _ => old.commits,
        };
    }
    old
}

/// Ends all transactions but one.
fn keep_one(record: &mut Record, random: &mut Random) {
    let open = record.core.iter_mut().filter(|core| core.in_progress);
    let mut open: Vec<&mut Core> = open.collect();
    if !open.is_empty() {
        open.swap_remove(random.place(open.len()));
    }
    for core in open {
        *core = core.without_transaction();
    }
}
