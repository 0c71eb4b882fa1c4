//! Who is about when a commit waits. With one in the way there is one core to
//! name; a wrong one is seen where others could be named by mistake.

use crate::record::Record;

/// What stands around a transaction that waits.
#[derive(Clone, Copy, Debug, PartialEq, Eq)]
pub struct Waiting {
    /// Those in the way: earlier and in conflict.
    pub in_the_way: usize,
    /// The first of them is not on the least of their cores.
    pub not_least: bool,
    /// The first of them is not on the greatest of their cores.
    pub not_greatest: bool,
    /// One that is even earlier is in progress and not in conflict.
    pub bystander: bool,
    /// A later one is in conflict.
    pub follower: bool,
}

impl Waiting {
    /// Of the transaction on this core; none if nobody is in its way.
    pub fn of(record: &Record, core: usize) -> Option<Waiting> {
        let own = &record.core[core];
        let cores: Vec<usize> = record.in_the_way(core).collect();
        let first = *cores.iter().min_by_key(|&&other| record.core[other].ticket)?;
        let smallest = record.core[first].ticket;
        let mut others = record.transactions();
        let mut later = record.transactions().filter(|other| other.ticket > own.ticket);
        Some(Waiting {
            in_the_way: cores.len(),
            not_least: cores.first() != Some(&first),
            not_greatest: cores.last() != Some(&first),
            bystander: others.any(|other| other.ticket < smallest),
            follower: later.any(|other| own.conflicts_with(other)),
        })
    }

    /// All of it at once: every core that could be named by mistake is another.
    pub fn in_a_crowd(self) -> bool {
        self.not_least && self.not_greatest && self.bystander && self.follower
    }
}
