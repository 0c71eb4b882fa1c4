//! The reference machine with one knot tied in it, or one trick of the buyer's
//! note. The reference itself is not touched: a knot changes the record or the
//! table around a call, or the answer after it.

use cards_reference::answer::Answer;
use cards_reference::call::Call;
use cards_reference::contended::Subject;
use cards_reference::machine::Machine;
use cards_reference::record::{Core, Record, MAX_CORES};
use cards_reference::set::{only, Set};

/// What is wrong with the machine.
#[derive(Clone, Copy, Debug, PartialEq, Eq)]
pub enum Knot {
    /// Nothing.
    None,
    /// A set-back transaction is given a new ticket.
    NewTicket,
    /// Only write sets are compared.
    WriteSetsOnly,
    /// A commit on a conflict does not compare tickets.
    NoTickets,
    /// A marked transaction keeps its sets.
    KeptSets,
    /// A commit counts twice against one transaction.
    CountedTwice,
    /// Every commit waits.
    WaitsToAll,
    /// Every value is 0.
    ValueZero,
    /// A commit moves no object.
    MovesNothing,
    /// Only the first transaction is served, the others are merely played.
    FirstOnly,
    /// More setbacks are reported than there were.
    InventsAborts,
    /// The first commit of each transaction waits, with nobody ahead.
    WaitsForNobody,
    /// Waits names the least core of those in the way,
    NamesLeastCore,
    /// or the one begun last of them,
    NamesLast,
    /// or the one begun first of all in progress,
    NamesSmallestTicket,
    /// or a later one in conflict,
    NamesLater,
    /// or a core with no transaction.
    NamesIdle,
    /// A read-only one waits like any other,
    ReaderWaits,
    /// or nobody waits for it,
    ReaderPassed,
    /// or its commit raises the versions of what it read.
    ReaderRaises,
    /// One that has written waits for an earlier one that has read the same,
    ReadersConflict,
    /// or its commit strikes whoever has read the same.
    ReadersStruck,
    /// Every borrower is refused.
    RefusesAll,
    /// Tickets are said to be spent.
    TicketsSpent,
}

/// A machine with a knot.
pub struct Knotted {
    machine: Machine,
    knot: Knot,
    /// For each core the read and write set of its dead attempt.
    dead: [(Set, Set); MAX_CORES],
    /// For each core whether its transaction has asked to commit.
    asked: [bool; MAX_CORES],
}

impl Subject for Knotted {
    /// A setup is given cores to spare: the standing rule that bounds aborts
    /// would refuse what some knots do.
    fn call(&mut self, call: Call) -> Answer {
        match call {
            Call::Setup { objects, .. } => {
                self.machine.call(Call::Setup { cores: MAX_CORES as u32, objects })
            }
            Call::Commit { core } if self.may_commit(core) => self.commit(core as usize),
            _ => self.other_call(call),
        }
    }

    fn committed(&self) -> &[u32] {
        self.machine.committed()
    }
}

impl Knotted {
    pub fn new(knot: Knot) -> Knotted {
        Knotted {
            machine: Machine::blank(),
            knot,
            dead: [(0, 0); MAX_CORES],
            asked: [false; MAX_CORES],
        }
    }

    /// Whether the core has a transaction that is not marked.
    fn may_commit(&self, core: u32) -> bool {
        let core = self.machine.record.present().get(core as usize);
        core.is_some_and(|core| core.in_progress && !core.zombie)
    }

    fn other_call(&mut self, call: Call) -> Answer {
        match (self.knot, call) {
            (Knot::RefusesAll, _) => return Answer::Refused(2),
            (Knot::TicketsSpent, Call::Begin { .. }) => return Answer::Refused(10),
            _ => {}
        }
        match (self.knot, self.machine.call(call)) {
            (Knot::ValueZero, Answer::Value { version, .. }) => Answer::Value { value: 0, version },
            (_, answer) => answer,
        }
    }

    fn commit(&mut self, core: usize) -> Answer {
        let before = self.machine.record;
        let asked = std::mem::replace(&mut self.asked[core], true);
        match self.knot {
            Knot::WaitsToAll => return Answer::Waits { core: 0 },
            Knot::WaitsForNobody if !asked => return Answer::Waits { core: 0 },
            Knot::ReaderWaits if before.core[core].read_only() => {
                if let Some(other) = before.in_the_way(core).next() {
                    return Answer::Waits { core: other as u32 };
                }
            }
            Knot::ReadersConflict if !before.core[core].read_only() => {
                let earlier = |&c: &usize| before.core[c].ticket < before.core[core].ticket;
                if let Some(other) = sharing(&before, core).find(earlier) {
                    return Answer::Waits { core: other as u32 };
                }
            }
            Knot::ReaderPassed if readers_only(&before, core) => self.go_first(core),
            Knot::WriteSetsOnly => self.hide_reads(),
            Knot::NoTickets => self.go_first(core),
            Knot::KeptSets => self.revive_dead(),
            _ => {}
        }
        let table = self.machine.committed().to_vec();
        let answer = self.machine.call(Call::Commit { core: core as u32 });
        match self.knot {
            Knot::NewTicket => self.each_struck(&before, new_ticket),
            Knot::CountedTwice => self.each_struck(&before, |record, c| record.core[c].aborts += 1),
            Knot::WriteSetsOnly => self.show_reads(&before),
            Knot::NoTickets | Knot::ReaderPassed => self.restore_tickets(&before),
            Knot::ReaderRaises if before.core[core].read_only() => {
                let read = before.core[core].read_set;
                let versions = self.machine.record.versions.iter_mut().enumerate();
                versions.for_each(|(d, version)| *version += u32::from(read & only(d) != 0));
            }
            Knot::ReadersStruck if matches!(answer, Answer::Committed(_)) => {
                sharing(&before, core).for_each(|c| strike(&mut self.machine.record.core[c]));
            }
            Knot::KeptSets => self.bury_dead(&before),
            Knot::MovesNothing => self.machine.committed_mut().copy_from_slice(&table),
            Knot::FirstOnly if before.core[core].ticket > 0 => {
                self.machine.committed_mut().copy_from_slice(&table)
            }
            _ => {}
        }
        self.asked[core] = matches!(answer, Answer::Waits { .. });
        match (self.knot, answer) {
            (Knot::InventsAborts, Answer::Committed(aborts)) => Answer::Committed(aborts + 1),
            (_, Answer::Waits { core: first }) => {
                let wrong = self.wrongly_named(&before, core);
                Answer::Waits { core: wrong.map_or(first, |wrong| wrong as u32) }
            }
            _ => answer,
        }
    }

    /// Whom the knot names for this core, if the record has such a one.
    fn wrongly_named(&self, record: &Record, core: usize) -> Option<usize> {
        let own = &record.core[core];
        let ticket = |&other: &usize| record.core[other].ticket;
        let mut in_the_way = record.in_the_way(core);
        let mut open = (0..MAX_CORES).filter(|&other| record.core[other].in_progress);
        match self.knot {
            Knot::NamesLeastCore => in_the_way.next(),
            Knot::NamesLast => in_the_way.max_by_key(ticket),
            Knot::NamesSmallestTicket => open.min_by_key(ticket),
            Knot::NamesLater => open.find(|&other| {
                ticket(&other) > own.ticket && own.conflicts_with(&record.core[other])
            }),
            Knot::NamesIdle => record.core.iter().position(|core| !core.in_progress),
            _ => None,
        }
    }

    /// Changes the record for each transaction that the commit has struck.
    fn each_struck(&mut self, before: &Record, change: fn(&mut Record, usize)) {
        let record = &mut self.machine.record;
        for c in 0..MAX_CORES {
            if record.core[c].aborts > before.core[c].aborts {
                change(record, c);
            }
        }
    }

    fn hide_reads(&mut self) {
        for core in &mut self.machine.record.core {
            core.read_set = 0;
        }
    }

    /// Read sets come back for those that are neither struck nor ended.
    fn show_reads(&mut self, before: &Record) {
        for (core, old) in self.machine.record.core.iter_mut().zip(before.core) {
            if core.in_progress && !core.zombie {
                core.read_set = old.read_set;
            }
        }
    }

    /// Changes tickets with the transaction that holds the smallest.
    fn go_first(&mut self, core: usize) {
        let record = &mut self.machine.record;
        let holders = (0..MAX_CORES).filter(|&c| record.core[c].in_progress);
        if let Some(first) = holders.min_by_key(|&c| record.core[c].ticket) {
            let smallest = record.core[first].ticket;
            record.core[first].ticket = record.core[core].ticket;
            record.core[core].ticket = smallest;
        }
    }

    fn restore_tickets(&mut self, before: &Record) {
        for (core, old) in self.machine.record.core.iter_mut().zip(before.core) {
            if core.in_progress {
                core.ticket = old.ticket;
            }
        }
    }

    /// Lets the commit see the sets of marked transactions.
    fn revive_dead(&mut self) {
        for (core, dead) in self.machine.record.core.iter_mut().zip(self.dead) {
            if core.zombie {
                core.zombie = false;
                (core.read_set, core.write_set) = dead;
            }
        }
    }

    /// Marks those again, and remembers the sets of the newly struck.
    fn bury_dead(&mut self, before: &Record) {
        for (c, core) in self.machine.record.core.iter_mut().enumerate() {
            let old = &before.core[c];
            if core.zombie && !old.zombie {
                self.dead[c] = (old.read_set, old.write_set);
            }
            if old.zombie {
                core.zombie = true;
                (core.read_set, core.write_set) = (0, 0);
            }
        }
    }
}

/// Whether all in the way of this core are read-only.
fn readers_only(record: &Record, core: usize) -> bool {
    record.in_the_way(core).all(|other| record.core[other].read_only())
}

/// The other transactions that have read what this one has read.
fn sharing(record: &Record, core: usize) -> impl Iterator<Item = usize> + '_ {
    let read_set = record.core[core].read_set;
    (0..MAX_CORES).filter(move |&c| c != core && record.core[c].read_set & read_set != 0)
}

/// Sets a transaction back that the commit has not struck.
fn strike(core: &mut Core) {
    if !core.zombie {
        (core.read_set, core.write_set) = (0, 0);
        core.aborts += 1;
        core.zombie = true;
    }
}

/// The next ticket; the old one counts as given up, so that the sum is right.
fn new_ticket(record: &mut Record, core: usize) {
    record.core[core].ticket = record.tickets;
    record.tickets += 1;
    record.give_ups += 1;
}
