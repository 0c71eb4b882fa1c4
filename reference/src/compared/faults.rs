//! Doors that are wrong on purpose: what a right door left is altered in one
//! way. A comparison is worth something if it finds each of them.

use super::broken::broken_rules;
use super::judge::Door;
use super::lent::Lent;
use super::words::{core_place, CORE_FIELDS, COUNTS, JOB_WORDS, RECORD_WORDS, VERSIONS};
use crate::call::Call;
use crate::record::{Core, Record};
use crate::sound::{sound, Rule, RULES};

/// Kinds of answers, as `words::KINDS` numbers them.
const QUEUED: u32 = 3;
const RUNNING: u32 = 2;
const BEGUN: u32 = 4;
const VALUE: u32 = 5;
const WRITTEN: u32 = 6;
const WAITS: u32 = 7;
const COMMITTED: u32 = 8;
const SET_BACK: u32 = 9;
const ENDED: u32 = 10;
const FINISHED: u32 = 11;
const REFUSED: u32 = 12;

/// The count of commits among `words::COUNTS`, and the aborts of a core among
/// `words::CORE_FIELDS`.
const COMMITS: usize = 3;
const ABORTS: usize = 3;

/// What the door was given and what it left.
pub struct Left<'a> {
    given: &'a Record,
    call: Call,
    kind: u32,
    lent: &'a mut Lent,
}

impl Left<'_> {
    fn is_setup(&self) -> bool {
        matches!(self.call, Call::Setup { .. })
    }

    fn refused(&self, number: u32) -> bool {
        self.kind == REFUSED && self.lent.told(REFUSED).values[0] == number
    }

    fn lends(&self) -> bool {
        matches!(self.call, Call::Read { .. } | Call::Write { .. } | Call::Commit { .. })
    }

    fn misfit(&self) -> bool {
        let (cores, objects) = (self.given.cores as usize, self.given.objects as usize);
        let Lent { committed, pending, .. } = &*self.lent;
        (committed.words().len(), pending.words().len()) != (objects, cores * objects)
    }

    fn no_core(&self) -> bool {
        self.call.core().is_some_and(|core| core >= self.given.cores)
    }

    fn no_object(&self) -> bool {
        match self.call {
            Call::Read { object, .. } | Call::Write { object, .. } => object >= self.given.objects,
            _ => false,
        }
    }

    fn in_progress(&self) -> bool {
        let core = self.call.core().and_then(|core| self.given.core.get(core as usize));
        core.is_some_and(|core| core.in_progress)
    }

    fn spent(&self) -> bool {
        matches!(self.call, Call::Begin { .. }) && self.given.tickets == u32::MAX
    }

    /// The core of a commit that went through.
    fn committed_core(&self) -> Option<usize> {
        match (self.kind, self.call) {
            (COMMITTED, Call::Commit { core }) => Some(core as usize),
            _ => None,
        }
    }

    /// The core of a read-only commit, and of any other.
    fn read_only_commit(&self) -> Option<usize> {
        self.committed_core().filter(|&core| self.given.core[core].read_only())
    }

    fn writing_commit(&self) -> Option<usize> {
        self.committed_core().filter(|&core| !self.given.core[core].read_only())
    }

    /// Counts a strike on this core.
    fn strike(&mut self, core: usize) {
        *self.word(core_place(core) + JOB_WORDS + ABORTS) += 1;
    }

    /// A word of the record and the answer's values.
    fn word(&mut self, place: usize) -> &mut u32 {
        &mut self.lent.record.lend()[place]
    }

    fn value(&mut self, place: usize) -> &mut u32 {
        self.word(RECORD_WORDS + place)
    }

    fn says(&mut self, kind: u32, value: u32) {
        self.kind = kind;
        *self.value(0) = value;
        *self.value(1) = 0;
    }

    /// Where the words of the calling core begin.
    fn core_words(&self) -> usize {
        core_place(self.call.core().unwrap_or(0) as usize % self.given.core.len())
    }
}

/// A way to be wrong.
pub struct Fault {
    pub name: String,
    alter: Box<dyn Fn(&mut Left)>,
}

/// A door that is wrong in one way.
pub struct Wrong<'a, D> {
    pub right: D,
    pub fault: &'a Fault,
}

impl<D: Door> Door for Wrong<'_, D> {
    fn call(&mut self, given: &Record, call: Call, lent: &mut Lent) -> u32 {
        let kind = self.right.call(given, call, lent);
        let mut left = Left { given, call, kind, lent };
        (self.fault.alter)(&mut left);
        left.kind
    }
}

fn fault(name: &str, alter: impl Fn(&mut Left) + 'static) -> Fault {
    Fault { name: name.to_string(), alter: Box::new(alter) }
}

/// Every fault.
pub fn faults() -> Vec<Fault> {
    let all = [
        answers(),
        named(),
        read_only(),
        shared_reads(),
        refusals(),
        orders(),
        fields(),
        tables(),
        fences(),
        untested_rules(),
        strict_rules(),
    ];
    all.into_iter().flatten().collect()
}

/// An answer with another value, or another answer.
fn answers() -> Vec<Fault> {
    let values = [
        ("another value is read", VALUE, 0),
        ("another version is told", VALUE, 1),
        ("another ticket is told", BEGUN, 0),
        ("another core is named", WAITS, 0),
        ("waits has a second value", WAITS, 1),
        ("other aborts are told", COMMITTED, 0),
        ("another job is told", FINISHED, 0),
    ];
    let others = [
        ("running for queued", QUEUED, RUNNING),
        ("queued for running", RUNNING, QUEUED),
        ("written for set back", SET_BACK, WRITTEN),
        ("set back for written", WRITTEN, SET_BACK),
        ("committed for waits", WAITS, COMMITTED),
        ("finished for ended", ENDED, FINISHED),
    ];
    let mut faults = Vec::new();
    for (name, kind, place) in values {
        faults.push(fault(name, move |left| {
            if left.kind == kind {
                *left.value(place) ^= 1;
            }
        }));
    }
    for (name, kind, other) in others {
        faults.push(fault(name, move |left| {
            if left.kind == kind {
                left.says(other, 0);
            }
        }));
    }
    faults
}

/// Whom a wrong door names: a core, by the record and the core that waits.
type Names = fn(&Record, usize) -> Option<usize>;

/// Waits with another core than that of the smallest conflicting ticket.
fn named() -> Vec<Fault> {
    let names: [(&str, Names); 13] = [
        ("its own core", |_, own| Some(own)),
        ("a core out of range", |r, _| Some(r.cores as usize)),
        ("a core without a transaction", |r, _| r.core.iter().position(|core| !core.in_progress)),
        ("the least core in the way", |r, own| r.in_the_way(own).min()),
        ("the greatest core in the way", |r, own| r.in_the_way(own).max()),
        ("the greatest ticket in the way", |r, own| {
            r.in_the_way(own).max_by_key(|&other| r.core[other].ticket)
        }),
        ("the least core in conflict", |r, own| in_conflict(r, own).min()),
        ("the greatest ticket in conflict", |r, own| {
            in_conflict(r, own).max_by_key(|&other| r.core[other].ticket)
        }),
        ("one that does not conflict", |r, own| {
            others(r, own).find(|&other| !r.core[own].conflicts_with(&r.core[other]))
        }),
        ("a later one", |r, own| {
            others(r, own).find(|&other| r.core[other].ticket > r.core[own].ticket)
        }),
        ("the smallest ticket in progress", |r, own| {
            others(r, own).min_by_key(|&other| r.core[other].ticket)
        }),
        ("the smallest of tickets with a sign", |r, own| {
            r.in_the_way(own).min_by_key(|&other| r.core[other].ticket as i32)
        }),
        ("the smallest lower half of a ticket", |r, own| {
            r.in_the_way(own).min_by_key(|&other| r.core[other].ticket as u16)
        }),
    ];
    let named = |(name, names): (&str, Names)| {
        fault(&format!("waits names {name}"), move |left| {
            if let (WAITS, Call::Commit { core: own }) = (left.kind, left.call) {
                if let Some(core) = names(left.given, own as usize) {
                    left.says(WAITS, core as u32);
                }
            }
        })
    };
    names.into_iter().map(named).collect()
}

/// The other cores with a transaction in progress.
fn others(record: &Record, own: usize) -> impl Iterator<Item = usize> + '_ {
    let open = move |&other: &usize| other != own && record.core[other].in_progress;
    (0..record.present().len()).filter(open)
}

/// Those of them in conflict, earlier or later.
fn in_conflict(record: &Record, own: usize) -> impl Iterator<Item = usize> + '_ {
    let conflict = move |&other: &usize| record.core[own].conflicts_with(&record.core[other]);
    others(record, own).filter(conflict)
}

/// A wrong rule for read-only transactions.
fn read_only() -> Vec<Fault> {
    let mut faults = Vec::new();
    faults.push(fault("a read-only one waits", |left| {
        if let Some(first) =
            left.read_only_commit().and_then(|own| first_in_the_way(left.given, own))
        {
            left.says(WAITS, first as u32);
        }
    }));
    faults.push(fault("one that has touched nothing waits", |left| {
        let idle = left.read_only_commit().filter(|&own| left.given.core[own].read_set == 0);
        if let Some(other) = idle.and_then(|own| others(left.given, own).next()) {
            left.says(WAITS, other as u32);
        }
    }));
    faults.push(fault("a read-only one waits after a setback", |left| {
        let told = left.read_only_commit().filter(|&own| left.given.core[own].aborts > 0);
        if let Some(first) = told.and_then(|own| first_in_the_way(left.given, own)) {
            left.says(WAITS, first as u32);
        }
    }));
    faults.push(fault("a marked one commits", |left| {
        if let (SET_BACK, Call::Commit { core }) = (left.kind, left.call) {
            left.says(COMMITTED, left.given.core[core as usize].aborts);
        }
    }));
    faults.push(fault("nobody waits for a read-only one", |left| {
        if let (WAITS, Call::Commit { core }) = (left.kind, left.call) {
            let record = left.given;
            if record.in_the_way(core as usize).all(|other| record.core[other].read_only()) {
                left.says(COMMITTED, record.core[core as usize].aborts);
            }
        }
    }));
    faults.push(fault("a read-only commit raises a version", |left| {
        if let Some(object) = left.read_only_commit().and_then(|own| first_read(left.given, own)) {
            *left.word(VERSIONS + object) += 1;
        }
    }));
    faults.push(fault("a read-only commit strikes a reader", |left| {
        let Some(own) = left.read_only_commit() else { return };
        if let Some(other) = sharing(left.given, own).next() {
            left.strike(other);
        }
    }));
    faults.push(fault("a read-only commit is not counted", |left| {
        if left.read_only_commit().is_some() {
            *left.word(COMMITS) -= 1;
        }
    }));
    faults
}

/// Those that have read one card and written others are in conflict, or are
/// struck.
fn shared_reads() -> Vec<Fault> {
    let conflict = fault("one waits for an earlier one that has read the same", |left| {
        let Some(own) = left.writing_commit() else { return };
        let record = left.given;
        let earlier = |&other: &usize| record.core[other].ticket < record.core[own].ticket;
        if let Some(other) = sharing(record, own).find(earlier) {
            left.says(WAITS, other as u32);
        }
    });
    let strike = fault("a commit strikes one that has read the same", |left| {
        let Some(own) = left.writing_commit() else { return };
        let spared = |&other: &usize| !left.given.core[own].conflicts_with(&left.given.core[other]);
        if let Some(other) = sharing(left.given, own).find(spared) {
            left.strike(other);
        }
    });
    vec![conflict, strike]
}

/// The other transactions that have read what this one has read.
fn sharing(record: &Record, own: usize) -> impl Iterator<Item = usize> + '_ {
    let shares = move |&other: &usize| record.core[other].read_set & record.core[own].read_set != 0;
    others(record, own).filter(shares)
}

/// The core with the smallest conflicting ticket, if that is a smaller one.
fn first_in_the_way(record: &Record, own: usize) -> Option<usize> {
    record.in_the_way(own).min_by_key(|&other| record.core[other].ticket)
}

/// An object that the transaction has read.
fn first_read(record: &Record, own: usize) -> Option<usize> {
    let read_set = record.core[own].read_set;
    (read_set != 0).then(|| read_set.trailing_zeros() as usize)
}

/// A refused call that says another number or changes something.
fn refusals() -> Vec<Fault> {
    let numbers = [(1, 3), (2, 9), (3, 9), (4, 9), (5, 9), (6, 8), (7, 8), (8, 7), (9, 5), (10, 8)];
    let mut faults = Vec::new();
    for (number, other) in numbers {
        let name = format!("refused {other} for refused {number}");
        faults.push(fault(&name, move |left| {
            if left.refused(number) {
                left.says(REFUSED, other);
            }
        }));
    }
    faults.push(fault("an unsound record comes back blank", |left| {
        if left.refused(2) {
            left.lent.record.lend()[..RECORD_WORDS].fill(0);
        }
    }));
    faults.push(fault("a wrong table blanks the record", |left| {
        if left.refused(3) {
            left.lent.record.lend()[..RECORD_WORDS].fill(0);
        }
    }));
    faults.push(fault("a refused setup of wrong sizes leaves a count", |left| {
        if left.refused(1) {
            *left.word(0) = 1;
        }
    }));
    faults.push(fault("a refused setup with wrong tables leaves the sizes", |left| {
        if let (true, Call::Setup { cores, objects }) = (left.refused(3), left.call) {
            (*left.word(0), *left.word(1)) = (cores, objects);
        }
    }));
    faults.push(fault("a refused setup clears the tables", |left| {
        if left.is_setup() && left.kind == REFUSED {
            left.lent.committed.lend().fill(0);
            left.lent.pending.lend().fill(0);
        }
    }));
    faults
}

/// Whether two refusals apply at once.
type Both = fn(&Left) -> bool;

/// A greater refusal is given before a smaller one that applies too.
fn orders() -> Vec<Fault> {
    let orders: [(u32, u32, Both); 7] = [
        (2, 3, |left| left.lends() && left.misfit()),
        (3, 4, |left| left.lends() && left.no_core()),
        (3, 5, |left| left.no_object()),
        (4, 5, |left| left.no_object()),
        (5, 9, |left| !left.in_progress()),
        (7, 10, |left| left.spent()),
        (8, 10, |left| left.spent()),
    ];
    let order = |(smaller, greater, both): (u32, u32, Both)| {
        fault(&format!("refused {greater} before {smaller}"), move |left| {
            if left.refused(smaller) && both(left) {
                left.says(REFUSED, greater);
            }
        })
    };
    orders.into_iter().map(order).collect()
}

/// Each field of the record, on the calling core and on the last place, after
/// an accepted call; and after a refused one.
fn fields() -> Vec<Fault> {
    let mut places: Vec<(String, usize, bool)> = Vec::new();
    places.extend(COUNTS.iter().enumerate().map(|(place, name)| (name.to_string(), place, false)));
    places.push(("job number".to_string(), 0, true));
    places.push(("deadline".to_string(), 1, true));
    places.push(("last deadline".to_string(), JOB_WORDS - 1, true));
    let core_fields = CORE_FIELDS.iter().enumerate();
    places.extend(core_fields.map(|(place, name)| (name.to_string(), JOB_WORDS + place, true)));
    places.push(("first version".to_string(), VERSIONS, false));
    places.push(("last version".to_string(), RECORD_WORDS - 1, false));
    let mut faults = Vec::new();
    for (name, place, of_core) in places {
        for refused in [false, true] {
            let when = if refused { "a refused" } else { "an accepted" };
            let name = format!("{when} call changes: {name}");
            faults.push(fault(&name, move |left| {
                if (left.kind == REFUSED) == refused {
                    let start = if of_core { left.core_words() } else { 0 };
                    *left.word(start + place) ^= 1;
                }
            }));
        }
    }
    faults.push(fault("a commit changes the last core", |left| {
        if left.kind == COMMITTED {
            *left.word(core_place(15) + JOB_WORDS) ^= 1;
        }
    }));
    faults
}

/// One of the two tables.
type Table = fn(&mut Lent) -> &mut [u32];

/// A word of a table that is not the rule's.
fn tables() -> Vec<Fault> {
    let tables: [(&str, Table); 2] =
        [("committed", |lent| lent.committed.lend()), ("pending", |lent| lent.pending.lend())];
    let whens = [
        ("a read", VALUE),
        ("a write", WRITTEN),
        ("waits", WAITS),
        ("a commit", COMMITTED),
        ("set back", SET_BACK),
        ("a refusal", REFUSED),
        ("setup", 1),
    ];
    let mut faults = Vec::new();
    for (table, words) in tables {
        for (when, kind) in whens {
            let name = format!("{when} changes the first {table} word");
            faults.push(fault(&name, move |left| {
                if left.kind == kind {
                    words(left.lent).iter_mut().take(1).for_each(|word| *word ^= 1);
                }
            }));
            let name = format!("{when} changes the last {table} word");
            faults.push(fault(&name, move |left| {
                if left.kind == kind {
                    words(left.lent).iter_mut().rev().take(1).for_each(|word| *word ^= 1);
                }
            }));
        }
    }
    faults
}

/// A word beside what is lent.
fn fences() -> Vec<Fault> {
    let places = ["record", "committed values", "pending values"];
    let mut faults = Vec::new();
    for (place, name) in places.into_iter().enumerate() {
        for side in [0, 1] {
            let name = format!("the word {} the {name}", ["before", "after"][side]);
            faults.push(fault(&name, move |left| {
                let Lent { record, committed, pending } = &mut *left.lent;
                *[record, committed, pending][place].posts()[side] = 0;
            }));
        }
    }
    faults
}

/// A record that breaks one rule alone is taken for sound.
fn untested_rules() -> Vec<Fault> {
    let untested = |(rule, _): &Rule| {
        let rule = *rule;
        fault(&format!("not tested: {rule}"), move |left| {
            if left.refused(2) && broken_rules(left.given) == [rule] {
                left.says(ENDED, 0);
            }
        })
    };
    RULES.iter().map(untested).collect()
}

/// A sound record at a limit is taken for unsound.
fn strict_rules() -> Vec<Fault> {
    let limits: [Rule; 8] = [
        ("16 cores", |r| r.cores == 16),
        ("64 objects", |r| r.objects == 64),
        ("8 jobs", |r| r.core.iter().any(|core| core.job_count == 8)),
        ("an owner that is not the first", |r| r.core.iter().any(|core| core.owner > 0)),
        ("a zombie", |r| r.core.iter().any(|core| core.zombie)),
        ("as many versions as commits", |r| r.commits > 0 && r.versions.contains(&r.commits)),
        ("aborts at the limit", |r| {
            let smaller = |ticket| r.transactions().filter(|core| core.ticket < ticket).count();
            let full = |core: &Core| core.aborts as usize + smaller(core.ticket) + 1;
            r.transactions().any(|core| core.aborts > 0 && full(core) == r.cores as usize)
        }),
        ("every ticket given", |r| r.tickets == u32::MAX),
    ];
    let strict = |(name, holds): Rule| {
        fault(&format!("taken for unsound: {name}"), move |left| {
            if !left.is_setup() && sound(left.given) && holds(left.given) {
                left.says(REFUSED, 2);
            }
        })
    };
    limits.into_iter().map(strict).collect()
}
