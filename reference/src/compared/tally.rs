//! What the compared calls met. A comparison that never met something shows
//! nothing about it.

use super::broken::WAYS;
use super::judge::World;
use super::words::{numbers, Told, CALLS, KINDS};
use crate::answer::Answer;
use crate::call::Call;
use crate::readers::{ReaderCases, CASES};
use crate::record::{Record, MAX_OBJECTS, MAX_TICKETS};
use crate::refusal;
use crate::set::only;
use crate::waiting::Waiting;
use std::collections::BTreeMap;

/// The refusals that each call may give, in the order of the calls.
const REFUSALS: [&[u32]; 8] = [
    &[refusal::OUT_OF_RANGE, refusal::TABLE_LENGTH],
    &[refusal::UNSOUND, refusal::NO_CORE, refusal::LIST_FULL],
    &[
        refusal::UNSOUND,
        refusal::NO_CORE,
        refusal::NO_JOB,
        refusal::IN_PROGRESS,
        refusal::TICKETS_SPENT,
    ],
    &[
        refusal::UNSOUND,
        refusal::TABLE_LENGTH,
        refusal::NO_CORE,
        refusal::NO_OBJECT,
        refusal::NONE_IN_PROGRESS,
    ],
    &[
        refusal::UNSOUND,
        refusal::TABLE_LENGTH,
        refusal::NO_CORE,
        refusal::NO_OBJECT,
        refusal::NONE_IN_PROGRESS,
    ],
    &[refusal::UNSOUND, refusal::TABLE_LENGTH, refusal::NO_CORE, refusal::NONE_IN_PROGRESS],
    &[refusal::UNSOUND, refusal::NO_CORE, refusal::NONE_IN_PROGRESS],
    &[refusal::UNSOUND, refusal::NO_CORE, refusal::NO_JOB, refusal::IN_PROGRESS],
];

/// The kinds of answers that each call may give beside a refusal.
const GIVEN: [&[u32]; 8] = [&[1], &[2, 3], &[4], &[5, 9], &[6, 9], &[7, 8, 9], &[10], &[11]];

/// How a lent table can be wrong.
pub const MISFITS: [&str; 6] = [
    "committed values one short",
    "committed values one long",
    "no committed values",
    "pending values one short",
    "pending values one long",
    "no pending values",
];

/// What else must be met.
const SEVERAL: &str = "waits with several in the way";
const NOT_LEAST: &str = "waits, the first in the way not on the least core";
const NOT_GREATEST: &str = "waits, the first in the way not on the greatest core";
const BYSTANDER: &str = "waits, an even earlier one not in conflict";
const FOLLOWER: &str = "waits, a later one in conflict";
const CROWD: &str = "waits, all of that at once";
const PENDING_READ: &str = "a pending value read";
const AFTER_ABORT: &str = "committed after a setback";
const MOST_ABORTS: &str = "committed after as many setbacks as there can be";
const LAST_TICKET: &str = "the last ticket begun";
const MOST_COMMITS: &str = "the commits at 4294967295";
const MOST_VERSION: &str = "a version at 4294967295";
const HIGH_VERSION: &str = "a version of 4294967294 read";
const BORDER_SOUND: &str = "records near the border, sound";
const BORDER_UNSOUND: &str = "records near the border, unsound";
const UNSOUND_MISFIT: &str = "refused 2 with wrong tables";
const MISFIT_NO_CORE: &str = "refused 3 with no such core";
const MISFIT_NO_OBJECT: &str = "refused 3 with no such card";
const NO_CORE_NO_OBJECT: &str = "refused 4 with no such card";
const NO_OBJECT_IDLE: &str = "refused 5 with none in progress";
const NO_JOB_SPENT: &str = "refused 7 with every ticket given";
const OPEN_SPENT: &str = "refused 8 with every ticket given";
const SIGHTS: [&str; 22] = [
    SEVERAL,
    NOT_LEAST,
    NOT_GREATEST,
    BYSTANDER,
    FOLLOWER,
    CROWD,
    PENDING_READ,
    AFTER_ABORT,
    MOST_ABORTS,
    LAST_TICKET,
    MOST_COMMITS,
    MOST_VERSION,
    HIGH_VERSION,
    BORDER_SOUND,
    BORDER_UNSOUND,
    UNSOUND_MISFIT,
    MISFIT_NO_CORE,
    MISFIT_NO_OBJECT,
    NO_CORE_NO_OBJECT,
    NO_OBJECT_IDLE,
    NO_JOB_SPENT,
    OPEN_SPENT,
];

/// How the calls of a run come about; all others are side steps.
pub const RUNS: &str = "runs";

/// The counts.
#[derive(Default)]
pub struct Tally {
    pub calls: u64,
    parts: BTreeMap<&'static str, u64>,
    kinds: [[u64; 13]; 8],
    refused: [[u64; 13]; 8],
    /// For each way to break a rule alone, for each call.
    broken: BTreeMap<usize, [u64; 8]>,
    misfits: [[u64; 8]; 6],
    sights: BTreeMap<&'static str, u64>,
    /// What the run so far says of readers.
    readers: ReaderCases,
}

impl Tally {
    /// Counts a call on which both agreed, by the record before it and the tables
    /// after it.
    pub(super) fn count(
        &mut self,
        part: &'static str,
        given: &Record,
        call: Call,
        answer: Answer,
        after: &World,
    ) {
        let World { committed, pending, .. } = after;
        let lengths = (committed.len(), pending.len());
        self.calls += 1;
        *self.parts.entry(part).or_default() += 1;
        let place = numbers(call)[0] as usize;
        self.kinds[place][Told::from(answer).kind as usize] += 1;
        if let Answer::Refused(number) = answer {
            self.refused[place][number as usize] += 1;
            self.see_refusal(number, given, call, lengths);
        }
        if answer == Answer::Refused(refusal::TABLE_LENGTH) {
            self.count_misfit(given, call, place, lengths);
        }
        match (call, answer) {
            (Call::Begin { .. }, Answer::Begun(ticket)) => {
                self.see(LAST_TICKET, ticket == MAX_TICKETS - 1);
            }
            (Call::Read { core, object }, Answer::Value { version, .. }) => {
                let own = given.core[core as usize].write_set & only(object as usize);
                self.see(PENDING_READ, own != 0);
                self.see(HIGH_VERSION, version == u32::MAX - 1);
            }
            (Call::Commit { core }, _) => self.see_commit(given, core as usize, answer),
            _ => {}
        }
        let mut aside = ReaderCases::default();
        let readers = if part == RUNS { &mut self.readers } else { &mut aside };
        let cases = readers.see(given, call, answer, committed, pending);
        for (case, met) in CASES.into_iter().zip(cases) {
            self.see(case, met);
        }
    }

    fn see(&mut self, sight: &'static str, met: bool) {
        if met {
            *self.sights.entry(sight).or_default() += 1;
        }
    }

    /// Two refusals that apply at once.
    fn see_refusal(&mut self, number: u32, given: &Record, call: Call, lengths: (usize, usize)) {
        let core = call.core().unwrap_or(0);
        let no_core = core >= given.cores;
        let no_object = match call {
            Call::Read { object, .. } | Call::Write { object, .. } => object >= given.objects,
            _ => false,
        };
        let lent = matches!(call, Call::Read { .. } | Call::Write { .. } | Call::Commit { .. });
        let (cores, objects) = (given.cores as usize, given.objects as usize);
        let misfit = lent && lengths != (objects, cores * objects);
        let spent = matches!(call, Call::Begin { .. }) && given.tickets == MAX_TICKETS;
        match number {
            refusal::UNSOUND => self.see(UNSOUND_MISFIT, misfit),
            refusal::TABLE_LENGTH => {
                self.see(MISFIT_NO_CORE, lent && no_core);
                self.see(MISFIT_NO_OBJECT, no_object);
            }
            refusal::NO_CORE => self.see(NO_CORE_NO_OBJECT, no_object),
            refusal::NO_OBJECT => {
                self.see(NO_OBJECT_IDLE, !given.core[core as usize].in_progress);
            }
            refusal::NO_JOB => self.see(NO_JOB_SPENT, spent),
            refusal::IN_PROGRESS => self.see(OPEN_SPENT, spent),
            _ => {}
        }
    }

    fn see_commit(&mut self, given: &Record, core: usize, answer: Answer) {
        match answer {
            Answer::Waits { .. } => {
                if let Some(waiting) = Waiting::of(given, core) {
                    self.see_waiting(waiting);
                }
            }
            Answer::Committed(aborts) => {
                let written = given.core[core].write_set;
                let full = |d: usize| written & only(d) != 0 && given.versions[d] == u32::MAX - 1;
                self.see(AFTER_ABORT, aborts > 0);
                self.see(MOST_ABORTS, aborts > 0 && aborts == given.cores - 1);
                self.see(MOST_COMMITS, given.commits == u32::MAX - 1);
                self.see(MOST_VERSION, (0..MAX_OBJECTS).any(full));
            }
            _ => {}
        }
    }

    fn see_waiting(&mut self, waiting: Waiting) {
        self.see(SEVERAL, waiting.in_the_way > 1);
        self.see(NOT_LEAST, waiting.not_least);
        self.see(NOT_GREATEST, waiting.not_greatest);
        self.see(BYSTANDER, waiting.bystander);
        self.see(FOLLOWER, waiting.follower);
        self.see(CROWD, waiting.in_a_crowd());
    }

    /// Counts a call that was refused for its tables, by what was wrong, if only
    /// one of them was.
    fn count_misfit(&mut self, given: &Record, call: Call, place: usize, lengths: (usize, usize)) {
        let (cores, objects) = match call {
            Call::Setup { cores, objects } => (cores as usize, objects as usize),
            _ => (given.cores as usize, given.objects as usize),
        };
        let wrong =
            |length: usize, right: usize| [length + 1 == right, length == right + 1, length == 0];
        let (committed, pending) = lengths;
        let fits = (committed == objects, pending == cores * objects);
        let alone = [
            wrong(committed, objects).map(|is| is && fits.1),
            wrong(pending, cores * objects).map(|is| is && fits.0),
        ];
        for (misfit, met) in alone.into_iter().flatten().enumerate() {
            self.misfits[misfit][place] += u64::from(met);
        }
    }

    /// Counts a call on a record that breaks a rule alone.
    pub(super) fn count_broken(&mut self, way: usize, call: Call) {
        self.broken.entry(way).or_default()[numbers(call)[0] as usize] += 1;
    }

    /// Counts a record near the border of soundness.
    pub(super) fn count_border(&mut self, sound: bool) {
        self.see(if sound { BORDER_SOUND } else { BORDER_UNSOUND }, true);
    }

    /// What was never met.
    pub fn never_met(&self) -> Vec<String> {
        let mut never = Vec::new();
        for (place, call) in CALLS.iter().enumerate() {
            let lacks = |kind: &&u32| self.kinds[place][**kind as usize] == 0;
            let kinds = GIVEN[place].iter().filter(lacks);
            never.extend(kinds.map(|&kind| format!("{call} answered {}", KINDS[kind as usize])));
            let lacks = |number: &&u32| self.refused[place][**number as usize] == 0;
            let numbers = REFUSALS[place].iter().filter(lacks);
            never.extend(numbers.map(|number| format!("{call} refused {number}")));
            for (way, (_, name, _)) in WAYS.iter().enumerate() {
                if place > 0 && self.broken.get(&way).is_none_or(|calls| calls[place] == 0) {
                    never.push(format!("{call} on a record with {name}"));
                }
            }
            for (misfit, name) in MISFITS.iter().enumerate() {
                if matches!(place, 0 | 3 | 4 | 5) && self.misfits[misfit][place] == 0 {
                    never.push(format!("{call} with {name}"));
                }
            }
        }
        let sights = SIGHTS.iter().chain(&CASES);
        let unseen = sights.filter(|&sight| !self.sights.contains_key(sight));
        never.extend(unseen.map(|sight| sight.to_string()));
        never
    }

    /// The counts in lines.
    pub fn lines(&self) -> Vec<String> {
        let list = |counts: Vec<(String, u64)>| {
            let words = counts.into_iter().map(|(name, count)| format!("{name} {count}"));
            words.collect::<Vec<_>>().join(", ")
        };
        let sum = |rows: &[[u64; 13]; 8], column: usize| rows.iter().map(|row| row[column]).sum();
        let kinds = (1..13).map(|kind| (KINDS[kind].to_string(), sum(&self.kinds, kind)));
        let refused = (1..=10).map(|number| (number.to_string(), sum(&self.refused, number)));
        let parts = self.parts.iter().map(|(part, count)| (part.to_string(), *count));
        let sights = self.sights.iter().map(|(sight, count)| (sight.to_string(), *count));
        let least = self.broken.values().flat_map(|calls| &calls[1..]).min().copied();
        vec![
            format!("calls {}: {}", self.calls, list(parts.collect())),
            format!("answers: {}", list(kinds.collect())),
            format!("refused: {}", list(refused.collect())),
            format!(
                "standing rules broken alone in {} ways, each on seven calls, at least {} times each",
                self.broken.len(),
                least.unwrap_or(0)
            ),
            format!("also: {}", list(sights.collect())),
        ]
    }
}
