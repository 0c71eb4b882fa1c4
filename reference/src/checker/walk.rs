//! Goes through a run, call by call, and works out its history.

use super::history::{Event, Happening, History, Transaction};
use super::{Detail, Run};
use crate::answer::Answer;
use crate::call::Call;
use crate::set::{only, Set};

impl History {
    /// The history of a run.
    pub fn of(run: &Run) -> History {
        let mut walk = Walk {
            run,
            history: History::default(),
            open: vec![None; run.cores as usize],
            touched: Vec::new(),
            written: Vec::new(),
        };
        for &(call, answer) in &run.steps {
            walk.step(call, answer);
        }
        walk.history
    }
}

/// The history so far, and what each transaction has touched and written
/// since its begin or since it was last struck.
struct Walk<'a> {
    run: &'a Run,
    history: History,
    /// For each core its transaction in progress.
    open: Vec<Option<usize>>,
    touched: Vec<Set>,
    written: Vec<Set>,
}

impl Walk<'_> {
    /// Takes in the next call and its answer. A refused call does nothing; of a
    /// commit it is remembered.
    fn step(&mut self, call: Call, answer: Answer) {
        let number = self.history.acts.len();
        self.history.acts.push(None);
        let fits = match (call, answer) {
            (Call::Commit { core }, Answer::Refused(_)) => {
                self.refuse(number, core);
                true
            }
            (_, Answer::Refused(_)) => true,
            (Call::Release { .. }, Answer::Running | Answer::Queued) => true,
            (Call::Finish { .. }, Answer::Finished(_)) => true,
            (Call::Begin { core }, Answer::Begun(_)) => self.begin(number, core),
            _ => self.act(number, call, answer).is_some(),
        };
        if !fits {
            self.history.misfits.push(number);
        }
    }

    /// Opens a transaction; false if the core has one or does not exist.
    fn begin(&mut self, begin: usize, core: u32) -> bool {
        let contenders = self.in_progress();
        let Some(place @ None) = self.open.get_mut(core as usize) else {
            return false;
        };
        *place = Some(self.history.transactions.len());
        let happenings = Vec::new();
        self.history.transactions.push(Transaction { begin, contenders, happenings, end: None });
        self.touched.push(0);
        self.written.push(0);
        true
    }

    /// Remembers a refused commit for the transaction that asked, if there is one.
    fn refuse(&mut self, number: usize, core: u32) {
        if let Some(own) = self.on(core) {
            let read_only = self.read_only(own);
            self.happen(number, own, Event::Refused { read_only });
        }
    }

    /// Takes in a call made for the transaction in progress on its core. None
    /// if there is none or the answer does not fit.
    fn act(&mut self, number: usize, call: Call, answer: Answer) -> Option<()> {
        let core = call.core()?;
        let own = self.on(core)?;
        let event = self.event(own, call, answer)?;
        match event {
            Event::Read { object, .. } => self.touched[own] |= only(object),
            Event::Wrote { object, .. } => {
                self.touched[own] |= only(object);
                self.written[own] |= only(object);
            }
            Event::Committed { .. } => {
                self.end(number, core, own);
                self.history.commits.push(own);
                self.strike(number, own);
            }
            Event::GaveUp => self.end(number, core, own),
            Event::Told | Event::Waited { .. } | Event::Refused { .. } | Event::Struck { .. } => {}
        }
        self.history.acts[number] = Some(own);
        self.happen(number, own, event);
        Some(())
    }

    /// What a call and its answer mean for the transaction.
    fn event(&self, own: usize, call: Call, answer: Answer) -> Option<Event> {
        Some(match (call, answer) {
            (Call::Read { object, .. }, Answer::Value { value, version }) => {
                Event::Read { object: self.object(object)?, value, version: self.version(version) }
            }
            (Call::Write { object, value, .. }, Answer::Written) => {
                Event::Wrote { object: self.object(object)?, value }
            }
            (Call::Read { .. } | Call::Write { .. } | Call::Commit { .. }, Answer::SetBack) => {
                Event::Told
            }
            (Call::Commit { .. }, Answer::Waits { core }) => {
                let (named, in_conflict) = (self.on(core), self.in_conflict(own));
                Event::Waited { named, in_conflict, read_only: self.read_only(own) }
            }
            (Call::Commit { .. }, Answer::Committed(aborts)) => {
                let in_conflict = self.in_conflict(own);
                Event::Committed { aborts, in_conflict, read_only: self.read_only(own) }
            }
            (Call::GiveUp { .. }, Answer::Ended) => Event::GaveUp,
            _ => return None,
        })
    }

    /// An object that the machine has.
    fn object(&self, object: u32) -> Option<usize> {
        (object < self.run.objects).then_some(object as usize)
    }

    /// A version, which a listing does not show.
    fn version(&self, version: u32) -> Option<u32> {
        (self.run.detail == Detail::Whole).then_some(version)
    }

    fn happen(&mut self, call: usize, own: usize, event: Event) {
        self.history.transactions[own].happenings.push(Happening { call, event });
    }

    fn end(&mut self, number: usize, core: u32, own: usize) {
        self.history.transactions[own].end = Some(number);
        self.open[core as usize] = None;
    }

    /// A commit strikes every other transaction in progress that has touched
    /// an object the committing one has written.
    fn strike(&mut self, number: usize, by: usize) {
        for other in self.in_progress() {
            if self.touched[other] & self.written[by] != 0 {
                self.touched[other] = 0;
                self.written[other] = 0;
                self.happen(number, other, Event::Struck { by });
            }
        }
    }

    /// Whether it has written nothing since its begin or since it was last struck.
    fn read_only(&self, own: usize) -> bool {
        self.written[own] == 0
    }

    /// The other transactions in progress that conflict with this one: one has
    /// written an object that the other has touched.
    fn in_conflict(&self, own: usize) -> Vec<usize> {
        let conflict = |&other: &usize| {
            self.written[own] & self.touched[other] != 0
                || self.written[other] & self.touched[own] != 0
        };
        let mut others = self.in_progress();
        others.retain(|other| *other != own && conflict(other));
        others
    }

    /// The transaction in progress on a core.
    fn on(&self, core: u32) -> Option<usize> {
        *self.open.get(core as usize)?
    }

    fn in_progress(&self) -> Vec<usize> {
        self.open.iter().flatten().copied().collect()
    }
}
