//! A machine that owns its two tables, for the script program and for runs.

use crate::answer::Answer;
use crate::call::Call;
use crate::calls::setup;
use crate::record::{Record, MAX_CORES, MAX_OBJECTS};

/// The record and the two tables as the last call left them.
pub struct Machine {
    pub record: Record,
    committed: [u32; MAX_OBJECTS],
    pending: [u32; MAX_CORES * MAX_OBJECTS],
}

impl Machine {
    /// Before the first setup the record is blank.
    pub fn blank() -> Machine {
        Machine {
            record: Record::blank(),
            committed: [0; MAX_OBJECTS],
            pending: [0; MAX_CORES * MAX_OBJECTS],
        }
    }

    /// The committed values, one word for each object.
    pub fn committed(&self) -> &[u32] {
        &self.committed[..self.record.objects as usize]
    }

    /// The pending values, one word for each core and object.
    pub fn pending(&self) -> &[u32] {
        &self.pending[..(self.record.cores * self.record.objects) as usize]
    }

    /// The committed values, open to a test that spoils them.
    pub fn committed_mut(&mut self) -> &mut [u32] {
        &mut self.committed[..self.record.objects as usize]
    }

    /// Makes the call, with tables of the right length lent.
    pub fn call(&mut self, call: Call) -> Answer {
        let (cores, objects) = match call {
            Call::Setup { cores, objects } => (cores, objects),
            _ => (self.record.cores, self.record.objects),
        };
        let objects = MAX_OBJECTS.min(objects as usize);
        let words = MAX_CORES.min(cores as usize) * objects;
        let (answer, after) =
            dispatch(self.record, call, &mut self.committed[..objects], &mut self.pending[..words]);
        self.record = after;
        answer
    }
}

/// Makes the call on a record and two lent tables.
pub fn dispatch(
    record: Record,
    call: Call,
    committed: &mut [u32],
    pending: &mut [u32],
) -> (Answer, Record) {
    match call {
        Call::Setup { cores, objects } => setup(cores, objects, committed, pending),
        Call::Release { core, job, deadline } => record.release(core, job, deadline),
        Call::Begin { core } => record.begin(core),
        Call::Read { core, object } => record.read(core, object, committed, pending),
        Call::Write { core, object, value } => {
            record.write(core, object, value, committed, pending)
        }
        Call::Commit { core } => record.commit(core, committed, pending),
        Call::GiveUp { core } => record.give_up(core),
        Call::Finish { core } => record.finish(core),
    }
}
