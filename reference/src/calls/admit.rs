//! The conditions of the refusal table that speak of the record, one function
//! for each. A call asks them in the order of their numbers, so the smallest
//! number that applies is given.

use crate::record::{Record, MAX_JOBS, MAX_TICKETS};
use crate::refusal;
use crate::sound::sound;

/// What a condition leaves to go on with, or the refusal number.
pub(super) type Admitted<T> = Result<T, u32>;

/// Refuses with the number if its condition holds.
fn refuse_if(condition: bool, number: u32) -> Admitted<()> {
    if condition {
        Err(number)
    } else {
        Ok(())
    }
}

impl Record {
    /// Refusal 2: record unsound.
    pub(super) fn admit_sound(&self) -> Admitted<()> {
        refuse_if(!sound(self), refusal::UNSOUND)
    }

    /// Refusal 3: either table's length is wrong.
    pub(super) fn admit_tables(&self, committed: &[u32], pending: &[u32]) -> Admitted<()> {
        refuse_if(!lengths_fit(self.cores, self.objects, committed, pending), refusal::TABLE_LENGTH)
    }

    /// Refusal 4: no such core.
    pub(super) fn admit_core(&self, core: u32) -> Admitted<usize> {
        refuse_if(core >= self.cores, refusal::NO_CORE)?;
        Ok(core as usize)
    }

    /// Refusal 5: no such card.
    pub(super) fn admit_object(&self, object: u32) -> Admitted<usize> {
        refuse_if(object >= self.objects, refusal::NO_OBJECT)?;
        Ok(object as usize)
    }

    /// Refusal 6: core has 8 jobs.
    pub(super) fn admit_job(&self, core: usize) -> Admitted<()> {
        refuse_if(self.core[core].job_count >= MAX_JOBS, refusal::LIST_FULL)
    }

    /// Refusal 7: core has no job.
    pub(super) fn admit_running(&self, core: usize) -> Admitted<usize> {
        self.core[core].running().ok_or(refusal::NO_JOB)
    }

    /// Refusal 8: transaction in progress.
    pub(super) fn admit_idle(&self, core: usize) -> Admitted<()> {
        refuse_if(self.core[core].in_progress, refusal::IN_PROGRESS)
    }

    /// Refusal 9: none in progress.
    pub(super) fn admit_in_progress(&self, core: usize) -> Admitted<()> {
        refuse_if(!self.core[core].in_progress, refusal::NONE_IN_PROGRESS)
    }

    /// Refusal 10: 4,294,967,295 tickets given.
    pub(super) fn admit_ticket(&self) -> Admitted<()> {
        refuse_if(self.tickets == MAX_TICKETS, refusal::TICKETS_SPENT)
    }
}

/// Whether the committed values are one word for each object and the pending
/// values cores x objects words.
pub(super) fn lengths_fit(cores: u32, objects: u32, committed: &[u32], pending: &[u32]) -> bool {
    committed.len() as u64 == u64::from(objects)
        && pending.len() as u64 == u64::from(cores) * u64::from(objects)
}
