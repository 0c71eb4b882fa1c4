//! begin, read, write and give up: the life of one transaction but its commit.

use super::admit::Admitted;
use crate::answer::Answer;
use crate::record::{Core, Record};
use crate::set::only;

impl Record {
    /// The running job's transaction gets the next ticket, from 0. Its sets
    /// are empty, its aborts (setbacks) 0. Answers begun with the ticket.
    pub fn begin(mut self, core: u32) -> (Answer, Record) {
        let (c, owner) = match self.admit_begin(core) {
            Ok(found) => found,
            Err(number) => return (Answer::Refused(number), self),
        };
        let ticket = self.tickets;
        self.core[c] =
            Core { in_progress: true, owner, ticket, ..self.core[c].without_transaction() };
        self.tickets += 1;
        (Answer::Begun(ticket), self)
    }

    fn admit_begin(&self, core: u32) -> Admitted<(usize, usize)> {
        self.admit_sound()?;
        let c = self.admit_core(core)?;
        let owner = self.admit_running(c)?;
        self.admit_idle(c)?;
        self.admit_ticket()?;
        Ok((c, owner))
    }

    /// The object's pending value if this attempt wrote it, else its committed
    /// value; with it the committed version. The object joins the read set.
    pub fn read(
        mut self,
        core: u32,
        object: u32,
        committed: &[u32],
        pending: &[u32],
    ) -> (Answer, Record) {
        let (c, d) = match self.admit_access(core, object, committed, pending) {
            Ok(found) => found,
            Err(number) => return (Answer::Refused(number), self),
        };
        if self.core[c].zombie {
            return self.tell_set_back(c);
        }
        let own = self.core[c].write_set & only(d) != 0;
        let value = if own { pending[self.pending_place(c, d)] } else { committed[d] };
        let version = self.versions[d];
        self.core[c].read_set |= only(d);
        (Answer::Value { value, version }, self)
    }

    /// Stores the pending word; the object joins the write set. Answers written.
    pub fn write(
        mut self,
        core: u32,
        object: u32,
        value: u32,
        committed: &[u32],
        pending: &mut [u32],
    ) -> (Answer, Record) {
        let (c, d) = match self.admit_access(core, object, committed, pending) {
            Ok(found) => found,
            Err(number) => return (Answer::Refused(number), self),
        };
        if self.core[c].zombie {
            return self.tell_set_back(c);
        }
        pending[self.pending_place(c, d)] = value;
        self.core[c].write_set |= only(d);
        (Answer::Written, self)
    }

    fn admit_access(
        &self,
        core: u32,
        object: u32,
        committed: &[u32],
        pending: &[u32],
    ) -> Admitted<(usize, usize)> {
        self.admit_sound()?;
        self.admit_tables(committed, pending)?;
        let c = self.admit_core(core)?;
        let d = self.admit_object(object)?;
        self.admit_in_progress(c)?;
        Ok((c, d))
    }

    /// A zombie's (marked transaction's) call answers set back, takes away the
    /// mark and does nothing more.
    pub(super) fn tell_set_back(mut self, core: usize) -> (Answer, Record) {
        self.core[core].zombie = false;
        (Answer::SetBack, self)
    }

    /// The transaction ends without effect, marked or not. Answers ended.
    pub fn give_up(mut self, core: u32) -> (Answer, Record) {
        let c = match self.admit_give_up(core) {
            Ok(c) => c,
            Err(number) => return (Answer::Refused(number), self),
        };
        self.core[c] = self.core[c].without_transaction();
        self.give_ups += 1;
        (Answer::Ended, self)
    }

    fn admit_give_up(&self, core: u32) -> Admitted<usize> {
        self.admit_sound()?;
        let c = self.admit_core(core)?;
        self.admit_in_progress(c)?;
        Ok(c)
    }
}
