//! release and finish: the list of jobs of a core.

use super::admit::Admitted;
use crate::answer::Answer;
use crate::record::{Job, Record, MAX_JOBS};

impl Record {
    /// The job joins the end of the core's list. Answers running if it is the
    /// running job then, else queued.
    pub fn release(mut self, core: u32, job: u16, deadline: u32) -> (Answer, Record) {
        let c = match self.admit_release(core) {
            Ok(c) => c,
            Err(number) => return (Answer::Refused(number), self),
        };
        let place = self.core[c].job_count;
        self.core[c].jobs[place] = Job { number: job, deadline };
        self.core[c].job_count += 1;
        if self.core[c].running() == Some(place) {
            (Answer::Running, self)
        } else {
            (Answer::Queued, self)
        }
    }

    fn admit_release(&self, core: u32) -> Admitted<usize> {
        self.admit_sound()?;
        let c = self.admit_core(core)?;
        self.admit_job(c)?;
        Ok(c)
    }

    /// The running job leaves the list, the others keep their order. Answers
    /// finished with its number.
    pub fn finish(mut self, core: u32) -> (Answer, Record) {
        let (c, place) = match self.admit_finish(core) {
            Ok(found) => found,
            Err(number) => return (Answer::Refused(number), self),
        };
        let leaving = self.core[c].jobs[place];
        self.core[c].jobs[place..].rotate_left(1);
        self.core[c].jobs[MAX_JOBS - 1] = Job::default();
        self.core[c].job_count -= 1;
        (Answer::Finished(leaving.number), self)
    }

    fn admit_finish(&self, core: u32) -> Admitted<(usize, usize)> {
        self.admit_sound()?;
        let c = self.admit_core(core)?;
        let place = self.admit_running(c)?;
        self.admit_idle(c)?;
        Ok((c, place))
    }
}
