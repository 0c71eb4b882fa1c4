//! setup: a new machine.

use super::admit::lengths_fit;
use crate::answer::Answer;
use crate::record::Record;
use crate::refusal;
use crate::sound::in_range;

/// No jobs, no transactions, all versions and both tables zero. Answers ready.
pub fn setup(
    cores: u32,
    objects: u32,
    committed: &mut [u32],
    pending: &mut [u32],
) -> (Answer, Record) {
    if !in_range(cores, objects) {
        return (Answer::Refused(refusal::OUT_OF_RANGE), Record::blank());
    }
    if !lengths_fit(cores, objects, committed, pending) {
        return (Answer::Refused(refusal::TABLE_LENGTH), Record::blank());
    }
    committed.fill(0);
    pending.fill(0);
    let record = Record { cores, objects, ..Record::blank() };
    (Answer::Ready, record)
}
