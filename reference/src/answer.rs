//! What a call answers.

/// One answer with its numbers.
#[derive(Clone, Copy, Debug, PartialEq, Eq)]
pub enum Answer {
    /// Setup is done.
    Ready,
    /// The released job is the running job.
    Running,
    /// The released job is served later.
    Queued,
    /// The transaction has begun and holds this ticket.
    Begun(u32),
    /// The value read and the object's committed version.
    Value { value: u32, version: u32 },
    /// The pending word is stored.
    Written,
    /// This core holds the conflicting transaction with the smallest ticket.
    Waits { core: u32 },
    /// The transaction has committed after this many aborts (setbacks).
    Committed(u32),
    /// The attempt was struck; the transaction is told now.
    SetBack,
    /// The transaction was given up.
    Ended,
    /// The running job, by its number, has left the list.
    Finished(u16),
    /// The call is refused with this number.
    Refused(u32),
}
