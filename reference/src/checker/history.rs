//! The words of demand 3: what the calls and answers of a run say about its
//! transactions, which are counted in the order of their begins.

/// What happened to a transaction.
#[derive(Clone, Debug)]
pub enum Event {
    /// A read answered with a value.
    Read { object: usize, value: u32, version: Option<u32> },
    /// A write answered written.
    Wrote { object: usize, value: u32 },
    /// A call answered set back.
    Told,
    /// A commit answered waits, the transaction in progress on the core named,
    /// if there is one, those in conflict then, and whether it had written
    /// nothing since its begin or since it was last struck.
    Waited { named: Option<usize>, in_conflict: Vec<usize>, read_only: bool },
    /// A commit answered committed, and the same of it.
    Committed { aborts: u32, in_conflict: Vec<usize>, read_only: bool },
    /// A commit that was refused, and the same of it.
    Refused { read_only: bool },
    /// A give up answered ended.
    GaveUp,
    /// Struck by the commit of another.
    Struck { by: usize },
}

/// An event and the call, counted from 0, at which it happened.
#[derive(Clone, Debug)]
pub struct Happening {
    pub call: usize,
    pub event: Event,
}

/// A transaction from its begin on.
#[derive(Clone, Debug)]
pub struct Transaction {
    pub begin: usize,
    /// The k transactions in progress at its begin.
    pub contenders: Vec<usize>,
    pub happenings: Vec<Happening>,
    /// The call that ended it.
    pub end: Option<usize>,
}

impl Transaction {
    /// The attempts: each goes from the begin or a strike up to the next
    /// strike or the end, whenever the transaction is told of the strike.
    pub fn attempts(&self) -> impl Iterator<Item = &[Happening]> {
        let struck = |happening: &Happening| matches!(happening.event, Event::Struck { .. });
        self.happenings.split(struck)
    }

    /// Whether it is in progress just before this call.
    pub fn in_progress_at(&self, call: usize) -> bool {
        self.begin < call && self.end.is_none_or(|end| end >= call)
    }
}

/// A run's transactions, and what its calls were.
#[derive(Default)]
pub struct History {
    pub transactions: Vec<Transaction>,
    /// The transactions that committed, in that order.
    pub commits: Vec<usize>,
    /// For each call the transaction it was made for, if it is a read, write
    /// or commit that is not refused, or gives the transaction up.
    pub acts: Vec<Option<usize>>,
    /// The calls whose answers do not fit.
    pub misfits: Vec<usize>,
}
