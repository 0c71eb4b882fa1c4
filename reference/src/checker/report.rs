//! What the checker reports.

use std::fmt;

/// A claim about a whole run.
#[derive(Clone, Copy, Debug, PartialEq, Eq)]
pub enum Claim {
    /// The call can give this answer where it stands.
    AnswerFits,
    /// Demand 2: the committed last attempts, run one by one in the order of
    /// their commits from zeros, read the same values.
    SerialReads,
    /// Demand 2: that replay gives the machine's committed values.
    SerialTable,
    /// Demand 2: the committed values handed to an attempt stood together
    /// after setup or after one commit.
    StoodTogether,
    /// Demand 2: a version is the count of commits that wrote the object.
    Versions,
    /// Demand 3: at most k strikes on a transaction.
    StrikesAtMostK,
    /// Demand 3: no strike by a later one.
    StruckByEarlier,
    /// Demand 3: waits only while an earlier one is in conflict.
    WaitsForEarlier,
    /// Demand 3: whom waits names is in progress.
    NamedInProgress,
    /// Demand 3: whom waits names was begun earlier.
    NamedEarlier,
    /// Demand 3: whom waits names is in conflict.
    NamedInConflict,
    /// Demand 3: of those in progress, begun earlier and in conflict none was
    /// begun before the one named.
    NamedFirst,
    /// Demand 3, with paper 4: committed only while no earlier one is in conflict,
    /// or with nothing written.
    CommitsInTurn,
    /// Paper 4: waits is never answered to one that has written nothing.
    ReadOnlyNeverWaits,
    /// Paper 4: a commit of one that has written nothing is never refused.
    ReadOnlyNeverRefused,
    /// Demand 3: set back is answered once after each strike, before anything
    /// else, and never without one.
    ToldOnce,
    /// Demand 3: the aborts reported are the strikes, and as many calls were
    /// answered set back.
    AbortsReported,
    /// Demand 3: committed within (k + 1) x (L + 2) rounds.
    RoundsBound,
}

/// A claim that a run breaks.
#[derive(Clone, Copy, Debug, PartialEq, Eq)]
pub struct Broken {
    /// The call that shows it, counted from 0 after setup.
    pub call: usize,
    pub claim: Claim,
    /// The transaction, counted from 0 in the order of begins.
    pub transaction: Option<usize>,
}

impl fmt::Display for Broken {
    fn fmt(&self, f: &mut fmt::Formatter<'_>) -> fmt::Result {
        match self.transaction {
            Some(t) => write!(f, "{:?} broken for transaction {t}", self.claim),
            None => write!(f, "{:?} broken", self.claim),
        }
    }
}

/// How near a transaction came to its bound on rounds.
#[derive(Clone, Copy, Debug, PartialEq, Eq)]
pub struct Nearest {
    /// Rounds that it took, that of its commit included.
    pub rounds: u64,
    /// (k + 1) x (L + 2).
    pub bound: u64,
}

impl Nearest {
    /// The nearer of the two.
    pub fn nearer(self, other: Nearest) -> Nearest {
        if other.rounds * self.bound > self.rounds * other.bound {
            other
        } else {
            self
        }
    }

    /// Rounds over bound.
    pub fn ratio(self) -> f64 {
        self.rounds as f64 / self.bound as f64
    }
}

/// Every broken claim of a run, and how near it came to the bound on rounds.
#[derive(Clone, Debug, Default)]
pub struct Report {
    pub broken: Vec<Broken>,
    pub nearest: Option<Nearest>,
}

impl Report {
    /// Adds a broken claim.
    pub fn add(&mut self, call: usize, claim: Claim, transaction: Option<usize>) {
        self.broken.push(Broken { call, claim, transaction });
    }

    /// Whether this claim is among the broken ones.
    pub fn breaks(&self, claim: Claim) -> bool {
        self.broken.iter().any(|broken| broken.claim == claim)
    }
}
