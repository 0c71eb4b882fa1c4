//! The machine's record: everything that a call keeps for the next one,
//! except the words of the two lent tables.

use crate::set::Set;

/// Most cores that a machine has.
pub const MAX_CORES: usize = 16;
/// Most objects (cards) that a machine has.
pub const MAX_OBJECTS: usize = 64;
/// Most jobs in the list of a core.
pub const MAX_JOBS: usize = 8;
/// Most tickets that are ever given.
pub const MAX_TICKETS: u32 = 4_294_967_295;

/// A released job: its number is a label, its deadline decides who runs.
#[derive(Clone, Copy, Debug, Default, PartialEq, Eq)]
pub struct Job {
    pub number: u16,
    pub deadline: u32,
}

/// A core: its list of jobs in order of release, and its transaction.
#[derive(Clone, Copy, Debug, Default, PartialEq, Eq)]
pub struct Core {
    pub jobs: [Job; MAX_JOBS],
    pub job_count: usize,
    /// A transaction is in progress; the fields below are its own.
    pub in_progress: bool,
    /// The place in the list of the job that owns the transaction.
    pub owner: usize,
    pub ticket: u32,
    /// Setbacks so far.
    pub aborts: u32,
    /// Marked: struck, and not yet told.
    pub zombie: bool,
    pub read_set: Set,
    pub write_set: Set,
}

impl Core {
    /// The jobs in the list.
    pub fn listed(&self) -> &[Job] {
        &self.jobs[..self.job_count.min(MAX_JOBS)]
    }

    /// Read set and write set together.
    pub fn data_set(&self) -> Set {
        self.read_set | self.write_set
    }

    /// Whether this attempt is read-only (document 02, paper 4: it only looks): its
    /// write set is empty. What an earlier attempt wrote does not count; one that has
    /// touched nothing is read-only too.
    pub fn read_only(&self) -> bool {
        self.write_set == 0
    }

    /// The place of the running job: the owner while a transaction is in
    /// progress, else the first of those with the least deadline.
    pub fn running(&self) -> Option<usize> {
        if self.in_progress {
            return Some(self.owner);
        }
        let jobs = self.listed();
        (0..jobs.len()).min_by_key(|&place| jobs[place].deadline)
    }

    /// The same list of jobs, with no transaction.
    pub fn without_transaction(self) -> Core {
        Core { jobs: self.jobs, job_count: self.job_count, ..Core::default() }
    }

    /// Whether the two transactions conflict: the write set of either meets
    /// the data set of the other. A core without one has empty sets.
    pub fn conflicts_with(&self, other: &Core) -> bool {
        self.write_set & other.data_set() != 0 || other.write_set & self.data_set() != 0
    }
}

/// The whole record. The fields are open, so that a caller may hand in any
/// record; `sound` says whether it is one the calls could have made.
#[derive(Clone, Copy, Debug, PartialEq, Eq)]
pub struct Record {
    /// How many cores the machine has.
    pub cores: u32,
    /// How many objects (cards) the machine has.
    pub objects: u32,
    /// Places for all the cores a machine may have.
    pub core: [Core; MAX_CORES],
    /// For each object the count of commits that wrote it.
    pub versions: [u32; MAX_OBJECTS],
    /// Tickets given.
    pub tickets: u32,
    pub commits: u32,
    pub give_ups: u32,
}

impl Record {
    /// The blank record: all fields 0. It is unsound.
    pub fn blank() -> Record {
        Record {
            cores: 0,
            objects: 0,
            core: [Core::default(); MAX_CORES],
            versions: [0; MAX_OBJECTS],
            tickets: 0,
            commits: 0,
            give_ups: 0,
        }
    }

    /// The places of the cores that the machine has.
    pub fn present(&self) -> &[Core] {
        &self.core[..MAX_CORES.min(self.cores as usize)]
    }

    /// The places of the cores that the machine lacks.
    pub fn absent(&self) -> &[Core] {
        &self.core[MAX_CORES.min(self.cores as usize)..]
    }

    /// The transactions in progress, each as the core that holds it.
    pub fn transactions(&self) -> impl Iterator<Item = &Core> {
        self.present().iter().filter(|core| core.in_progress)
    }

    /// Where the pending word for a core and an object stands.
    pub fn pending_place(&self, core: usize, object: usize) -> usize {
        core * self.objects as usize + object
    }
}
