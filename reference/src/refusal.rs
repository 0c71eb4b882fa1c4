//! The refusal numbers. The smallest one that applies is given.
//! Number 12 belongs to the C entry, which this implementation does not have.

/// Cores not 1 to 16, or objects (cards) not 1 to 64.
pub const OUT_OF_RANGE: u32 = 1;
/// The record is unsound.
pub const UNSOUND: u32 = 2;
/// The length of either lent table is wrong.
pub const TABLE_LENGTH: u32 = 3;
/// No such core.
pub const NO_CORE: u32 = 4;
/// No such object (card).
pub const NO_OBJECT: u32 = 5;
/// The core has 8 jobs.
pub const LIST_FULL: u32 = 6;
/// The core has no job.
pub const NO_JOB: u32 = 7;
/// A transaction is in progress.
pub const IN_PROGRESS: u32 = 8;
/// No transaction is in progress.
pub const NONE_IN_PROGRESS: u32 = 9;
/// All 4,294,967,295 tickets are given.
pub const TICKETS_SPENT: u32 = 10;
/// The script line is malformed; no call is made.
pub const MALFORMED_LINE: u32 = 11;
/// The sheet breaks a rule, or the lent list is shorter than it.
pub const BAD_SHEET: u32 = 13;
