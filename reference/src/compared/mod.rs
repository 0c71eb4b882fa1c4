//! Single calls compared: a door makes a call on a record and two lent tables,
//! and the judge holds all that it left to what the reference leaves.
//!
//! - `words`: a record spelt in words, and an answer in three of them
//! - `lent`: what a door is lent, with a fence on each side
//! - `judge`: one call by the door and by the reference, and their difference
//! - `seeded`: calls by seed: runs, wrong tables, records that are not sound
//!   (`broken`) or nearly not (`border`), counts near their limits (`limits`),
//!   many transactions at once (`crowd`)
//! - `tally`: what was met, and what never was
//! - `faults`: doors that are wrong on purpose, each of which must be found

mod border;
mod broken;
mod crowd;
pub mod faults;
pub mod judge;
pub mod lent;
mod limits;
pub mod seeded;
pub mod tally;
pub mod words;
