//! Lists of levels compared: a door fills a lent list with the levels of a
//! sheet, and the judge holds every word of it to what the reference leaves.
//!
//! - `judge`: one sheet and one list by the door and by the reference
//! - `seeded`: sheets by seed, all that lies one byte from a sheet, and lists
//!   of several lengths for each
//! - `tally`: what was met, and what never was
//! - `faults`: doors that are wrong on purpose, each of which must be found

pub mod faults;
pub mod judge;
pub mod seeded;
pub mod tally;
