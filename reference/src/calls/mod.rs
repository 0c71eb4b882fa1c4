//! The calls on a record. Each takes the record and hands back the answer and
//! the record after it. A refused call changes no lent word and hands back the
//! record as given; a refused setup hands back the blank record.

mod admit;
mod commit;
mod jobs;
mod setup;
mod transaction;

pub use setup::setup;
