//! Second implementation of the shared cards machine, written from documents 01
//! and 02 alone, and the checks that stand beside it.
//!
//! - the machine: `call`, `answer`, `refusal`, `set`, `record`, `sound`,
//!   `calls`
//! - the script program: `machine`, `script`, `frame`
//! - job sheets, their groups and levels: `sheet`; `fields`, which scripts
//!   share
//! - whole runs judged from calls and answers: `checker`, `replay`,
//!   `listed_runs`
//! - single calls of a door compared with the machine's: `compared`; lists of
//!   levels with the sheet's: `lists`
//! - what the programs of such comparisons are told: `options`
//! - inputs by seed: `random`, `contended`, `scripts`, `sheets`, `choices`,
//!   `shrink`; what they show of waits: `waiting`, and of readers: `readers`
//!
//! The code says object for card, abort for setback and zombie for marked.

#![forbid(unsafe_code)]

pub mod answer;
pub mod call;
pub mod calls;
pub mod checker;
pub mod choices;
pub mod compared;
pub mod contended;
mod fewest;
pub mod fields;
pub mod frame;
pub mod listed_runs;
pub mod lists;
pub mod machine;
pub mod options;
pub mod random;
pub mod readers;
pub mod record;
pub mod refusal;
pub mod replay;
pub mod script;
pub mod scripts;
pub mod set;
pub mod sheet;
pub mod sheets;
pub mod shrink;
pub mod sound;
pub mod waiting;
