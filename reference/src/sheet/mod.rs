//! Job sheets: the tasks of a sheet, their contention groups and levels, and
//! what the program prints.

mod groups;
mod levels;
mod parse;

pub use groups::{groups, Group};
pub use levels::{task_levels, transaction_levels};
pub use parse::{read, MAX_BYTES, MAX_LINE, MAX_TASKS, NAMES};

use crate::refusal;
use crate::set::Set;
use std::fmt::Write;

/// Document 02's sheet of table 6.1.
pub const SHIPPED: &[u8] = b"task core deadline cards\n\
    1 0 50 3\n2 1 100 1\n3 2 80 1,2\n4 3 70 2\n5 4 120 3\n6 5 60 -\n";

/// A line of a sheet.
#[derive(Clone, Copy, Debug, PartialEq, Eq)]
pub struct Task {
    pub number: u16,
    pub core: u32,
    pub deadline: u32,
    /// The objects (cards) it uses.
    pub objects: Set,
}

/// Task, task level and transaction level of each task of a sheet, in the
/// sheet's order; none if the sheet breaks a rule.
pub fn levels(sheet: &[u8]) -> Option<Vec<[u32; 3]>> {
    let tasks = read(sheet)?;
    let own = task_levels(&tasks);
    Some(lines(&tasks, &own, &transaction_levels(&tasks, &own)))
}

/// Each task's number, its own level and its transaction's.
pub fn lines(tasks: &[Task], own: &[u32], transactions: &[u32]) -> Vec<[u32; 3]> {
    let line = |place: usize| [tasks[place].number.into(), own[place], transactions[place]];
    (0..tasks.len()).map(line).collect()
}

/// What the program prints for a sheet: a line for each task, or one line that
/// refuses the sheet.
pub fn printed(sheet: &[u8]) -> Vec<u8> {
    let Some(lines) = levels(sheet) else {
        return format!("refused {}\n", refusal::BAD_SHEET).into_bytes();
    };
    let mut text = String::new();
    for [task, own, group] in lines {
        writeln!(text, "{task} {own} {group}").expect("a string takes every text");
    }
    text.into_bytes()
}

/// The same in words of a lent list, three for each task; how many tasks there
/// are. 0 if the sheet breaks a rule or the list is too short for it, and then
/// no word is touched. Words after the last task's keep what they held.
pub fn fill(sheet: &[u8], list: &mut [u32]) -> usize {
    let lines = levels(sheet).unwrap_or_default();
    if list.len() < 3 * lines.len() {
        return 0;
    }
    list[..3 * lines.len()].copy_from_slice(lines.as_flattened());
    lines.len()
}
