//! The first implementation's functions on sheets, as include/cards.h declares
//! them. The only unsafe code here.

use cards_reference::compared::lent::Fenced;
use cards_reference::lists::judge::Door;

extern "C" {
    fn cards_levels(
        sheet: *const u8,
        sheet_length: usize,
        levels: *mut u32,
        levels_length: usize,
    ) -> usize;
    fn cards_shipped_tasks() -> usize;
    fn cards_shipped_task(place: usize) -> u32;
    fn cards_shipped_task_level(place: usize) -> u32;
    fn cards_shipped_transaction_level(place: usize) -> u32;
}

pub struct Linked;

impl Door for Linked {
    fn fill(&mut self, sheet: &[u8], list: &mut Fenced) -> usize {
        let words = list.lend();
        // Safety: each pointer is to as many bytes or words as the length after
        // it says, they do not overlap, and the function is proved to touch no
        // other word.
        unsafe { cards_levels(sheet.as_ptr(), sheet.len(), words.as_mut_ptr(), words.len()) }
    }
}

/// How many tasks the shipped sheet has.
pub fn shipped_tasks() -> usize {
    // Safety: the function takes nothing and touches nothing.
    unsafe { cards_shipped_tasks() }
}

/// Task, task level and transaction level at this place of the shipped sheet.
pub fn shipped(place: usize) -> [u32; 3] {
    // Safety: the functions take a number and touch nothing.
    unsafe {
        [
            cards_shipped_task(place),
            cards_shipped_task_level(place),
            cards_shipped_transaction_level(place),
        ]
    }
}
