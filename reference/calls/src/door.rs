//! The first implementation's public calls, through the one function that the
//! crate `calls_door` exports. The only unsafe code here.

use cards_reference::call::Call;
use cards_reference::compared::judge::Door;
use cards_reference::compared::lent::Lent;
use cards_reference::compared::words::numbers;
use cards_reference::record::Record;

extern "C" {
    fn calls_door(
        call: u32,
        core: u32,
        object: u32,
        value: u32,
        words: *mut u32,
        words_len: usize,
        committed: *mut u32,
        committed_len: usize,
        pending: *mut u32,
        pending_len: usize,
    ) -> u32;
}

pub struct Linked;

impl Door for Linked {
    fn call(&mut self, _: &Record, call: Call, lent: &mut Lent) -> u32 {
        let [number, core, object, value] = numbers(call);
        let words = lent.record.lend();
        let committed = lent.committed.lend();
        let pending = lent.pending.lend();
        // Safety: each pointer is to as many words as the length after it says,
        // no two overlap, and the function is proved to touch no other word.
        unsafe {
            calls_door(
                number,
                core,
                object,
                value,
                words.as_mut_ptr(),
                words.len(),
                committed.as_mut_ptr(),
                committed.len(),
                pending.as_mut_ptr(),
                pending.len(),
            )
        }
    }
}
