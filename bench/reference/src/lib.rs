//! The reference run by a list of calls, as crates/bench_calls runs the machine: the lower four
//! bits of a number say what is done, the rest is the core.

pub mod sheet;

use cards_reference::answer::Answer;
use cards_reference::calls::setup;
use cards_reference::record::Record;
use cards_reference::sound::sound;

const SAVE: u32 = 0;
const RESTORE: u32 = 1;
const SETUP: u32 = 2;
const RELEASE: u32 = 3;
const BEGIN: u32 = 4;
const READ: u32 = 5;
const WRITE: u32 = 6;
const COMMIT: u32 = 7;
const GIVE_UP: u32 = 8;
const FINISH: u32 = 9;

/// A number for an answer.
fn number_of(answer: Answer) -> u32 {
    match answer {
        Answer::Ready => 1,
        Answer::Running => 2,
        Answer::Queued => 3,
        Answer::Begun(ticket) => ticket,
        Answer::Value { value, .. } => value,
        Answer::Written => 4,
        Answer::Waits { .. } => 5,
        Answer::Committed(_) => 6,
        Answer::SetBack => 7,
        Answer::Ended => 8,
        Answer::Finished(_) => 9,
        Answer::Refused(_) => 10,
    }
}

/// One call; any other number, the soundness test alone.
fn step(
    m: Record,
    call: u32,
    core: u32,
    committed: &mut [u32],
    pending: &mut [u32],
) -> (Answer, Record) {
    match call {
        SETUP => setup(m.cores, m.objects, committed, pending),
        RELEASE => m.release(core, 7, 100),
        BEGIN => m.begin(core),
        READ => m.read(core, core / 2 + 32, committed, pending),
        WRITE => m.write(core, core, 5, committed, pending),
        COMMIT => m.commit(core, committed, pending),
        GIVE_UP => m.give_up(core),
        FINISH => m.finish(core),
        _ if sound(&m) => (Answer::Ready, m),
        _ => (Answer::Refused(2), m),
    }
}

fn run(cores: u32, cards: u32, list: &[u32], committed: &mut [u32], pending: &mut [u32]) -> u32 {
    let (mut last, mut m) = setup(cores, cards, committed, pending);
    let mut kept = m;
    for &number in list {
        let (call, core) = (number % 16, number / 16);
        match call {
            SAVE => kept = m,
            RESTORE => m = kept,
            _ => (last, m) = step(m, call, core, committed, pending),
        }
    }
    number_of(last)
}

/// Runs the list on a new machine of that many cores and cards; a number for the last answer.
///
/// # Safety
///
/// Each pointer is to as many words as the length after it says, and no two overlap.
#[no_mangle]
pub unsafe extern "C" fn bench_calls_reference(
    cores: u32,
    cards: u32,
    list: *const u32,
    list_len: usize,
    committed: *mut u32,
    committed_len: usize,
    pending: *mut u32,
    pending_len: usize,
) -> u32 {
    let list = unsafe { std::slice::from_raw_parts(list, list_len) };
    let committed = unsafe { std::slice::from_raw_parts_mut(committed, committed_len) };
    let pending = unsafe { std::slice::from_raw_parts_mut(pending, pending_len) };
    run(cores, cards, list, committed, pending)
}
