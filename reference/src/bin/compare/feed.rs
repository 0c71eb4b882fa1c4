//! Standard input, whole or in pieces.

use std::fs::File;
use std::io::Write;
use std::os::unix::fs::FileExt;
use std::process::ChildStdin;
use std::thread;
use std::time::{Duration, Instant};

/// How long a piece waits for the reader at most.
const PATIENCE: Duration = Duration::from_millis(20);

/// Writes the bytes and closes the input. Before each further piece it waits
/// until the reader has taken the last one and sleeps, so that each piece is a
/// read of its own. A program may end before it has read everything, so a
/// failed write is no failure here.
pub fn feed(mut input: ChildStdin, bytes: &[u8], piece: Option<usize>, reader: u32) {
    let state = piece.and_then(|_| File::open(format!("/proc/{reader}/stat")).ok());
    for part in bytes.chunks(piece.unwrap_or(usize::MAX)) {
        if input.write_all(part).and_then(|()| input.flush()).is_err() {
            return;
        }
        if piece.is_some() {
            await_sleep(state.as_ref());
        }
    }
}

/// Waits until the process sleeps: then it has read all there was.
fn await_sleep(state: Option<&File>) {
    let Some(state) = state else {
        thread::sleep(Duration::from_micros(200));
        return;
    };
    let start = Instant::now();
    while is_awake(state) && start.elapsed() < PATIENCE {
        thread::yield_now();
    }
}

/// Whether the letter after the name in brackets says running or waking.
fn is_awake(state: &File) -> bool {
    let mut bytes = [0; 512];
    let Ok(length) = state.read_at(&mut bytes, 0) else {
        return false;
    };
    let bracket = bytes[..length].iter().rposition(|&byte| byte == b')');
    bracket.is_some_and(|place| !b"SZX".contains(&bytes[place + 2]))
}
