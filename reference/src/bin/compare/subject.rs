//! The program under test.

use std::io;
use std::process::{Child, ExitStatus};
use std::thread;
use std::time::{Duration, Instant};

/// Output is read up to this much more than what is expected.
const READ_BEYOND: usize = 1 << 16;

/// What was printed, or in words what the program did in place of that.
pub type Told = Result<Vec<u8>, String>;

/// What must be printed for an input.
pub type Right = fn(&[u8]) -> Vec<u8>;

/// A program that is given inputs.
pub trait Subject {
    /// What it prints for an input, for which so many bytes are expected. An
    /// error says that it could not be started.
    fn printed(&mut self, input: &[u8], expected: usize) -> io::Result<Told>;

    /// What it must print for an input.
    fn right(&self, input: &[u8]) -> Vec<u8>;

    /// Whether it prints what it must.
    fn agrees(&mut self, input: &[u8]) -> io::Result<bool> {
        let right = self.right(input);
        Ok(self.printed(input, right.len())? == Ok(right))
    }

    /// The place of the first input on which it does not agree.
    fn first_difference(&mut self, inputs: &[Vec<u8>]) -> io::Result<Option<usize>>;

    /// Ends a program that takes many inputs; says what was wrong with its end.
    fn finish(&mut self) -> io::Result<Result<(), String>> {
        Ok(Ok(()))
    }
}

/// Most bytes that are taken of an output.
pub fn most(expected: usize) -> usize {
    expected + READ_BEYOND
}

/// What is said of a program that goes on and on.
pub fn no_end(limit: Duration) -> String {
    format!("no end within {} s", limit.as_secs_f32())
}

/// Waits for the program's end; at the deadline it is killed.
pub fn end_by(child: &mut Child, deadline: Instant) -> io::Result<Option<ExitStatus>> {
    let mut pause = Duration::from_micros(10);
    loop {
        if let Some(status) = child.try_wait()? {
            return Ok(Some(status));
        }
        if Instant::now() >= deadline {
            child.kill()?;
            child.wait()?;
            return Ok(None);
        }
        thread::sleep(pause);
        pause = (2 * pause).min(Duration::from_millis(10));
    }
}
