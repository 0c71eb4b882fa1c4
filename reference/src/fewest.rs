//! The fewest lines of a script that fail: every choice of its lines is tried,
//! each in the script's order, fewest lines first. Two choices that give the
//! same script are one. No choice is passed over: nothing is assumed of what
//! makes a script fail, and then a choice says nothing about any other.

use crate::choices::{Choices, Counts, Lines};
use std::time::{Duration, Instant};

/// Scripts are tried together, so many,
const BATCH: usize = 256;

/// or fewer once they have so many bytes.
const BATCH_BYTES: usize = 1 << 16;

/// What a search may cost. With neither given it ends when every choice was
/// tried.
#[derive(Clone, Copy, Default)]
pub struct Budget {
    /// Choices of one size are only tried if with those before they are no more
    /// than this.
    pub trials: Option<u64>,
    pub time: Option<Duration>,
}

/// Tells which scripts fail. The same script always fails or never does.
pub trait Trials {
    /// The place of the first of the scripts that fails, if one does.
    fn first_failing(&mut self, scripts: &[Vec<u8>]) -> Option<usize>;

    /// Hears, before a search that may be long, the shortest script found and
    /// how many choices of fewer lines there are.
    fn before_long_search(&mut self, _shortest: &[u8], _choices: u64) {}
}

impl<F: FnMut(&[u8]) -> bool> Trials for F {
    fn first_failing(&mut self, scripts: &[Vec<u8>]) -> Option<usize> {
        scripts.iter().position(|script| self(script))
    }
}

/// Trials within a budget.
pub struct Search<'a> {
    trials: &'a mut dyn Trials,
    most: u64,
    deadline: Option<Instant>,
    /// Choices that were tried.
    pub tried: u64,
}

impl Search<'_> {
    pub fn new(trials: &mut dyn Trials, budget: Budget) -> Search<'_> {
        let deadline = budget.time.and_then(|time| Instant::now().checked_add(time));
        Search { trials, most: budget.trials.unwrap_or(u64::MAX), deadline, tried: 0 }
    }

    pub fn is_over(&self) -> bool {
        self.deadline.is_some_and(|deadline| Instant::now() >= deadline)
    }

    /// Whether this script fails.
    pub fn fails(&mut self, script: Vec<u8>) -> bool {
        self.trials.first_failing(&[script]).is_some()
    }

    pub fn before_long_search(&mut self, shortest: &[u8], choices: u64) {
        self.trials.before_long_search(shortest, choices);
    }

    /// A script of the fewest lines that fail, if they are fewer than `below`.
    /// If none is found, a number of lines: every choice of fewer was tried.
    pub fn fewest(&mut self, script: &[u8], below: usize) -> Result<Vec<u8>, usize> {
        let lines = Lines::of(script);
        let mut left = self.most;
        for (size, count) in Counts::of(&lines).take(below).enumerate() {
            left = left.checked_sub(count).ok_or(size)?;
            if let Some(found) = self.first_of_size(&lines, size)? {
                return Ok(found);
            }
        }
        Err(below)
    }

    /// The first failing choice of so many lines; the size comes back if time
    /// is over before all were tried.
    fn first_of_size(&mut self, lines: &Lines, size: usize) -> Result<Option<Vec<u8>>, usize> {
        let mut choices = Choices::of(lines, size);
        loop {
            let mut batch = batch(&mut choices);
            if batch.is_empty() {
                return Ok(None);
            }
            if self.is_over() {
                return Err(size);
            }
            if let Some(place) = self.trials.first_failing(&batch) {
                self.tried += place as u64 + 1;
                return Ok(Some(batch.swap_remove(place)));
            }
            self.tried += batch.len() as u64;
        }
    }
}

/// The next choices, as scripts; none if there are no more.
fn batch(choices: &mut Choices) -> Vec<Vec<u8>> {
    let mut batch = Vec::new();
    let mut bytes = 0;
    while batch.len() < BATCH && bytes < BATCH_BYTES {
        let Some(script) = choices.next() else {
            break;
        };
        bytes += script.len();
        batch.push(script);
    }
    batch
}
