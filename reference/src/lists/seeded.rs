//! Sheets, and lists of several lengths for each.

use super::judge::{Difference, Door, Judge};
use crate::random::Random;
use crate::sheet::{read, MAX_TASKS, SHIPPED};
use crate::sheets::{made, near};

/// A short sheet with the names in another order and no newline at its end.
const SHORT: &[u8] = b"cards deadline core task\n0,63 0 15 65535\n- 10 0 0";

/// Compares the sheet of this seed.
pub fn compare_seed<D: Door>(judge: &mut Judge<D>, seed: u64) -> Result<(), Difference> {
    let made = made(seed);
    compare(judge, &made.bytes, seed)?;
    judge.tally.count_sheet(made.how, read(&made.bytes).as_deref());
    Ok(())
}

/// Compares all that lies one byte from two sheets.
pub fn compare_near<D: Door>(judge: &mut Judge<D>) -> Result<(), Difference> {
    for (seed, sheet) in (0..).zip([SHIPPED, SHORT].into_iter().flat_map(near)) {
        compare(judge, &sheet, seed)?;
        judge.tally.count_near(read(&sheet).is_some());
    }
    Ok(())
}

/// Compares a sheet with lists of several lengths, filled by seed.
pub fn compare<D: Door>(judge: &mut Judge<D>, sheet: &[u8], seed: u64) -> Result<(), Difference> {
    let mut random = Random::new(seed);
    let count = read(sheet).map_or(0, |tasks| tasks.len());
    for length in lengths(&mut random, count) {
        let words: Vec<u32> = (0..length).map(|_| random.bits() as u32).collect();
        judge.lend(sheet, &words)?;
        judge.tally.count_list(count, length);
    }
    Ok(())
}

/// Lengths of lists for a sheet of so many tasks, 0 if it is none: none, one
/// word too few, exact, one more, for the most tasks, and any.
fn lengths(random: &mut Random, count: usize) -> Vec<usize> {
    let exact = 3 * count;
    let mut lengths = vec![0, exact.saturating_sub(1), exact, exact + 1];
    lengths.extend([3 * MAX_TASKS, random.place(3 * MAX_TASKS + 5)]);
    lengths.sort_unstable();
    lengths.dedup();
    lengths
}
