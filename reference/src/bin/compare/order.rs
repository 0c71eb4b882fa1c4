//! The order in which inputs are compared: the fewest lines first, so that no
//! input of fewer lines differs than the first that does. An input is made
//! again when its turn comes; only its lines, bytes and seed are kept.

use crate::options::Options;
use cards_reference::choices::count_lines;

/// Inputs are compared together, so many,
const BATCH: usize = 256;

/// or fewer once they have so many bytes.
const BATCH_BYTES: usize = 1 << 20;

/// An input's lines and bytes, and the seed that makes it.
#[derive(Clone, Copy, PartialEq, Eq, PartialOrd, Ord)]
pub struct Seeded {
    pub lines: usize,
    pub seed: u64,
    bytes: usize,
}

/// So many inputs as asked for, of the seeds from the first one on, but none
/// of more bytes than `most`.
pub fn fewest_lines_first(options: &Options, most: usize) -> Vec<Seeded> {
    let seeded = |seed| {
        let input = options.input(seed);
        Seeded { lines: count_lines(&input), seed, bytes: input.len() }
    };
    let count = usize::try_from(options.count).unwrap_or(usize::MAX);
    let fit = (options.seed..=u64::MAX).map(seeded).filter(|seeded| seeded.bytes <= most);
    let mut ordered: Vec<Seeded> = fit.take(count).collect();
    ordered.sort_unstable();
    ordered
}

/// The inputs in stretches that are compared together.
pub fn batches(mut ordered: &[Seeded]) -> impl Iterator<Item = &[Seeded]> {
    std::iter::from_fn(move || {
        let mut bytes = 0;
        let full = ordered.iter().take(BATCH).take_while(|seeded| {
            let fits = bytes < BATCH_BYTES;
            bytes += seeded.bytes;
            fits
        });
        let (batch, rest) = ordered.split_at(full.count());
        ordered = rest;
        (!batch.is_empty()).then_some(batch)
    })
}
