//! Sheets by seed, as bytes: groups and deadlines of many shapes, names in every
//! order, and damaged in every way that document 02 names. Also all that lies
//! one byte from a sheet.

mod bytes;
mod damage;
mod draft;
mod fields;
mod lines;
mod near;
mod shapes;

pub use damage::{Fate, Way, WAYS};
pub use near::near;
pub use shapes::SHAPES;

use crate::random::Random;
use draft::Draft;

/// A sheet, and how it came about.
#[derive(Clone, Debug, PartialEq, Eq)]
pub struct Made {
    /// The name of a shape, or of a way to damage.
    pub how: &'static str,
    pub fate: Fate,
    pub bytes: Vec<u8>,
}

/// Of a hundred sheets so many are damaged.
const DAMAGED: u32 = 60;

/// The sheet of this seed.
pub fn made(seed: u64) -> Made {
    let mut random = Random::new(seed);
    let (how, tasks) = shapes::tasks(&mut random);
    let draft = Draft::of(&tasks, &mut random);
    if random.percent(DAMAGED) {
        damage::damaged(draft, &mut random)
    } else {
        Made { how, fate: Fate::Accepted, bytes: draft.bytes() }
    }
}

/// The bytes of the sheet of this seed.
pub fn sheet(seed: u64) -> Vec<u8> {
    made(seed).bytes
}
