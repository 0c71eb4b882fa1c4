//! What is compared: scripts and their listings, or sheets and their levels.

use cards_reference::script::listing_of;
use cards_reference::scripts::{quick_script, script};
use cards_reference::sheet::printed;
use cards_reference::sheets::sheet;

#[derive(Clone, Copy)]
pub struct Kind {
    /// What an input is called, and what is printed for it.
    pub input: &'static str,
    pub output: &'static str,
    /// The input of a seed.
    pub made: fn(u64) -> Vec<u8>,
    /// What the reference prints for an input.
    pub right: fn(&[u8]) -> Vec<u8>,
    /// Inputs longer than this are not fed in pieces.
    pub pieces_up_to: usize,
    /// The sizes of the pieces: all up to this,
    pub every_piece_to: usize,
    /// and these.
    pub pieces: &'static [usize],
}

/// Scripts of any length. Pieces have up to a little more than a line may have.
pub const SCRIPTS: Kind = Kind {
    input: "script",
    output: "listing",
    made: script,
    right: listing_of,
    pieces_up_to: 1_500,
    every_piece_to: 66,
    pieces: &[],
};

/// Scripts of which most are short.
pub const QUICK_SCRIPTS: Kind = Kind { made: quick_script, ..SCRIPTS };

/// Sheets. Pieces end at every place of a short line, and about a line's limit.
pub const SHEETS: Kind = Kind {
    input: "sheet",
    output: "levels",
    made: sheet,
    right: printed,
    pieces_up_to: 8_000,
    every_piece_to: 12,
    pieces: &[64, 511, 512, 513, 1_023, 1_024, 1_025, 4_096],
};
