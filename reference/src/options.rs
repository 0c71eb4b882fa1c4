//! What the programs that compare with linked functions are told: from which
//! seed on, how many, and whether faults are to be found.

use std::ops::Range;

pub struct Options {
    pub faults: bool,
    pub seed: u64,
    pub count: u64,
}

impl Options {
    /// The arguments, with so many seeds from 1 on where none are given; none
    /// where they are not understood.
    pub fn given(count: u64) -> Option<Options> {
        let mut options = Options { faults: false, seed: 1, count };
        let mut arguments = std::env::args().skip(1);
        while let Some(argument) = arguments.next() {
            match argument.as_str() {
                "--faults" => options.faults = true,
                "--seed" => options.seed = arguments.next()?.parse().ok()?,
                "--count" => options.count = arguments.next()?.parse().ok()?,
                _ => return None,
            }
        }
        Some(options)
    }

    pub fn seeds(&self) -> Range<u64> {
        self.seed..self.seed.saturating_add(self.count)
    }
}

/// Prints what was met, and what never was; answers whether all was.
pub fn met(lines: &[String], never: &[String]) -> bool {
    for line in lines {
        println!("{line}");
    }
    for what in never {
        println!("never met: {what}");
    }
    never.is_empty()
}
