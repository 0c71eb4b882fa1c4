//! What the command line asks for.

use crate::frames::Frames;
use crate::kind::{Kind, QUICK_SCRIPTS, SCRIPTS, SHEETS};
use crate::once::Once;
use crate::subject::Subject;
use cards_reference::shrink::Budget;
use std::time::Duration;

pub const USAGE: &str = "usage: compare [--seed S] [--count N] [--limit SECONDS] [--trials T] \
[--search SECONDS] [--quick | --sheets] [--pieces | --frames] PROGRAM [ARGS..]";

pub struct Options {
    pub seed: u64,
    pub count: u64,
    /// How long the program may take for one input.
    pub limit: Duration,
    /// What the search for the fewest lines that differ may cost.
    pub budget: Budget,
    /// Most scripts are short.
    pub quick: bool,
    /// Sheets are compared, not scripts.
    pub sheets: bool,
    /// Standard input comes in pieces; scripts are short.
    pub pieces: bool,
    /// The size of the pieces, if standard input comes in pieces.
    pub piece: Option<usize>,
    /// One process takes all inputs, in frames.
    pub frames: bool,
    pub program: Vec<String>,
}

impl Options {
    fn standard() -> Options {
        Options {
            seed: 1,
            count: 1_000,
            limit: Duration::from_secs(10),
            budget: Budget::default(),
            quick: false,
            sheets: false,
            pieces: false,
            piece: None,
            frames: false,
            program: Vec::new(),
        }
    }

    /// What is compared.
    pub fn kind(&self) -> Kind {
        if self.sheets {
            SHEETS
        } else if self.quick || self.pieces {
            QUICK_SCRIPTS
        } else {
            SCRIPTS
        }
    }

    /// The input of this seed.
    pub fn input(&self, seed: u64) -> Vec<u8> {
        (self.kind().made)(seed)
    }

    /// What the reference prints for an input.
    pub fn right(&self, input: &[u8]) -> Vec<u8> {
        (self.kind().right)(input)
    }

    /// The program, ready for inputs.
    pub fn subject(&self) -> Box<dyn Subject> {
        self.within(self.limit)
    }

    /// The program, ready for inputs, with this limit.
    pub fn within(&self, limit: Duration) -> Box<dyn Subject> {
        let (program, right) = (self.program.clone(), self.kind().right);
        if self.frames {
            Box::new(Frames::new(program, right, limit))
        } else {
            Box::new(Once { program, right, limit, piece: self.piece })
        }
    }
}

/// The options, or none if the command line is not understood.
pub fn options(mut arguments: impl Iterator<Item = String>) -> Option<Options> {
    let mut options = Options::standard();
    while let Some(argument) = arguments.next() {
        match argument.as_str() {
            "--seed" => options.seed = arguments.next()?.parse().ok()?,
            "--count" => options.count = arguments.next()?.parse().ok()?,
            "--limit" => options.limit = seconds(arguments.next())?,
            "--trials" => options.budget.trials = Some(arguments.next()?.parse().ok()?),
            "--search" => options.budget.time = Some(seconds(arguments.next())?),
            "--quick" => options.quick = true,
            "--sheets" => options.sheets = true,
            "--pieces" => options.pieces = true,
            "--frames" => options.frames = true,
            unknown if unknown.starts_with("--") => return None,
            _ => {
                options.program = vec![argument];
                options.program.extend(arguments);
                let clash = options.pieces && options.frames || options.quick && options.sheets;
                return (!clash).then_some(options);
            }
        }
    }
    None
}

fn seconds(argument: Option<String>) -> Option<Duration> {
    argument?.parse().ok().map(Duration::from_secs)
}
