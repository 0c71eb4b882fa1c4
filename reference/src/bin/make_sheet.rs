//! `make-sheet SEED`: prints the sheet of a seed, valid or damaged.

#![forbid(unsafe_code)]

use cards_reference::sheets::sheet;
use std::io::{self, Write};
use std::process::ExitCode;

fn main() -> ExitCode {
    let mut arguments = std::env::args().skip(1);
    let (Some(Ok(seed)), None) = (arguments.next().map(|word| word.parse()), arguments.next())
    else {
        eprintln!("usage: make-sheet SEED");
        return ExitCode::from(2);
    };
    match io::stdout().write_all(&sheet(seed)) {
        Ok(()) => ExitCode::SUCCESS,
        Err(error) => {
            eprintln!("make-sheet: {error}");
            ExitCode::from(1)
        }
    }
}
