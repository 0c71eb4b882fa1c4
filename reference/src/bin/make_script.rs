//! `make-script SEED CORES CARDS LINES`: prints a contended script of so many
//! lines on a machine of this size, the same for the same numbers.

#![forbid(unsafe_code)]

use cards_reference::answer::Answer;
use cards_reference::call::Call;
use cards_reference::contended::Contention;
use cards_reference::machine::Machine;
use cards_reference::script::print_call;
use std::io::{self, BufWriter, Write};
use std::process::ExitCode;

const USAGE: &str = "usage: make-script SEED CORES CARDS LINES, 1 to 16 cores, 1 to 64 cards";

/// The four numbers of the command line.
fn numbers() -> Option<[u32; 4]> {
    let numbers: Option<Vec<u32>> =
        std::env::args().skip(1).map(|word| word.parse().ok()).collect();
    numbers?.try_into().ok()
}

/// Prints the lines; the names line and the setup are two of them.
fn print(mut contention: Contention, setup: Call, lines: u32) -> io::Result<()> {
    let mut machine = Machine::blank();
    machine.call(setup);
    let mut output = BufWriter::new(io::stdout().lock());
    writeln!(output, "call core card value\n{}", print_call(setup).join(" "))?;
    for number in 0..lines.saturating_sub(2) {
        let (call, _) = contention.step(&mut machine, number as usize);
        writeln!(output, "{}", print_call(call).join(" "))?;
    }
    output.flush()
}

fn main() -> ExitCode {
    let Some([seed, cores, objects, lines]) = numbers() else {
        eprintln!("{USAGE}");
        return ExitCode::from(2);
    };
    let setup = Call::Setup { cores, objects };
    if Machine::blank().call(setup) != Answer::Ready {
        eprintln!("{USAGE}");
        return ExitCode::from(2);
    }
    match print(Contention::on(cores, objects, seed.into()), setup, lines) {
        Ok(()) => ExitCode::SUCCESS,
        Err(error) => {
            eprintln!("make-script: {error}");
            ExitCode::from(1)
        }
    }
}
