//! The script program: a script comes in, its listing goes out.

mod lines;
mod listing;
mod parse;

pub use listing::{listed, print_call, HEADING};
pub use parse::{parse_call, parse_names, Names};

use crate::answer::Answer;
use crate::machine::Machine;
use crate::refusal;
use lines::Lines;
use listing::write_answer;
use std::io::{self, Read, Write};

/// The last line that is read; the names line is line 1.
pub const MAX_LINES: u32 = 1_000_000;

/// Reads a script and writes its listing. Memory does not grow with the input.
pub fn run(input: impl Read, output: &mut impl Write) -> io::Result<()> {
    let malformed = Answer::Refused(refusal::MALFORMED_LINE);
    let mut lines = Lines::new(input);
    writeln!(output, "{HEADING}")?;
    let Some(names) = lines.next_line()?.and_then(parse_names) else {
        return write_answer(output, 1, malformed);
    };
    let mut machine = Machine::blank();
    for number in 2..=MAX_LINES {
        let Some(line) = lines.next_line()? else {
            return Ok(());
        };
        let answer = match parse_call(names, line) {
            Some(call) => machine.call(call),
            None => malformed,
        };
        write_answer(output, number, answer)?;
    }
    if lines.at_end()? {
        return Ok(());
    }
    write_answer(output, MAX_LINES + 1, malformed)
}

/// The listing of a script that is held in memory.
pub fn listing_of(script: &[u8]) -> Vec<u8> {
    let mut output = Vec::new();
    run(script, &mut output).expect("memory reads and writes do not fail");
    output
}
