//! The first difference, shrunk and printed.

use crate::kind::Kind;
use crate::options::Options;
use crate::subject::Subject;
use cards_reference::choices::count_lines;
use cards_reference::shrink::{shrink, Shrunk, Trials};
use std::io;
use std::time::{Duration, Instant};

/// How long an input may take while one that takes too long is shrunk.
const SHRINKING_LIMIT: Duration = Duration::from_secs(1);

/// Shrinks an input that shows a difference, and prints what is left.
pub fn difference(options: &Options, seed: u64, found: &[u8]) -> io::Result<()> {
    let Kind { input, output, .. } = options.kind();
    print!("seed {seed} differs");
    if let Some(size) = options.piece {
        print!(" in pieces of {size} bytes");
    }
    println!(", a {input} of {} lines", count_lines(found));
    let start = Instant::now();
    let shrunk = shortest(options, found)?;
    let shortest = &shrunk.script;
    println!("shortest {input}, {} bytes:", shortest.len());
    print_bytes(shortest);
    println!("{}", how_sure(&shrunk));
    println!("choices tried: {} in {:.1} s", shrunk.tried, start.elapsed().as_secs_f32());
    let expected = options.right(shortest);
    println!("{output} of the reference:");
    print_bytes(&expected);
    let program = &options.program[0];
    match options.subject().printed(shortest, expected.len())? {
        Ok(printed) => {
            println!("{output} of {program}:");
            print_bytes(&printed);
        }
        Err(fault) => println!("no {output} of {program}: {fault}"),
    }
    Ok(())
}

/// An input fails if the program differs on it.
struct Differs {
    /// What an input is called.
    input: &'static str,
    subject: Box<dyn Subject>,
    /// The program could not be started for some input.
    untried: bool,
}

impl Trials for Differs {
    fn first_failing(&mut self, inputs: &[Vec<u8>]) -> Option<usize> {
        let first = self.subject.first_difference(inputs);
        self.untried |= first.is_err();
        first.unwrap_or(None)
    }

    fn before_long_search(&mut self, shortest: &[u8], choices: u64) {
        println!("shortest {} so far, {} lines:", self.input, count_lines(shortest));
        print_bytes(shortest);
        match choices {
            u64::MAX => println!("choices of fewer lines to be tried: too many to count"),
            _ => println!("choices of fewer lines to be tried: {choices}"),
        }
    }
}

/// The shortest input. One is given less time while there is more to cut; if
/// what is left is only slow, the given input comes back.
fn shortest(options: &Options, found: &[u8]) -> io::Result<Shrunk> {
    let mut subject = options.subject();
    let hangs = subject.printed(found, options.right(found).len())?.is_err();
    if hangs {
        subject = options.within(options.limit.min(SHRINKING_LIMIT));
    }
    let mut differs = Differs { input: options.kind().input, subject, untried: false };
    let mut shrunk = shrink(found, options.budget, &mut differs);
    if differs.untried {
        shrunk.tried_below = 0;
    }
    let shows = !options.subject().agrees(&shrunk.script)?;
    Ok(if shows { shrunk } else { Shrunk::untried(found) })
}

/// Whether fewer lines of the seed's input may show a difference too.
fn how_sure(shrunk: &Shrunk) -> String {
    if shrunk.is_fewest() {
        return "fewest: every smaller choice was tried".to_string();
    }
    let (lines, untried) = (shrunk.lines(), shrunk.tried_below);
    format!("found {lines} lines; choices of {untried} lines and more were not all tried")
}

/// Prints each line with bytes that are not plain text escaped.
fn print_bytes(bytes: &[u8]) {
    for line in bytes.split_inclusive(|&byte| byte == b'\n') {
        println!("  {}", line.escape_ascii());
    }
}
