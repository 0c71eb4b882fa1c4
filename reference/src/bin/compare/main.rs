//! `compare [OPTIONS] PROGRAM [ARGS..]`: runs the program on scripts (or, with
//! `--sheets`, on sheets) made by seed, those of the fewest lines first, and
//! compares what it prints with what the reference prints. At the first
//! difference it prints an input of the fewest lines that show one and both
//! answers, and ends with status 1. A program that does not end in time, or ends
//! badly, differs too.

#![forbid(unsafe_code)]

mod feed;
mod frames;
mod kind;
mod once;
mod options;
mod order;
mod report;
mod subject;

use options::{options, Options, USAGE};
use order::Seeded;
use std::io;
use std::process::ExitCode;

/// Compares the inputs, each as a whole. Whether no difference is found.
fn compare_whole(options: &Options, ordered: &[Seeded]) -> io::Result<bool> {
    let mut subject = options.subject();
    for batch in order::batches(ordered) {
        let inputs: Vec<Vec<u8>> = batch.iter().map(|seeded| options.input(seeded.seed)).collect();
        if let Some(place) = subject.first_difference(&inputs)? {
            report::difference(options, batch[place].seed, &inputs[place])?;
            return Ok(false);
        }
    }
    if let Err(fault) = subject.finish()? {
        println!("after the last {} {}: {fault}", options.kind().input, options.program[0]);
        return Ok(false);
    }
    Ok(true)
}

/// Compares the inputs, each in pieces of every size. Whether no difference is
/// found.
fn compare_pieces(options: &mut Options, ordered: &[Seeded]) -> io::Result<bool> {
    let kind = options.kind();
    for &Seeded { seed, .. } in ordered {
        let input = options.input(seed);
        for size in (1..=kind.every_piece_to).chain(kind.pieces.iter().copied()) {
            options.piece = Some(size);
            if !options.subject().agrees(&input)? {
                report::difference(options, seed, &input)?;
                return Ok(false);
            }
        }
    }
    Ok(true)
}

fn compare(options: &mut Options) -> io::Result<ExitCode> {
    let kind = options.kind();
    let most = if options.pieces { kind.pieces_up_to } else { usize::MAX };
    let ordered = order::fewest_lines_first(options, most);
    let alike = match options.pieces {
        true => compare_pieces(options, &ordered)?,
        false => compare_whole(options, &ordered)?,
    };
    if !alike {
        return Ok(ExitCode::from(1));
    }
    let lines: usize = ordered.iter().map(|seeded| seeded.lines).sum();
    println!("compared {} {}s ({lines} lines), no difference", ordered.len(), kind.input);
    Ok(ExitCode::SUCCESS)
}

fn main() -> ExitCode {
    let Some(mut options) = options(std::env::args().skip(1)) else {
        eprintln!("{USAGE}");
        return ExitCode::from(2);
    };
    compare(&mut options).unwrap_or_else(|error| {
        eprintln!("compare: {}: {error}", options.program[0]);
        ExitCode::from(2)
    })
}
