//! `cards-reference`: a script on standard input, its listing on standard
//! output. `cards-reference frames`: many scripts and their listings, in frames.

#![forbid(unsafe_code)]

use cards_reference::frame::{read_frame, write_frame};
use cards_reference::script::{listing_of, run};
use std::io::{self, BufReader, BufWriter, Write};

fn main() -> io::Result<()> {
    let mut output = BufWriter::with_capacity(1 << 16, io::stdout().lock());
    if std::env::args().nth(1).as_deref() == Some("frames") {
        let mut input = BufReader::new(io::stdin().lock());
        while let Some(script) = read_frame(&mut input)? {
            write_frame(&mut output, &listing_of(&script))?;
            output.flush()?;
        }
        return Ok(());
    }
    run(io::stdin().lock(), &mut output)?;
    output.flush()
}
