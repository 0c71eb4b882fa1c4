//! `levels-reference`: a sheet on standard input, its levels on standard output.
//! `levels-reference frames`: many sheets and their levels, in frames.

#![forbid(unsafe_code)]

use cards_reference::frame::{read_frame, write_frame};
use cards_reference::sheet::{printed, MAX_BYTES};
use std::io::{self, BufReader, BufWriter, Read, Write};

fn main() -> io::Result<()> {
    let mut output = BufWriter::new(io::stdout().lock());
    if std::env::args().nth(1).as_deref() == Some("frames") {
        let mut input = BufReader::new(io::stdin().lock());
        while let Some(sheet) = read_frame(&mut input)? {
            write_frame(&mut output, &printed(&sheet))?;
            output.flush()?;
        }
        return Ok(());
    }
    // One byte more than a sheet can have is enough to see that it is none.
    let mut sheet = Vec::new();
    io::stdin().lock().take(MAX_BYTES as u64 + 1).read_to_end(&mut sheet)?;
    output.write_all(&printed(&sheet))?;
    output.flush()
}
