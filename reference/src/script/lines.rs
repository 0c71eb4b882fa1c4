//! Lines of a stream, read in chunks. A line is kept up to one byte past the
//! limit, which is enough to see that it is too long.

use std::io::{self, BufRead, BufReader, ErrorKind, Read};

/// Most bytes of a line without its newline.
pub const MAX_LINE: usize = 64;

/// How many bytes are asked of the stream at once.
const CHUNK: usize = 1 << 16;

/// The lines of a stream, one after another.
pub struct Lines<R> {
    input: BufReader<R>,
    line: [u8; MAX_LINE + 1],
}

impl<R: Read> Lines<R> {
    /// Starts before the first line.
    pub fn new(input: R) -> Lines<R> {
        Lines { input: BufReader::with_capacity(CHUNK, input), line: [0; MAX_LINE + 1] }
    }

    /// Whether no byte is left, and so no line. A newline at the very end of
    /// the stream ends its line and starts no other.
    pub fn at_end(&mut self) -> io::Result<bool> {
        Ok(self.chunk()?.is_empty())
    }

    /// The next line without its newline, or none at the end. Of a line that
    /// is too long, the first MAX_LINE + 1 bytes.
    pub fn next_line(&mut self) -> io::Result<Option<&[u8]>> {
        if self.at_end()? {
            return Ok(None);
        }
        let mut kept = 0;
        let mut ended = false;
        while !ended && !self.at_end()? {
            let (taken, newline) = self.take_part(kept);
            kept += taken;
            ended = newline;
        }
        Ok(Some(&self.line[..kept]))
    }

    /// Takes the rest of the line, or of the chunk if that ends first. Answers
    /// how many bytes were kept and whether the newline was met.
    fn take_part(&mut self, kept: usize) -> (usize, bool) {
        let chunk = self.input.buffer();
        let newline = chunk.iter().position(|&byte| byte == b'\n');
        let part = &chunk[..newline.unwrap_or(chunk.len())];
        let fits = part.len().min(self.line.len() - kept);
        self.line[kept..kept + fits].copy_from_slice(&part[..fits]);
        let used = part.len() + usize::from(newline.is_some());
        self.input.consume(used);
        (fits, newline.is_some())
    }

    /// The bytes at hand, after asking for more if there were none.
    fn chunk(&mut self) -> io::Result<&[u8]> {
        while let Err(error) = self.input.fill_buf() {
            if error.kind() != ErrorKind::Interrupted {
                return Err(error);
            }
        }
        Ok(self.input.buffer())
    }
}
