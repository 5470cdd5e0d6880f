//! Taking lines from the input, with no more of a line in memory than is needed.

use std::io::{self, BufRead, ErrorKind};

use super::lines::MOST_LINE;

pub struct Lines<R> {
    source: R,
    line: Vec<u8>,
}

impl<R: BufRead> Lines<R> {
    pub fn new(source: R) -> Self {
        Lines { source, line: Vec::new() }
    }

    /// The next line, without its newline; none at the input's end. "A line ends with a newline;
    /// the last one may do without." Of a line that is too long, one byte more than is allowed is
    /// given.
    pub fn next(&mut self) -> io::Result<Option<&[u8]>> {
        self.line.clear();
        let mut begun = false;
        loop {
            let chunk = match self.source.fill_buf() {
                Ok(chunk) => chunk,
                Err(error) if error.kind() == ErrorKind::Interrupted => continue,
                Err(error) => return Err(error),
            };
            if chunk.is_empty() {
                return Ok(begun.then_some(self.line.as_slice()));
            }
            begun = true;
            let newline = chunk.iter().position(|&byte| byte == b'\n');
            let part = &chunk[..newline.unwrap_or(chunk.len())];
            let kept = part.len().min(MOST_LINE + 1 - self.line.len());
            self.line.extend_from_slice(&part[..kept]);
            let used = part.len() + usize::from(newline.is_some());
            self.source.consume(used);
            if newline.is_some() {
                return Ok(Some(&self.line));
            }
        }
    }
}
