//! The lines of the input. Of an overlong line only its first 1,025 bytes are kept.

use super::LINE_BYTES;
use std::io::{self, ErrorKind, Read};

const BUFFER_BYTES: usize = 1 << 16;

/// As many bytes of a line as are passed on: enough to see that it is too long.
const KEPT_BYTES: usize = LINE_BYTES + 1;

pub struct Lines<R> {
    source: R,
    buffer: Vec<u8>,
    /// What is read and not yet handed out is `buffer[from..to]`.
    from: usize,
    to: usize,
    /// The start of a line that the buffer did not hold to its end.
    begun: Vec<u8>,
    begun_is_used: bool,
    ended: bool,
}

impl<R: Read> Lines<R> {
    pub fn new(source: R) -> Self {
        Lines {
            source,
            buffer: vec![0; BUFFER_BYTES],
            from: 0,
            to: 0,
            begun: Vec::with_capacity(KEPT_BYTES),
            begun_is_used: false,
            ended: false,
        }
    }

    /// The next line, if the buffer holds its end or the input has ended.
    pub fn next(&mut self) -> Option<&[u8]> {
        if self.begun_is_used {
            self.begun.clear();
            self.begun_is_used = false;
        }
        let rest = &self.buffer[self.from..self.to];
        match rest.iter().position(|&byte| byte == b'\n') {
            Some(length) => {
                self.from += length + 1;
                let line = &rest[..length.min(KEPT_BYTES)];
                if self.begun.is_empty() {
                    return Some(line);
                }
                keep(&mut self.begun, line);
            }
            None => {
                keep(&mut self.begun, rest);
                self.from = self.to;
                if !self.ended || self.begun.is_empty() {
                    return None;
                }
            }
        }
        self.begun_is_used = true;
        Some(&self.begun)
    }

    /// Whether the input has ended.
    pub fn over(&self) -> bool {
        self.ended
    }

    /// Reads more of the input. All lines of the buffer must have been taken.
    pub fn fill(&mut self) -> io::Result<()> {
        self.from = 0;
        self.to = loop {
            match self.source.read(&mut self.buffer) {
                Err(error) if error.kind() == ErrorKind::Interrupted => {}
                read => break read?,
            }
        };
        self.ended = self.to == 0;
        Ok(())
    }
}

/// Adds `more` to a line that was begun, as far as it is kept.
fn keep(begun: &mut Vec<u8>, more: &[u8]) {
    let room = KEPT_BYTES - begun.len();
    begun.extend_from_slice(&more[..more.len().min(room)]);
}
