//! The input in pieces of whole lines, in constant memory whatever the length of a line.

use std::io::{ErrorKind, Read, Result};

use crate::LONGEST_STEP;

const BUFFER: usize = 64 * 1024;

/// Hands the input on piece by piece: whole lines each time it is read, and at its end the last line if it has no LF.
pub fn each_piece(input: impl Read, mut take: impl FnMut(&[u8]) -> Result<()>) -> Result<()> {
    let mut input = Input::new(input);
    while input.advance()? {
        take(input.whole_lines())?;
    }
    take(input.last_line())
}

struct Input<R> {
    from: R,
    buffer: Box<[u8]>,
    /// The whole lines read last, `buffer[..lines]`, and the beginning of another, `buffer[lines..filled]`.
    lines: usize,
    filled: usize,
}

impl<R: Read> Input<R> {
    fn new(from: R) -> Self {
        Input { from, buffer: vec![0; BUFFER].into_boxed_slice(), lines: 0, filled: 0 }
    }

    /// Goes on past the whole lines given so far and reads once more. False at the end of the input.
    fn advance(&mut self) -> Result<bool> {
        self.buffer.copy_within(self.lines..self.filled, 0);
        self.filled -= self.lines;
        self.lines = 0;
        if self.filled == BUFFER {
            // A line too long for the buffer gives no step; nor does any beginning of it that is too long for a step.
            self.filled = LONGEST_STEP + 1;
        }
        let got = self.read()?;
        let fresh = &self.buffer[self.filled..self.filled + got];
        if let Some(lf) = fresh.iter().rposition(|&byte| byte == b'\n') {
            self.lines = self.filled + lf + 1;
        }
        self.filled += got;
        Ok(got > 0)
    }

    fn read(&mut self) -> Result<usize> {
        loop {
            match self.from.read(&mut self.buffer[self.filled..]) {
                Err(error) if error.kind() == ErrorKind::Interrupted => {}
                result => return result,
            }
        }
    }

    fn whole_lines(&self) -> &[u8] {
        &self.buffer[..self.lines]
    }

    /// At the end of the input: the last line, if it has no LF.
    fn last_line(&self) -> &[u8] {
        &self.buffer[self.lines..self.filled]
    }
}
