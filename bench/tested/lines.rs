//! Rows 20, 21 and 22 of a text's lines.

use crate::hex;
use crate::run::Answer;

/// The lines that are still to be read. The sequence that is due in a line is its number.
pub struct Lines<'a> {
    rest: &'a [u8],
    number: usize,
}

impl<'a> Lines<'a> {
    pub fn of(text: &'a [u8]) -> Lines<'a> {
        Lines::numbered(text, 0)
    }

    /// Lines of which the first has this number.
    pub fn numbered(text: &'a [u8], number: usize) -> Lines<'a> {
        Lines { rest: text, number }
    }

    #[inline(always)]
    pub fn next<const BYTES: usize>(&mut self, kind: u8) -> Result<[u8; BYTES], Answer> {
        let Some((line, rest)) = self.rest.split_at_checked(hex::line(BYTES)) else {
            return Err(self.refused(20));
        };
        let (pairs, feed) = line.as_chunks::<2>();
        let mut frame = [0; BYTES];
        let mut wrong = 0;
        for (byte, &[high, low]) in frame.iter_mut().zip(pairs) {
            let (high, low) = (hex::worth(high), hex::worth(low));
            wrong |= high | low;
            *byte = high << 4 | low;
        }
        if wrong & 0x80 != 0 || feed[0] != b'\n' {
            return Err(self.refused(20));
        }
        if hex::sum(&frame) != 0 {
            return Err(self.refused(21));
        }
        if frame[0] != kind || hex::two_bytes(&frame, 1) != self.number {
            return Err(self.refused(22));
        }
        self.rest = rest;
        self.number += 1;
        Ok(frame)
    }

    /// Row 20 of bytes after the last line.
    pub fn end(&self) -> Result<(), Answer> {
        if self.rest.is_empty() {
            return Ok(());
        }
        Err(self.refused(20))
    }

    /// A refusal of the line that is due.
    pub fn refused(&self, row: u32) -> Answer {
        Answer::refused(row, self.number)
    }
}
