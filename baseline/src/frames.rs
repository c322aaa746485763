//! "Frames": digits, fields, check byte, the faults of a line, and the lines of a
//! text one after the other.

use crate::records::Answer;

/// The longest line, a node's of edition 2: 104 digits and its line feed.
const LONGEST_LINE: usize = 105;

/// The bytes of the longest frame.
const LONGEST_FRAME: usize = 52;

/// The one pattern that every NaN is read and written as.
const NAN_PATTERN: u64 = 0x7FF8_0000_0000_0000;

/// "Upper-case hexadecimal": "We still write upper case."
const DIGITS: &[u8; 16] = b"0123456789ABCDEF";

/// The two digits that a byte is written as.
pub(crate) fn two_digits(byte: u8) -> [u8; 2] {
    [byte >> 4, byte & 0x0F].map(|digit| DIGITS[usize::from(digit)])
}

/// The byte that two digits stand for, each of either case.
pub(crate) fn byte_of([high, low]: [u8; 2]) -> Option<u8> {
    Some(16 * digit(high)? + digit(low)?)
}

/// A float's pattern, the one NaN's for every NaN.
pub(crate) fn pattern(value: f64) -> u64 {
    if value.is_nan() {
        NAN_PATTERN
    } else {
        value.to_bits()
    }
}

/// A kind of line: its kind byte and how many digits it has.
#[derive(Clone, Copy)]
pub(crate) struct Kind {
    byte: u8,
    digits: usize,
}

/// "01 head, sequence 0: N (2), E (2), step (4), Wx, Wy. 56 digits."
pub(crate) const HEAD: Kind = Kind {
    byte: 0x01,
    digits: 56,
};

/// "02 node i, sequence i+1: earlier z, z, U, V. 72 digits."
pub(crate) const NODE: Kind = Kind {
    byte: 0x02,
    digits: 72,
};

/// "03 end, sequence N+1: N (2). 12 digits." In edition 2 it is sequence N+2.
pub(crate) const END: Kind = Kind {
    byte: 0x03,
    digits: 12,
};

/// "head 04 (N, E, step)".
pub(crate) const HEAD_2: Kind = Kind {
    byte: 0x04,
    digits: 24,
};

/// "one line 05 (dt, tau, K, f, and the sum of all D in 8 bytes)".
pub(crate) const SETTING: Kind = Kind {
    byte: 0x05,
    digits: 88,
};

/// "node lines 06 with six values".
pub(crate) const NODE_2: Kind = Kind {
    byte: 0x06,
    digits: 104,
};

/// "10 forcing, its own sequence from 0 to 65,535: elevation, Wx', Wy'. 56
/// digits."
pub(crate) const FORCING: Kind = Kind {
    byte: 0x10,
    digits: 56,
};

/// "kind 14 (sequence, open elevation)".
pub(crate) const ELEVATION: Kind = Kind {
    byte: 0x14,
    digits: 24,
};

/// "kind 15 (sequence, Wx', Wy')".
pub(crate) const WIND: Kind = Kind {
    byte: 0x15,
    digits: 40,
};

impl Kind {
    /// The bytes of a line of this kind: its digits, "ended by a line feed".
    pub fn line_length(self) -> usize {
        self.digits + 1
    }
}

/// "One line is held with its length while it is built." The sum of its frame
/// bytes is held beside them, for the check byte.
pub(crate) struct Line {
    bytes: [u8; LONGEST_LINE],
    length: usize,
    sum: u8,
}

impl Line {
    /// A line's "kind byte, two-byte sequence".
    pub fn begin(kind: Kind, sequence: u16) -> Line {
        Line::of(&[kind.byte]).two_bytes(sequence)
    }

    /// A line that begins with any frame bytes.
    pub fn of(bytes: &[u8]) -> Line {
        let empty = Line {
            bytes: [0; LONGEST_LINE],
            length: 0,
            sum: 0,
        };
        empty.frame_bytes(bytes)
    }

    /// "Numbers are big-endian".
    pub fn two_bytes(self, number: u16) -> Line {
        self.frame_bytes(&number.to_be_bytes())
    }

    /// "Numbers are big-endian".
    pub fn four_bytes(self, number: u32) -> Line {
        self.frame_bytes(&number.to_be_bytes())
    }

    /// "Numbers are big-endian".
    pub fn eight_bytes(self, number: u64) -> Line {
        self.frame_bytes(&number.to_be_bytes())
    }

    /// "floats are their 8-byte patterns".
    pub fn float(self, value: f64) -> Line {
        self.eight_bytes(pattern(value))
    }

    /// The check byte and the line feed: "All frame bytes sum to 0 modulo 256."
    pub fn end(self) -> Line {
        let check = self.sum.wrapping_neg();
        self.frame_byte(check).push(b'\n')
    }

    pub fn as_bytes(&self) -> &[u8] {
        self.bytes.get(..self.length).unwrap_or(&self.bytes)
    }

    fn frame_bytes(self, bytes: &[u8]) -> Line {
        bytes.iter().fold(self, |line, &byte| line.frame_byte(byte))
    }

    fn frame_byte(mut self, byte: u8) -> Line {
        self.sum = self.sum.wrapping_add(byte);
        let [high, low] = two_digits(byte);
        self.push(high).push(low)
    }

    /// No kind of line is longer than the room, so that no byte is dropped.
    fn push(mut self, byte: u8) -> Line {
        if let Some(place) = self.bytes.get_mut(self.length) {
            *place = byte;
            self.length += 1;
        }
        self
    }
}

/// The bytes of a frame that was read without a fault.
pub(crate) struct Frame {
    bytes: [u8; LONGEST_FRAME],
}

impl Frame {
    /// Reads one line of the kind and sequence that are due, or answers its
    /// fault: "20, 21, 22".
    ///
    /// 20: "line of wrong length, wrong digit, no line feed". 21: "check byte".
    /// 22: "kind or sequence". All but 20 are asked of the frame's bytes, which
    /// do not tell how their digits were spelled.
    pub fn read(line: &[u8], kind: Kind, sequence: u32) -> Result<Frame, u32> {
        let Some((b'\n', digits)) = line.split_last() else {
            return Err(20);
        };
        if digits.len() != kind.digits {
            return Err(20);
        }
        let mut bytes = [0; LONGEST_FRAME];
        let (pairs, _) = digits.as_chunks::<2>();
        for (byte, &pair) in bytes.iter_mut().zip(pairs) {
            *byte = byte_of(pair).ok_or(20u32)?;
        }
        if bytes.iter().fold(0u8, |sum, &byte| sum.wrapping_add(byte)) != 0 {
            return Err(21);
        }
        let frame = Frame { bytes };
        if bytes[0] != kind.byte || u32::from(frame.two_bytes(1)) != sequence {
            return Err(22);
        }
        Ok(frame)
    }

    /// The two-byte number that begins at a frame byte.
    pub fn two_bytes(&self, at: usize) -> u16 {
        u16::from_be_bytes(self.bytes_at(at))
    }

    /// The four-byte number that begins at a frame byte.
    pub fn four_bytes(&self, at: usize) -> u32 {
        u32::from_be_bytes(self.bytes_at(at))
    }

    /// The eight-byte number that begins at a frame byte.
    pub fn eight_bytes(&self, at: usize) -> u64 {
        u64::from_be_bytes(self.bytes_at(at))
    }

    /// The float whose pattern begins at a frame byte.
    pub fn float(&self, at: usize) -> f64 {
        f64::from_bits(pattern(f64::from_bits(self.eight_bytes(at))))
    }

    fn bytes_at<const COUNT: usize>(&self, at: usize) -> [u8; COUNT] {
        let mut field = [0; COUNT];
        for (place, &byte) in field.iter_mut().zip(self.bytes.iter().skip(at)) {
            *place = byte;
        }
        field
    }
}

/// What a hexadecimal digit stands for: "A digit now means the same in either
/// case".
fn digit(byte: u8) -> Option<u8> {
    match byte {
        b'0'..=b'9' => Some(byte - b'0'),
        b'A'..=b'F' => Some(byte - b'A' + 10),
        b'a'..=b'f' => Some(byte - b'a' + 10),
        _ => None,
    }
}

/// The lines of a text not yet gone through, and the number of the next. In a save
/// of either edition, and in a forcing of kinds 14 and 15, the sequence number of a
/// line is the number of the line.
pub(crate) struct Reader<'a> {
    rest: &'a [u8],
    line: usize,
}

impl Reader<'_> {
    /// A text from its first line on.
    pub fn of(text: &[u8]) -> Reader<'_> {
        let line = 0;
        Reader { rest: text, line }
    }

    /// The next line, of the kind due there: "the length being that of the kind
    /// due there", "and a missing line being of wrong length".
    pub fn next(&mut self, kind: Kind) -> Result<Frame, Answer> {
        let length = kind.line_length().min(self.rest.len());
        let (line, rest) = self.rest.split_at(length);
        let frame = Frame::read(line, kind, self.line as u32)
            .map_err(|number| Answer::refused(number, self.line))?;
        self.rest = rest;
        self.line += 1;
        Ok(frame)
    }

    /// A refusal of the line that was read last.
    pub fn refused(&self, number: u32) -> Answer {
        Answer::refused(number, self.line.saturating_sub(1))
    }

    /// 20: "bytes after the end", at the line that they would be.
    pub fn end(self) -> Result<(), Answer> {
        if self.rest.is_empty() {
            Ok(())
        } else {
            Err(Answer::refused(20, self.line))
        }
    }
}
