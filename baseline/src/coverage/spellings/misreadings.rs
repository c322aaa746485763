//! Misreadings of request #104: what a line or a text would have given by them.

use super::{has_upper, is_lower};
use crate::coverage::advection::patterns;
use crate::coverage::forcings::nodes_of;
use crate::coverage::layouts::{of_forcing, of_save};
use crate::forcings::read_forcing;
use crate::frames::{byte_of, two_digits};
use crate::saves::load;
use crate::script::{Call, Called, Script};
use std::ops::Range;

/// A misreading: the line that a line would have to be for its right reading to
/// give what the misreading gives.
pub(crate) type Misreading = fn(&[u8]) -> Vec<u8>;

/// The misreadings of lines that are accepted.
pub(crate) const OF_DIGITS: [(&str, Misreading); 7] = [
    ("with lower case refused", |line| {
        lower_as(b'?', line, 0..line.len())
    }),
    ("with lower case refused in the check byte", |line| {
        lower_as(b'?', line, check_byte(line))
    }),
    ("with lower case refused in the sequence", |line| {
        lower_as(b'?', line, 2..6)
    }),
    ("with lower case refused beside upper case", |line| {
        if has_upper(line) {
            lower_as(b'?', line, 0..line.len())
        } else {
            line.to_vec()
        }
    }),
    // a digit that makes the sum wrong, since no letter is worth 0
    ("with the check byte's characters compared", |line| {
        lower_as(b'0', line, check_byte(line))
    }),
    ("with a to f one too high", |line| {
        with_digits(line, |digit| match digit {
            b'a'..=b'f' => Some(11 + u32::from(digit - b'a')),
            _ => right_worth(digit),
        })
    }),
    ("with a to f counted from A", |line| {
        with_digits(line, |digit| match digit {
            b'a'..=b'f' => Some(10 + u32::from(digit - b'A')),
            _ => right_worth(digit),
        })
    }),
];

/// The misreadings of lines that are refused for a wrong digit.
pub(crate) const OF_NO_DIGITS: [(&str, Misreading); 3] = [
    ("with g as 16", |line| {
        with_digits(line, |digit| match digit {
            b'g' => Some(16),
            _ => right_worth(digit),
        })
    }),
    ("with g as 0", |line| {
        with_digits(line, |digit| match digit {
            b'g' => Some(0),
            _ => right_worth(digit),
        })
    }),
    ("with the case folded ahead of 0 to 9", |line| {
        with_digits(line, |digit| right_worth(digit | 0x20))
    }),
];

fn right_worth(digit: u8) -> Option<u32> {
    byte_of([b'0', digit]).map(u32::from)
}

/// A line with the bytes that it has where its digits are worth this, as far as
/// a byte holds it.
fn with_digits(line: &[u8], worth: fn(u8) -> Option<u32>) -> Vec<u8> {
    let (pairs, rest) = line.as_chunks::<2>();
    let digits = pairs.iter().flat_map(|&[high, low]| {
        let worths = worth(high).zip(worth(low));
        let byte = worths.map(|(high, low)| two_digits((16 * high + low) as u8));
        byte.unwrap_or([high, low])
    });
    digits.chain(rest.iter().copied()).collect()
}

/// A line with another character for each lower-case letter at these places.
fn lower_as(other: u8, line: &[u8], places: Range<usize>) -> Vec<u8> {
    let mut line = line.to_vec();
    let digits = line.iter_mut().take(places.end).skip(places.start);
    for digit in digits.filter(|digit| is_lower(**digit)) {
        *digit = other;
    }
    line
}

/// The places of a line's check byte.
fn check_byte(line: &[u8]) -> Range<usize> {
    line.len().saturating_sub(3)..line.len().saturating_sub(1)
}

/// What a reading gives: the answer's number and place, and the patterns of all
/// that comes back.
type Outcome = (u32, usize, Vec<u64>);

/// What a `read` or a `load` gives where its line or text is this.
fn outcome(script: &Script, called: Called, bytes: &[u8]) -> Outcome {
    if called.call == Call::Read {
        let mut room = script.forcing.0.clone();
        let answer = read_forcing(&mut room, bytes, called.expected);
        return (answer.number, answer.place, patterns(&room));
    }
    let (x, y, tri) = (&script.x.0, &script.y.0, &script.tri.0);
    let (h, kind, p) = (&script.h.0, &script.kind.0, script.p);
    let mut state = script.state.0.clone();
    let (answer, clock) = load(&mut state, bytes, x, y, tri, h, kind, p, called.clock);
    let mut all = patterns(&state);
    all.push(clock.step.into());
    (answer.number, answer.place, all)
}

/// The misreadings that would have given something else.
pub(crate) fn not_by(script: &Script, called: Called) -> Vec<String> {
    let (bytes, lines) = match called.call {
        Call::Read => {
            let lines = &script.lines.0;
            (lines, of_forcing(lines, nodes_of(script)))
        }
        _ => {
            let text = &script.text.0;
            (text, of_save(text, script.x.0.len()))
        }
    };
    let found = outcome(script, called, bytes);
    let after: usize = lines.iter().map(|(_, line)| line.len()).sum();
    let mut met = Vec::new();
    for (name, misreading) in OF_DIGITS.iter().chain(&OF_NO_DIGITS) {
        let mut misread: Vec<u8> = lines
            .iter()
            .flat_map(|(_, line)| misreading(line))
            .collect();
        misread.extend(&bytes[after..]);
        if misread != *bytes && outcome(script, called, &misread) != found {
            met.push(format!("not {name}"));
        }
    }
    met
}
