//! The reading of one forcing, of kind 10 and of kinds 14 and 15.

use super::*;
use crate::frames::{Line, FORCING};
use crate::read_forcing;

/// Reads into a room for so many nodes, and expects this refusal with the room as
/// found.
fn reading_refused(nodes: usize, text: &[u8], expected: u32, number: u32, place: usize) {
    let mut room = vec![f64::from_bits(FILL); 1 + 2 * nodes];
    refused(read_forcing(&mut room, text, expected), number, place);
    assert_eq!(bits(&room), vec![FILL; 1 + 2 * nodes]);
}

/// Expects an accepted forcing and hands back its patterns.
fn reading_accepted(nodes: usize, text: &[u8], expected: u32) -> Vec<u64> {
    let mut room = vec![f64::from_bits(FILL); 1 + 2 * nodes];
    accepted(read_forcing(&mut room, text, expected), 0);
    bits(&room)
}

/// Expects a refusal of a line of kind 10, at place 0 whatever N is.
pub fn line_refused(line: &[u8], expected: u32, number: u32) {
    for nodes in [0, 1, 3] {
        reading_refused(nodes, line, expected, number, 0);
    }
}

/// Expects an accepted line of kind 10, "kind 10 gives every node its wind", and
/// hands back its patterns.
pub fn line_accepted(line: &[u8], expected: u32) -> [u64; 3] {
    let found = reading_accepted(3, line, expected);
    let [elevation, wx, wy] = [found[0], found[1], found[4]];
    assert_eq!(found, [elevation, wx, wx, wx, wy, wy, wy]);
    assert_eq!(reading_accepted(0, line, expected), [elevation]);
    [elevation, wx, wy]
}

#[test]
fn a_line_digit_by_digit() {
    let text = format!(
        "100000{}3F90000000000000{}21\n",
        "0".repeat(16),
        "0".repeat(16)
    );
    let patterns = line_accepted(text.as_bytes(), 0);
    assert_eq!(patterns, [0.0, 1.0 / 64.0, 0.0].map(f64::to_bits));
}

#[test]
fn any_values_are_read() {
    let limits = [-0.0, f64::from_bits(1), f64::MIN_POSITIVE];
    let beyond = [f64::MAX, f64::INFINITY, f64::NEG_INFINITY];
    for numbers in [limits, beyond] {
        let patterns = line_accepted(&forcing_line(9, numbers), 9);
        assert_eq!(patterns, numbers.map(f64::to_bits));
    }
}

#[test]
fn every_nan_is_read_and_written_as_one() {
    let nans = [FILL, 0xFFF0_0000_0000_0001, 0x7FF8_0000_0000_0000];
    let text = forcing_line(0, nans.map(f64::from_bits));
    assert_eq!(line_accepted(&text, 0), [0x7FF8_0000_0000_0000; 3]);
    let written = nans.iter().fold(Line::begin(FORCING, 0), |line, &nan| {
        line.float(f64::from_bits(nan))
    });
    let one = f64::from_bits(0x7FF8_0000_0000_0000);
    assert_eq!(written.end().as_bytes(), forcing_line(0, [one; 3]));
}

#[test]
fn sequence_from_0_to_65_535() {
    for sequence in [0, 1, 255, 256, 65_535] {
        let text = forcing_line(sequence, [0.0; 3]);
        assert_eq!(line_accepted(&text, u32::from(sequence)), [0; 3]);
        for other in [2, 65_536, 65_536 + u32::from(sequence), u32::MAX] {
            line_refused(&text, other, 22);
        }
    }
}

#[test]
fn row_20_length() {
    let text = forcing_line(0, [0.0; 3]);
    for length in 0..57 {
        line_refused(&text[..length], 0, 20);
    }
    for length in 0..200 {
        line_refused(&vec![b'0'; length], 0, 20);
        line_refused(&vec![b'\n'; length], 0, 20);
        line_refused(&[b"10", &vec![b'0'; length][..]].concat(), 0, 20);
    }
    for shorter in [0, 2, 10, 11, 12, 54, 55] {
        let mut line = text[..shorter].to_vec();
        line.push(b'\n');
        line_refused(&line, 0, 20);
    }
}

#[test]
fn row_20_bytes_left_over() {
    let text = forcing_line(0, [0.0; 3]);
    for more in ["\n", "0", "00", "\r"] {
        line_refused(&[&text[..], more.as_bytes()].concat(), 0, 20);
        line_refused(&[&text[..56], more.as_bytes(), b"\n"].concat(), 0, 20);
    }
    line_refused(&text.repeat(2), 0, 20);
}

#[test]
fn row_20_every_wrong_digit() {
    let text = forcing_line(0, [0.0; 3]);
    for place in 0..56 {
        for byte in 0..=255_u8 {
            let mut line = text.clone();
            line[place] = byte;
            // A line of any other kind is measured as kind 14.
            if byte.is_ascii_hexdigit() && line.starts_with(b"10") {
                assert_ne!(read_forcing(&mut [0.0; 7], &line, 0).number, 20);
            } else {
                line_refused(&line, 0, 20);
            }
        }
    }
}

#[test]
fn row_20_no_line_feed() {
    let mut text = forcing_line(0, [0.0; 3]);
    for byte in (0..=255).filter(|&byte| byte != b'\n') {
        text[56] = byte;
        line_refused(&text, 0, 20);
    }
}

#[test]
fn row_21_every_other_check_byte() {
    let text = forcing_line(0, [0.0; 3]);
    assert_eq!(&text[54..56], b"F0");
    for check in (0..=255).filter(|&check| check != 0xF0) {
        let mut line = text.clone();
        line[54..56].copy_from_slice(format!("{check:02X}").as_bytes());
        line_refused(&line, 0, 21);
    }
}

/// "a forcing starting 10, is measured by that kind, any other by the new".
#[test]
fn every_other_kind_is_measured_by_the_new() {
    for kind in (0..=255).filter(|&kind| kind != 0x10) {
        let mut frame = [0; 27];
        frame[0] = kind;
        line_refused(&line(&frame), 0, 20);
        let row = if kind == 0x14 { 20 } else { 22 };
        let mut text = line_with(kind, 0, &[0.0]);
        // Where the elevation's line is right, the first node's is missing.
        let place = usize::from(kind == 0x14);
        reading_refused(3, &text, 0, row, place);
        text[23] = if text[23] == b'0' { b'1' } else { b'0' };
        reading_refused(3, &text, 0, 21, 0);
    }
    line_refused(&line_with(0x10, 0, &[0.0]), 0, 20);
}

#[test]
fn order_20_21_22() {
    let mut frame = [0; 27];
    frame[0] = 0x10;
    let mut text = line(&frame);
    line_refused(&text, 1, 22);
    text[55] ^= 1;
    line_refused(&text, 1, 21);
    text[20] = b'g';
    line_refused(&text, 1, 20);
}

/// A forcing for three nodes, no two numbers alike.
const GUSTS: [f64; 7] = [0.25, 0.1, -0.1, -0.0, 0.01, 5e-324, -0.02];

#[test]
fn kinds_14_and_15_digit_by_digit() {
    let text = concat!(
        "1400003FD0000000000000DD\n",
        "1500013FB000000000000000000000000000",
        "00FB\n"
    );
    let patterns = reading_accepted(1, text.as_bytes(), 9);
    assert_eq!(patterns, bits(&[0.25, 0.0625, 0.0]));
}

#[test]
fn kinds_14_and_15_of_any_number_of_nodes() {
    for nodes in [0, 1, 2, 3, 12, 300] {
        let forcing: Vec<f64> = (0..1 + 2 * nodes).map(|at| f64::from(at) / 64.0).collect();
        let text = forcing_lines(&forcing).concat();
        // "Kinds 14 and 15 count within the step, and it is not looked at."
        for expected in [0, 1, 65_535, 65_536, u32::MAX] {
            let found = reading_accepted(nodes as usize, &text, expected);
            assert_eq!(found, bits(&forcing));
        }
    }
    assert_eq!(
        reading_accepted(3, &forcing_lines(&GUSTS).concat(), 0),
        bits(&GUSTS)
    );
}

#[test]
fn every_nan_of_kinds_14_and_15_is_read_as_one() {
    let nans = [FILL, 0xFFF0_0000_0000_0001, 0x7FF8_0000_0000_0000];
    let text = forcing_lines(&nans.map(f64::from_bits)).concat();
    assert_eq!(reading_accepted(1, &text, 0), [0x7FF8_0000_0000_0000; 3]);
}

/// "a room of another length than 1+2N for any N is refused by 1", before the text
/// is looked at.
#[test]
fn row_1_rooms() {
    for text in [
        &b""[..],
        b"1",
        &forcing_line(0, [0.0; 3]),
        &forcing_lines(&GUSTS).concat(),
    ] {
        for length in (0..20).step_by(2) {
            let mut room = vec![f64::from_bits(FILL); length];
            refused(read_forcing(&mut room, text, 0), 1, 0);
            assert_eq!(bits(&room), vec![FILL; length]);
        }
    }
}

/// Where a byte of a forcing of kinds 14 and 15 stands.
fn line_at(place: usize) -> usize {
    match place {
        0..25 => 0,
        _ => 1 + (place - 25) / 41,
    }
}

#[test]
fn rows_20_and_21_at_every_line() {
    let text = forcing_lines(&GUSTS).concat();
    assert_eq!(text.len(), 25 + 3 * 41);
    for place in 0..text.len() {
        reading_refused(3, &text[..place], 0, 20, line_at(place));
        for byte in [b'g', b'G', b' ', b'/', b':', b'@', b'`', 0, 255, b'\r'] {
            let mut spoiled = text.clone();
            spoiled[place] = byte;
            reading_refused(3, &spoiled, 0, 20, line_at(place));
        }
        let mut shorter = text.clone();
        shorter.remove(place);
        reading_refused(3, &shorter, 0, 20, line_at(place));
        // `1` and `0` at the beginning would be another form.
        if text[place] != b'\n' && place > 1 {
            let mut turned = text.clone();
            turned[place] = if text[place] == b'0' { b'1' } else { b'0' };
            reading_refused(3, &turned, 0, 21, line_at(place));
        }
    }
    for more in ["\n", "0", "10", "15"] {
        reading_refused(3, &[&text[..], more.as_bytes()].concat(), 0, 20, 4);
    }
}

/// The lines of one N in a room of another: one is missing, or one is too many.
#[test]
fn rooms_of_another_number_of_nodes() {
    let text = forcing_lines(&GUSTS).concat();
    for nodes in 0..8 {
        match nodes {
            3 => drop(reading_accepted(3, &text, 0)),
            _ => reading_refused(nodes, &text, 0, 20, 1 + nodes.min(3)),
        }
    }
}

#[test]
fn row_22_at_every_line() {
    for at in 0..4 {
        for place in 0..3 {
            let mut lines = forcing_lines(&GUSTS);
            let digits = std::str::from_utf8(&lines[at]).unwrap();
            let byte = |at: usize| u8::from_str_radix(&digits[2 * at..2 * at + 2], 16).unwrap();
            let mut frame: Vec<u8> = (0..digits.len() / 2 - 1).map(byte).collect();
            frame[place] ^= 1;
            lines[at] = line(&frame);
            reading_refused(3, &lines.concat(), 0, 22, at);
        }
    }
}

/// "sequence counting on within the step from 0".
#[test]
fn sequences_of_kinds_14_and_15() {
    let counted = |sequences: [u16; 4]| {
        let mut lines = vec![line_with(0x14, sequences[0], &[0.0])];
        lines.extend(
            sequences[1..]
                .iter()
                .map(|&s| line_with(0x15, s, &[0.0; 2])),
        );
        lines.concat()
    };
    drop(reading_accepted(3, &counted([0, 1, 2, 3]), 0));
    for (sequences, expected, place) in [
        ([1, 2, 3, 4], 1, 0),
        ([7, 7, 7, 7], 7, 0),
        ([0, 0, 1, 2], 0, 1),
        ([0, 1, 1, 1], 0, 2),
        ([0, 1, 2, 2], 0, 3),
        ([0, 1, 2, 0x300], 0, 3),
    ] {
        reading_refused(3, &counted(sequences), expected, 22, place);
    }
}

#[test]
fn the_first_line_that_is_refused_answers() {
    let mut lines = forcing_lines(&GUSTS);
    lines[3][20] = b'x';
    reading_refused(3, &lines.concat(), 0, 20, 3);
    lines[2][9] ^= 1;
    reading_refused(3, &lines.concat(), 0, 21, 2);
    lines[1] = line_with(0x14, 1, &[0.0; 2]);
    reading_refused(3, &lines.concat(), 0, 22, 1);
    lines[0] = forcing_line(0, [0.0; 3]);
    reading_refused(3, &lines.concat(), 0, 20, 0);
}
