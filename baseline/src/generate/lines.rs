//! Lines: right ones, and every way to damage one.

use super::dice::Dice;
use super::pen::Pen;
use super::spellings::spelled;
use crate::frames::{byte_of, Line};

/// The kind bytes of the nine kinds of lines, and of none.
const KINDS: [u8; 15] = [
    0x01, 0x02, 0x03, 0x04, 0x05, 0x06, 0x10, 0x14, 0x15, 0x00, 0x0A, 0x1A, 0xAF, 0xC0, 0xFF,
];

/// Bytes that are no digit: most often those next to the digits.
const NO_DIGITS: &[u8] = b"gG`@/:gG`@/:xX \0\xFF\r\n\n\n\n\n\n\n\n";

/// The bit that tells a letter's two cases apart: without it `0` to `9` are no
/// digits.
const CASE_BIT: u8 = 0x20;

/// A frame's line: its digits, the check byte that makes all "sum to 0 modulo
/// 256", and the line feed.
pub(crate) fn line_of(frame: &[u8]) -> Vec<u8> {
    Line::of(frame).end().as_bytes().to_vec()
}

/// The frame bytes of a line, without its check byte.
pub(crate) fn frame_of(line: &[u8]) -> Vec<u8> {
    let (pairs, _) = line.as_chunks::<2>();
    let mut frame: Vec<u8> = pairs.iter().map_while(|&pair| byte_of(pair)).collect();
    frame.pop();
    frame
}

/// A line of floats, each by its own pattern.
pub(crate) fn line_with(kind: u8, sequence: u16, numbers: &[f64]) -> Vec<u8> {
    let mut frame = vec![kind];
    frame.extend(sequence.to_be_bytes());
    for number in numbers {
        frame.extend(number.to_bits().to_be_bytes());
    }
    line_of(&frame)
}

/// A forcing of kind 10.
pub(crate) fn kind_10(sequence: u16, numbers: [f64; 3]) -> Vec<u8> {
    line_with(0x10, sequence, &numbers)
}

/// A forcing of kinds 14 and 15: 1+2N numbers, sequences from 0.
pub(crate) fn kinds_14_and_15(forcing: &[f64]) -> Vec<u8> {
    let winds = forcing.get(1..).unwrap_or(&[]);
    let (wx, wy) = winds.split_at(winds.len() / 2);
    let mut text = line_with(0x14, 0, &forcing[..1]);
    for (node, (&wx, &wy)) in wx.iter().zip(wy).enumerate() {
        text.extend(line_with(0x15, node as u16 + 1, &[wx, wy]));
    }
    text
}

/// Writes bytes over a frame, from a place on.
pub(crate) fn put_field(frame: &mut [u8], at: usize, bytes: &[u8]) {
    for (place, &byte) in frame.iter_mut().skip(at).zip(bytes) {
        *place = byte;
    }
}

/// A right line, damaged in one of the ways rows 20, 21 and 22 know.
pub(crate) fn damaged(dice: &mut Dice, line: &[u8]) -> Vec<u8> {
    match dice.below(6) {
        0 | 1 => with_wrong_digit(dice, line),
        2 => with_wrong_sum(dice, line),
        3 => with_wrong_beginning(dice, line),
        _ => of_wrong_length(dice, line),
    }
}

/// Row 20: "wrong digit".
fn with_wrong_digit(dice: &mut Dice, line: &[u8]) -> Vec<u8> {
    let mut line = line.to_vec();
    let at = dice.below(line.len().saturating_sub(1));
    if line[at].is_ascii_digit() && dice.one_in(4) {
        line[at] ^= CASE_BIT;
    } else {
        line[at] = dice.one_of(NO_DIGITS);
    }
    line
}

/// Row 21: another check byte, or another byte before it.
fn with_wrong_sum(dice: &mut Dice, line: &[u8]) -> Vec<u8> {
    let mut frame = frame_of(line);
    let right = line_of(&frame);
    let (added, at) = (1 + dice.below(255) as u8, dice.below(frame.len()));
    frame[at] = frame[at].wrapping_add(added);
    let mut wrong = line_of(&frame);
    if dice.one_in(2) {
        // The frame as it was, with the other frame's check byte.
        let digits = wrong.len() - 3;
        wrong[..digits].copy_from_slice(&right[..digits]);
    } else {
        let digits = wrong.len() - 3;
        wrong[digits..].copy_from_slice(&right[digits..]);
    }
    wrong
}

/// Row 22: another kind or sequence, with the check byte made right again.
fn with_wrong_beginning(dice: &mut Dice, line: &[u8]) -> Vec<u8> {
    let mut frame = frame_of(line);
    if dice.one_in(2) {
        frame[0] = dice.one_of(&KINDS);
    } else {
        let sequence = u16::from_be_bytes([frame[1], frame[2]]);
        let any = dice.bits() as u16;
        let others = [
            sequence.wrapping_add(1),
            sequence.wrapping_sub(1),
            sequence.swap_bytes(),
            any,
        ];
        put_field(&mut frame, 1, &dice.one_of(&others).to_be_bytes());
    }
    line_of(&frame)
}

/// Row 20: "line of wrong length", "no line feed".
fn of_wrong_length(dice: &mut Dice, line: &[u8]) -> Vec<u8> {
    let mut line = line.to_vec();
    let last = line.len() - 1;
    let some = 1 + dice.below(2);
    match dice.below(9) {
        0 => line.truncate(last),
        1 | 2 => line[last] = dice.one_of(b"\r0 \0"),
        3 => line.insert(last, b'\r'),
        4 => drop(line.drain(last - some..last)),
        5 => drop(line.splice(last..last, vec![b'0'; some])),
        6 => line.truncate(dice.below(last)),
        7 => line.clear(),
        _ => line.extend(vec![b'\n'; some]),
    }
    line
}

/// Reads a forcing's lines in any spelling.
pub(crate) fn read(pen: &mut Pen, lines: &[u8], expected: u32) {
    let lines = spelled(&mut pen.dice, lines);
    pen.become_bytes("lines", &lines);
    pen.read(expected);
}
