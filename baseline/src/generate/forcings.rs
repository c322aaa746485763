//! Readings of forcings of both forms, right and damaged, into rooms of every
//! length.

use super::dice::Dice;
use super::lines::read;
use super::lines::{damaged, frame_of, kind_10, kinds_14_and_15, line_of, line_with, put_field};
use super::nans;
use super::pen::Pen;
use super::texts::lines_of;
use super::values::{anything, at_edge, WIND};

/// The sequence numbers at the ends of their range.
const SEQUENCES: [u16; 7] = [0, 1, 255, 256, 32_768, 65_534, 65_535];

/// The expected numbers that no line has.
const UNMET: [u32; 4] = [65_536, 65_537, 131_071, 4_294_967_295];

/// Forcings that are read, right and damaged.
pub(crate) fn reads(pen: &mut Pen) {
    for _ in 0..12 + pen.dice.below(16) {
        let nodes = any_nodes(&mut pen.dice);
        let sequence = any_sequence(&mut pen.dice);
        let mut text = any_forcing(&mut pen.dice, nodes, sequence);
        if pen.dice.one_in(2) {
            text = damaged_forcing(&mut pen.dice, &text, sequence);
        }
        lend(pen, nodes);
        let expected = expected(&mut pen.dice, sequence);
        // At times the same lines are read once more, in another spelling.
        for _ in 0..pen.dice.one_of(&[1, 1, 2]) {
            read(pen, &text, expected);
        }
        pen.mend();
    }
}

/// How many nodes a forcing is for: no mesh is asked, so that there may be none.
fn any_nodes(dice: &mut Dice) -> usize {
    let more = dice.between(4, 12) as usize;
    dice.one_of(&[0, 1, 2, 3, 3, more, more, more])
}

fn any_sequence(dice: &mut Dice) -> u16 {
    let (edge, any) = (dice.one_of(&SEQUENCES), dice.bits() as u16);
    dice.one_of(&[edge, any])
}

/// A room for a forcing of so many nodes, or, at times, of another length, with
/// NaNs in it most often.
fn lend(pen: &mut Pen, nodes: usize) {
    let right = 1 + 2 * nodes;
    let others = [0, 2 * nodes, right + 1, right + 2, right.abs_diff(2), 1, 3];
    let other = pen.dice.one_of(&others);
    let length = pen.dice.one_of(&[right, right, right, right, other]);
    pen.fill("forcing", length);
    if !pen.dice.one_in(3) {
        nans::in_slice(pen, "forcing");
    }
}

/// A right forcing of either form, its numbers any at all.
fn any_forcing(dice: &mut Dice, nodes: usize, sequence: u16) -> Vec<u8> {
    let mut number = || match dice.below(2) {
        0 => anything(dice),
        _ => at_edge(dice, WIND),
    };
    let numbers: Vec<f64> = (0..3 + 2 * nodes).map(|_| number()).collect();
    match dice.below(5) {
        0 | 1 => kind_10(sequence, [numbers[0], numbers[1], numbers[2]]),
        _ => kinds_14_and_15(&numbers[2..]),
    }
}

/// A forcing with one or two things that are wrong; the sequence is the one that is
/// most often expected.
fn damaged_forcing(dice: &mut Dice, text: &[u8], sequence: u16) -> Vec<u8> {
    let mut lines = lines_of(text);
    for _ in 0..1 + dice.below(4) / 3 {
        let at = dice.below(lines.len());
        let sound = lines.get(at).is_some_and(|line| frame_of(line).len() > 10);
        match dice.below(8) {
            0..4 if sound => lines[at] = damaged(dice, &lines[at]),
            4 => renumber(dice, &mut lines, sequence),
            5 => other_end(dice, &mut lines),
            _ => rearrange(dice, &mut lines, at),
        }
    }
    lines.concat()
}

/// Row 22: sequences that count on, but not from 0 at the elevation's line: from 1,
/// from the expected number, or from 0 at the first node's.
fn renumber(dice: &mut Dice, lines: &mut [Vec<u8>], expected: u16) {
    let (from, first) = dice.one_of(&[(0, 1), (0, expected), (1, 0), (1, 2), (1, expected)]);
    for (more, line) in (0..).zip(lines.iter_mut().skip(from)) {
        let mut frame = frame_of(line);
        put_field(&mut frame, 1, &first.wrapping_add(more).to_be_bytes());
        *line = line_of(&frame);
    }
}

/// Lines that end too early, or go on after the last.
fn other_end(dice: &mut Dice, lines: &mut Vec<Vec<u8>>) {
    let next = lines.len() as u16;
    let Some(last) = lines.last_mut() else {
        return;
    };
    match dice.below(5) {
        0 => last.truncate(dice.below(last.len())),
        1 => last.push(dice.one_of(b"\n0\r")),
        2 => lines.push(line_with(0x15, next, &[0.0, -0.0])),
        3 => lines.push(kind_10(next, [0.0; 3])),
        _ => lines.truncate(dice.below(lines.len())),
    }
}

/// Lines left out, laid twice or exchanged; a line of another kind in a line's
/// place; or the first line's kind made the other form's.
fn rearrange(dice: &mut Dice, lines: &mut Vec<Vec<u8>>, at: usize) {
    if at >= lines.len() {
        return;
    }
    let sequence = at as u16;
    match dice.below(6) {
        0 => drop(lines.remove(at)),
        1 => lines.insert(at, lines[at].clone()),
        2 if at + 1 < lines.len() => lines.swap(at, at + 1),
        3 => lines[at] = kind_10(sequence, [0.0; 3]),
        4 => lines[at] = line_with(0x14 + (at % 2) as u8, sequence, &[0.0]),
        _ => other_form(&mut lines[0]),
    }
}

/// Makes `10` of `14` and `14` of `10`: the line is then measured by that kind.
fn other_form(line: &mut [u8]) {
    if let [b'1', digit @ (b'0' | b'4'), ..] = line {
        *digit ^= b'0' ^ b'4';
    }
}

/// Most often the line's own number, else another.
fn expected(dice: &mut Dice, sequence: u16) -> u32 {
    let (sequence, any) = (u32::from(sequence), dice.bits() as u32);
    match dice.below(6) {
        0 => dice.one_of(&UNMET),
        1 => dice.one_of(&[sequence + 1, sequence + 65_536, any]),
        _ => sequence,
    }
}
