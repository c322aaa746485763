//! Texts of saves, damaged in each way the refusal table knows, and text rooms
//! of every size.

use super::dice::Dice;
use super::lines::{damaged, frame_of, line_of, put_field};
use super::nans;
use super::pen::{byte_word, Pen};
use super::runs::{make_room, older_text};
use super::settings::{any_manner, room_needed, small_size, start, Wind};
use super::spellings::{respell, spelled};
use super::values::{lowest_elevation, tested, PARAMETERS, RUNS, WIND};
use super::worlds::Manner;
use crate::records::Parameters;
use crate::script::Call;

/// Loads of damaged texts, and saves into rooms of every size.
pub(crate) fn texts(pen: &mut Pen) {
    let (nodes, manner) = (small_size(pen), any_manner(pen));
    start(pen, nodes, manner);
    if pen.dice.one_in(3) {
        rooms(pen);
    }
    make_room(pen, 0);
    pen.call(Call::Save);
    let older = older_text(pen, Wind::AtEdge);
    let editions = [pen.script.text.0.clone(), older];
    for _ in 0..12 + pen.dice.below(12) {
        if pen.dice.one_in(4) {
            let edition = pen.dice.below(2);
            pen.become_bytes("text", &editions[edition]);
        }
        if pen.dice.one_in(5) {
            respell(pen);
        }
        let right = pen.script.text.0.clone();
        match pen.dice.below(10) {
            0 => (),
            1 | 2 => other_run(pen),
            _ => damage(pen),
        }
        if pen.dice.one_in(2) {
            nans::in_slice(pen, "state");
        }
        pen.call(Call::Load);
        pen.mend();
        pen.become_bytes("text", &right);
    }
}

/// 25: a run that differs from the text's in one of dt, tau, K and f, by one bit
/// where its range holds that, else by the sign of a zero.
fn other_run(pen: &mut Pen) {
    let (p, place) = (pen.script.p, pen.dice.below(4));
    let mut numbers = [p.dt, p.tau, p.k, p.f];
    let (old, range) = (numbers[place], PARAMETERS[place]);
    let others = [old.next_up(), old.next_down(), -old, -old];
    let other = pen.dice.one_of(&others);
    if (range.low..=range.high).contains(&other) {
        numbers[place] = other;
    }
    let [dt, tau, k, f] = numbers;
    pen.change_parameters(Parameters { dt, tau, k, f, ..p });
}

/// Damages the text that the script holds, once or twice.
pub(crate) fn damage(pen: &mut Pen) {
    let mut text = pen.script.text.0.clone();
    let same = any_line(&mut pen.dice, lines_of(&text).len());
    for _ in 0..1 + pen.dice.below(3) / 2 {
        let other = any_line(&mut pen.dice, lines_of(&text).len());
        let at = pen.dice.one_of(&[same, other]);
        text = damaged_text(pen, &text, at);
    }
    pen.become_bytes("text", &text);
}

/// 24: "A save is then 127+105N bytes, and row 24 reads so".
fn rooms(pen: &mut Pen) {
    let length = room_needed(pen);
    let any = pen.dice.below(length);
    for room in [length - 1, 0, any, length, length + 1] {
        let filling = byte_word(pen.dice.bits() as u8);
        pen.say(format!("fill text {room} {filling}"));
        pen.call(Call::Save);
    }
}

/// The lines of a text, each with its line feed.
pub(crate) fn lines_of(text: &[u8]) -> Vec<Vec<u8>> {
    let lines = text.split_inclusive(|&byte| byte == b'\n');
    lines.map(<[u8]>::to_vec).collect()
}

/// A text with one thing more that is wrong, most often on this line.
fn damaged_text(pen: &mut Pen, text: &[u8], at: usize) -> Vec<u8> {
    let mut lines = lines_of(text);
    // A text that was damaged before may have no such line left, or short ones.
    let sound = lines.get(at).is_some_and(|line| frame_of(line).len() >= 5);
    match pen.dice.below(24) {
        0..19 if sound => {
            let line = damaged_line(pen, &lines[at]);
            lines[at] = spelled(&mut pen.dice, &line);
        }
        19..22 => return with_other_end(&mut pen.dice, text),
        22 => return with_other_head(text),
        _ => rearrange(pen, &mut lines, at),
    }
    lines.concat()
}

/// A text whose head begins as the other edition's does.
fn with_other_head(text: &[u8]) -> Vec<u8> {
    let mut text = text.to_vec();
    if let [b'0', digit @ (b'1' | b'4'), ..] = &mut text[..] {
        *digit ^= b'1' ^ b'4';
    }
    text
}

/// A line that rows 20 to 22 refuse, or one with another value.
fn damaged_line(pen: &mut Pen, line: &[u8]) -> Vec<u8> {
    match pen.dice.below(10) {
        0..3 => damaged(&mut pen.dice, line),
        _ => with_other_field(pen, line),
    }
}

/// Any line, the head, the one after it and the end as often as all the nodes.
fn any_line(dice: &mut Dice, count: usize) -> usize {
    match dice.below(5) {
        0 => 0,
        1 => 1,
        2 => count.saturating_sub(1),
        _ => dice.below(count),
    }
}

/// Another value in a field, with the check byte made right again: rows 23, 25
/// and 10, or a text as right as before. The kind is known by how long it is.
fn with_other_field(pen: &mut Pen, line: &[u8]) -> Vec<u8> {
    let mut frame = frame_of(line);
    match frame.len() {
        11 | 27 => other_head(&mut pen.dice, &mut frame),
        43 => other_setting(&mut pen.dice, &mut frame),
        35 => other_node(pen, &mut frame, 4),
        51 => other_node(pen, &mut frame, 6),
        _ => other_count(&mut pen.dice, &mut frame, 3),
    }
    line_of(&frame)
}

/// "dt, tau, K, f, and the sum of all D in 8 bytes": one bit of one of them, at
/// times that of the sign.
fn other_setting(dice: &mut Dice, frame: &mut [u8]) {
    let (field, byte, bit) = (dice.below(5), dice.below(8), dice.below(8));
    let (byte, bit) = dice.one_of(&[(byte, bit), (byte, bit), (0, 7)]);
    frame[3 + 8 * field + byte] ^= 1 << bit;
}

/// "N (2), E (2), step (4), Wx, Wy", of which edition 2 has the first three.
fn other_head(dice: &mut Dice, frame: &mut [u8]) {
    let choices = if frame.len() == 27 { 5 } else { 3 };
    match dice.below(choices) {
        0 => other_count(dice, frame, 3),
        1 => other_count(dice, frame, 5),
        2 => {
            let step = dice.one_of(&[u32::MAX, u32::MAX - 1, 0]);
            put_field(frame, 7, &step.to_be_bytes());
        }
        _ => {
            let wind = tested(dice, WIND);
            let at = dice.one_of(&[11, 19]);
            put_field(frame, at, &wind.to_bits().to_be_bytes());
        }
    }
}

/// A count that differs by one or by the order of its bytes.
fn other_count(dice: &mut Dice, frame: &mut [u8], at: usize) {
    let count = u16::from_be_bytes([frame[at], frame[at + 1]]);
    let others = [
        count.wrapping_add(1),
        count.wrapping_sub(1),
        count.swap_bytes(),
    ];
    put_field(frame, at, &dice.one_of(&others).to_be_bytes());
}

/// "earlier z, z, U, V", and Wx and Wy where there are six: one of them at a limit,
/// beyond it, or a NaN; or a z with too little water over the node's depth.
fn other_node(pen: &mut Pen, frame: &mut [u8], runs: usize) {
    let run = pen.dice.below(runs);
    // Node lines begin at line 1 where they have four values, else at line 2.
    let before = if runs == 4 { 1 } else { 2 };
    let node = usize::from(frame[2]).saturating_sub(before);
    let h = pen.script.h.0.get(node).copied().unwrap_or(1.0);
    let value = match pen.dice.below(2) {
        0 if run == 1 && h < 30.0 => {
            let lowest = lowest_elevation(h);
            pen.dice.one_of(&[lowest, lowest.next_down()])
        }
        _ => tested(&mut pen.dice, RUNS[run]),
    };
    put_field(frame, 3 + 8 * run, &value.to_bits().to_be_bytes());
}

/// A text that ends too early, or goes on after its end.
fn with_other_end(dice: &mut Dice, text: &[u8]) -> Vec<u8> {
    let lines = lines_of(text);
    let mut text = text.to_vec();
    match dice.below(10) {
        0 => text.truncate(dice.below(text.len() + 1)),
        8 | 9 => text = lines[..dice.below(lines.len())].concat(),
        1 => text.truncate(text.len().saturating_sub(1)),
        2 => text.push(b'\n'),
        3 => text.push(dice.bits() as u8),
        4 => text.extend(b"0300040003F6\n"),
        5 => text.truncate(1),
        6 => text.truncate(2),
        _ => text.clear(),
    }
    text
}

/// Lines left out, laid twice or exchanged; lines ended as on other machines;
/// or the text of another mesh.
fn rearrange(pen: &mut Pen, lines: &mut Vec<Vec<u8>>, at: usize) {
    match pen.dice.below(6) {
        0 if at < lines.len() => drop(lines.remove(at)),
        1 if at < lines.len() => lines.insert(at, lines[at].clone()),
        2 if at + 1 < lines.len() => lines.swap(at, at + 1),
        3 => lines.truncate(at),
        4 => {
            for line in lines {
                line.pop();
                line.extend(b"\r\n");
            }
        }
        _ => *lines = lines_of(&another_text(pen)),
    }
}

/// The save of a run on another mesh, written by a pen of its own, in any spelling.
fn another_text(pen: &mut Pen) -> Vec<u8> {
    let mut other = Pen::new(Dice::of(pen.dice.bits(), 0));
    let nodes = small_size(&mut other);
    start(&mut other, nodes, Manner::Calm);
    make_room(&mut other, 0);
    other.call(Call::Save);
    spelled(&mut pen.dice, &other.script.text.0)
}
