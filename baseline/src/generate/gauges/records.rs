//! Records: foreign ones, and damage that row 43 refuses.

use super::points::{any_point, point_inside};
use crate::gauges::{MOST, RECORD, ROW};
use crate::generate::pen::{byte_word, Pen};
use crate::generate::values::{anything, legal, nan, ELEVATION};

/// Where `seen` stands in a row.
const SEEN: usize = 8;

/// How many gauges the record says there are.
fn count(pen: &Pen) -> usize {
    let first = pen.script.record.0.first();
    first.map_or(0, |&count| count.into())
}

/// A gauge number: most often one that was given out, else one that was not, or
/// one whose low bytes were.
pub(crate) fn any_number(pen: &mut Pen) -> u32 {
    let count = count(pen) as u32;
    let within = pen.dice.below(count as usize) as u32;
    let any = pen.dice.bits() as u32;
    let others = [
        count,
        count,
        count.saturating_add(1),
        0,
        63,
        64,
        255,
        256 + within,
        65_536 + within,
        (1 << 31) + within,
        u32::MAX,
        any,
    ];
    let other = pen.dice.one_of(&others);
    pen.dice.one_of(&[within, within, other])
}

/// A row that another program may have left: a point of any kind, most often of
/// this mesh, seen or not, with any peak and step.
fn any_row(pen: &mut Pen) -> Vec<u8> {
    let [x, y] = match pen.dice.below(8) {
        0 => any_point(pen),
        _ => point_inside(pen),
    };
    let dice = &mut pen.dice;
    let (elevation, any, made) = (legal(dice, ELEVATION), anything(dice), nan(dice));
    let zero = dice.one_of(&[0.0, -0.0]);
    let low = dice.one_of(&[f64::NEG_INFINITY, -30.0, -29.0]);
    let peak = dice.one_of(&[elevation, elevation / 64.0, zero, made, any, low, 30.0]);
    let (seen, step) = (dice.one_of(&[0, 1, 1]), dice.bits() as u32);
    let step = dice.one_of(&[step, 0, 7, u32::MAX]);
    [
        &x.to_be_bytes()[..],
        &y.to_be_bytes(),
        &[seen],
        &peak.to_be_bytes(),
        &step.to_be_bytes(),
    ]
    .concat()
}

/// A foreign record that row 43 lets through: fresh or as it stands, with rows
/// that hold anything, below the count and past it.
pub(crate) fn foreign(pen: &mut Pen) {
    let mut record = pen.script.record.0.clone();
    if record.len() != RECORD || pen.dice.one_in(3) {
        let filling = pen.dice.one_of(&[0, 0, 1]);
        record = vec![filling; RECORD];
        pen.say(format!("fill record {RECORD} {}", byte_word(filling)));
    }
    for _ in 0..1 + pen.dice.below(4) {
        let (near, any) = (count(pen).min(MOST - 1), pen.dice.below(MOST));
        let row = pen
            .dice
            .one_of(&[0, 1, near, near.saturating_sub(1), any, 63]);
        let at = 1 + ROW * row;
        record[at..at + ROW].copy_from_slice(&any_row(pen));
    }
    if pen.dice.one_in(2) {
        let any = pen.dice.below(MOST + 1) as u8;
        record[0] = pen.dice.one_of(&[0, 1, 2, 3, any, 63, 64]);
    }
    pen.become_bytes("record", &record);
}

/// Moves the first gauge, the last or one between to any point. Its number, where
/// there is one.
pub(crate) fn move_gauge(pen: &mut Pen) -> Option<usize> {
    let (last, any) = (count(pen).checked_sub(1)?, pen.dice.below(count(pen)));
    let gauge = pen.dice.one_of(&[0, any, last, last]);
    let mut record = pen.script.record.0.clone();
    let point = any_point(pen).map(i32::to_be_bytes).concat();
    let at = 1 + ROW * gauge;
    record[at..at + 8].copy_from_slice(&point);
    pen.become_bytes("record", &record);
    Some(gauge)
}

/// 43: "a record of another length, count above 64 or seen above 1".
pub(crate) fn damage(pen: &mut Pen) {
    match pen.dice.below(16) {
        0..2 => {
            let length = pen.length("record").saturating_sub(1);
            pen.say(format!("keep record {length}"));
        }
        2..4 => {
            let byte = byte_word(pen.dice.bits() as u8);
            pen.say(format!("add record {byte}"));
        }
        4 => {
            let any = pen.dice.below(RECORD);
            let length = pen.dice.one_of(&[0, 1, ROW, any, RECORD - ROW]);
            pen.say(format!("keep record {length}"));
        }
        5..8 => other_count(pen),
        8 => {
            other_count(pen);
            other_seen(pen);
        }
        9 => {
            other_seen(pen);
            other_seen(pen);
        }
        _ => other_seen(pen),
    }
}

/// A count above 64.
fn other_count(pen: &mut Pen) {
    let any = pen.dice.between(65, 255) as u8;
    let count = pen.dice.one_of(&[65, 65, 128, 255, any]);
    pen.say(format!("put record 0 {}", byte_word(count)));
}

/// A seen above 1, in a row below the count or past it.
fn other_seen(pen: &mut Pen) {
    let (count, any) = (count(pen).min(MOST - 1), pen.dice.below(MOST));
    let rows = [0, count.saturating_sub(1), count, any, MOST - 1];
    let at = 1 + ROW * pen.dice.one_of(&rows) + SEEN;
    let any = pen.dice.between(2, 255) as u8;
    let seen = pen.dice.one_of(&[2, 2, 3, 128, 255, any]);
    pen.say(format!("put record {at} {}", byte_word(seen)));
}
