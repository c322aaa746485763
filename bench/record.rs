//! The record of the gauges for the two plain programs: the count of gauges, and then rows, of which those past the count may hold anything.

use crate::gauges::{Highest, Point, MOST};
use crate::hex;

/// The bytes of a row: x, y, seen, peak and step.
pub const ROW: usize = 21;
pub const BYTES: usize = 1 + MOST * ROW;

pub type Row = [u8; ROW];

/// Where the fields of a row begin.
const X: usize = 0;
const Y: usize = 4;
pub const SEEN: usize = 8;
const PEAK: usize = 9;
const STEP: usize = 17;

/// The rows of a record that is one.
pub fn rows(record: &[u8]) -> &[Row] {
    record[1..].as_chunks().0
}

/// The rows of the gauges given out, of a record that is one.
pub fn given_out(record: &mut [u8]) -> &mut [Row] {
    let count = usize::from(record[0]);
    &mut record[1..].as_chunks_mut().0[..count]
}

pub fn point(row: &Row) -> Point {
    [X, Y].map(|at| hex::four_bytes(row, at) as i32)
}

pub fn highest(row: &Row) -> Highest {
    let [peak] = hex::floats(&row[PEAK..]);
    Highest { seen: row[SEEN], peak, step: hex::four_bytes(row, STEP) }
}

fn put(row: &mut Row, highest: Highest) {
    row[SEEN] = highest.seen;
    row[PEAK..STEP].copy_from_slice(&highest.peak.to_be_bytes());
    row[STEP..].copy_from_slice(&highest.step.to_be_bytes());
}

/// Gives out the next gauge, of a record that has room for it.
pub fn add(record: &mut [u8], point: Point) -> u32 {
    let gauge = record[0];
    record[0] += 1;
    let row = &mut given_out(record)[usize::from(gauge)];
    let [x, y] = point.map(i32::to_be_bytes);
    row[X..Y].copy_from_slice(&x);
    row[Y..SEEN].copy_from_slice(&y);
    put(row, Highest::NONE);
    gauge.into()
}

/// A gauge takes the elevation of a state. An equal one does not replace the peak; a peak that is a NaN is replaced.
pub fn hand_over(row: &mut Row, elevation: f64, step: u32) {
    let Highest { seen, peak, .. } = highest(row);
    let stays = seen == 1 && elevation <= peak;
    if !stays {
        put(row, Highest { seen: 1, peak: elevation, step });
    }
}
