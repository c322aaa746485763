//! Forcings, with row 1 of their room and rows 20 to 22.

use super::lines::Lines;
use crate::hex;
use crate::run::{fill_winds, Answer};

pub fn read(room: &mut [f64], text: &[u8], expected: u32) -> Result<(), Answer> {
    if room.len().is_multiple_of(2) {
        return Err(Answer::refused(1, 0));
    }
    if text.starts_with(b"10") {
        return one_wind(room, text, expected as usize).map_err(|refusal| Answer { place: 0, ..refusal });
    }
    winds(room, text)
}

/// One line gives every node its wind.
fn one_wind(room: &mut [f64], text: &[u8], expected: usize) -> Result<(), Answer> {
    let mut lines = Lines::numbered(text, expected);
    if text.len() != hex::line(hex::ONE_WIND) {
        return Err(lines.refused(20));
    }
    let frame: [u8; hex::ONE_WIND] = lines.next(0x10)?;
    let [elevation, wx, wy] = hex::floats(&frame[hex::FIELDS..]);
    room[0] = elevation;
    fill_winds(&mut room[1..], [wx, wy]);
    Ok(())
}

/// Every line is turned once: the values wait in a room of their own until the last test has passed.
fn winds(room: &mut [f64], text: &[u8]) -> Result<(), Answer> {
    let mut lines = Lines::of(text);
    let mut values = vec![0.0; room.len()];
    let (wx, wy) = values[1..].split_at_mut(room.len() / 2);
    let sea: [u8; hex::SEA] = lines.next(0x14)?;
    for (wx, wy) in wx.iter_mut().zip(wy) {
        let wind: [u8; hex::WIND] = lines.next(0x15)?;
        [*wx, *wy] = hex::floats(&wind[hex::FIELDS..]);
    }
    lines.end()?;
    [values[0]] = hex::floats(&sea[hex::FIELDS..]);
    room.copy_from_slice(&values);
    Ok(())
}
