//! Saves, and loads of both editions, with rows 20 to 25.

use super::lines::Lines;
use super::{mesh, step};
use crate::hex;
use crate::run::{fill_winds, Answer, Clock, Mesh, State};

pub fn save(mesh: &Mesh, text: &mut [u8], state: &[f64], clock: Clock) -> Result<Answer, Answer> {
    let n = mesh.nodes();
    let areas = mesh::rows_and_areas(mesh, &[(state.len(), 6 * n)])?;
    step::row_10(mesh, state)?;
    let length = hex::save(n);
    let Some(room) = text.get_mut(..length) else {
        return Err(Answer::refused(24, length));
    };
    hex::write_save(mesh, room, State::of(state, n), clock, areas);
    Ok(Answer::accepted(length))
}

/// Every line is turned once: the values wait in a room of their own until the last test has passed.
pub fn load(mesh: &Mesh, state: &mut [f64], text: &[u8]) -> Result<Clock, Answer> {
    let n = mesh.nodes();
    let areas = mesh::rows_and_areas(mesh, &[(state.len(), 6 * n)])?;
    let mut values = vec![0.0; 6 * n];
    let clock = if text.starts_with(b"01") { edition_1(mesh, &mut values, text)? } else { edition_2(mesh, &mut values, text, areas)? };
    step::row_10(mesh, &values)?;
    state.copy_from_slice(&values);
    Ok(clock)
}

/// Every node gets the head's wind.
fn edition_1(mesh: &Mesh, values: &mut [f64], text: &[u8]) -> Result<Clock, Answer> {
    let mut lines = Lines::of(text);
    let head: [u8; hex::HEAD_1] = lines.next(1)?;
    let clock = clock_of(mesh, &head)?;
    let (water, winds) = values.split_at_mut(4 * mesh.nodes());
    nodes::<{ hex::NODE_1 }, 4>(&mut lines, 2, water)?;
    end(mesh, lines)?;
    fill_winds(winds, hex::wind_1(&head));
    Ok(clock)
}

fn edition_2(mesh: &Mesh, values: &mut [f64], text: &[u8], areas: u64) -> Result<Clock, Answer> {
    let mut lines = Lines::of(text);
    let head: [u8; hex::HEAD] = lines.next(4)?;
    let clock = clock_of(mesh, &head)?;
    let parameters: [u8; hex::PARAMETERS] = lines.next(5)?;
    if hex::numbers(&parameters[hex::FIELDS..]) != hex::parameters(mesh.p, areas) {
        return Err(Answer::refused(25, 1));
    }
    nodes::<{ hex::NODE }, 6>(&mut lines, 6, values)?;
    end(mesh, lines)?;
    Ok(clock)
}

/// Row 23 of a head, which begins alike in both editions.
fn clock_of<const BYTES: usize>(mesh: &Mesh, head: &[u8; BYTES]) -> Result<Clock, Answer> {
    if hex::two_bytes(head, 3) != mesh.nodes() || hex::two_bytes(head, 5) != mesh.triangles() {
        return Err(Answer::refused(23, 0));
    }
    Ok(Clock { step: hex::four_bytes(head, 7) })
}

/// The node lines into the runs.
#[inline(always)]
fn nodes<const BYTES: usize, const RUNS: usize>(lines: &mut Lines, kind: u8, values: &mut [f64]) -> Result<(), Answer> {
    let n = values.len() / RUNS;
    for i in 0..n {
        let frame: [u8; BYTES] = lines.next(kind)?;
        for (run, value) in hex::floats::<RUNS>(&frame[hex::FIELDS..]).into_iter().enumerate() {
            values[run * n + i] = value;
        }
    }
    Ok(())
}

fn end(mesh: &Mesh, mut lines: Lines) -> Result<(), Answer> {
    let differs = lines.refused(23);
    let end: [u8; hex::END] = lines.next(3)?;
    if hex::two_bytes(&end, 3) != mesh.nodes() {
        return Err(differs);
    }
    lines.end()
}
