//! "Forcing becomes kind 14 (sequence, open elevation) followed by N lines of kind
//! 15 (sequence, Wx', Wy')", "or a forcing starting 10": the reading of one
//! forcing's lines.

use crate::frames::{Frame, Kind, Reader, ELEVATION, FORCING, WIND};
use crate::records::Answer;

/// What a forcing of kind 10 starts with: "A head starting 01, or a forcing
/// starting 10, is measured by that kind, any other by the new".
const UNIFORM: &[u8] = b"10";

/// The kinds of a forcing's lines at N nodes, in their order, by how it starts.
fn kinds(text: &[u8], nodes: usize) -> Vec<Kind> {
    if text.starts_with(UNIFORM) {
        return vec![FORCING];
    }
    let mut kinds = vec![WIND; nodes + 1];
    kinds[0] = ELEVATION;
    kinds
}

/// How many lines the next forcing of an input has at N nodes, and how many bytes
/// they are, each of the length that is due.
pub(crate) fn measured(input: &[u8], nodes: usize) -> (usize, usize) {
    let kinds = kinds(input, nodes);
    let bytes = kinds.iter().map(|kind| kind.line_length()).sum();
    (kinds.len(), bytes)
}

/// Reads one forcing into a room of 1+2N numbers, or answers 1 for a room that no
/// N gives, or 20, 21, 22 with the "line within the step as place"; a refused
/// reading "leaves the forcing room as found".
///
/// The whole text is the forcing's lines with their line feeds. A line of kind 10
/// has the sequence number that is expected, and one above 65,535 is met by no
/// line; in kinds 14 and 15 it counts "on within the step from 0".
pub fn read_forcing(room: &mut [f64], text: &[u8], expected: u32) -> Answer {
    if room.len().is_multiple_of(2) {
        return Answer::refused(1, 0);
    }
    let read = if text.starts_with(UNIFORM) {
        uniform(room.len() / 2, text, expected)
    } else {
        by_node(room.len() / 2, text)
    };
    match read {
        Ok(numbers) => {
            room.copy_from_slice(&numbers);
            Answer::accepted(0)
        }
        Err(refusal) => refusal,
    }
}

/// One line of kind 10, which "gives every node its wind": "20, 21, 22, at place
/// 0".
fn uniform(nodes: usize, line: &[u8], expected: u32) -> Result<Vec<f64>, Answer> {
    let frame =
        Frame::read(line, FORCING, expected).map_err(|number| Answer::refused(number, 0))?;
    let mut numbers = vec![frame.float(3)];
    for field in [11, 19] {
        numbers.extend(vec![frame.float(field); nodes]);
    }
    Ok(numbers)
}

/// The elevation's line, a line for each node, and nothing after them.
fn by_node(nodes: usize, text: &[u8]) -> Result<Vec<f64>, Answer> {
    let mut reader = Reader::of(text);
    let mut numbers = vec![reader.next(ELEVATION)?.float(3)];
    numbers.resize(1 + 2 * nodes, 0.0);
    for node in 0..nodes {
        let frame = reader.next(WIND)?;
        numbers[1 + node] = frame.float(3);
        numbers[1 + nodes + node] = frame.float(11);
    }
    reader.end()?;
    Ok(numbers)
}
