//! "We read both editions and write 2": writing a save of edition 2, and loading
//! one of either edition.

use crate::frames::{Frame, Kind, Line, Reader};
use crate::frames::{END, HEAD, HEAD_2, NODE, NODE_2, SETTING};
use crate::mesh::{Lent, Mesh, STATE_RUNS};
use crate::records::{Answer, Clock, Parameters};
use crate::step::{row_10, State};

/// "A save is then 127+105N bytes".
pub(crate) fn save_length(nodes: usize) -> usize {
    127 + 105 * nodes
}

/// What line 05 holds of a run: "dt, tau, K, f, and the sum of all D in 8 bytes".
/// Rows 1 to 9 have been tested, so that none of the four is a NaN.
pub(crate) fn setting(mesh: &Mesh) -> [u64; 5] {
    let Parameters { dt, tau, k, f, .. } = mesh.p;
    let [dt, tau, k, f] = [dt, tau, k, f].map(f64::to_bits);
    [dt, tau, k, f, mesh.sum_of_areas()]
}

/// "one line 05".
pub(crate) fn setting_line(mesh: &Mesh) -> Line {
    let begun = Line::begin(SETTING, 1);
    let fields = setting(mesh).into_iter();
    fields.fold(begun, Line::eight_bytes).end()
}

/// The bytes of a save, line by line: "head 04 (N, E, step), one line 05", "node
/// lines 06 with six values, end 03, sequences running on". Rows 1 and 2 have been
/// tested, so that every count and sequence number fits its two bytes.
fn lines(mesh: &Mesh, state: &[f64], clock: Clock) -> Vec<u8> {
    let n = mesh.nodes();
    let head = Line::begin(HEAD_2, 0)
        .two_bytes(n as u16)
        .two_bytes(mesh.count_of_triangles() as u16)
        .four_bytes(clock.step)
        .end();
    let mut text = [head.as_bytes(), setting_line(mesh).as_bytes()].concat();
    for node in 0..n {
        let begun = Line::begin(NODE_2, node as u16 + 2);
        let line = (0..STATE_RUNS).fold(begun, |line, run| line.float(state[run * n + node]));
        text.extend(line.end().as_bytes());
    }
    let end = Line::begin(END, n as u16 + 2).two_bytes(n as u16).end();
    text.extend(end.as_bytes());
    text
}

/// Saves a run: rows 1 to 9 but 6, then 10 and 24; "12 keeps only the forcing".
///
/// An accepted save's place "is the bytes it wrote". "Text room past a save
/// keeps its bytes."
#[allow(clippy::too_many_arguments)] // each slice is lent by itself
pub fn save(
    text: &mut [u8],
    state: &[f64],
    x: &[i32],
    y: &[i32],
    tri: &[u16],
    h: &[f64],
    kind: &[u8],
    p: Parameters,
    clock: Clock,
) -> Answer {
    let mesh = Mesh::lent(x, y, tri, h, kind, p);
    match saved(text, state, &mesh, clock) {
        Ok(bytes) => Answer::accepted(bytes),
        Err(refusal) => refusal,
    }
}

fn saved(text: &mut [u8], state: &[f64], mesh: &Mesh, clock: Clock) -> Result<usize, Answer> {
    mesh.begin(&[Lent::runs(state.len(), STATE_RUNS)])?;
    row_10(mesh, &State::of(state))?;
    // 24: "A save is then 127+105N bytes, and row 24 reads so".
    let length = save_length(mesh.nodes());
    let Some(room) = text.get_mut(..length) else {
        return Err(Answer::refused(24, length));
    };
    room.copy_from_slice(&lines(mesh, state, clock));
    Ok(length)
}

/// The editions of a save.
#[derive(Clone, Copy, Debug, PartialEq, Eq, PartialOrd, Ord)]
pub(crate) enum Edition {
    One,
    Two,
}

impl Edition {
    /// "A head starting 01" "is measured by that kind, any other by the new".
    pub fn of(text: &[u8]) -> Edition {
        if text.starts_with(b"01") {
            Edition::One
        } else {
            Edition::Two
        }
    }
}

/// Whether a two-byte count is this one.
fn is_count(field: u16, count: usize) -> bool {
    usize::from(field) == count
}

/// 23: "N or E differs", of a head that was read last.
fn row_23_head(reader: &Reader, head: &Frame, mesh: &Mesh) -> Result<(), Answer> {
    let (n, e) = (mesh.nodes(), mesh.count_of_triangles());
    if is_count(head.two_bytes(3), n) && is_count(head.two_bytes(5), e) {
        Ok(())
    } else {
        Err(reader.refused(23))
    }
}

/// 25: "when a field of line 05 differs in any bit from the run's".
fn row_25(reader: &Reader, line: &Frame, mesh: &Mesh) -> Result<(), Answer> {
    let found = [3, 11, 19, 27, 35].map(|at| line.eight_bytes(at));
    if found == setting(mesh) {
        Ok(())
    } else {
        Err(reader.refused(25))
    }
}

/// The first runs of a state, from node lines of as many values.
fn read_nodes<const RUNS: usize>(
    reader: &mut Reader,
    kind: Kind,
    n: usize,
) -> Result<Vec<f64>, Answer> {
    let mut numbers = vec![0.0; RUNS * n];
    for node in 0..n {
        let frame = reader.next(kind)?;
        for run in 0..RUNS {
            numbers[run * n + node] = frame.float(3 + 8 * run);
        }
    }
    Ok(numbers)
}

/// The end line, and that nothing follows it.
fn read_end(mut reader: Reader, n: usize) -> Result<(), Answer> {
    let end = reader.next(END)?;
    if !is_count(end.two_bytes(3), n) {
        return Err(reader.refused(23));
    }
    reader.end()
}

/// Edition 1: "an edition 1 load gives every node the head's wind".
fn read_edition_1(text: &[u8], mesh: &Mesh) -> Result<(Vec<f64>, Clock), Answer> {
    let (n, mut reader) = (mesh.nodes(), Reader::of(text));
    let head = reader.next(HEAD)?;
    row_23_head(&reader, &head, mesh)?;
    let mut state = read_nodes::<4>(&mut reader, NODE, n)?;
    read_end(reader, n)?;
    for field in [11, 19] {
        state.extend(vec![head.float(field); n]);
    }
    let step = head.four_bytes(7);
    Ok((state, Clock { step }))
}

fn read_edition_2(text: &[u8], mesh: &Mesh) -> Result<(Vec<f64>, Clock), Answer> {
    let (n, mut reader) = (mesh.nodes(), Reader::of(text));
    let head = reader.next(HEAD_2)?;
    row_23_head(&reader, &head, mesh)?;
    let second = reader.next(SETTING)?;
    row_25(&reader, &second, mesh)?;
    let state = read_nodes::<STATE_RUNS>(&mut reader, NODE_2, n)?;
    read_end(reader, n)?;
    let step = head.four_bytes(7);
    Ok((state, Clock { step }))
}

/// The state and clock that a text holds: "the lines, from 0, in each 20, 21,
/// 22, 23", then 25, "then trailing bytes".
pub(crate) fn read_lines(text: &[u8], mesh: &Mesh) -> Result<(Vec<f64>, Clock), Answer> {
    match Edition::of(text) {
        Edition::One => read_edition_1(text, mesh),
        Edition::Two => read_edition_2(text, mesh),
    }
}

/// Loads a run: rows 1 to 9 but 6, the lines, "then 10 over the loaded values".
///
/// "It doesn't look at the state that it replaces." A refusal leaves the state
/// as found and hands back the clock that went in.
#[allow(clippy::too_many_arguments)] // each slice is lent by itself
pub fn load(
    state: &mut [f64],
    text: &[u8],
    x: &[i32],
    y: &[i32],
    tri: &[u16],
    h: &[f64],
    kind: &[u8],
    p: Parameters,
    clock: Clock,
) -> (Answer, Clock) {
    let mesh = Mesh::lent(x, y, tri, h, kind, p);
    match loaded(state.len(), text, &mesh) {
        Ok((numbers, loaded_clock)) => {
            state.copy_from_slice(&numbers);
            (Answer::accepted(0), loaded_clock)
        }
        Err(refusal) => (refusal, clock),
    }
}

fn loaded(length: usize, text: &[u8], mesh: &Mesh) -> Result<(Vec<f64>, Clock), Answer> {
    mesh.begin(&[Lent::runs(length, STATE_RUNS)])?;
    let (state, clock) = read_lines(text, mesh)?;
    row_10(mesh, &State::of(&state))?;
    Ok((state, clock))
}

/// The save of edition 1 that document 01's own rules give: "head, nodes, end:
/// 70+73N bytes", of the state's first four runs and one wind. We write none: it is
/// for the texts of earlier nights.
pub(crate) fn edition_1(state: &[f64], triangles: usize, clock: Clock, wind: [f64; 2]) -> Vec<u8> {
    let n = state.len() / STATE_RUNS;
    let begun = Line::begin(HEAD, 0)
        .two_bytes(n as u16)
        .two_bytes(triangles as u16)
        .four_bytes(clock.step);
    let head = wind.into_iter().fold(begun, Line::float).end();
    let mut text = head.as_bytes().to_vec();
    for node in 0..n {
        let begun = Line::begin(NODE, node as u16 + 1);
        let line = (0..4).fold(begun, |line, run| line.float(state[run * n + node]));
        text.extend(line.end().as_bytes());
    }
    let end = Line::begin(END, n as u16 + 1).two_bytes(n as u16).end();
    text.extend(end.as_bytes());
    text
}
