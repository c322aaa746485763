//! Frames as hexadecimal, read in either case and written in upper case, for the two plain programs. Lengths are known when it is compiled and no
//! digit is branched on, so that the compiler turns whole lines at a time.

use crate::run::{Clock, Mesh, Parameters, State};

/// The frame bytes of a save's lines: head, parameters, node and end.
pub const HEAD: usize = 12;
pub const PARAMETERS: usize = 44;
pub const NODE: usize = 52;
pub const END: usize = 6;

/// Those of edition 1 that differ.
pub const HEAD_1: usize = 28;
pub const NODE_1: usize = 36;

/// Those of a forcing: one wind for all nodes; or the sea, and a node's wind.
pub const ONE_WIND: usize = 28;
pub const SEA: usize = 12;
pub const WIND: usize = 20;

/// Where the fields of a frame begin, after its kind and its sequence.
pub const FIELDS: usize = 3;

/// The bytes of a line: two digits for each of its frame, and a line feed.
pub const fn line(frame: usize) -> usize {
    2 * frame + 1
}

/// The bytes of a save.
pub const fn save(n: usize) -> usize {
    line(HEAD) + line(PARAMETERS) + line(NODE) * n + line(END)
}

#[inline(always)]
fn digit(n: u8) -> u8 {
    n + if n < 10 { b'0' } else { b'A' - 10 }
}

/// What a digit is worth, and a number with bit 7 where it is no digit.
#[inline(always)]
pub fn worth(d: u8) -> u8 {
    match d {
        b'0'..=b'9' => d - b'0',
        b'A'..=b'F' => d - (b'A' - 10),
        b'a'..=b'f' => d - (b'a' - 10),
        _ => 0x80,
    }
}

/// What a digit of either case is worth, where it is known to be one.
#[inline(always)]
pub fn worth_of_digit(d: u8) -> u8 {
    (d & 15) + 9 * (d >> 6)
}

#[inline(always)]
pub fn sum(frame: &[u8]) -> u8 {
    frame.iter().fold(0, |sum, &byte| sum.wrapping_add(byte))
}

/// Puts the check byte at the end of a frame, which is 0 till then, and writes the frame's line. The frame is lent: one that is handed over the
/// compiler takes apart into registers and puts together again, and a save takes longer.
#[inline(always)]
fn write_line<const BYTES: usize>(room: &mut [u8], frame: &mut [u8; BYTES]) {
    frame[BYTES - 1] = sum(frame).wrapping_neg();
    let (pairs, feed) = room.as_chunks_mut::<2>();
    for (pair, &mut byte) in pairs.iter_mut().zip(frame) {
        *pair = [digit(byte >> 4), digit(byte & 15)];
    }
    feed[0] = b'\n';
}

/// A frame that begins with its kind and its sequence.
#[inline(always)]
fn begun<const BYTES: usize>(kind: u8, sequence: usize) -> [u8; BYTES] {
    let mut frame = [0; BYTES];
    frame[0] = kind;
    frame[1..FIELDS].copy_from_slice(&(sequence as u16).to_be_bytes());
    frame
}

/// A frame whose fields are all of eight bytes.
#[inline(always)]
fn of_numbers<const BYTES: usize, const COUNT: usize>(kind: u8, sequence: usize, numbers: [u64; COUNT]) -> [u8; BYTES] {
    let mut frame = begun(kind, sequence);
    for (field, number) in frame[FIELDS..].as_chunks_mut::<8>().0.iter_mut().zip(numbers) {
        *field = number.to_be_bytes();
    }
    frame
}

fn write_head(room: &mut [u8], n: usize, e: usize, step: u32) {
    let mut frame = begun::<HEAD>(4, 0);
    frame[3..5].copy_from_slice(&(n as u16).to_be_bytes());
    frame[5..7].copy_from_slice(&(e as u16).to_be_bytes());
    frame[7..11].copy_from_slice(&step.to_be_bytes());
    write_line(room, &mut frame);
}

/// The fields of a line of parameters; `areas` is the sum of all D.
pub fn parameters(p: Parameters, areas: u64) -> [u64; 5] {
    [p.dt.to_bits(), p.tau.to_bits(), p.k.to_bits(), p.f.to_bits(), areas]
}

fn write_parameters(room: &mut [u8], p: Parameters, areas: u64) {
    write_line::<PARAMETERS>(room, &mut of_numbers(5, 1, parameters(p, areas)));
}

#[inline(always)]
fn write_node(room: &mut [u8; line(NODE)], node: usize, values: [f64; 6]) {
    write_line::<NODE>(room, &mut of_numbers(6, node + 2, values.map(f64::to_bits)));
}

fn write_end(room: &mut [u8], n: usize) {
    let mut frame = begun::<END>(3, n + 2);
    frame[3..5].copy_from_slice(&(n as u16).to_be_bytes());
    write_line(room, &mut frame);
}

/// Head, parameters, nodes and end into a room of exactly their length. Both programs write so: nothing is refused here.
pub fn write_save(mesh: &Mesh, room: &mut [u8], state: State, clock: Clock, areas: u64) {
    let n = mesh.nodes();
    let State { earlier, z, u, v, wx, wy } = state;
    let (earlier, z, u, v, wx, wy) = (&earlier[..n], &z[..n], &u[..n], &v[..n], &wx[..n], &wy[..n]);
    let (head, rest) = room.split_at_mut(line(HEAD));
    let (parameters, rest) = rest.split_at_mut(line(PARAMETERS));
    let (nodes, end) = rest.split_at_mut(line(NODE) * n);
    write_head(head, n, mesh.triangles(), clock.step);
    write_parameters(parameters, mesh.p, areas);
    for (i, room) in nodes.as_chunks_mut().0.iter_mut().enumerate() {
        write_node(room, i, [earlier[i], z[i], u[i], v[i], wx[i], wy[i]]);
    }
    write_end(end, n);
}

/// Fields of eight bytes, from the first of them on.
#[inline(always)]
pub fn numbers<const COUNT: usize>(fields: &[u8]) -> [u64; COUNT] {
    let (fields, _) = fields.as_chunks::<8>();
    std::array::from_fn(|at| u64::from_be_bytes(fields[at]))
}

#[inline(always)]
pub fn floats<const COUNT: usize>(fields: &[u8]) -> [f64; COUNT] {
    numbers(fields).map(f64::from_bits)
}

/// The wind of a head of edition 1, which stands after N, E and the step number.
pub fn wind_1(head: &[u8; HEAD_1]) -> [f64; 2] {
    floats(&head[11..])
}

#[inline(always)]
pub fn two_bytes<const BYTES: usize>(frame: &[u8; BYTES], at: usize) -> usize {
    usize::from(u16::from_be_bytes([frame[at], frame[at + 1]]))
}

#[inline(always)]
pub fn four_bytes<const BYTES: usize>(frame: &[u8; BYTES], at: usize) -> u32 {
    u32::from_be_bytes([frame[at], frame[at + 1], frame[at + 2], frame[at + 3]])
}
