//! Texts that the programs read and none of them writes: forcings, and saves of edition 1, as builds before #105 wrote them.

use crate::run::Mesh;

/// Kind, sequence, fields, and a check byte that makes the sum of all bytes 0.
fn line(kind: u8, sequence: usize, fields: &[u8]) -> String {
    let mut frame = vec![kind];
    frame.extend((sequence as u16).to_be_bytes());
    frame.extend(fields);
    frame.push(frame.iter().fold(0u8, |sum, &byte| sum.wrapping_sub(byte)));
    frame.iter().map(|byte| format!("{byte:02X}")).collect::<String>() + "\n"
}

/// Floats as bytes, big-endian.
pub fn patterns(values: &[f64]) -> Vec<u8> {
    values.iter().flat_map(|value| value.to_bits().to_be_bytes()).collect()
}

/// A save of edition 1: the first four runs of the state, and one wind for all nodes.
pub fn edition_1(mesh: &Mesh, state: &[f64], step: u32, wind: [f64; 2]) -> Vec<u8> {
    let n = mesh.nodes();
    let (nodes, triangles) = ((n as u16).to_be_bytes(), (mesh.triangles() as u16).to_be_bytes());
    let mut text = line(1, 0, &[&nodes[..], &triangles, &step.to_be_bytes(), &patterns(&wind)].concat());
    for i in 0..n {
        text += &line(2, i + 1, &patterns(&[0, 1, 2, 3].map(|run| state[run * n + i])));
    }
    text += &line(3, n + 1, &nodes);
    text.into_bytes()
}

/// A forcing of kind 10, which gives every node the same wind.
pub fn one_wind(sequence: usize, elevation: f64, wind: [f64; 2]) -> Vec<u8> {
    line(0x10, sequence, &patterns(&[elevation, wind[0], wind[1]])).into_bytes()
}

/// A forcing of kinds 14 and 15.
pub fn winds(forcing: &[f64]) -> Vec<u8> {
    let (wx, wy) = forcing[1..].split_at(forcing.len() / 2);
    let mut text = line(0x14, 0, &patterns(&forcing[..1]));
    for (i, (&wx, &wy)) in wx.iter().zip(wy).enumerate() {
        text += &line(0x15, i + 1, &patterns(&[wx, wy]));
    }
    text.into_bytes()
}
