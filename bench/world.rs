//! The mesh and the forcings that are measured on: a grid whose nodes are moved by a seeded dice, so that no side is alike, its west side open and its
//! east side held land, under a wind that is another at every node.

use crate::run::{Grid, Mesh, Parameters};

/// Metres between the nodes of the grid, and how far one may be moved in x and in y.
const SPACING: i32 = 1_000;
const JITTER: i32 = 200;

/// Numbers that look thrown (xorshift), the same in every run.
struct Dice(u64);

const SEED: u64 = 0x9E37_79B9_7F4A_7C15;

impl Dice {
    fn below(&mut self, bound: u64) -> u64 {
        self.0 ^= self.0 << 13;
        self.0 ^= self.0 >> 7;
        self.0 ^= self.0 << 17;
        (self.0 >> 11) % bound
    }
}

#[derive(Clone)]
pub struct World {
    pub x: Vec<i32>,
    pub y: Vec<i32>,
    pub tri: Vec<u16>,
    pub h: Vec<f64>,
    pub kind: Vec<u8>,
    pub p: Parameters,
}

impl World {
    /// A grid of so many nodes across and along, advection off.
    pub fn grid(across: usize, along: usize) -> World {
        let mut dice = Dice(SEED);
        let mut moved = |i: usize| i as i32 * SPACING + dice.below(2 * JITTER as u64 + 1) as i32 - JITTER;
        let (mut x, mut y) = (Vec::new(), Vec::new());
        for node in 0..across * along {
            x.push(moved(node % across));
            y.push(moved(node / across));
        }
        let h = (0..across * along).map(|_| 5.0 + dice.below(45_000) as f64 / 1_000.0).collect();
        let kind = (0..across * along).map(|node| kind_of(node % across, across)).collect();
        World { x, y, tri: triangles(across, along), h, kind, p: Parameters { dt: 2.0, tau: 0.005, k: 0.002, f: 0.0001, advection: false } }
    }

    /// The same with advection on.
    pub fn with_advection(&self) -> World {
        World { p: Parameters { advection: true, ..self.p }, ..self.clone() }
    }

    pub fn mesh(&self) -> Mesh<'_> {
        Mesh { x: &self.x, y: &self.y, tri: &self.tri, h: &self.h, kind: &self.kind, p: self.p }
    }

    /// The mesh as modellers write it: columns of a width, filled with spaces from the left, and depths with three decimals.
    pub fn grid_text(&self) -> Vec<u8> {
        let (triples, _) = self.tri.as_chunks::<3>();
        let mut text = format!("A harbour grid, whole metres\n{:>8} {:>8}\n", triples.len(), self.x.len());
        for (i, ((x, y), h)) in self.x.iter().zip(&self.y).zip(&self.h).enumerate() {
            text += &format!("{:>8} {x:>10} {y:>10} {h:>10.3}\n", i + 1);
        }
        for (t, corners) in triples.iter().enumerate() {
            let [a, b, c] = corners.map(|corner| u32::from(corner) + 1);
            text += &format!("{:>8}   3 {a:>7} {b:>7} {c:>7}\n", t + 1);
        }
        text.into_bytes()
    }

    /// A tide and a wind that turns with time and over the mesh, for so many steps at least.
    pub fn log(&self, steps: usize) -> Log {
        Log { forcings: (0..steps.div_ceil(HOLD)).map(|at| self.forcing(at * HOLD)).collect() }
    }

    /// Another forcing at each of so many steps, one after the other in one slice.
    pub fn list(&self, steps: usize) -> Vec<f64> {
        (0..steps).flat_map(|step| self.forcing(step)).collect()
    }

    /// The elevation, then Wx' of all nodes, then Wy' of all nodes.
    fn forcing(&self, step: usize) -> Vec<f64> {
        let time = step as f64 / 150.0;
        let turned: Vec<f64> = self.x.iter().zip(&self.y).map(|(&x, &y)| time + f64::from(x - y) / 30_000.0).collect();
        let wx = turned.iter().map(|angle| 0.002 * angle.cos());
        let wy = turned.iter().map(|angle| 0.001 * (2.0 * angle).sin());
        [0.8 * time.sin()].into_iter().chain(wx).chain(wy).collect()
    }

    /// What the grid text gives: a depth of this mesh is not always its thousandths divided by 1000.
    pub fn as_read(&self) -> Grid {
        let h = self.h.iter().map(|h| (h * 1_000.0).round() / 1_000.0).collect();
        Grid { x: self.x.clone(), y: self.y.clone(), h, tri: self.tri.clone() }
    }
}

fn kind_of(column: usize, across: usize) -> u8 {
    match column {
        0 => 1,
        _ if column == across - 1 => 2,
        _ => 0,
    }
}

/// Two triangles for each cell, counter-clockwise, the diagonal turning from cell to cell.
fn triangles(across: usize, along: usize) -> Vec<u16> {
    let mut tri = Vec::new();
    for row in 0..along - 1 {
        for column in 0..across - 1 {
            let sw = (row * across + column) as u16;
            let (se, nw) = (sw + 1, sw + across as u16);
            let ne = nw + 1;
            if (row + column) % 2 == 0 {
                tri.extend([sw, se, ne, sw, ne, nw]);
            } else {
                tri.extend([sw, se, nw, se, ne, nw]);
            }
        }
    }
    tri
}

/// How many steps are made by one forcing. With another at each of 1,000 steps a step would wait for the memory, where a forcing that was read just
/// before it is at hand.
const HOLD: usize = 40;

/// Forcings, one after the other.
pub struct Log {
    forcings: Vec<Vec<f64>>,
}

impl Log {
    /// The forcing of a step.
    pub fn at(&self, step: u32) -> &[f64] {
        &self.forcings[step as usize / HOLD]
    }
}

/// A text with its letters in either case, at random, as another program may write it.
pub fn respell(text: &mut [u8]) {
    let mut dice = Dice(SEED);
    for letter in text.iter_mut().filter(|byte| byte.is_ascii_alphabetic()) {
        if dice.below(2) == 0 {
            letter.make_ascii_lowercase();
        }
    }
}
