//! What goes into the gauges' calls and comes back, alike for the three programs that are measured. All slices are bytes, big-endian.

use crate::run::{Answer, Parameters, Program};
use crate::texts::patterns;
use crate::world::World;

/// The most gauges of a record.
pub const MOST: usize = 64;

/// Whole metres.
pub type Point = [i32; 2];

/// A state, its mesh and the parameters, as they are lent.
#[derive(Clone, Copy)]
pub struct Lent<'a> {
    pub state: &'a [u8],
    pub x: &'a [u8],
    pub y: &'a [u8],
    pub tri: &'a [u8],
    pub h: &'a [u8],
    pub kind: &'a [u8],
    pub p: Parameters,
}

/// The bytes of a state and of its mesh.
#[derive(Clone)]
pub struct Packed {
    pub state: Vec<u8>,
    pub x: Vec<u8>,
    pub y: Vec<u8>,
    pub tri: Vec<u8>,
    pub h: Vec<u8>,
    pub kind: Vec<u8>,
    p: Parameters,
}

impl Packed {
    pub fn of(world: &World, state: &[f64]) -> Packed {
        Packed {
            state: patterns(state),
            x: world.x.iter().flat_map(|x| x.to_be_bytes()).collect(),
            y: world.y.iter().flat_map(|y| y.to_be_bytes()).collect(),
            tri: world.tri.iter().flat_map(|corner| corner.to_be_bytes()).collect(),
            h: patterns(&world.h),
            kind: world.kind.clone(),
            p: world.p,
        }
    }

    pub fn lent(&self) -> Lent<'_> {
        self.with(&self.state)
    }

    /// Another state on the same mesh.
    pub fn with<'a>(&'a self, state: &'a [u8]) -> Lent<'a> {
        Lent { state, x: &self.x, y: &self.y, tri: &self.tri, h: &self.h, kind: &self.kind, p: self.p }
    }
}

/// What a record has of a gauge: the highest elevation so far and the first step that had it, where one was seen.
#[derive(Clone, Copy)]
pub struct Highest {
    pub seen: u8,
    pub peak: f64,
    pub step: u32,
}

impl Highest {
    pub const NONE: Highest = Highest { seen: 0, peak: 0.0, step: 0 };
}

/// A program that makes the gauges' calls.
pub trait Gauges: Program {
    fn add(&self, record: &mut [u8], lent: Lent, point: Point) -> (Answer, u32);
    fn elevation(&self, record: &[u8], lent: Lent, gauge: u32) -> (Answer, f64);
    fn update(&self, record: &mut [u8], lent: Lent, step: u32) -> Answer;
    fn peak(&self, record: &[u8], gauge: u32) -> (Answer, Highest);
}
