//! What is measured of the gauges: 64 of them, spread over the mesh, and some states of a run.

use crate::gauges::{Gauges, Highest, Lent, Packed, Point, MOST};
use crate::held::Held;
use crate::record;
use crate::run::{Answer, Program};
use crate::texts::patterns;
use crate::world::{Log, World};

/// The states, and the steps between them: few, so that they stay at hand, as a state is that was packed just before.
const STATES: usize = 4;
const APART: usize = 100;

/// A mesh and states of a run on it, as bytes.
pub struct Tape {
    packed: Packed,
    states: Vec<Vec<u8>>,
}

impl Tape {
    /// The states that a program steps through.
    pub fn of(program: &dyn Program, world: &World, log: &Log) -> Tape {
        let mesh = world.mesh();
        let mut run = Held::new(program, &mesh);
        let states = (0..STATES).map(|_| {
            run.steps(&mesh, log, APART);
            patterns(&run.state)
        });
        Tape { states: states.collect(), packed: Packed::of(world, &[]) }
    }

    /// State after state, and again from the first on.
    pub fn at(&self, update: usize) -> Lent<'_> {
        self.packed.with(&self.states[update % STATES])
    }
}

/// A point in one of every so many triangles, so that a search goes over half of the mesh in the mean.
pub fn points(world: &World) -> Vec<Point> {
    let (triples, _) = world.tri.as_chunks::<3>();
    let middle = |metres: &[i32], corners: [u16; 3]| corners.iter().map(|&node| metres[usize::from(node)]).sum::<i32>() / 3;
    let inside = |corners| [middle(&world.x, corners), middle(&world.y, corners)];
    (0..MOST).map(|gauge| inside(triples[(2 * gauge + 1) * triples.len() / (2 * MOST)])).collect()
}

/// What one program holds of the gauges while it is measured.
pub struct Board<'a> {
    pub program: &'a dyn Gauges,
    pub record: Vec<u8>,
    pub elevation: f64,
    pub highest: Highest,
}

impl<'a> Board<'a> {
    /// A board without gauges.
    pub fn new(program: &'a dyn Gauges) -> Board<'a> {
        Board { program, record: vec![0; record::BYTES], elevation: 0.0, highest: Highest::NONE }
    }

    pub fn add(&mut self, lent: Lent, points: &[Point]) {
        for &point in points {
            let (answer, _) = self.program.add(&mut self.record, lent, point);
            self.accepted(answer);
        }
    }

    pub fn update(&mut self, lent: Lent, step: usize) {
        let answer = self.program.update(&mut self.record, lent, step as u32);
        self.accepted(answer);
    }

    pub fn elevation(&mut self, lent: Lent, gauge: usize) {
        let (answer, elevation) = self.program.elevation(&self.record, lent, gauge as u32);
        self.elevation = elevation;
        self.accepted(answer);
    }

    pub fn peak(&mut self, gauge: usize) {
        let (answer, highest) = self.program.peak(&self.record, gauge as u32);
        self.highest = highest;
        self.accepted(answer);
    }

    fn accepted(&self, answer: Answer) {
        assert_eq!(answer.number, 0, "{} refused: {answer:?}", self.program.name());
    }

    /// What came back last, for comparing; the record is the other part of it.
    pub fn bits(&self) -> [u64; 4] {
        let Highest { seen, peak, step } = self.highest;
        [self.elevation.to_bits(), seen.into(), peak.to_bits(), step.into()]
    }
}
