//! Plain Rust that makes the same refusal tests, without `unsafe`.

pub mod forcings;
pub mod gauges;
pub mod grids;
mod lines;
pub mod lists;
pub mod mesh;
pub mod saves;
pub mod step;

use crate::gauges::{Gauges, Highest, Lent, Point};
use crate::run::{Answer, Clock, GridRooms, Mesh, Program, Rooms, Stepped};

/// What a list keeps through its steps of what no step changes.
#[derive(Clone, Copy)]
pub enum Keeps {
    /// every step makes the passes of a single one
    Nothing,
    /// S and the weights of z', in the lent room
    Weights,
    /// the triangles' shapes too, in memory of its own, which the product has not
    Shapes,
}

/// In the forms that one would choose, or in those that are set for the product: row 6 by pairs of triangles, as document 01 has it, and not by the
/// legs of each node; a grid text read twice, since the product allocates nothing, and not once into rooms of its own.
pub struct Tested {
    pub forms_as_set: bool,
    pub keeps: Keeps,
}

impl Program for Tested {
    fn name(&self) -> &'static str {
        match (self.forms_as_set, self.keeps) {
            (true, _) => "tested, forms as set",
            (false, Keeps::Nothing) => "tested",
            (false, Keeps::Weights) => "tested, weights kept",
            (false, Keeps::Shapes) => "tested, shapes kept",
        }
    }

    #[inline(never)]
    fn open(&self, mesh: &Mesh, state: &mut [f64]) -> (Answer, Clock) {
        let row_6 = if self.forms_as_set { mesh::row_6_by_pairs } else { mesh::row_6 };
        if let Err(refusal) = mesh::rows_with_6(mesh, &[(state.len(), 6 * mesh.nodes())], row_6) {
            return (refusal, Clock::COLD);
        }
        state.fill(0.0);
        (Answer::accepted(0), Clock::COLD)
    }

    #[inline(never)]
    fn step(&self, mesh: &Mesh, rooms: Rooms, state: &[f64], clock: Clock, forcing: &[f64]) -> (Answer, Clock) {
        step::step(mesh, rooms, state, clock, forcing)
    }

    #[inline(never)]
    fn step_all(&self, mesh: &Mesh, rooms: Rooms, state: &[f64], clock: Clock, forcings: &[f64]) -> Stepped {
        lists::step_all(self.keeps, mesh, rooms, state, clock, forcings)
    }

    #[inline(never)]
    fn save(&self, mesh: &Mesh, text: &mut [u8], state: &[f64], clock: Clock) -> Answer {
        saves::save(mesh, text, state, clock).unwrap_or_else(|refusal| refusal)
    }

    #[inline(never)]
    fn load(&self, mesh: &Mesh, state: &mut [f64], text: &[u8], clock: Clock) -> (Answer, Clock) {
        match saves::load(mesh, state, text) {
            Ok(loaded) => (Answer::accepted(0), loaded),
            Err(refusal) => (refusal, clock),
        }
    }

    #[inline(never)]
    fn read_forcing(&self, forcing: &mut [f64], text: &[u8], expected: u32) -> Answer {
        match forcings::read(forcing, text, expected) {
            Ok(()) => Answer::accepted(0),
            Err(refusal) => refusal,
        }
    }

    #[inline(never)]
    fn read_grid(&self, rooms: GridRooms, text: &[u8]) -> Answer {
        let read = if self.forms_as_set { grids::read_twice } else { grids::read };
        match read(rooms, text) {
            Ok(()) => Answer::accepted(0),
            Err(refusal) => refusal,
        }
    }
}

/// What a call found, or what a refused one hands back in its place.
fn found<T>(outcome: Result<T, Answer>, nothing: T) -> (Answer, T) {
    match outcome {
        Ok(found) => (Answer::accepted(0), found),
        Err(refusal) => (refusal, nothing),
    }
}

impl Gauges for Tested {
    #[inline(never)]
    fn add(&self, record: &mut [u8], lent: Lent, point: Point) -> (Answer, u32) {
        found(gauges::add(record, lent, point), 0)
    }

    #[inline(never)]
    fn elevation(&self, record: &[u8], lent: Lent, gauge: u32) -> (Answer, f64) {
        found(gauges::elevation(record, lent, gauge), 0.0)
    }

    #[inline(never)]
    fn update(&self, record: &mut [u8], lent: Lent, step: u32) -> Answer {
        found(gauges::update(record, lent, step), ()).0
    }

    #[inline(never)]
    fn peak(&self, record: &[u8], gauge: u32) -> (Answer, Highest) {
        found(gauges::peak(record, gauge), Highest::NONE)
    }
}
