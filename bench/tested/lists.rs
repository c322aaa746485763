//! A list of forcings in one call: rows 14 and 1 to 10 once, then rows 11 to 13 at every forcing.

use super::mesh;
use super::step::{self, Checked};
use super::Keeps;
use crate::fixed::{Fixed, Kept, Shapes};
use crate::run::{Answer, Clock, Forcing, Made, Mesh, Rooms, State, Stepped};
use crate::walk;

/// The most forcings of a list.
const MOST: usize = 4_096;

pub fn step_all(keeps: Keeps, mesh: &Mesh, rooms: Rooms, state: &[f64], clock: Clock, forcings: &[f64]) -> Stepped {
    let Rooms { next, work, sums } = rooms;
    if let Err(answer) = rows_14_and_1_to_10(mesh, [next.len(), work.len(), sums.len()], state, forcings) {
        return Stepped { answer, clock, accepted: 0 };
    }
    let rooms = Rooms { next, work, sums };
    let stepped = match keeps {
        Keeps::Nothing => through::<_, false>(Checked, mesh, rooms, state, clock, forcings),
        Keeps::Weights => through::<_, true>(Checked, mesh, rooms, state, clock, forcings),
        Keeps::Shapes => through::<_, true>(Kept::of(mesh, Checked), mesh, rooms, state, clock, forcings),
    };
    // what single calls leave, and of the rooms that a list adds once a step was accepted
    match (stepped.accepted, stepped.answer.number) {
        (0, 13) => step::clear(&mut work[..5 * mesh.nodes()], sums),
        (0, _) => (),
        _ => step::clear(work, sums),
    }
    stepped
}

fn rows_14_and_1_to_10(mesh: &Mesh, lengths: [usize; 3], state: &[f64], forcings: &[f64]) -> Result<(), Answer> {
    let (n, [next, work, sums]) = (mesh.nodes(), lengths);
    let each = 1 + 2 * n;
    // divided, since 4,096 times the length of a forcing need not fit
    if forcings.len().div_ceil(MOST) > each {
        return Err(Answer::refused(14, 0));
    }
    mesh::rows_1_to_9(mesh, &[(next, 6 * n), (work, 11 * n), (sums, n), (state.len(), 6 * n), (forcings.len() % each, 0)])?;
    step::row_10(mesh, state)
}

fn through<S: Shapes, const KEEPS: bool>(shapes: S, mesh: &Mesh, rooms: Rooms, state: &[f64], clock: Clock, forcings: &[f64]) -> Stepped {
    let (fixed, state) = (Fixed::of(mesh, shapes), State::of(state, mesh.nodes()));
    // chosen here, once, so that no loop asks for the setting
    if mesh.p.advection {
        walk::through(fixed, rooms, state, clock, forcings, forced::<true, S, false>, forced::<true, S, KEEPS>)
    } else {
        walk::through(fixed, rooms, state, clock, forcings, forced::<false, S, false>, forced::<false, S, KEEPS>)
    }
}

fn forced<const ADVECTION: bool, S: Shapes, const FORMED: bool>(
    fixed: &Fixed<S, FORMED>,
    clock: Clock,
    state: State,
    forcing: Forcing,
    made: Made,
) -> Result<(), Answer> {
    step::rows_11_and_12(clock, forcing)?;
    step::solve::<ADVECTION, S, FORMED>(fixed, state, forcing, made)
}
