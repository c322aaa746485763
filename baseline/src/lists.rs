//! Request #107, "Many forcings in one call": row 14, and the list of forcings that
//! is stepped through.

use crate::mesh::{Lent, Mesh, STATE_RUNS};
use crate::records::{Answer, Clock, Parameters};
use crate::step::{rows_1_to_10, step, WORK_RUNS};

/// "Take a lent list of forcings, at most 4,096".
pub(crate) const MOST: u32 = 4_096;

/// "Work room grows by 6N numbers": "the list call is lent 11N, the 6N added last".
pub(crate) const LIST_WORK_RUNS: usize = WORK_RUNS + STATE_RUNS;

/// 14: "a list above 4,096 forcings of 1+2N numbers, before row 1, which covers
/// uneven lengths".
pub(crate) fn row_14(n: usize, list: &Lent) -> Result<(), Answer> {
    if list.exceeds(MOST, n) {
        return Err(Answer::refused(14, 0));
    }
    Ok(())
}

/// Steps a run through a list of forcings: row 14, rows 1 to 10 once, then single
/// calls. "The count of accepted steps comes back beside answer and clock."
#[allow(clippy::too_many_arguments)] // each slice is lent by itself
pub fn step_all(
    next: &mut [f64],
    work: &mut [f64],
    sums: &mut [u64],
    state: &[f64],
    forcings: &[f64],
    x: &[i32],
    y: &[i32],
    tri: &[u16],
    h: &[f64],
    kind: &[u8],
    p: Parameters,
    clock: Clock,
) -> (Answer, Clock, u32) {
    let mesh = Mesh::lent(x, y, tri, h, kind, p);
    let lengths = [next.len(), work.len(), sums.len()];
    match rows_14_and_1_to_10(&mesh, lengths, state, forcings) {
        Ok(()) => one_after_another(next, work, sums, state, forcings, mesh, clock),
        Err(refusal) => (refusal, clock, 0),
    }
}

/// "The result, the clock, and any refusal with its place equal single calls made one
/// after another; it stops at the first refusal and gives the count of accepted
/// steps, and the next slice holds the state after these."
fn one_after_another(
    next: &mut [f64],
    work: &mut [f64],
    sums: &mut [u64],
    state: &[f64],
    forcings: &[f64],
    mesh: Mesh,
    clock: Clock,
) -> (Answer, Clock, u32) {
    let (n, x, y, tri) = (mesh.nodes(), mesh.x, mesh.y, mesh.tri);
    let (h, kind, p) = (mesh.h, mesh.kind, mesh.p);
    let (of_a_step, added) = work.split_at_mut(WORK_RUNS * n);
    let (mut present, mut now, mut accepted) = (state.to_vec(), clock, 0);
    for forcing in forcings.chunks_exact(1 + 2 * n) {
        let (answer, after) = step(
            next, of_a_step, sums, &present, forcing, x, y, tri, h, kind, p, now,
        );
        // Where "the very first forcing is refused the next slice and the work room
        // are as single calls leave them, the added 6N untouched".
        if answer.number != 0 {
            return (answer, now, accepted);
        }
        // "all of it is zero once a step has been accepted".
        added.fill(0.0);
        present.copy_from_slice(next);
        (now, accepted) = (after, accepted + 1);
    }
    // An empty list "is accepted, copies the state and leaves the work room untouched".
    next.copy_from_slice(&present);
    (Answer::accepted(0), now, accepted)
}

/// All that is asked before the first forcing is looked at. The lengths are those of
/// the next state and the two work rooms.
fn rows_14_and_1_to_10(
    mesh: &Mesh,
    [next, work, sums]: [usize; 3],
    state: &[f64],
    forcings: &[f64],
) -> Result<(), Answer> {
    let list = Lent::forcings(forcings.len());
    row_14(mesh.nodes(), &list)?;
    let work = Lent::runs(work, LIST_WORK_RUNS);
    rows_1_to_10(mesh, [work, list], [next, sums], state)
}
