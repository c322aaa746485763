//! Rows 10 to 13 and the equations. The parts of a step are functions of their own, so that each can be timed by itself.

use super::mesh::{self, within};
use crate::fixed::{Fixed, Shapes};
use crate::formulas::{new_elevation, new_velocity, shares, slope, Corner, New, Shape, Shares, Sums, Terms, HELD_LAND, OPEN};
use crate::run::{Answer, Clock, Forcing, Known, Made, Mesh, Rooms, State};

pub fn step(mesh: &Mesh, rooms: Rooms, state: &[f64], clock: Clock, forcing: &[f64]) -> (Answer, Clock) {
    let Rooms { next, work, sums } = rooms;
    if let Err(refusal) = rows_1_to_12(mesh, [next.len(), work.len(), sums.len()], state, clock, forcing) {
        return (refusal, clock);
    }
    let n = mesh.nodes();
    let (state, new) = (State::of(state, n), Forcing::of(forcing, n));
    // chosen here, once, so that no loop asks for the setting
    let single = if mesh.p.advection { single::<true> } else { single::<false> };
    let outcome = single(mesh, work, sums, state, new);
    if outcome.is_ok() {
        publish(next, state, work, &forcing[1..]);
    }
    clear(work, sums);
    match outcome {
        Ok(()) => (Answer::accepted(0), clock.advanced()),
        Err(refusal) => (refusal, clock),
    }
}

fn rows_1_to_12(mesh: &Mesh, lengths: [usize; 3], state: &[f64], clock: Clock, forcing: &[f64]) -> Result<(), Answer> {
    let (n, [next, work, sums]) = (mesh.nodes(), lengths);
    mesh::rows_1_to_9(mesh, &[(next, 6 * n), (work, 5 * n), (sums, n), (state.len(), 6 * n), (forcing.len(), 1 + 2 * n)])?;
    row_10(mesh, state)?;
    rows_11_and_12(clock, Forcing::of(forcing, n))
}

pub fn rows_11_and_12(clock: Clock, forcing: Forcing) -> Result<(), Answer> {
    if clock.step == u32::MAX {
        return Err(Answer::refused(11, 0));
    }
    row_12(forcing)
}

/// Of a wind, in either direction.
fn calm((&wx, &wy): (&f64, &f64)) -> bool {
    within(-0.1, wx, 0.1) & within(-0.1, wy, 0.1)
}

pub fn row_12(forcing: Forcing) -> Result<(), Answer> {
    if !within(-30.0, forcing.elevation, 30.0) {
        return Err(Answer::refused(12, 1));
    }
    let mut winds = forcing.wx.iter().zip(forcing.wy);
    if winds.clone().fold(true, |all, wind| all & calm(wind)) {
        return Ok(());
    }
    let node = winds.position(|wind| !calm(wind));
    Err(Answer::refused(12, 2 + node.unwrap_or(0)))
}

pub fn row_10(mesh: &Mesh, state: &[f64]) -> Result<(), Answer> {
    let n = mesh.nodes();
    let State { earlier, z, u, v, wx, wy } = State::of(state, n);
    let level = |(&earlier, &z): (&f64, &f64)| within(-30.0, earlier, 30.0) & within(-30.0, z, 30.0);
    let column = |(&h, &z): (&f64, &f64)| 0.1 <= h + z;
    let speed = |(&u, &v): (&f64, &f64)| within(-20.0, u, 20.0) & within(-20.0, v, 20.0);
    let levels = earlier.iter().zip(z);
    let columns = mesh.h.iter().zip(z);
    let speeds = u.iter().zip(v);
    let winds = wx.iter().zip(wy);
    // two slices at a time, which the compiler takes in wide registers; the place is looked for only where there is one
    let all = levels.clone().fold(true, |all, node| all & level(node))
        & columns.clone().fold(true, |all, node| all & column(node))
        & speeds.clone().fold(true, |all, node| all & speed(node))
        & winds.clone().fold(true, |all, node| all & calm(node));
    if all {
        return Ok(());
    }
    let mut nodes = levels.zip(columns).zip(speeds.zip(winds));
    let node = nodes.position(|((levels, columns), (speeds, winds))| !(level(levels) & column(columns) & speed(speeds) & calm(winds)));
    Err(Answer::refused(10, node.unwrap_or(0)))
}

/// Every node number tested where it is used.
pub struct Checked;

impl Shapes for Checked {
    #[inline(always)]
    fn each(&self, mesh: &Mesh, mut work: impl FnMut([usize; 3], Shape)) {
        let n = mesh.nodes();
        let (x, y, h) = (&mesh.x[..n], &mesh.y[..n], &mesh.h[..n]);
        for corners in mesh.corners() {
            work(corners, Shape::of(corners.map(|i| x[i]), corners.map(|i| y[i]), corners.map(|i| h[i])));
        }
    }
}

fn single<const ADVECTION: bool>(mesh: &Mesh, work: &mut [f64], sums: &mut [u64], state: State, forcing: Forcing) -> Result<(), Answer> {
    solve::<ADVECTION, _, _>(&Fixed::of(mesh, Checked), state, forcing, Made::of(work, sums))
}

/// No part is woven into the loop over a list, where the compiler would no longer know its rooms apart.
pub fn solve<const ADVECTION: bool, S: Shapes, const FORMED: bool>(
    fixed: &Fixed<S, FORMED>,
    state: State,
    forcing: Forcing,
    made: Made,
) -> Result<(), Answer> {
    let Made { new: [first, second, third], carried, sums } = made;
    gather::<ADVECTION, S, FORMED>(fixed, state, first, carried, sums);
    raise(fixed, state, first, sums, forcing.elevation);
    row_13_levels(&fixed.mesh, first)?;
    slopes(fixed, state, first, second, third);
    flows::<ADVECTION>(&fixed.mesh, &fixed.terms, state, Known { z_new: first, forcing, carried, sums }, second, third);
    row_13_speeds(second, third)
}

/// R and S of every node, and with advection Au and Av, which stand side by side, so that one wide addition serves both.
#[inline(never)]
pub fn gather<const ADVECTION: bool, S: Shapes, const FORMED: bool>(
    fixed: &Fixed<S, FORMED>,
    state: State,
    r: &mut [f64],
    carried: &mut [[f64; 2]],
    sums: &mut [u64],
) {
    r.fill(0.0);
    if !FORMED {
        sums.fill(0);
    }
    if ADVECTION {
        carried.fill([0.0; 2]);
    }
    // one length for all, so that one test of a node number serves every slice
    let n = fixed.mesh.nodes();
    let (h, r, carried, sums) = (&fixed.mesh.h[..n], &mut r[..n], &mut carried[..n], &mut sums[..n]);
    let (earlier, z, u, v) = (&state.earlier[..n], &state.z[..n], &state.u[..n], &state.v[..n]);
    let (wx, wy) = (&state.wx[..n], &state.wy[..n]);
    fixed.each_triangle(|corners, shape| {
        let water = corners.map(|i| Corner { h: h[i], earlier: earlier[i], z: z[i], u: u[i], v: v[i], wx: wx[i], wy: wy[i] });
        let Shares { r: given, carried: [of_u, of_v] } = shares::<ADVECTION>(&fixed.terms, water, shape);
        for j in 0..3 {
            r[corners[j]] += given[j];
            if !FORMED {
                sums[corners[j]] += shape.d as u64;
            }
            if ADVECTION {
                let [au, av] = &mut carried[corners[j]];
                *au += of_u;
                *av += of_v;
            }
        }
    });
}

/// R of every node becomes its z'.
#[inline(never)]
pub fn raise<S: Shapes, const FORMED: bool>(fixed: &Fixed<S, FORMED>, state: State, r: &mut [f64], sums: &[u64], elevation: f64) {
    let n = fixed.mesh.nodes();
    let (kind, r) = (&fixed.mesh.kind[..n], &mut r[..n]);
    let (earlier, z) = (&state.earlier[..n], &state.z[..n]);
    for (i, weights) in (0..n).zip(fixed.weights(sums)) {
        let risen = new_elevation(weights, z[i], earlier[i], r[i]);
        r[i] = if kind[i] == OPEN { elevation } else { risen };
    }
}

fn row_13(node: usize, value: f64) -> Result<(), Answer> {
    Err(Answer { number: 13, place: node, value })
}

pub fn row_13_levels(mesh: &Mesh, z_new: &[f64]) -> Result<(), Answer> {
    let sound = |z: f64, h: f64| within(-30.0, z, 30.0) & (0.1 <= h + z);
    if z_new.iter().zip(mesh.h).fold(true, |all, (&z, &h)| all & sound(z, h)) {
        return Ok(());
    }
    for (node, (&z, &h)) in z_new.iter().zip(mesh.h).enumerate() {
        if !sound(z, h) {
            return row_13(node, if within(-30.0, z, 30.0) { h + z } else { z });
        }
    }
    Ok(())
}

/// Px and Py of every node.
#[inline(never)]
pub fn slopes<S: Shapes, const FORMED: bool>(fixed: &Fixed<S, FORMED>, state: State, z_new: &[f64], px: &mut [f64], py: &mut [f64]) {
    px.fill(0.0);
    py.fill(0.0);
    let n = fixed.mesh.nodes();
    let (px, py) = (&mut px[..n], &mut py[..n]);
    let (z, z_new) = (&state.z[..n], &z_new[..n]);
    fixed.each_triangle(|corners, Shape { sides, .. }| {
        let both = corners.map(|i| z[i] + z_new[i]);
        let (along_x, along_y) = (slope(both, sides.b), slope(both, sides.a));
        for i in corners {
            px[i] += along_x;
            py[i] += along_y;
        }
    });
}

/// Px and Py of every node become its U' and V'.
#[inline(never)]
pub fn flows<const ADVECTION: bool>(mesh: &Mesh, terms: &Terms, state: State, known: Known, px: &mut [f64], py: &mut [f64]) {
    let n = mesh.nodes();
    let (kind, h, px, py) = (&mesh.kind[..n], &mesh.h[..n], &mut px[..n], &mut py[..n]);
    let (z, u, v, wx, wy) = (&state.z[..n], &state.u[..n], &state.v[..n], &state.wx[..n], &state.wy[..n]);
    let (z_new, carried, sums) = (&known.z_new[..n], &known.carried[..n], &known.sums[..n]);
    let (wx_new, wy_new) = (&known.forcing.wx[..n], &known.forcing.wy[..n]);
    for i in 0..n {
        let water = Corner { h: h[i], earlier: 0.0, z: z[i], u: u[i], v: v[i], wx: wx[i], wy: wy[i] };
        let new = New { z: z_new[i], wx: wx_new[i], wy: wy_new[i] };
        let gathered = Sums { px: px[i], py: py[i], carried: carried[i], s: sums[i] };
        let (east, north) = new_velocity::<ADVECTION>(terms, water, new, gathered);
        let held = kind[i] == HELD_LAND;
        px[i] = if held { 0.0 } else { east };
        py[i] = if held { 0.0 } else { north };
    }
}

pub fn row_13_speeds(u_new: &[f64], v_new: &[f64]) -> Result<(), Answer> {
    let sound = |speed: f64| within(-20.0, speed, 20.0);
    if u_new.iter().zip(v_new).fold(true, |all, (&u, &v)| all & sound(u) & sound(v)) {
        return Ok(());
    }
    for (node, (&u, &v)) in u_new.iter().zip(v_new).enumerate() {
        if !(sound(u) & sound(v)) {
            return row_13(node, if sound(u) { v } else { u });
        }
    }
    Ok(())
}

/// z', U' and V' are the first three runs of the work room; the new winds follow.
pub fn publish(next: &mut [f64], state: State, work: &[f64], winds: &[f64]) {
    let n = state.z.len();
    let (earlier, rest) = next.split_at_mut(n);
    let (water, air) = rest.split_at_mut(3 * n);
    earlier.copy_from_slice(state.z);
    water.copy_from_slice(&work[..3 * n]);
    air.copy_from_slice(winds);
}

/// Nothing is known of what was lent, so that the runs of Au and Av are cleared where advection is off too.
pub fn clear(work: &mut [f64], sums: &mut [u64]) {
    work.fill(0.0);
    sums.fill(0);
}
