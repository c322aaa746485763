//! Plain Rust that tests nothing: the equations and the frames alone. Since nothing is refused, the new values of a single step go straight into the next
//! state, and of its work room of floats only Au and Av take some. Node numbers are trusted, lengths and digits too.

use crate::bare_grids;
use crate::fixed::{Fixed, Shapes};
use crate::formulas::{new_elevation, new_velocity, shares, slope, Corner, New, Shape, Shares, Sums, Terms, HELD_LAND, OPEN};
use crate::hex;
use crate::run::{fill_winds, runs, Answer, Clock, Forcing, GridRooms, Known, Made, Mesh, Program, Rooms, State, Stepped};
use crate::walk;

pub struct Bare;

/// An element whose place is trusted.
#[inline(always)]
pub fn at<T: Copy>(slice: &[T], i: usize) -> T {
    debug_assert!(i < slice.len());
    // Safety: the mesh of this program is one that `open` of the product accepts, so that every node number is below N. A triangle that is asked for
    // was found, and a gauge was given out.
    unsafe { *slice.get_unchecked(i) }
}

#[inline(always)]
fn place<T>(slice: &mut [T], i: usize) -> &mut T {
    debug_assert!(i < slice.len());
    // Safety: as in `at`.
    unsafe { slice.get_unchecked_mut(i) }
}

#[inline(always)]
fn corner(mesh: &Mesh, state: State, i: usize) -> Corner {
    let State { earlier, z, u, v, wx, wy } = state;
    Corner { h: at(mesh.h, i), earlier: at(earlier, i), z: at(z, i), u: at(u, i), v: at(v, i), wx: at(wx, i), wy: at(wy, i) }
}

impl Shapes for Bare {
    #[inline(always)]
    fn each(&self, mesh: &Mesh, mut work: impl FnMut([usize; 3], Shape)) {
        for corners in mesh.corners() {
            work(corners, Shape::of(corners.map(|i| at(mesh.x, i)), corners.map(|i| at(mesh.y, i)), corners.map(|i| at(mesh.h, i))));
        }
    }
}

/// Au and Av of a node stand side by side, so that one wide addition serves both.
#[inline(never)]
fn gather<const ADVECTION: bool>(fixed: &Fixed<Bare>, state: State, r: &mut [f64], carried: &mut [[f64; 2]], sums: &mut [u64]) {
    r.fill(0.0);
    sums.fill(0);
    if ADVECTION {
        carried.fill([0.0; 2]);
    }
    fixed.each_triangle(|corners, shape| {
        let water = corners.map(|i| corner(&fixed.mesh, state, i));
        let Shares { r: given, carried: [of_u, of_v] } = shares::<ADVECTION>(&fixed.terms, water, shape);
        for j in 0..3 {
            *place(r, corners[j]) += given[j];
            *place(sums, corners[j]) += shape.d as u64;
            if ADVECTION {
                let [au, av] = place(carried, corners[j]);
                *au += of_u;
                *av += of_v;
            }
        }
    });
}

#[inline(never)]
fn raise(fixed: &Fixed<Bare>, state: State, r: &mut [f64], sums: &[u64], elevation: f64) {
    for (i, weights) in fixed.weights(sums).enumerate() {
        let risen = new_elevation(weights, at(state.z, i), at(state.earlier, i), at(r, i));
        *place(r, i) = if at(fixed.mesh.kind, i) == OPEN { elevation } else { risen };
    }
}

#[inline(never)]
fn slopes(fixed: &Fixed<Bare>, state: State, z_new: &[f64], px: &mut [f64], py: &mut [f64]) {
    px.fill(0.0);
    py.fill(0.0);
    fixed.each_triangle(|corners, Shape { sides, .. }| {
        let both = corners.map(|i| at(state.z, i) + at(z_new, i));
        let (along_x, along_y) = (slope(both, sides.b), slope(both, sides.a));
        for i in corners {
            *place(px, i) += along_x;
            *place(py, i) += along_y;
        }
    });
}

#[inline(never)]
fn flows<const ADVECTION: bool>(mesh: &Mesh, terms: &Terms, state: State, known: Known, px: &mut [f64], py: &mut [f64]) {
    let Known { z_new, forcing, carried, sums } = known;
    for i in 0..mesh.nodes() {
        let new = New { z: at(z_new, i), wx: at(forcing.wx, i), wy: at(forcing.wy, i) };
        let gathered = Sums { px: at(px, i), py: at(py, i), carried: at(carried, i), s: at(sums, i) };
        let (east, north) = new_velocity::<ADVECTION>(terms, corner(mesh, state, i), new, gathered);
        let held = at(mesh.kind, i) == HELD_LAND;
        *place(px, i) = if held { 0.0 } else { east };
        *place(py, i) = if held { 0.0 } else { north };
    }
}

/// As in the tested program, no part is woven into the loop over a list.
fn solve<const ADVECTION: bool>(fixed: &Fixed<Bare>, state: State, forcing: Forcing, made: Made) {
    let Made { new: [z, u, v], carried, sums } = made;
    gather::<ADVECTION>(fixed, state, z, carried, sums);
    raise(fixed, state, z, sums, forcing.elevation);
    slopes(fixed, state, z, u, v);
    flows::<ADVECTION>(&fixed.mesh, &fixed.terms, state, Known { z_new: z, forcing, carried, sums }, u, v);
}

fn step<const ADVECTION: bool>(mesh: &Mesh, rooms: Rooms, state: &[f64], clock: Clock, forcing: &[f64]) -> (Answer, Clock) {
    let n = mesh.nodes();
    let (state, new) = (State::of(state, n), Forcing::of(forcing, n));
    let (water, winds) = rooms.next.split_at_mut(4 * n);
    let [earlier, z, u, v] = runs(water);
    earlier.copy_from_slice(state.z);
    let made = Made { new: [z, u, v], carried: rooms.work[..2 * n].as_chunks_mut().0, sums: rooms.sums };
    solve::<ADVECTION>(&Fixed::of(mesh, Bare), state, new, made);
    winds.copy_from_slice(&forcing[1..]);
    (Answer::accepted(0), clock.advanced())
}

fn forced<const ADVECTION: bool>(fixed: &Fixed<Bare>, _: Clock, state: State, forcing: Forcing, made: Made) -> Result<(), Answer> {
    solve::<ADVECTION>(fixed, state, forcing, made);
    Ok(())
}

fn step_all<const ADVECTION: bool>(mesh: &Mesh, rooms: Rooms, state: &[f64], clock: Clock, forcings: &[f64]) -> Stepped {
    let state = State::of(state, mesh.nodes());
    walk::through(Fixed::of(mesh, Bare), rooms, state, clock, forcings, forced::<ADVECTION>, forced::<ADVECTION>)
}

/// The sum of all D.
fn areas(mesh: &Mesh) -> u64 {
    let twice = |corners: [usize; 3]| {
        let [x1, x2, x3] = corners.map(|i| i64::from(at(mesh.x, i)));
        let [y1, y2, y3] = corners.map(|i| i64::from(at(mesh.y, i)));
        (x2 - x1) * (y3 - y1) - (x1 - x3) * (y1 - y2)
    };
    mesh.corners().map(|corners| twice(corners) as u64).sum()
}

/// The frame of the line that a text begins with.
#[inline(always)]
fn read_line<const BYTES: usize>(text: &[u8]) -> [u8; BYTES] {
    let mut frame = [0; BYTES];
    for (byte, &[high, low]) in frame.iter_mut().zip(text.as_chunks::<2>().0) {
        *byte = hex::worth_of_digit(high) << 4 | hex::worth_of_digit(low);
    }
    frame
}

/// The lines of n nodes into their runs.
#[inline(always)]
fn read_nodes<const BYTES: usize, const RUNS: usize>(text: &[u8], n: usize, runs: &mut [f64]) {
    for (i, line) in text.chunks_exact(hex::line(BYTES)).take(n).enumerate() {
        let frame: [u8; BYTES] = read_line(line);
        for (run, value) in hex::floats::<RUNS>(&frame[hex::FIELDS..]).into_iter().enumerate() {
            *place(runs, run * n + i) = value;
        }
    }
}

fn load_1(text: &[u8], n: usize, state: &mut [f64]) -> Clock {
    let head: [u8; hex::HEAD_1] = read_line(text);
    read_nodes::<{ hex::NODE_1 }, 4>(&text[hex::line(hex::HEAD_1)..], n, state);
    fill_winds(&mut state[4 * n..], hex::wind_1(&head));
    Clock { step: hex::four_bytes(&head, 7) }
}

fn load_2(text: &[u8], n: usize, state: &mut [f64]) -> Clock {
    let head: [u8; hex::HEAD] = read_line(text);
    read_nodes::<{ hex::NODE }, 6>(&text[hex::line(hex::HEAD) + hex::line(hex::PARAMETERS)..], n, state);
    Clock { step: hex::four_bytes(&head, 7) }
}

fn read_one_wind(text: &[u8], forcing: &mut [f64]) {
    let frame: [u8; hex::ONE_WIND] = read_line(text);
    let [elevation, wx, wy] = hex::floats(&frame[hex::FIELDS..]);
    forcing[0] = elevation;
    fill_winds(&mut forcing[1..], [wx, wy]);
}

fn read_winds(text: &[u8], forcing: &mut [f64]) {
    let sea: [u8; hex::SEA] = read_line(text);
    [forcing[0]] = hex::floats(&sea[hex::FIELDS..]);
    let n = forcing.len() / 2;
    read_nodes::<{ hex::WIND }, 2>(&text[hex::line(hex::SEA)..], n, &mut forcing[1..]);
}

impl Program for Bare {
    fn name(&self) -> &'static str {
        "bare"
    }

    #[inline(never)]
    fn open(&self, _: &Mesh, state: &mut [f64]) -> (Answer, Clock) {
        state.fill(0.0);
        (Answer::accepted(0), Clock::COLD)
    }

    #[inline(never)]
    fn step(&self, mesh: &Mesh, rooms: Rooms, state: &[f64], clock: Clock, forcing: &[f64]) -> (Answer, Clock) {
        // chosen here, once, so that no loop asks for the setting
        let step = if mesh.p.advection { step::<true> } else { step::<false> };
        step(mesh, rooms, state, clock, forcing)
    }

    #[inline(never)]
    fn step_all(&self, mesh: &Mesh, rooms: Rooms, state: &[f64], clock: Clock, forcings: &[f64]) -> Stepped {
        let step_all = if mesh.p.advection { step_all::<true> } else { step_all::<false> };
        step_all(mesh, rooms, state, clock, forcings)
    }

    #[inline(never)]
    fn save(&self, mesh: &Mesh, text: &mut [u8], state: &[f64], clock: Clock) -> Answer {
        let n = mesh.nodes();
        hex::write_save(mesh, &mut text[..hex::save(n)], State::of(state, n), clock, areas(mesh));
        Answer::accepted(hex::save(n))
    }

    #[inline(never)]
    fn load(&self, mesh: &Mesh, state: &mut [f64], text: &[u8], _: Clock) -> (Answer, Clock) {
        let load = if text.starts_with(b"01") { load_1 } else { load_2 };
        (Answer::accepted(0), load(text, mesh.nodes(), state))
    }

    #[inline(never)]
    fn read_forcing(&self, forcing: &mut [f64], text: &[u8], _: u32) -> Answer {
        let read = if text.starts_with(b"10") { read_one_wind } else { read_winds };
        read(text, forcing);
        Answer::accepted(0)
    }

    #[inline(never)]
    fn read_grid(&self, rooms: GridRooms, text: &[u8]) -> Answer {
        bare_grids::read(rooms, text);
        Answer::accepted(0)
    }
}
