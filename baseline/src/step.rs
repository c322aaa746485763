//! Rows 10 to 13, "Elevation" and "Velocity" with the terms of request #103 and
//! the winds of request #105, and the step itself.

use crate::mesh::{Lent, Mesh, Triangle, STATE_RUNS};
use crate::records::{in_size, Answer, Clock, Parameters};

/// "g is the binary64 nearest 9.81".
const G: f64 = 9.81;

/// Rows 10, 12 and 13: an elevation is not beyond this in size.
const HIGHEST: f64 = 30.0;

/// Rows 10 and 13: a water column is not below this.
const SHALLOWEST: f64 = 0.1;

/// Rows 10 and 13: a velocity is not beyond this in size.
const FASTEST: f64 = 20.0;

/// Rows 10 and 12: a wind is not beyond this in size.
const STRONGEST: f64 = 0.1;

/// "work room is 3N binary64 and N 64-bit unsigned", and by request #103 "Work room
/// grows by 2N binary64", at either setting.
pub(crate) const WORK_RUNS: usize = 5;

/// "kind 0 (free), 1 (open), 2 (held land)".
const OPEN: u8 = 1;
const HELD_LAND: u8 = 2;

/// "in four runs of N: earlier elevation, present elevation z, U, V", and by
/// request #105 "6N numbers, with Wx and Wy of each node last".
pub(crate) struct State<'a> {
    pub earlier: &'a [f64],
    pub z: &'a [f64],
    pub u: &'a [f64],
    pub v: &'a [f64],
    pub wx: &'a [f64],
    pub wy: &'a [f64],
}

impl<'a> State<'a> {
    pub fn of(numbers: &'a [f64]) -> State<'a> {
        let n = numbers.len() / STATE_RUNS;
        let run = |number: usize| &numbers[number * n..(number + 1) * n];
        State {
            earlier: run(0),
            z: run(1),
            u: run(2),
            v: run(3),
            wx: run(4),
            wy: run(5),
        }
    }
}

/// "A forcing is the new open elevation, then new wind Wx', Wy' (stress over
/// density)": Wx' of all nodes, then Wy' of all nodes.
pub(crate) struct Forcing<'a> {
    pub elevation: f64,
    pub wx: &'a [f64],
    pub wy: &'a [f64],
}

impl<'a> Forcing<'a> {
    /// The forcing that 1+2N numbers are; only after row 1 has been tested.
    pub fn of(numbers: &'a [f64]) -> Forcing<'a> {
        let (wx, wy) = numbers[1..].split_at(numbers.len() / 2);
        let elevation = numbers[0];
        Forcing { elevation, wx, wy }
    }
}

/// The winds that a step is worked out by, along x and along y.
#[derive(Clone, Copy)]
pub(crate) struct Winds<'a> {
    /// "Jx and Jy use the mean of the three corner winds", by the three of them.
    pub in_j: fn([f64; 3]) -> f64,
    /// The runs that these three are of.
    pub at_corners: [&'a [f64]; 2],
    /// "velocity uses the node's own": Wx and Wy.
    pub present: [&'a [f64]; 2],
    /// The node's own Wx' and Wy'.
    pub new: [&'a [f64]; 2],
}

impl<'a> Winds<'a> {
    pub fn of(state: &State<'a>, forcing: &Forcing<'a>) -> Winds<'a> {
        let present = [state.wx, state.wy];
        Winds {
            in_j: mean,
            at_corners: present,
            present,
            new: [forcing.wx, forcing.wy],
        }
    }
}

/// Whether a water column is not "below 0.1"; a NaN is.
fn deep_enough(column: f64) -> bool {
    column >= SHALLOWEST
}

/// 10: "either z beyond 30 in size, present h+z below 0.1, U or V beyond 20", and
/// "the node winds at 0.1, after U and V".
pub(crate) fn row_10(mesh: &Mesh, state: &State) -> Result<(), Answer> {
    for (node, &h) in mesh.h.iter().enumerate() {
        let z = state.z[node];
        let holds = in_size(state.earlier[node], HIGHEST)
            && in_size(z, HIGHEST)
            && deep_enough(h + z)
            && in_size(state.u[node], FASTEST)
            && in_size(state.v[node], FASTEST)
            && in_size(state.wx[node], STRONGEST)
            && in_size(state.wy[node], STRONGEST);
        if !holds {
            return Err(Answer::refused(10, node));
        }
    }
    Ok(())
}

/// 11: "step number is 4,294,967,295".
fn row_11(clock: Clock) -> Result<(), Answer> {
    if clock.step == 4_294_967_295 {
        return Err(Answer::refused(11, 0));
    }
    Ok(())
}

/// 12: "forcing elevation beyond 30; Wx', Wy' beyond 0.1", "with place 1 for the
/// elevation and 2+i for node i".
pub(crate) fn row_12(forcing: &Forcing) -> Result<(), Answer> {
    if !in_size(forcing.elevation, HIGHEST) {
        return Err(Answer::refused(12, 1));
    }
    for (node, (&wx, &wy)) in forcing.wx.iter().zip(forcing.wy).enumerate() {
        if !in_size(wx, STRONGEST) || !in_size(wy, STRONGEST) {
            return Err(Answer::refused(12, 2 + node));
        }
    }
    Ok(())
}

/// "a mean is ((v1+v2)+v3)/3".
pub(crate) fn mean(v: [f64; 3]) -> f64 {
    ((v[0] + v[1]) + v[2]) / 3.0
}

/// A gradient's sum, (v1·w1 + v2·w2) + v3·w3, w being b for x and a for y.
fn gradient(v: [f64; 3], w: [f64; 3]) -> f64 {
    (v[0] * w[0] + v[1] * w[1]) + v[2] * w[2]
}

/// One operation on two numbers, at each of the three corners.
fn at_corners(v: [f64; 3], w: [f64; 3], operation: fn(f64, f64) -> f64) -> [f64; 3] {
    [
        operation(v[0], w[0]),
        operation(v[1], w[1]),
        operation(v[2], w[2]),
    ]
}

fn plus(v: f64, w: f64) -> f64 {
    v + w
}

fn minus(v: f64, w: f64) -> f64 {
    v - w
}

fn times(v: f64, w: f64) -> f64 {
    v * w
}

/// Request #103 along one axis of a step: what its terms are made of, and where
/// they stand. A slope is Xu and Yu, along y Xv and Yv.
pub(crate) struct Advection {
    /// "(Qx·Xu + Qy·Yu)/D", by Qx and Qy, the slope and D.
    pub flux: fn([f64; 2], [f64; 2], f64) -> f64,
    /// J up to its squared-elevation term, by f·Qy, the flux and that term.
    pub in_j: fn(f64, f64, f64) -> f64,
    /// "Ub·Xu + Vb·Yu", by Ub and Vb and the slope.
    pub sum: fn([f64; 2], [f64; 2]) -> f64,
    /// What the sum is made into, by itself, dt and S.
    pub rate: fn(f64, f64, f64) -> f64,
    /// R from gx on, by what stands up to it, the rate and wx.
    pub in_r: fn(f64, f64, f64) -> f64,
}

/// "In Jx, (Qx·Xu + Qy·Yu)/D is taken from f·Qy before the squared-elevation
/// term; Jy likewise with Xv, Yv. In velocity, a sum from +0 by ascending
/// triangle of Ub·Xu + Vb·Yu is multiplied by dt, divided by S and taken from Rx
/// after gx and before wx; Ry likewise with Xv and Yv."
pub(crate) const ON: Advection = Advection {
    flux: |q, slope, d| (q[0] * slope[0] + q[1] * slope[1]) / d,
    in_j: |coriolis, flux, squared| (coriolis - flux) - squared,
    sum: |mean, slope| mean[0] * slope[0] + mean[1] * slope[1],
    rate: |sum, dt, s| (dt * sum) / s,
    in_r: |up_to_slope, rate, wind| (up_to_slope - rate) + wind,
};

/// "Off gives the earlier bits": the terms are left out.
pub(crate) const OFF: Advection = Advection {
    in_j: |coriolis, _, squared| coriolis - squared,
    in_r: |up_to_slope, _, wind| up_to_slope + wind,
    ..ON
};

/// Advection along x and along y.
pub(crate) type Axes<'a> = [&'a Advection; 2];

/// "under an on/off parameter".
pub(crate) fn axes(advection: bool) -> Axes<'static> {
    if advection {
        [&ON; 2]
    } else {
        [&OFF; 2]
    }
}

/// "The gradients and means of one triangle travel together as one record":
/// "hb, Ub, Vb, Z, Qx, Qy: means of h, U, V, z*, qx, qy" and Gx, Gy, Sx, Sy, Xu,
/// Yu, Xv, Yv.
struct Record {
    hb: f64,
    ub: f64,
    vb: f64,
    z: f64,
    qx: f64,
    qy: f64,
    gx: f64,
    gy: f64,
    sx: f64,
    sy: f64,
    xu: f64,
    yu: f64,
    xv: f64,
    yv: f64,
}

impl Record {
    /// "For each triangle, zi* = z minus earlier z, Hi = hi+zi, qxi = Ui·Hi,
    /// qyi = Vi·Hi". "Gx = (z1·b1 + z2·b2) + z3·b3, and Gy with a. Sx =
    /// ((z1·z1)·b1 + (z2·z2)·b2) + (z3·z3)·b3, and Sy with a." "Per triangle, Xu
    /// = (U1·b1 + U2·b2) + U3·b3, Yu the same with a, and Xv, Yv over V."
    fn of(triangle: &Triangle, mesh: &Mesh, state: &State) -> Record {
        let (a, b) = (triangle.a_floats(), triangle.b_floats());
        let corners = |run: &[f64]| triangle.corners.map(|node| run[node]);
        let (h, z) = (corners(mesh.h), corners(state.z));
        let (u, v) = (corners(state.u), corners(state.v));
        let z_star = at_corners(z, corners(state.earlier), minus);
        let column = at_corners(h, z, plus);
        let z_squared = at_corners(z, z, times);
        Record {
            hb: mean(h),
            ub: mean(u),
            vb: mean(v),
            z: mean(z_star),
            qx: mean(at_corners(u, column, times)),
            qy: mean(at_corners(v, column, times)),
            gx: gradient(z, b),
            gy: gradient(z, a),
            sx: gradient(z_squared, b),
            sy: gradient(z_squared, a),
            xu: gradient(u, b),
            yu: gradient(u, a),
            xv: gradient(v, b),
            yv: gradient(v, a),
        }
    }

    /// "Jx = ((((f·Qy - (g·Sx)/(2·D)) + Wx) - K·Ub) + (Ub·Z)/dt) + tau·Qx", with
    /// advection before the squared-elevation term.
    fn jx(&self, d: f64, p: Parameters, wx: f64, advection: &Advection) -> f64 {
        let flux = (advection.flux)([self.qx, self.qy], [self.xu, self.yu], d);
        let begun = (advection.in_j)(p.f * self.qy, flux, (G * self.sx) / (2.0 * d));
        (((begun + wx) - p.k * self.ub) + (self.ub * self.z) / p.dt) + p.tau * self.qx
    }

    /// "Jy = (((((-f)·Qx - (g·Sy)/(2·D)) + Wy) - K·Vb) + (Vb·Z)/dt) + tau·Qy",
    /// "likewise with Xv, Yv".
    fn jy(&self, d: f64, p: Parameters, wy: f64, advection: &Advection) -> f64 {
        let flux = (advection.flux)([self.qx, self.qy], [self.xv, self.yv], d);
        let begun = (advection.in_j)((-p.f) * self.qx, flux, (G * self.sy) / (2.0 * d));
        (((begun + wy) - p.k * self.vb) + (self.vb * self.z) / p.dt) + p.tau * self.qy
    }
}

/// "corner j receives (Jx·bj + Jy·aj)/2 - ((g·hb)·(Gx·bj + Gy·aj))/(2·D)".
/// "R of a node starts at +0 and adds its corner values by ascending triangle
/// number."
fn add_corner_values(r: &mut [f64], mesh: &Mesh, state: &State, winds: &Winds, axes: Axes) {
    r.fill(0.0);
    for triangle in mesh.triangles() {
        let record = Record::of(&triangle, mesh, state);
        let d = triangle.twice_area() as f64;
        let wind = |run: &[f64]| (winds.in_j)(triangle.corners.map(|node| run[node]));
        let [wx, wy] = winds.at_corners.map(wind);
        let jx = record.jx(d, mesh.p, wx, axes[0]);
        let jy = record.jy(d, mesh.p, wy, axes[1]);
        let (a, b) = (triangle.a_floats(), triangle.b_floats());
        for j in 0..3 {
            let flux = (jx * b[j] + jy * a[j]) / 2.0;
            let slope = record.gx * b[j] + record.gy * a[j];
            r[triangle.corners[j]] += flux - ((G * record.hb) * slope) / (2.0 * d);
        }
    }
}

/// "a node's sum S of D over its triangles fits 53 bits".
fn add_areas(sums: &mut [u64], mesh: &Mesh) {
    sums.fill(0);
    for triangle in mesh.triangles() {
        for node in triangle.corners {
            sums[node] += triangle.twice_area().unsigned_abs();
        }
    }
}

/// "L = (S/6)/dt. New z' = z + ((L·(1/dt - tau/2))·z* + R)/(L·(1/dt + tau/2))."
fn new_elevation(z: f64, z_star: f64, r: f64, s: f64, p: Parameters) -> f64 {
    let l = (s / 6.0) / p.dt;
    let earlier_weight = l * (1.0 / p.dt - p.tau / 2.0);
    let new_weight = l * (1.0 / p.dt + p.tau / 2.0);
    z + (earlier_weight * z_star + r) / new_weight
}

/// Turns the R of each node into its z': "At kind 1, z' is the forcing's
/// elevation."
fn new_elevations(r: &mut [f64], sums: &[u64], mesh: &Mesh, state: &State, elevation: f64) {
    for (node, place) in r.iter_mut().enumerate() {
        *place = if mesh.kind[node] == OPEN {
            elevation
        } else {
            let z = state.z[node];
            let z_star = z - state.earlier[node];
            new_elevation(z, z_star, *place, sums[node] as f64, mesh.p)
        };
    }
}

/// "The offending value comes back with its node: z', H', U' or V'."
fn row_13(node: usize, value: f64) -> Answer {
    Answer {
        number: 13,
        place: node,
        value,
    }
}

/// 13: "all z' first (node by node, size, then H')".
fn row_13_elevations(z_new: &[f64], mesh: &Mesh) -> Result<(), Answer> {
    for (node, (&z, &h)) in z_new.iter().zip(mesh.h).enumerate() {
        if !in_size(z, HIGHEST) {
            return Err(row_13(node, z));
        }
        let column = h + z;
        if !deep_enough(column) {
            return Err(row_13(node, column));
        }
    }
    Ok(())
}

/// 13: "then, node by node, U' before V'".
fn row_13_velocities(u_new: &[f64], v_new: &[f64]) -> Result<(), Answer> {
    for (node, (&u, &v)) in u_new.iter().zip(v_new).enumerate() {
        if !in_size(u, FASTEST) {
            return Err(row_13(node, u));
        }
        if !in_size(v, FASTEST) {
            return Err(row_13(node, v));
        }
    }
    Ok(())
}

/// "Px starts at +0 and adds ((z1+z1')·b1 + (z2+z2')·b2) + (z3+z3')·b3 by
/// ascending triangle; Py with a."
fn add_slopes(px: &mut [f64], py: &mut [f64], z_new: &[f64], mesh: &Mesh, state: &State) {
    px.fill(0.0);
    py.fill(0.0);
    for triangle in mesh.triangles() {
        let z = triangle.corners.map(|node| state.z[node] + z_new[node]);
        let x_slope = gradient(z, triangle.b_floats());
        let y_slope = gradient(z, triangle.a_floats());
        for node in triangle.corners {
            px[node] += x_slope;
            py[node] += y_slope;
        }
    }
}

/// "a sum from +0 by ascending triangle of Ub·Xu + Vb·Yu", Au, and "likewise with
/// Xv and Yv" Av: the same value at each corner.
fn add_advection(au: &mut [f64], av: &mut [f64], mesh: &Mesh, state: &State, axes: Axes) {
    au.fill(0.0);
    av.fill(0.0);
    for triangle in mesh.triangles() {
        let record = Record::of(&triangle, mesh, state);
        let mean = [record.ub, record.vb];
        let of_u = (axes[0].sum)(mean, [record.xu, record.yu]);
        let of_v = (axes[1].sum)(mean, [record.xv, record.yv]);
        for node in triangle.corners {
            au[node] += of_u;
            av[node] += of_v;
        }
    }
}

/// What the velocity of one node is worked out from.
struct Water {
    /// "H = h+z".
    column: f64,
    /// "H' = h+z'".
    new_column: f64,
    u: f64,
    v: f64,
    px: f64,
    py: f64,
    au: f64,
    av: f64,
    /// Wx and Wy.
    wind: [f64; 2],
    /// Wx' and Wy'.
    new_wind: [f64; 2],
    s: f64,
}

impl Water {
    /// "r = (dt·K)/(2·H'), p = 1+r", "q = (f·dt)/2", and by request #102
    /// "m = 1 - (dt·K)/(2·H) with H at the present step, while p keeps H'".
    /// "Rx = ((m·U + q·V) - gx) + wx, Ry = ((m·V - q·U) - gy) + wy", with
    /// advection "after gx and before wx"; "n = p·p + q·q. U' = (p·Rx + q·Ry)/n,
    /// V' = (p·Ry - q·Rx)/n."
    fn new_velocity(&self, parameters: Parameters, axes: Axes) -> (f64, f64) {
        let Parameters { dt, k, f, .. } = parameters;
        let p = 1.0 + (dt * k) / (2.0 * self.new_column);
        let m = 1.0 - (dt * k) / (2.0 * self.column);
        let q = (f * dt) / 2.0;
        let gx = self.slope(dt, self.px);
        let gy = self.slope(dt, self.py);
        let [wx, wy] = [0, 1].map(|axis| self.gust(dt, axis));
        let (ax, ay) = (axes[0], axes[1]);
        let rate_u = (ax.rate)(self.au, dt, self.s);
        let rate_v = (ay.rate)(self.av, dt, self.s);
        let rx = (ax.in_r)((m * self.u + q * self.v) - gx, rate_u, wx);
        let ry = (ay.in_r)((m * self.v - q * self.u) - gy, rate_v, wy);
        let n = p * p + q * q;
        ((p * rx + q * ry) / n, (p * ry - q * rx) / n)
    }

    /// "gx = ((g·dt)·Px)/(2·S)", "likewise y".
    fn slope(&self, dt: f64, sum: f64) -> f64 {
        ((G * dt) * sum) / (2.0 * self.s)
    }

    /// "wx = (dt·(Wx'/H' + Wx/H))/2, likewise y".
    fn gust(&self, dt: f64, axis: usize) -> f64 {
        let new = self.new_wind[axis] / self.new_column;
        (dt * (new + self.wind[axis] / self.column)) / 2.0
    }
}

/// The five runs of the work room.
fn runs_of(work: &mut [f64], n: usize) -> [&mut [f64]; WORK_RUNS] {
    let (first, rest) = work.split_at_mut(n);
    let (second, rest) = rest.split_at_mut(n);
    let (third, rest) = rest.split_at_mut(n);
    let (fourth, fifth) = rest.split_at_mut(n);
    [first, second, third, fourth, fifth]
}

/// The new values of every node, z' then U' then V', left in the first 3N of the
/// work room.
pub(crate) fn new_values(
    work: &mut [f64],
    sums: &mut [u64],
    mesh: &Mesh,
    state: &State,
    elevation: f64,
    winds: &Winds,
    axes: Axes,
) -> Result<(), Answer> {
    let n = mesh.nodes();
    let [first, second, third, fourth, fifth] = runs_of(work, n);
    add_areas(sums, mesh);
    add_corner_values(first, mesh, state, winds, axes);
    new_elevations(first, sums, mesh, state, elevation);
    row_13_elevations(first, mesh)?;
    add_slopes(second, third, first, mesh, state);
    add_advection(fourth, fifth, mesh, state, axes);
    for node in 0..n {
        let water = Water {
            column: mesh.h[node] + state.z[node],
            new_column: mesh.h[node] + first[node],
            u: state.u[node],
            v: state.v[node],
            px: second[node],
            py: third[node],
            au: fourth[node],
            av: fifth[node],
            wind: winds.present.map(|run| run[node]),
            new_wind: winds.new.map(|run| run[node]),
            s: sums[node] as f64,
        };
        // "At kind 2 both are +0."
        (second[node], third[node]) = if mesh.kind[node] == HELD_LAND {
            (0.0, 0.0)
        } else {
            water.new_velocity(mesh.p, axes)
        };
    }
    row_13_velocities(second, third)
}

/// Steps a run once: rows 1 to 9 but 6, "10, 11, 12, then 13".
///
/// "The next state is z, z', U', V'", and then Wx', Wy'; "the clock gains one
/// step". "A refusal leaves state, next state, text and clock as found. Work
/// room is untouched by every refusal but 13, and all zero after an accepted
/// step or a 13."
#[allow(clippy::too_many_arguments)] // each slice is lent by itself
pub fn step(
    next: &mut [f64],
    work: &mut [f64],
    sums: &mut [u64],
    state: &[f64],
    forcing: &[f64],
    x: &[i32],
    y: &[i32],
    tri: &[u16],
    h: &[f64],
    kind: &[u8],
    p: Parameters,
    clock: Clock,
) -> (Answer, Clock) {
    let mesh = Mesh::lent(x, y, tri, h, kind, p);
    let lengths = [next.len(), work.len(), sums.len()];
    if let Err(refusal) = rows_1_to_12(&mesh, lengths, state, forcing, clock) {
        return (refusal, clock);
    }
    let (state, forcing) = (State::of(state), Forcing::of(forcing));
    let (winds, axes) = (Winds::of(&state, &forcing), axes(p.advection));
    let elevation = forcing.elevation;
    let outcome = new_values(work, sums, &mesh, &state, elevation, &winds, axes);
    if outcome.is_ok() {
        let new = &work[..3 * mesh.nodes()];
        next.copy_from_slice(&[state.z, new, forcing.wx, forcing.wy].concat());
    }
    work.fill(0.0);
    sums.fill(0);
    match outcome {
        Ok(()) => (Answer::accepted(0), clock.advanced()),
        Err(refusal) => (refusal, clock),
    }
}

/// All that is tested before a step works anything out. The lengths are those
/// of the next state and the two work rooms.
fn rows_1_to_12(
    mesh: &Mesh,
    [next, work, sums]: [usize; 3],
    state: &[f64],
    forcing: &[f64],
    clock: Clock,
) -> Result<(), Answer> {
    let work = Lent::runs(work, WORK_RUNS);
    let lent = [work, Lent::forcing(forcing.len())];
    rows_1_to_10(mesh, lent, [next, sums], state)?;
    row_11(clock)?;
    row_12(&Forcing::of(forcing))
}

/// What any call that steps tests of the run as it is lent: the work room and what
/// forces it are the call's own; the lengths are those of the next state, "a second
/// lent slice" as long as the state, and of the sums.
pub(crate) fn rows_1_to_10(
    mesh: &Mesh,
    [work, forced_by]: [Lent; 2],
    [next, sums]: [usize; 2],
    state: &[f64],
) -> Result<(), Answer> {
    mesh.begin(&[
        Lent::runs(next, STATE_RUNS),
        work,
        Lent::runs(sums, 1),
        Lent::runs(state.len(), STATE_RUNS),
        forced_by,
    ])?;
    row_10(mesh, &State::of(state))
}
