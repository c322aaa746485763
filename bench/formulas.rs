//! The formulas of document 01 on single values, m, advection and the nodes' winds as #102, #103 and #105 of document 02 have them, shared by the
//! two plain programs. The operations and their order are the documents', so that the bits are the product's. What does not change within a step is
//! worked out once, before the loops; whether advection is on is known when a loop is compiled, so that off costs nothing.

use crate::run::Parameters;

const G: f64 = 9.81;

pub const OPEN: u8 = 1;
pub const HELD_LAND: u8 = 2;

/// What one step's formulas share.
#[derive(Clone, Copy)]
pub struct Terms {
    dt: f64,
    tau: f64,
    k: f64,
    f: f64,
    /// 1/dt - tau/2 and 1/dt + tau/2
    earlier_weight: f64,
    new_weight: f64,
    /// dt·K, q and g·dt
    friction: f64,
    q: f64,
    pull: f64,
}

impl Terms {
    pub fn of(p: Parameters) -> Terms {
        Terms {
            dt: p.dt,
            tau: p.tau,
            k: p.k,
            f: p.f,
            earlier_weight: 1.0 / p.dt - p.tau / 2.0,
            new_weight: 1.0 / p.dt + p.tau / 2.0,
            friction: p.dt * p.k,
            q: (p.f * p.dt) / 2.0,
            pull: G * p.dt,
        }
    }
}

/// What a node lends to a triangle.
#[derive(Clone, Copy)]
pub struct Corner {
    pub h: f64,
    pub earlier: f64,
    pub z: f64,
    pub u: f64,
    pub v: f64,
    pub wx: f64,
    pub wy: f64,
}

/// a and b of a triangle, as floats.
#[derive(Clone, Copy)]
pub struct Sides {
    pub a: [f64; 3],
    pub b: [f64; 3],
}

impl Sides {
    /// Row 4 holds, so that the differences fit 32 bits and become floats without loss.
    #[inline(always)]
    pub fn of(x: [i32; 3], y: [i32; 3]) -> Sides {
        let ([x1, x2, x3], [y1, y2, y3]) = (x, y);
        let a = [(x3, x2), (x1, x3), (x2, x1)];
        let b = [(y2, y3), (y3, y1), (y1, y2)];
        let difference = |(to, from): (i32, i32)| f64::from(to.wrapping_sub(from));
        Sides { a: a.map(difference), b: b.map(difference) }
    }

    /// D: both products are at most 10^10, so that nothing is rounded.
    #[inline(always)]
    pub fn twice_area(&self) -> f64 {
        self.a[2] * self.b[1] - self.a[1] * self.b[2]
    }
}

/// What a triangle has that no step changes.
#[derive(Clone, Copy)]
pub struct Shape {
    pub sides: Sides,
    /// D
    pub d: f64,
    /// g times the mean of h
    weight: f64,
}

impl Shape {
    #[inline(always)]
    pub fn of(x: [i32; 3], y: [i32; 3], h: [f64; 3]) -> Shape {
        let sides = Sides::of(x, y);
        Shape { sides, d: sides.twice_area(), weight: G * mean(h) }
    }
}

#[inline(always)]
fn mean(v: [f64; 3]) -> f64 {
    ((v[0] + v[1]) + v[2]) / 3.0
}

/// Along x with b, along y with a.
#[inline(always)]
pub fn slope(v: [f64; 3], w: [f64; 3]) -> f64 {
    (v[0] * w[0] + v[1] * w[1]) + v[2] * w[2]
}

/// A term of advection taken from a value, or left out where it is off. What only such terms use, a compiler then leaves out of the loops.
#[inline(always)]
fn less<const ADVECTION: bool>(value: f64, term: f64) -> f64 {
    if ADVECTION {
        value - term
    } else {
        value
    }
}

/// How U and V change over a triangle.
struct FlowSlopes {
    /// Xu and Yu
    u: [f64; 2],
    /// Xv and Yv
    v: [f64; 2],
}

impl FlowSlopes {
    #[inline(always)]
    fn of(corners: [Corner; 3], sides: Sides) -> FlowSlopes {
        let slopes = |speeds| [slope(speeds, sides.b), slope(speeds, sides.a)];
        FlowSlopes { u: slopes(corners.map(|c| c.u)), v: slopes(corners.map(|c| c.v)) }
    }

    /// What a flow carries along of U and of V.
    #[inline(always)]
    fn carried(&self, x: f64, y: f64) -> [f64; 2] {
        [self.u, self.v].map(|[along_x, along_y]| x * along_x + y * along_y)
    }
}

/// What a triangle gives to its corners.
pub struct Shares {
    /// to R, corner by corner
    pub r: [f64; 3],
    /// to Au and Av, the same at each corner
    pub carried: [f64; 2],
}

#[inline(always)]
pub fn shares<const ADVECTION: bool>(t: &Terms, corners: [Corner; 3], shape: Shape) -> Shares {
    let Shape { sides, d, weight } = shape;
    let Sides { a, b } = sides;
    let z = corners.map(|c| c.z);
    let squares = corners.map(|c| c.z * c.z);
    let ub = mean(corners.map(|c| c.u));
    let vb = mean(corners.map(|c| c.v));
    let risen = mean(corners.map(|c| c.z - c.earlier));
    let qx = mean(corners.map(|c| c.u * (c.h + c.z)));
    let qy = mean(corners.map(|c| c.v * (c.h + c.z)));
    let wx = mean(corners.map(|c| c.wx));
    let wy = mean(corners.map(|c| c.wy));
    let (gx, gy) = (slope(z, b), slope(z, a));
    let (sx, sy) = (slope(squares, b), slope(squares, a));
    let twice = 2.0 * d;
    let flow = FlowSlopes::of(corners, sides);
    let [of_u, of_v] = flow.carried(qx, qy);
    let jx = ((((less::<ADVECTION>(t.f * qy, of_u / d) - (G * sx) / twice) + wx) - t.k * ub) + (ub * risen) / t.dt) + t.tau * qx;
    let jy = ((((less::<ADVECTION>((-t.f) * qx, of_v / d) - (G * sy) / twice) + wy) - t.k * vb) + (vb * risen) / t.dt) + t.tau * qy;
    let share = |j: usize| (jx * b[j] + jy * a[j]) / 2.0 - (weight * (gx * b[j] + gy * a[j])) / twice;
    Shares { r: [share(0), share(1), share(2)], carried: flow.carried(ub, vb) }
}

/// What a node's last rise and its new one are weighed by.
#[inline(always)]
pub fn weights(t: &Terms, s: u64) -> [f64; 2] {
    let l = (s as f64 / 6.0) / t.dt;
    [l * t.earlier_weight, l * t.new_weight]
}

/// z' of a node that is not open.
#[inline(always)]
pub fn new_elevation([last, new]: [f64; 2], z: f64, earlier: f64, r: f64) -> f64 {
    z + (last * (z - earlier) + r) / new
}

/// What a node has gathered from its triangles when its U' and V' are worked out.
#[derive(Clone, Copy)]
pub struct Sums {
    pub px: f64,
    pub py: f64,
    /// Au and Av; not looked at where advection is off
    pub carried: [f64; 2],
    pub s: u64,
}

/// What a node has after the step, but for U' and V'.
#[derive(Clone, Copy)]
pub struct New {
    pub z: f64,
    pub wx: f64,
    pub wy: f64,
}

/// U' and V' of a node that is not held land.
#[inline(always)]
pub fn new_velocity<const ADVECTION: bool>(t: &Terms, c: Corner, new: New, sums: Sums) -> (f64, f64) {
    let column = c.h + c.z;
    let column_new = c.h + new.z;
    let (s, [au, av]) = (sums.s as f64, sums.carried);
    let twice = 2.0 * s;
    let (p, m, q) = (1.0 + t.friction / (2.0 * column_new), 1.0 - t.friction / (2.0 * column), t.q);
    let gx = (t.pull * sums.px) / twice;
    let gy = (t.pull * sums.py) / twice;
    let wx = (t.dt * (new.wx / column_new + c.wx / column)) / 2.0;
    let wy = (t.dt * (new.wy / column_new + c.wy / column)) / 2.0;
    let rx = less::<ADVECTION>((m * c.u + q * c.v) - gx, (t.dt * au) / s) + wx;
    let ry = less::<ADVECTION>((m * c.v - q * c.u) - gy, (t.dt * av) / s) + wy;
    let n = p * p + q * q;
    ((p * rx + q * ry) / n, (p * ry - q * rx) / n)
}
