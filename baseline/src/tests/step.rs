//! Rows 10 to 13, and what an accepted step writes.

use super::*;
use crate::generate::dice::Dice;
use crate::generate::values::{legal, Range};
use crate::mesh::Mesh;
use crate::step::{axes, new_values, Forcing, State, Winds};

/// The smallest wind Wx' on T whose U' at U = 20 is one bit beyond 20:
/// (Wx'/8)/2 is the distance between 20 and its next number.
const ONE_BIT: f64 = 1.0 / 17_592_186_044_416.0;

/// T with one number of the state set, deep enough for any z.
fn deep_t(run: usize, node: usize, value: f64) -> Lent {
    let mut lent = Lent::mesh_t();
    lent.h.fill(12_000.0);
    lent.state[3 * run + node] = value;
    lent
}

/// T with each of the first runs of the state the same at all nodes.
fn uniform(numbers: [f64; 4]) -> Lent {
    let mut lent = Lent::mesh_t();
    for (run, number) in numbers.into_iter().enumerate() {
        lent.state[3 * run..3 * run + 3].fill(number);
    }
    lent
}

/// T with these velocities and a wind that carries those at 20 beyond it.
fn fast(u: [f64; 3], v: [f64; 3]) -> Lent {
    let mut lent = Lent::mesh_t();
    lent.state[6..9].copy_from_slice(&u);
    lent.state[9..12].copy_from_slice(&v);
    lent.force(0.0, ONE_BIT, ONE_BIT);
    lent
}

#[test]
fn row_10_each_run_and_node() {
    let limits = [30.0, 30.0, 20.0, 20.0, 0.1, 0.1];
    for (run, limit) in limits.into_iter().enumerate() {
        for node in 0..3 {
            for value in outside(-limit, limit) {
                deep_t(run, node, value).step_refused(10, node);
                refused(deep_t(run, node, value).save(&mut [0; 442]), 10, node);
            }
            for value in [-limit, limit] {
                accepted(deep_t(run, node, value).save(&mut [0; 442]), 442);
            }
        }
    }
}

/// "Row 10 gains the node winds at 0.1, after U and V": node by node.
#[test]
fn row_10_winds_of_a_node_before_the_next_node() {
    let mut lent = Lent::mesh_t();
    lent.state[2] = f64::NAN;
    lent.state[15 + 1] = 0.2;
    lent.clone().step_refused(10, 1);
    lent.state[12] = f64::NAN;
    lent.step_refused(10, 0);
}

#[test]
fn row_10_column() {
    // No h+z is 0.1 to the last bit: its two neighbours at h 8 are these.
    let (below, above) = (-7.9_f64, (-7.9_f64).next_up());
    assert!(8.0 + below < 0.1 && 8.0 + above > 0.1);
    for node in 0..3 {
        let mut lent = Lent::mesh_t();
        lent.state[3 + node] = below;
        lent.clone().step_refused(10, node);
        lent.state[3 + node] = above;
        accepted(lent.save(&mut [0; 442]), 442);
    }
}

#[test]
fn row_10_column_is_of_the_present_elevation() {
    let lent = uniform([-30.0, 0.0, 0.0, 0.0]);
    accepted(lent.save(&mut [0; 442]), 442);
}

#[test]
fn row_10_first_node() {
    let mut lent = Lent::mesh_t();
    lent.state[2] = f64::NAN;
    lent.state[10] = 21.0;
    lent.step_refused(10, 1);
}

#[test]
fn row_11_last_step_number() {
    let mut lent = Lent::mesh_t();
    lent.clock.step = u32::MAX;
    lent.clone().step_refused(11, 0);
    accepted(lent.save(&mut [0; 442]), 442);
}

/// "with place 1 for the elevation and 2+i for node i".
#[test]
fn row_12_each_place() {
    let places = [1, 2, 3, 4, 2, 3, 4];
    for (at, place) in places.into_iter().enumerate() {
        let limit = if at == 0 { 30.0 } else { 0.1 };
        for value in outside(-limit, limit) {
            let mut lent = Lent::mesh_t();
            lent.forcing[at] = value;
            lent.step_refused(12, place);
        }
        for value in [-limit, limit] {
            let mut lent = Lent::mesh_t();
            lent.forcing[at] = value;
            lent.step_accepted();
        }
    }
}

#[test]
fn order_of_rows_10_to_12() {
    let mut lent = Lent::mesh_t();
    lent.forcing[3] = 1.0;
    lent.clone().step_refused(12, 4);
    lent.forcing[5] = 1.0;
    lent.clone().step_refused(12, 3);
    lent.forcing[1] = 1.0;
    lent.clone().step_refused(12, 2);
    lent.forcing[0] = 31.0;
    lent.clone().step_refused(12, 1);
    lent.clock.step = u32::MAX;
    lent.clone().step_refused(11, 0);
    lent.state[17] = 0.2;
    lent.clone().step_refused(10, 2);
    lent.p.f = 1.0;
    lent.clone().step_refused(9, 3);
    lent.forcing.pop();
    lent.step_refused(1, 0);
}

#[test]
fn row_13_elevation_one_bit_beyond() {
    let mut lent = uniform([30.0, 30.0, 0.0, 0.0]);
    lent.step_accepted();
    assert_eq!(lent.state[3..6], [30.0; 3]);
    uniform([30.0_f64.next_down(), 30.0, 0.0, 0.0]).step_13(0, 30.0_f64.next_up());
    let mut lent = uniform([(-30.0_f64).next_up(), -30.0, 0.0, 0.0]);
    lent.h.fill(12_000.0);
    lent.step_13(0, (-30.0_f64).next_down());
}

#[test]
fn row_13_size_before_column() {
    uniform([25.0, -7.0, 0.0, 0.0]).step_13(0, -39.0);
    uniform([0.0, -4.0, 0.0, 0.0]).step_13(0, 0.0);
}

#[test]
fn row_13_column_at_an_open_node() {
    for node in 0..3 {
        let mut lent = Lent::mesh_t();
        lent.kind[node] = 1;
        lent.forcing[0] = -7.9;
        lent.clone().step_13(node, 8.0 - 7.9);
        lent.forcing[0] = (-7.9_f64).next_up();
        lent.step_accepted();
    }
}

#[test]
fn row_13_elevations_go_node_by_node() {
    let mut lent = uniform([-2.0, 30.0, 0.0, 0.0]);
    lent.forcing[0] = -8.0;
    lent.kind[1] = 1;
    lent.clone().step_13(0, 62.0);
    lent.kind.swap(0, 1);
    lent.step_13(0, 0.0);
}

#[test]
fn row_13_velocity_one_bit_beyond() {
    let beyond = 20.0_f64.next_up();
    for (numbers, winds, value) in [
        ([0.0, 0.0, 20.0, 0.0], [ONE_BIT, 0.0], beyond),
        ([0.0, 0.0, -20.0, 0.0], [-ONE_BIT, 0.0], -beyond),
        ([0.0, 0.0, 0.0, 20.0], [0.0, ONE_BIT], beyond),
        ([0.0, 0.0, 0.0, -20.0], [0.0, -ONE_BIT], -beyond),
    ] {
        let mut lent = uniform(numbers);
        lent.force(0.0, winds[0], winds[1]);
        lent.clone().step_13(0, value);
        lent.force(0.0, winds[0] / 2.0, winds[1] / 2.0);
        lent.step_accepted();
        assert_eq!((lent.state[6], lent.state[9]), (numbers[2], numbers[3]));
    }
}

#[test]
fn row_13_velocities_go_node_by_node() {
    let beyond = 20.0_f64.next_up();
    fast([20.0; 3], [-20.0; 3]).step_13(0, beyond);
    let mut lent = fast([20.0; 3], [20.0; 3]);
    lent.force(0.0, ONE_BIT, 0.0625);
    lent.clone().step_13(0, beyond);
    lent.force(0.0, 0.0, 0.0625);
    lent.step_13(0, 20.00390625);
    fast([0.0, 20.0, 20.0], [20.0, 0.0, 0.0]).step_13(0, beyond);
    fast([0.0, 0.0, 20.0], [0.0, 0.0, 0.0]).step_13(2, beyond);
}

#[test]
fn row_13_all_elevations_before_any_velocity() {
    let mut lent = fast([20.0; 3], [20.0; 3]);
    lent.kind[2] = 1;
    lent.forcing[0] = -8.0;
    lent.step_13(2, 0.0);
}

#[test]
fn held_land_stays_at_rest() {
    let mut lent = fast([20.0; 3], [20.0; 3]);
    lent.kind.fill(2);
    lent.force(0.0, -0.1, -0.0);
    lent.step_accepted();
    assert_eq!(bits(&lent.state[6..12]), [0; 6]);
}

#[test]
fn open_nodes_take_the_elevation_of_the_forcing() {
    let mut lent = Lent::square();
    lent.kind = vec![1, 0, 1, 0];
    lent.forcing[0] = -0.0;
    lent.step_accepted();
    let minus_zero = (-0.0_f64).to_bits();
    assert_eq!(bits(&lent.state[4..8]), [minus_zero, 0, minus_zero, 0]);
    lent.forcing[0] = 0.3;
    lent.step_accepted();
    assert_eq!(lent.state[4..8], [0.3, 0.0, 0.3, 0.0]);
}

#[test]
fn present_elevation_becomes_the_earlier_one() {
    let mut lent = Lent::mesh_t();
    let z = [-0.0, f64::from_bits(1), -0.25];
    lent.state[3..6].copy_from_slice(&z);
    lent.step_accepted();
    assert_eq!(bits(&lent.state[..3]), bits(&z));
}

/// The square with every term of the two equations at work.
fn all_terms() -> Lent {
    let mut lent = Lent::square();
    lent.h = vec![8.0, 9.0, 10.0, 11.0];
    lent.p = Parameters {
        dt: 2.0,
        tau: 0.25,
        k: 0.5,
        f: 1.0 / 1024.0,
        advection: false,
    };
    lent.state = vec![
        0.5, 0.25, -0.125, 0.0625, // earlier z
        0.75, 0.375, -0.25, 0.125, // z
        1.0, -0.5, 0.25, 2.0, // U
        -1.5, 0.75, 0.5, -0.25, // V
        0.0625, 0.0625, 0.0625, 0.0625, // Wx
        -0.03125, -0.03125, -0.03125, -0.03125, // Wy
    ];
    lent.force(0.5, 0.03125, 0.046875);
    lent
}

/// Expected values worked out from the document in exact rational arithmetic.
#[test]
fn every_term_against_rational_arithmetic() {
    let mut lent = all_terms();
    lent.step_accepted();
    let expected = [
        [0.75, 0.375, -0.25, 0.125],
        [
            0.86666947890625,
            0.48667742239583334,
            -0.17381061744791668,
            -0.1098951453125,
        ],
        [
            0.9555591736869133,
            -0.36838177954120493,
            0.29155711802834217,
            1.875236809842925,
        ],
        [
            -1.204923491123325,
            0.7965781681373275,
            0.587129578621074,
            -0.08025482948687061,
        ],
    ];
    for (number, value) in lent.state[..16].iter().zip(expected.as_flattened()) {
        assert!((number - value).abs() <= 1e-12, "{number} {value}");
    }
}

#[test]
fn kinds_change_only_their_own_values() {
    let mut free = all_terms();
    free.step_accepted();
    let mut held = all_terms();
    held.kind[1] = 2;
    held.step_accepted();
    (free.state[9], free.state[13]) = (0.0, 0.0);
    assert_eq!(bits(&held.state), bits(&free.state));
}

#[test]
fn lent_rooms_do_not_matter() {
    let mut filled = all_terms();
    let mut zero = all_terms();
    zero.next.fill(0.0);
    zero.work.fill(0.0);
    zero.sums.fill(0);
    filled.step_accepted();
    zero.step_accepted();
    assert_eq!(bits(&filled.state), bits(&zero.state));
}

/// "m = 1 - (dt·K)/(2·H) with H at the present step, while p keeps H'": an open
/// T in still air, whose U' is (m·U)/p. dt·K is 0.5, H is 0.5 and H' is 1. With
/// U = 1, H' in both would give 0.6, H in both a third, each in the other's
/// place 0.5, H without the 2 nothing, and H of the earlier z 0.64.
#[test]
fn friction_by_hand() {
    let mut lent = uniform([0.25, -0.5, 1.0, -2.0]);
    lent.h.fill(1.0);
    lent.kind.fill(1);
    (lent.p.dt, lent.p.k) = (8.0, 0.0625);
    lent.step_accepted();
    let (p, m) = (1.25, 0.5);
    assert_eq!(lent.state[6..9], [m / p; 3]);
    assert_eq!(lent.state[9..12], [-2.0 * m / p; 3]);
}

/// What p and m divide dt·K by, first the two of the rule: then H' in both, H
/// in both, each in the other's place, H without the 2, and H of the earlier z.
fn divisors(lent: &Lent, z_new: &[f64], node: usize) -> [[f64; 2]; 6] {
    let over = |z: f64| 2.0 * (lent.h[node] + z);
    let (earlier, present) = (over(lent.state[node]), over(lent.state[3 + node]));
    let new = over(z_new[node]);
    [
        [new, present],
        [new, new],
        [present, present],
        [present, new],
        [new, present / 2.0],
        [new, earlier],
    ]
}

/// An advective term between what stands before it and after it in J or R.
type Place = fn(f64, f64, f64) -> f64;

/// J from f·Qy to the squared-elevation term, first as the request has it: then
/// with the term added, taken after the other, divided by 2·D, and left out.
const IN_J: [Place; 5] = [
    |coriolis, term, squared| (coriolis - term) - squared,
    |coriolis, term, squared| (coriolis + term) - squared,
    |coriolis, term, squared| (coriolis - squared) - term,
    |coriolis, term, squared| (coriolis - term / 2.0) - squared,
    |coriolis, _, squared| coriolis - squared,
];

/// R from gx to wx, first as the request has it: then with the term added, taken
/// after wx, and left out.
const IN_R: [Place; 4] = [
    |up_to_slope, term, wind| (up_to_slope - term) + wind,
    |up_to_slope, term, wind| (up_to_slope + term) + wind,
    |up_to_slope, term, wind| (up_to_slope + wind) - term,
    |up_to_slope, _, wind| up_to_slope + wind,
];

/// A run of the state, at the nodes of T.
fn run_of(lent: &Lent, run: usize) -> [f64; 3] {
    [0, 1, 2].map(|node| lent.state[3 * run + node])
}

fn mean(v: [f64; 3]) -> f64 {
    ((v[0] + v[1]) + v[2]) / 3.0
}

/// The two gradients of T, which has b = -100, 100, 0 and a = -100, 0, 100.
fn gradients([v1, v2, v3]: [f64; 3]) -> [f64; 2] {
    [
        (v1 * -100.0 + v2 * 100.0) + v3 * 0.0,
        (v1 * -100.0 + v2 * 0.0) + v3 * 100.0,
    ]
}

/// z' of T as "Elevation" has them, with advection in any place; by request #105
/// "Jx and Jy use the mean of the three corner winds". D and S are 10,000.
fn elevations(lent: &Lent, in_j: Place) -> [f64; 3] {
    let Parameters { dt, tau, k, f, .. } = lent.p;
    let nodes = [0, 1, 2];
    let [earlier, z, u, v] = [0, 1, 2, 3].map(|run| run_of(lent, run));
    let star = nodes.map(|i| z[i] - earlier[i]);
    let column = nodes.map(|i| lent.h[i] + z[i]);
    let (hb, ub, vb) = (mean(nodes.map(|i| lent.h[i])), mean(u), mean(v));
    let qx = mean(nodes.map(|i| u[i] * column[i]));
    let qy = mean(nodes.map(|i| v[i] * column[i]));
    let ([gx, gy], [sx, sy]) = (gradients(z), gradients(z.map(|z| z * z)));
    let ([xu, yu], [xv, yv]) = (gradients(u), gradients(v));
    let term_u = (qx * xu + qy * yu) / 10_000.0;
    let term_v = (qx * xv + qy * yv) / 10_000.0;
    let jx = in_j(f * qy, term_u, (9.81 * sx) / 20_000.0);
    let jy = in_j((-f) * qx, term_v, (9.81 * sy) / 20_000.0);
    let [wx, wy] = [4, 5].map(|run| mean(run_of(lent, run)));
    let jx = (((jx + wx) - k * ub) + (ub * mean(star)) / dt) + tau * qx;
    let jy = (((jy + wy) - k * vb) + (vb * mean(star)) / dt) + tau * qy;
    let l = (10_000.0 / 6.0) / dt;
    nodes.map(|i| {
        let (a, b) = ([-100.0, 0.0, 100.0][i], [-100.0, 100.0, 0.0][i]);
        let r = 0.0 + ((jx * b + jy * a) / 2.0 - ((9.81 * hb) * (gx * b + gy * a)) / 20_000.0);
        let weighed = (l * (1.0 / dt - tau / 2.0)) * star[i] + r;
        z[i] + weighed / (l * (1.0 / dt + tau / 2.0))
    })
}

/// U' and V' of a node of T as "Velocity" has them, with any divisors in p and
/// m, and with advection in any place.
fn velocity(
    lent: &Lent,
    z_new: &[f64],
    node: usize,
    [in_p, in_m]: [f64; 2],
    in_r: Place,
) -> [u64; 2] {
    let Parameters { dt, k, f, .. } = lent.p;
    let (p, m, q) = (1.0 + (dt * k) / in_p, 1.0 - (dt * k) / in_m, (f * dt) / 2.0);
    let z = run_of(lent, 1);
    let [px, py] = gradients([0, 1, 2].map(|corner| z[corner] + z_new[corner]));
    let (px, py) = (0.0 + px, 0.0 + py);
    let slope = |sum: f64| ((9.81 * dt) * sum) / 20_000.0;
    let means = [2, 3].map(|run| mean(run_of(lent, run)));
    let [au, av] = [2, 3].map(|run| {
        let [x, y] = gradients(run_of(lent, run));
        (dt * (0.0 + (means[0] * x + means[1] * y))) / 10_000.0
    });
    let (column, new_column) = (lent.h[node] + z[node], lent.h[node] + z_new[node]);
    let wind = |new: f64, present: f64| (dt * (new / new_column + present / column)) / 2.0;
    let (wx, wy) = (
        wind(lent.forcing[1 + node], lent.state[12 + node]),
        wind(lent.forcing[4 + node], lent.state[15 + node]),
    );
    let (u, v) = (lent.state[6 + node], lent.state[9 + node]);
    let rx = in_r((m * u + q * v) - slope(px), au, wx);
    let ry = in_r((m * v - q * u) - slope(py), av, wy);
    let n = p * p + q * q;
    [(p * rx + q * ry) / n, (p * ry - q * rx) / n].map(f64::to_bits)
}

/// T with any numbers, but so much water and so small a dt that every z'
/// passes row 13.
fn any_t(dice: &mut Dice, k: f64) -> Lent {
    let mut lent = Lent::mesh_t();
    let mut any = |low: f64, high: f64| legal(dice, Range { low, high });
    lent.h.fill_with(|| any(30.0, 34.0));
    lent.p = Parameters {
        dt: any(0.125, 1.0),
        tau: any(0.0, 0.125),
        k,
        f: any(-0.001, 0.001),
        advection: false,
    };
    let limits = [1.0, 1.0, 20.0, 20.0, 0.1, 0.1];
    for (numbers, limit) in lent.state.chunks_mut(3).zip(limits) {
        numbers.fill_with(|| any(-limit, limit));
    }
    lent.forcing[1..].fill_with(|| any(-0.1, 0.1));
    lent
}

/// z', and U' and V' of each node, those that row 13 refuses among them.
fn worked_out(lent: &Lent) -> (Vec<f64>, Vec<[u64; 2]>) {
    let (x, y, tri, h) = (&lent.x, &lent.y, &lent.tri, &lent.h);
    let mesh = Mesh::lent(x, y, tri, h, &lent.kind, lent.p);
    let (mut work, mut sums) = (lent.work.clone(), lent.sums.clone());
    let (state, forcing) = (State::of(&lent.state), Forcing::of(&lent.forcing));
    let (winds, axes) = (Winds::of(&state, &forcing), axes(lent.p.advection));
    let elevation = forcing.elevation;
    // A refusal of U' or V' says no more than the values themselves.
    let _ = new_values(&mut work, &mut sums, &mesh, &state, elevation, &winds, axes);
    let velocity = |node: usize| [work[3 + node], work[6 + node]].map(f64::to_bits);
    (work[..3].to_vec(), (0..3).map(velocity).collect())
}

#[test]
fn friction_on_any_state() {
    let mut dice = Dice::of(102, 0);
    let mut told = [0; 6];
    for _ in 0..300 {
        let lent = any_t(&mut dice, 0.5);
        let (z_new, velocities) = worked_out(&lent);
        for (node, found) in velocities.into_iter().enumerate() {
            let rules = divisors(&lent, &z_new, node);
            let other = rules.map(|rule| velocity(&lent, &z_new, node, rule, IN_R[3]) != found);
            assert!(!other[0], "{:?}", lent.state);
            for (count, other) in told.iter_mut().zip(other) {
                *count += usize::from(other);
            }
        }
    }
    // A node at rest tells no rule from another.
    assert!(told[1..].iter().all(|&count| count > 800), "{told:?}");
}

/// "with K = 0 all bits stay as they were": the earlier rule has H' in both.
#[test]
fn without_friction_the_bits_of_the_earlier_rule() {
    let mut dice = Dice::of(102, 1);
    for k in [0.0, -0.0].repeat(300) {
        let lent = any_t(&mut dice, k);
        let (z_new, velocities) = worked_out(&lent);
        for (node, found) in velocities.into_iter().enumerate() {
            let earlier_rule = divisors(&lent, &z_new, node)[1];
            let by_rule = velocity(&lent, &z_new, node, earlier_rule, IN_R[3]);
            assert_eq!(by_rule, found);
        }
    }
}

/// A triangle of legs 96 and 128 whose numbers are all dyadic: a = -96, 0, 96, b
/// = -128, 128, 0, D and S are 12,288 and S/6 is 2,048. Ub = 4 and Vb = 2, Xu =
/// 128·6 = 768 and Yu = 96·3 = 288, Xv = -384 and Yv = 288.
fn stream() -> Lent {
    let mut lent = Lent::mesh_t();
    (lent.x[1], lent.y[2]) = (96, 128);
    lent.p.advection = true;
    lent.state[6..12].copy_from_slice(&[1.0, 7.0, 4.0, 2.0, -1.0, 5.0]);
    lent
}

/// Qx = 32 and Qy = 16: Jx = -(32·768 + 16·288)/12,288 = -19/8 and Jy = -(16·288 -
/// 32·384)/12,288 = 5/8. R is 122, -152 and 30, and z' = R/2,048.
#[test]
fn advection_in_elevation_by_hand() {
    let mut lent = stream();
    lent.step_accepted();
    let by_hand = [122.0, -152.0, 30.0].map(|r| r / 2_048.0);
    assert_eq!(lent.state[3..6], by_hand);
    let mut off = stream();
    off.p.advection = false;
    off.step_accepted();
    assert_eq!(off.state[3..6], [0.0; 3]);
}

/// Where all nodes are open: Au = 4·768 + 2·288 = 3,648 and Av = 2·288 - 4·384 =
/// -960, so that with dt = 2 (dt·Au)/S = 19/32 and (dt·Av)/S = -5/32.
#[test]
fn advection_in_velocity_by_hand() {
    let mut lent = stream();
    lent.kind.fill(1);
    lent.p.dt = 2.0;
    let mut off = lent.clone();
    off.p.advection = false;
    off.step_accepted();
    assert_eq!(off.state[6..], lent.state[6..]);
    lent.step_accepted();
    let (u, v) = (lent.state[6..9].to_vec(), lent.state[9..12].to_vec());
    assert_eq!(u, [1.0, 7.0, 4.0].map(|u| u - 19.0 / 32.0));
    assert_eq!(v, [2.0, -1.0, 5.0].map(|v| v + 5.0 / 32.0));
}

/// The square with sides of 128: D is 16,384, Au of its triangles 1,920 and
/// 2,688, Av -384 and 384. Nodes 0 and 2 are in both, nodes 1 and 3 in one each.
#[test]
fn the_sums_of_advection_go_over_the_triangles_of_a_node() {
    let mut lent = Lent::square();
    (lent.x, lent.y) = (vec![0, 128, 128, 0], vec![0, 0, 128, 128]);
    lent.kind.fill(1);
    lent.p.advection = true;
    let (u, v) = ([0.0, 3.0, 6.0, 3.0], [3.0, 0.0, 3.0, 6.0]);
    lent.state[8..16].copy_from_slice(&[u, v].concat());
    lent.step_accepted();
    let (both, one) = (32_768.0, 16_384.0);
    let taken_u = [4_608.0 / both, 1_920.0 / one, 4_608.0 / both, 2_688.0 / one];
    let taken_v = [0.0, -384.0 / one, 0.0, 384.0 / one];
    for node in 0..4 {
        assert_eq!(lent.state[8 + node], u[node] - taken_u[node]);
        assert_eq!(lent.state[12 + node], v[node] - taken_v[node]);
    }
}

/// Any T with so small a dt that advection too leaves every z' in its range.
fn any_stream(dice: &mut Dice, advection: bool) -> Lent {
    let mut lent = any_t(dice, 0.5);
    lent.p.dt = lent.p.dt.min(0.25);
    lent.p.advection = advection;
    lent
}

/// How many of some states tell each place in J, and how many of their nodes
/// each place in R, from what a step gives.
fn told(dice: &mut Dice, advection: bool) -> ([usize; 5], [usize; 4]) {
    let (mut told_j, mut told_r) = ([0; 5], [0; 4]);
    for _ in 0..300 {
        let lent = any_stream(dice, advection);
        let (z_new, velocities) = worked_out(&lent);
        for (count, place) in told_j.iter_mut().zip(IN_J) {
            *count += usize::from(bits(&elevations(&lent, place)) != bits(&z_new));
        }
        for (node, found) in velocities.into_iter().enumerate() {
            let rule = divisors(&lent, &z_new, node)[0];
            for (count, place) in told_r.iter_mut().zip(IN_R) {
                *count += usize::from(velocity(&lent, &z_new, node, rule, place) != found);
            }
        }
    }
    (told_j, told_r)
}

#[test]
fn advection_on_any_state() {
    let (told_j, told_r) = told(&mut Dice::of(103, 0), true);
    assert_eq!((told_j[0], told_r[0]), (0, 0));
    // Another order is told by rounding alone.
    let mut others = told_j[1..].iter().chain(&told_r[1..]);
    assert!(others.all(|&count| count > 10), "{told_j:?} {told_r:?}");
}

/// "Off gives the earlier bits."
#[test]
fn off_gives_the_earlier_bits_on_any_state() {
    let (told_j, told_r) = told(&mut Dice::of(103, 1), false);
    assert_eq!((told_j[4], told_r[3]), (0, 0));
    assert!(told_j[0] > 290 && told_r[0] > 870, "{told_j:?} {told_r:?}");
}

/// Water that moves alike everywhere, or not at all, has nothing to carry.
#[test]
fn advection_of_even_water_is_nothing() {
    for numbers in [[0.0; 4], [0.0, 0.0, 5.0, -7.0], [0.25, 0.5, 0.0, 0.0]] {
        let mut on = uniform(numbers);
        on.force(0.0, 0.0625, 0.0);
        let mut off = on.clone();
        on.p.advection = true;
        on.step_accepted();
        off.step_accepted();
        assert_eq!(bits(&on.state), bits(&off.state));
    }
}

/// A run that advection leads over a limit, and that is accepted without it.
fn over_by_advection(mut lent: Lent, node: usize, value: f64) {
    lent.clone().step_accepted();
    lent.p.advection = true;
    lent.step_13(node, value);
}

/// Ub = 1 and Xu = -2,500, so that Au = -2,500, or Ub = -1 and Au = 2,500; V
/// likewise, with Yv.
#[test]
fn row_13_velocity_by_advection() {
    for (run, speeds, node, value) in [
        (2, [20.0, -5.0, -12.0], 0, 20.25),
        (2, [5.0, -20.0, 12.0], 1, -20.25),
        (3, [20.0, -12.0, -5.0], 0, 20.25),
        (3, [5.0, 12.0, -20.0], 2, -20.25),
    ] {
        let mut lent = Lent::mesh_t();
        lent.kind.fill(1);
        lent.state[3 * run..3 * run + 3].copy_from_slice(&speeds);
        over_by_advection(lent, node, value);
    }
}

/// Over 40 m of level water Qx = 40, so that Jx = 10 and R is -500, 500, 0.
#[test]
fn row_13_elevation_by_advection() {
    let level = |h: f64, z: f64| {
        let mut lent = uniform([z, z, 0.0, 0.0]);
        lent.h.fill(h);
        lent.state[6..9].copy_from_slice(&[20.0, -5.0, -12.0]);
        lent
    };
    let rise = 500.0 / (10_000.0 / 6.0);
    over_by_advection(level(10.0, 30.0), 1, 30.0 + rise);
    over_by_advection(level(70.0, -30.0), 0, -30.0 - rise);
    // Over 1/4 m Jx is 1/16 and R -25/8, 25/8, 0.
    let mut low = level(10.0, -9.75);
    low.p.dt = 16.0;
    let fall = 3.125 / (((10_000.0 / 6.0) / 16.0) * (1.0 / 16.0));
    over_by_advection(low, 0, 10.0 + (-9.75 - fall));
}

#[test]
fn refusals_leave_the_work_room_of_either_setting() {
    for advection in [false, true] {
        let mut lent = stream();
        lent.p.advection = advection;
        lent.forcing[6] = 1.0;
        lent.clone().step_refused(12, 4);
        lent.clock.step = u32::MAX;
        lent.clone().step_refused(11, 0);
        lent.state[8] = 21.0;
        lent.clone().step_refused(10, 2);
        lent.p.k = 2.0;
        lent.clone().step_refused(9, 2);
        lent.work.truncate(9);
        lent.step_refused(1, 0);
    }
}

#[test]
fn advection_leaves_held_land_at_rest() {
    let mut lent = stream();
    lent.kind[1] = 2;
    lent.step_accepted();
    assert_eq!(bits(&[lent.state[7], lent.state[10]]), [0; 2]);
    assert_ne!(lent.state[6], 1.0);
}

/// READINGS: "mean of 0.1, 0.1, 0.1 is 0.10000000000000002", so that one wind
/// everywhere is not the same as that wind in J.
#[test]
fn the_mean_of_equal_winds_need_not_be_that_wind() {
    assert_eq!(mean([0.1; 3]), 0.10000000000000002);
    assert_ne!(mean([0.1; 3]), 0.1);
}

/// On T at rest J is the mean wind alone, and R of node 1 is (Jx·100)/2: with winds
/// of 3/64, 0 and 0 the mean is 1/64, whichever corner has them.
#[test]
fn elevation_by_the_mean_of_the_corners() {
    for node in 0..3 {
        let mut lent = Lent::mesh_t();
        lent.state[12 + node] = 3.0 / 64.0;
        let mut along_y = Lent::mesh_t();
        along_y.state[15 + node] = 3.0 / 64.0;
        lent.step_accepted();
        along_y.step_accepted();
        let rise = (100.0 / 64.0) / 2.0 / (10_000.0 / 6.0);
        for (found, expected) in [
            (&lent.state[3..6], [-rise, rise, 0.0]),
            (&along_y.state[3..6], [-rise, 0.0, rise]),
        ] {
            for (number, value) in found.iter().zip(expected) {
                assert!((number - value).abs() < 1e-15, "{number} {value}");
            }
        }
    }
}

/// "velocity uses the node's own": on an open T at rest U' is (dt·(Wx'/H' +
/// Wx/H))/2, and V' likewise.
#[test]
fn velocity_by_the_winds_of_the_node() {
    let mut lent = Lent::mesh_t();
    lent.kind.fill(1);
    let winds = [0.0625, -0.03125, 0.015625, -0.0078125, 0.046875, -0.0];
    lent.state[12..].copy_from_slice(&winds);
    let new = [0.03125, 0.0, -0.0625, 0.09375, -0.015625, 0.0078125];
    lent.forcing[1..].copy_from_slice(&new);
    lent.step_accepted();
    for at in 0..6 {
        assert_eq!(lent.state[6 + at], (new[at] / 8.0 + winds[at] / 8.0) / 2.0);
    }
}

/// "The next state is z, z', U', V'", and the winds of the forcing, -0 and all.
#[test]
fn the_winds_of_the_forcing_become_the_present_ones() {
    let mut lent = Lent::square();
    lent.state[16..].fill(0.05);
    lent.forcing = vec![0.0, -0.0, 0.1, -0.1, 0.0, 5e-324, -0.0, 0.02, -0.03];
    let found = bits(&lent.forcing[1..]);
    lent.step_accepted();
    assert_eq!(bits(&lent.state[16..]), found);
}
