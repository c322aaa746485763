//! Rows 1 to 9, their places, their limits, their order, and opening.

use super::*;
use crate::mesh::Mesh;

/// A square of N = 4, in which the later of two triangles is spoiled.
fn spoiled(corners: [u16; 3]) -> Lent {
    let mut lent = Lent::square();
    lent.tri[3..].copy_from_slice(&corners);
    lent
}

/// A strip of N nodes in two rows, with N-2 triangles.
fn strip(n: u16) -> Lent {
    let mut lent = Lent::mesh_t();
    lent.x = (0..n).map(|i| i32::from(i / 2)).collect();
    lent.y = (0..n).map(|i| i32::from(i % 2)).collect();
    lent.tri = (0..n - 2)
        .flat_map(|i| match i % 2 {
            0 => [i, i + 2, i + 1],
            _ => [i, i + 1, i + 2],
        })
        .collect();
    lent.h = vec![8.0; usize::from(n)];
    lent.kind = vec![0; usize::from(n)];
    lent.state = vec![0.0; 6 * usize::from(n)];
    lent
}

#[test]
fn opening_writes_only_the_cold_state() {
    let mut lent = Lent::square();
    lent.state.fill(f64::from_bits(FILL));
    let rest = (bits(&lent.next), bits(&lent.work), lent.sums.clone());
    let (answer, clock) = lent.open();
    accepted(answer, 0);
    assert_eq!(clock, Clock::COLD);
    assert_eq!(bits(&lent.state), vec![0; 24]);
    assert_eq!((bits(&lent.next), bits(&lent.work), lent.sums), rest);
}

#[test]
fn row_1_each_slice_short_or_long() {
    let spoil: [fn(&mut Lent); 10] = [
        |lent| lent.y.truncate(2),
        |lent| lent.y.push(0),
        |lent| lent.h.truncate(2),
        |lent| lent.h.push(8.0),
        |lent| lent.kind.truncate(2),
        |lent| lent.kind.push(0),
        |lent| lent.tri.push(0),
        |lent| lent.tri.truncate(2),
        |lent| lent.state.truncate(17),
        |lent| lent.state.push(0.0),
    ];
    for spoil in spoil {
        let mut lent = Lent::mesh_t();
        spoil(&mut lent);
        lent.clone().open_refused(1, 0);
        lent.clone().step_refused(1, 0);
        refused(lent.save(&mut [0; 442]), 1, 0);
        refused(lent.load(&examples::cold_save()).0, 1, 0);
    }
}

#[test]
fn row_1_rooms_of_a_step() {
    let spoil: [fn(&mut Lent); 11] = [
        |lent| lent.next.truncate(17),
        |lent| lent.next.truncate(12),
        |lent| lent.next.push(0.0),
        |lent| lent.work.truncate(14),
        |lent| lent.work.push(0.0),
        |lent| lent.sums.truncate(2),
        |lent| lent.sums.push(0),
        |lent| lent.forcing.truncate(6),
        |lent| lent.forcing.truncate(3),
        |lent| lent.forcing.clear(),
        |lent| lent.forcing.push(0.0),
    ];
    for spoil in spoil {
        let mut lent = Lent::mesh_t();
        spoil(&mut lent);
        lent.clone().step_refused(1, 0);
        accepted(lent.open().0, 0);
    }
}

/// "Work room grows by 2N binary64": 5N at either setting, and 3N no more.
#[test]
fn row_1_runs_of_the_work_room() {
    for advection in [false, true] {
        for runs in 0..8 {
            let mut lent = Lent::mesh_t();
            lent.p.advection = advection;
            lent.work.resize(3 * runs, f64::from_bits(FILL));
            match runs {
                5 => lent.step_accepted(),
                _ => lent.step_refused(1, 0),
            }
        }
    }
}

#[test]
fn any_lengths_are_answered() {
    for code in 0..3_usize.pow(10) {
        let length = |slice: u32, right: usize| match (code / 3_usize.pow(slice)) % 3 {
            0 => 0,
            1 => right,
            _ => right + 1,
        };
        let mut lent = Lent::mesh_t();
        lent.x.resize(length(0, 3), 0);
        lent.y.resize(length(1, 3), 0);
        lent.tri.resize(length(2, 3), 0);
        lent.h.resize(length(3, 3), 8.0);
        lent.kind.resize(length(4, 3), 0);
        lent.state.resize(length(5, 18), 0.0);
        lent.next.resize(length(6, 18), 0.0);
        lent.work.resize(length(7, 15), 0.0);
        lent.sums.resize(length(8, 3), 0);
        lent.forcing.resize(length(9, 7), 0.0);
        let whole = code == (3_usize.pow(10) - 1) / 2;
        assert_eq!(lent.step().0.number == 0, whole);
        lent.open();
        lent.save(&mut [0; 450]);
        lent.load(&examples::cold_save());
    }
}

#[test]
fn row_1_does_not_wrap() {
    let mesh = Mesh::lent(&X, &Y, &TRI, &H, &KIND, P);
    let lent = crate::mesh::Lent::runs;
    let wrapping = usize::MAX / 3 + 2;
    assert_eq!(wrapping.wrapping_mul(3), 5);
    let refusal = mesh.begin(&[lent(5, wrapping)]);
    refused(refusal.unwrap_err(), 1, 0);
    assert!(mesh.begin(&[lent(18, 6)]).is_ok());
}

#[test]
fn row_2_nodes() {
    for n in [0, 2] {
        let mut lent = strip(3);
        lent.x.truncate(n);
        lent.y.truncate(n);
        lent.h.truncate(n);
        lent.kind.truncate(n);
        lent.state.truncate(6 * n);
        lent.open_refused(2, 0);
    }
    accepted(strip(3).open().0, 0);
    accepted(strip(4_096).open().0, 0);
    strip(4_097).open_refused(2, 0);
}

#[test]
fn row_2_triangles() {
    let mut lent = Lent::mesh_t();
    lent.tri.clear();
    lent.open_refused(2, 0);
    let mut lent = Lent::mesh_t();
    lent.tri = TRI.repeat(8_192);
    lent.clone().open_refused(6, 1);
    accepted(lent.save(&mut [0; 442]), 442);
    lent.tri.extend(TRI);
    refused(lent.save(&mut [0; 442]), 2, 0);
    lent.open_refused(2, 0);
}

#[test]
fn row_3_any_corner() {
    for number in [4, 4_096, 65_535] {
        for corner in 0..3 {
            let mut corners = [0, 2, 3];
            corners[corner] = number;
            spoiled(corners).open_refused(3, 1);
            spoiled(corners).step_refused(3, 1);
        }
    }
}

#[test]
fn row_4_every_difference() {
    for far in [100_001, i32::MAX, i32::MIN, -100_001] {
        for node in 0..3 {
            let mut lent = Lent::mesh_t();
            lent.x[node] = far;
            lent.open_refused(4, 0);
            let mut lent = Lent::mesh_t();
            lent.y[node] = far;
            lent.open_refused(4, 0);
        }
    }
    let mut lent = Lent::square();
    lent.y[3] = 100_001;
    lent.open_refused(4, 1);
}

#[test]
fn row_4_limit() {
    let mut lent = Lent::mesh_t();
    lent.x = vec![-2_147_483_648, -2_147_383_648, -2_147_483_648];
    lent.y = vec![2_147_383_647, 2_147_383_647, 2_147_483_647];
    accepted(lent.open().0, 0);
    let mesh = Mesh::lent(&lent.x, &lent.y, &TRI, &H, &KIND, P);
    let areas: Vec<_> = mesh.triangles().map(|t| t.twice_area()).collect();
    assert_eq!(areas, [10_000_000_000]);
    lent.x = vec![i32::MIN, i32::MAX, 0];
    lent.open_refused(4, 0);
}

#[test]
fn row_5_later_triangle() {
    spoiled([0, 3, 2]).open_refused(5, 1);
    spoiled([0, 0, 0]).open_refused(5, 1);
    let mut lent = Lent::square();
    (lent.x[3], lent.y[3]) = (50, 50);
    lent.open_refused(5, 1);
}

#[test]
fn rows_3_to_5_go_triangle_by_triangle() {
    let mut lent = spoiled([0, 2, 9]);
    lent.tri[..3].copy_from_slice(&[0, 2, 1]);
    lent.open_refused(5, 0);
    let mut lent = spoiled([0, 2, 9]);
    lent.x[1] = 100_001;
    lent.open_refused(4, 0);
    let mut lent = spoiled([9, 0, 0]);
    lent.x[0] = i32::MAX;
    lent.tri.rotate_left(3);
    lent.open_refused(3, 0);
}

#[test]
fn row_6_each_pair_of_legs() {
    for turn in 0..3 {
        let mut lent = spoiled([0, 1, 3]);
        lent.tri[3..].rotate_left(turn);
        lent.clone().open_refused(6, 1);
        lent.tri.rotate_left(3);
        lent.open_refused(6, 1);
    }
}

#[test]
fn row_6_is_at_the_later_triangle() {
    let mut lent = Lent::square();
    lent.tri = vec![0, 1, 2, 0, 2, 3, 0, 1, 3, 1, 2, 3];
    lent.open_refused(6, 2);
}

#[test]
fn row_6_lets_the_other_direction_through() {
    accepted(Lent::square().open().0, 0);
}

#[test]
fn row_6_is_tested_only_when_a_mesh_is_opened() {
    let mut lent = Lent::mesh_t();
    lent.tri = TRI.repeat(2);
    lent.clone().open_refused(6, 1);
    let mut text = [0; 442];
    accepted(lent.save(&mut text), 442);
    accepted(lent.load(&text).0, 0);
    lent.step_accepted();
}

#[test]
fn row_7_first_node() {
    for (corners, node) in [([1, 2, 3], 0), ([0, 2, 3], 1), ([0, 1, 3], 2)] {
        let mut lent = Lent::square();
        lent.tri = corners.to_vec();
        lent.clone().open_refused(7, node);
        lent.step_refused(7, node);
    }
}

#[test]
fn row_8_depth() {
    for node in 0..3 {
        for h in outside(1.0, 12_000.0) {
            let mut lent = Lent::mesh_t();
            lent.h[node] = h;
            lent.clone().open_refused(8, node);
            lent.step_refused(8, node);
        }
        for h in [1.0, 12_000.0] {
            let mut lent = Lent::mesh_t();
            lent.h[node] = h;
            accepted(lent.open().0, 0);
        }
    }
}

#[test]
fn row_8_kind() {
    for node in 0..3 {
        for kind in [0, 1, 2] {
            let mut lent = Lent::mesh_t();
            lent.kind[node] = kind;
            accepted(lent.open().0, 0);
        }
        for kind in [3, 255] {
            let mut lent = Lent::mesh_t();
            lent.kind[node] = kind;
            lent.open_refused(8, node);
        }
    }
    let mut lent = Lent::mesh_t();
    (lent.kind[1], lent.h[2]) = (3, f64::NAN);
    lent.open_refused(8, 1);
}

#[test]
fn row_9_each_parameter() {
    let ranges = [(0.125, 60.0), (0.0, 1.0), (0.0, 1.0), (-0.001, 0.001)];
    let fields: [fn(&mut Parameters) -> &mut f64; 4] =
        [|p| &mut p.dt, |p| &mut p.tau, |p| &mut p.k, |p| &mut p.f];
    for place in 0..4 {
        let (low, high) = ranges[place];
        for value in outside(low, high) {
            let mut lent = Lent::mesh_t();
            *fields[place](&mut lent.p) = value;
            lent.clone().open_refused(9, place);
            lent.step_refused(9, place);
        }
        for value in [low, high, low + high / 2.0] {
            let mut lent = Lent::mesh_t();
            *fields[place](&mut lent.p) = value;
            accepted(lent.open().0, 0);
        }
    }
}

#[test]
fn row_9_does_not_speak_of_advection() {
    let mut lent = Lent::mesh_t();
    lent.p.advection = true;
    accepted(lent.open().0, 0);
    lent.p.f = 1.0;
    lent.open_refused(9, 3);
}

#[test]
fn row_9_minus_zero_is_zero_and_first_place_counts() {
    let mut lent = Lent::mesh_t();
    (lent.p.tau, lent.p.k) = (-0.0, -0.0);
    accepted(lent.open().0, 0);
    (lent.p.k, lent.p.f) = (2.0, f64::NAN);
    lent.open_refused(9, 2);
}

#[test]
fn order_of_rows_1_to_9() {
    let mut lent = spoiled([0, 1, 3]);
    (lent.h[0], lent.p.dt) = (0.0, 0.0);
    lent.tri[3..].copy_from_slice(&[0, 1, 2]);
    lent.clone().open_refused(6, 1);
    lent.clone().step_refused(7, 3);
    lent.tri[3..].copy_from_slice(&[0, 2, 3]);
    lent.clone().open_refused(8, 0);
    lent.h[0] = 8.0;
    lent.clone().open_refused(9, 0);
    lent.tri[3] = 4;
    lent.clone().open_refused(3, 1);
    lent.tri.extend([0, 0, 0].repeat(8_192));
    lent.clone().open_refused(2, 0);
    lent.tri.push(0);
    lent.open_refused(1, 0);
}
