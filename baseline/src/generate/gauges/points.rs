//! Points in, on, beside and far from the triangles of a mesh.

use crate::generate::dice::Dice;
use crate::generate::pen::Pen;

/// The ends of 32 bits, and what lies next to them.
const ENDS: [i32; 7] = [
    i32::MIN,
    i32::MIN,
    i32::MIN + 1,
    i32::MAX,
    i32::MAX,
    i32::MAX - 1,
    0,
];

/// The corners of any triangle.
fn any_corners(pen: &mut Pen) -> [[i64; 2]; 3] {
    let triangles = pen.triangles();
    let at = 3 * pen.dice.below(triangles);
    let script = &pen.script;
    [at, at + 1, at + 2].map(|place| {
        let node = script.tri.0.get(place).map_or(0, |&node| node.into());
        [&script.x.0, &script.y.0].map(|axis| axis.get(node).map_or(0, |&at| at.into()))
    })
}

/// The point as 32 bits hold it.
fn held(point: [i64; 2]) -> [i32; 2] {
    point.map(|at| at.clamp(i32::MIN.into(), i32::MAX.into()) as i32)
}

/// A point of any kind.
pub(crate) fn any_point(pen: &mut Pen) -> [i32; 2] {
    let inside = point_inside(pen);
    let dice = &mut pen.dice;
    match dice.below(14) {
        0 => [(); 2].map(|()| dice.bits() as i32),
        1..3 => [(); 2].map(|()| dice.one_of(&ENDS)),
        3 => {
            let [x, y] = [(); 2].map(|()| dice.one_of(&ENDS));
            dice.one_of(&[[x, inside[1]], [inside[0], y]])
        }
        4..8 => beside(pen),
        _ => inside,
    }
}

/// A point that a triangle contains, or that is rounded to one beside it.
pub(crate) fn point_inside(pen: &mut Pen) -> [i32; 2] {
    let corners = any_corners(pen);
    let dice = &mut pen.dice;
    held(match dice.below(8) {
        0..2 => corners[dice.below(3)],
        2..5 => on_edge(dice, corners),
        _ => weighted(dice, corners),
    })
}

/// A point on one of the edges, its ends among them: as far along as whole metres
/// allow.
fn on_edge(dice: &mut Dice, corners: [[i64; 2]; 3]) -> [i64; 2] {
    let first = dice.below(3);
    let (from, to) = (corners[first], corners[(first + 1) % 3]);
    let way = [to[0] - from[0], to[1] - from[1]];
    let parts = common_divisor(way[0], way[1]).max(1);
    let along = dice.between(0, parts);
    [0, 1].map(|axis| from[axis] + way[axis] / parts * along)
}

fn common_divisor(one: i64, other: i64) -> i64 {
    match other {
        0 => one.abs(),
        _ => common_divisor(other, one % other),
    }
}

/// A point by any weights of the corners.
fn weighted(dice: &mut Dice, corners: [[i64; 2]; 3]) -> [i64; 2] {
    let weights = [(); 3].map(|()| dice.between(1, 1_000));
    let whole: i64 = weights.iter().sum();
    [0, 1].map(|axis| {
        let sum: i64 = (0..3).map(|j| weights[j] * corners[j][axis]).sum();
        sum.div_euclid(whole)
    })
}

/// A point close to a triangle: a metre off an edge, or across it by as much as
/// the triangle is wide.
fn beside(pen: &mut Pen) -> [i32; 2] {
    let corners = any_corners(pen);
    let dice = &mut pen.dice;
    let [x, y] = on_edge(dice, corners);
    let [dx, dy] = [(); 2].map(|()| dice.between(-1, 1));
    let first = dice.below(3);
    let [one, two, three] = [0, 1, 2].map(|i| corners[(first + i) % 3]);
    let across = [0, 1].map(|axis| one[axis] + two[axis] - three[axis]);
    held(dice.one_of(&[[x + dx, y + dy], [x + dx, y + dy], across]))
}
