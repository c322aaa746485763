//! Meshes: fans, strips, jittered grids, islands and heaps of triangles.

use super::dice::Dice;
use super::values::{at_edge, inside, Range, DEPTH};
use std::collections::HashSet;

/// "Each |a|, |b| is at most 100,000".
const LONGEST: i64 = 100_000;

/// A mesh as a script sets it.
#[derive(Clone)]
pub(crate) struct World {
    pub points: Vec<Point>,
    pub triangles: Vec<[usize; 3]>,
    pub h: Vec<f64>,
    pub kind: Vec<u8>,
}

type Point = [i64; 2];

/// How a mesh is meant to behave.
#[derive(Clone, Copy, PartialEq)]
pub(crate) enum Manner {
    /// Wide triangles over shallow water: long runs are accepted.
    Calm,
    /// Very wide triangles: large numbers, and yet most steps are accepted.
    Bold,
    /// Any legal distances and depths.
    Wild,
    /// Calm water, with whatever the shape gave: triangles turned clockwise,
    /// flat or laid twice, and nodes in no triangle.
    Raw,
}

/// A mesh under way: points, and triangles that may break any of rows 4 to 7.
struct Shape {
    points: Vec<Point>,
    triangles: Vec<[usize; 3]>,
}

/// A mesh of about this many nodes. One that is not raw breaks no row.
pub(crate) fn world(dice: &mut Dice, nodes: usize, manner: Manner) -> World {
    let spacing = spacing(dice, manner);
    let mut shape = shape(dice, nodes, spacing);
    for triangle in &mut shape.triangles {
        let turn = dice.below(3);
        triangle.rotate_left(turn);
    }
    if !dice.one_in(4) {
        shape = shuffled(dice, shape);
    }
    if manner != Manner::Raw {
        shape = legal(shape);
    }
    moved(dice, &mut shape);
    furnished(dice, shape, manner)
}

/// A calm grid of 4,096 nodes, so close that any three of them may be the
/// corners of a triangle.
pub(crate) fn full_grid(dice: &mut Dice) -> World {
    let spacing = dice.between(500, 1_200);
    let shape = grid(dice, 4_096, spacing);
    let shape = legal(shuffled(dice, shape));
    furnished(dice, shape, Manner::Calm)
}

/// How far apart the nodes are.
fn spacing(dice: &mut Dice, manner: Manner) -> i64 {
    let wide = dice.between(500, 20_000);
    match manner {
        Manner::Calm => wide,
        Manner::Bold => 80_000 + wide,
        _ => dice.one_of(&[1, 2, 10, 100, wide, LONGEST]),
    }
}

fn shape(dice: &mut Dice, nodes: usize, spacing: i64) -> Shape {
    if nodes >= 6 && dice.one_in(6) {
        return islands(dice, nodes, spacing);
    }
    match dice.below(6) {
        0 => fan(dice, nodes, spacing),
        1 => strip(dice, nodes, spacing),
        2 if nodes <= 40 => heap(dice, nodes, spacing),
        _ => grid(dice, nodes, spacing),
    }
}

/// The points of a shape that was laid out evenly, most often shifted a little:
/// so little that the triangles of a grid stay the right way round. At the
/// longest spacing a shift would break row 4.
fn jittered(dice: &mut Dice, spacing: i64, mut points: Vec<Point>) -> Vec<Point> {
    let most = spacing / 4;
    if spacing < LONGEST / 2 && !dice.one_in(3) {
        for coordinate in points.iter_mut().flatten() {
            *coordinate += dice.between(-most, most);
        }
    }
    points
}

/// A hub, and a rim walked counter-clockwise along the sides of a square.
fn fan(dice: &mut Dice, nodes: usize, spacing: i64) -> Shape {
    let rim = nodes.clamp(4, 60) - 1;
    let radius = (spacing / 2).max(rim as i64);
    let mut points = vec![[0, 0]];
    for i in 0..rim {
        points.push(on_square(8 * radius * (i as i64) / (rim as i64), radius));
    }
    let mut triangles: Vec<_> = (1..rim).map(|i| [0, i, i + 1]).collect();
    if dice.one_in(2) {
        triangles.push([0, rim, 1]);
    }
    Shape { points, triangles }
}

/// The point so far along the sides of the square around (0, 0), from the
/// middle of its right side.
fn on_square(way: i64, radius: i64) -> Point {
    let side = (way + radius) / (2 * radius);
    let along = (way + radius) % (2 * radius) - radius;
    match side {
        0 | 4 => [radius, along],
        1 => [-along, radius],
        2 => [-radius, -along],
        _ => [along, -radius],
    }
}

/// Two rows of nodes; every second triangle comes clockwise.
fn strip(dice: &mut Dice, nodes: usize, spacing: i64) -> Shape {
    let point = |i: i64| [i / 2 * spacing, i % 2 * spacing];
    let points = (0..nodes.max(3) as i64).map(point).collect();
    let points = jittered(dice, spacing, points);
    let triangles = (2..points.len()).map(|i| [i - 2, i - 1, i]).collect();
    Shape { points, triangles }
}

/// Rows and columns; each cell is cut along one of its diagonals.
fn grid(dice: &mut Dice, nodes: usize, spacing: i64) -> Shape {
    let columns = nodes.isqrt().max(2);
    let rows = (nodes / columns).max(2);
    let point = |i: usize| [i % columns, i / columns].map(|at| at as i64 * spacing);
    let points = (0..columns * rows).map(point).collect();
    let points = jittered(dice, spacing, points);
    let mut triangles = Vec::new();
    for cell in 0..(columns - 1) * (rows - 1) {
        let first = cell / (columns - 1) * columns + cell % (columns - 1);
        let corners = [first, first + 1, first + columns + 1, first + columns];
        let turn = dice.below(2);
        let [a, b, c, d] = [0, 1, 2, 3].map(|i| corners[(i + turn) % 4]);
        triangles.extend([[a, b, c], [a, c, d]]);
    }
    Shape { points, triangles }
}

/// Any points, and any triangles over them: turned, flat, overlapping, laid
/// twice.
fn heap(dice: &mut Dice, nodes: usize, spacing: i64) -> Shape {
    let nodes = nodes.max(3);
    let width = (2 * spacing).min(LONGEST);
    let mut points = Vec::new();
    for _ in 0..nodes {
        points.push([dice.between(0, width), dice.between(0, width)]);
    }
    let mut triangles = Vec::new();
    for _ in 0..2 * nodes {
        triangles.push([0; 3].map(|_| dice.below(nodes)));
    }
    Shape { points, triangles }
}

/// Several patches that share no node and lie far apart.
fn islands(dice: &mut Dice, nodes: usize, spacing: i64) -> Shape {
    let count = 2 + dice.below(3);
    let mut all = Shape {
        points: Vec::new(),
        triangles: Vec::new(),
    };
    for island in 0..count {
        let mut patch = match dice.below(3) {
            0 => fan(dice, nodes / count, spacing),
            1 => strip(dice, nodes / count, spacing),
            _ => grid(dice, nodes / count, spacing),
        };
        let (before, away) = (all.points.len(), 300_000_000 * island as i64);
        let point = |[x, y]: Point| [x + away, y - away];
        all.points.extend(patch.points.drain(..).map(point));
        let triangle = |corners: [usize; 3]| corners.map(|node| node + before);
        all.triangles
            .extend(patch.triangles.drain(..).map(triangle));
    }
    all
}

/// The same shape with its nodes and triangles in another order.
fn shuffled(dice: &mut Dice, mut shape: Shape) -> Shape {
    let mut order: Vec<usize> = (0..shape.points.len()).collect();
    dice.shuffle(&mut order);
    let mut number = vec![0; order.len()];
    for (new, &old) in order.iter().enumerate() {
        number[old] = new;
    }
    shape.points = order.iter().map(|&old| shape.points[old]).collect();
    for triangle in &mut shape.triangles {
        *triangle = triangle.map(|old| number[old]);
    }
    dice.shuffle(&mut shape.triangles);
    shape
}

/// "D = a3·b2 - a2·b3", which is twice the area.
fn twice_area(points: &[Point], [c1, c2, c3]: [usize; 3]) -> i64 {
    let [[x1, y1], [x2, y2], [x3, y3]] = [points[c1], points[c2], points[c3]];
    (x2 - x1) * (y3 - y1) - (x3 - x1) * (y2 - y1)
}

/// Whether row 4 lets a triangle through.
fn is_short(points: &[Point], [c1, c2, c3]: [usize; 3]) -> bool {
    let legs = [[c1, c2], [c2, c3], [c3, c1]];
    legs.iter().all(|&[from, to]| {
        let gap = |axis: usize| (points[to][axis] - points[from][axis]).abs();
        gap(0) <= LONGEST && gap(1) <= LONGEST
    })
}

/// The directed legs of a triangle, "1-2, 2-3, 3-1".
pub(crate) fn legs([c1, c2, c3]: [usize; 3]) -> [(usize, usize); 3] {
    [(c1, c2), (c2, c3), (c3, c1)]
}

/// Adds a triangle, turned counter-clockwise, where rows 4 to 6 let it through.
fn lay(
    points: &[Point],
    laid: &mut Vec<[usize; 3]>,
    seen: &mut HashSet<(usize, usize)>,
    mut corners: [usize; 3],
) {
    let area = twice_area(points, corners);
    if area < 0 {
        corners.swap(1, 2);
    }
    let fits = area != 0 && is_short(points, corners);
    if fits && legs(corners).iter().all(|leg| !seen.contains(leg)) {
        seen.extend(legs(corners));
        laid.push(corners);
    }
}

/// The shape without the triangles that break a row, the clockwise ones turned,
/// and without the nodes that are then in no triangle. Mesh T where nothing is
/// left.
fn legal(shape: Shape) -> Shape {
    let (mut laid, mut seen) = (Vec::new(), HashSet::new());
    for &corners in &shape.triangles {
        lay(&shape.points, &mut laid, &mut seen, corners);
    }
    if laid.is_empty() {
        return Shape {
            points: vec![[0, 0], [100, 0], [0, 100]],
            triangles: vec![[0, 1, 2]],
        };
    }
    let mut number = vec![None; shape.points.len()];
    for &node in laid.iter().flatten() {
        number[node] = Some(0);
    }
    let mut points = Vec::new();
    for (node, place) in number.iter_mut().enumerate() {
        if place.is_some() {
            *place = Some(points.len());
            points.push(shape.points[node]);
        }
    }
    let renumbered = |corners: [usize; 3]| corners.map(|node| number[node].unwrap_or(0));
    let triangles = laid.into_iter().map(renumbered).collect();
    Shape { points, triangles }
}

/// Lays a shape elsewhere in the plane: anywhere, or against the last numbers
/// that an `i32` has.
fn moved(dice: &mut Dice, shape: &mut Shape) {
    let (low, high) = (i64::from(i32::MIN), i64::from(i32::MAX));
    for axis in 0..2 {
        let least = shape.points.iter().map(|point| point[axis]).min();
        let most = shape.points.iter().map(|point| point[axis]).max();
        let (first, last) = (low - least.unwrap_or(0), high - most.unwrap_or(0));
        let anywhere = dice.between(first, last);
        let shift = match dice.below(8) {
            0 => first,
            1 => last,
            2 => anywhere,
            _ => 0,
        };
        for point in &mut shape.points {
            point[axis] += shift;
        }
    }
}

/// Depths and kinds for a shape.
fn furnished(dice: &mut Dice, shape: Shape, manner: Manner) -> World {
    let nodes = shape.points.len();
    let deepest = match manner {
        Manner::Wild => dice.one_of(&[2.0, 100.0, DEPTH.high]),
        Manner::Bold => dice.one_of(&[2.0, 40.0, 100.0]),
        _ => 40.0,
    };
    let depths = Range {
        low: DEPTH.low,
        high: deepest,
    };
    let even = inside(dice, depths);
    let varied = dice.one_in(2);
    let mut h = Vec::new();
    for _ in 0..nodes {
        h.push(match dice.below(20) {
            0 if manner == Manner::Wild => at_edge(dice, DEPTH),
            _ if varied => inside(dice, depths),
            _ => even,
        });
    }
    // One kind for all, or any kind now and then.
    let all = dice.one_of(&[Some(0), Some(1), Some(2), None, None, None]);
    let mut kind = Vec::new();
    for _ in 0..nodes {
        let any = dice.one_of(&[0, 0, 0, 0, 1, 2]);
        kind.push(all.unwrap_or(any));
    }
    World {
        points: shape.points,
        triangles: shape.triangles,
        h,
        kind,
    }
}

impl World {
    /// Adds overlapping triangles until there are this many; rows 4 to 6 let
    /// each of them through.
    pub fn crowd(&mut self, dice: &mut Dice, triangles: usize) {
        let mut seen = self.seen();
        while self.triangles.len() < triangles {
            self.lay_any(dice, &mut seen);
        }
    }

    /// Tries so many triangles, adds those that rows 4 to 6 let through, and gives
    /// all of them any order.
    pub fn overlap(&mut self, dice: &mut Dice, tries: usize) {
        let mut seen = self.seen();
        for _ in 0..tries {
            self.lay_any(dice, &mut seen);
        }
        dice.shuffle(&mut self.triangles);
    }

    /// The directed legs of all triangles.
    fn seen(&self) -> HashSet<(usize, usize)> {
        self.triangles.iter().copied().flat_map(legs).collect()
    }

    /// Adds a triangle with any corners, where rows 4 to 6 let it through.
    fn lay_any(&mut self, dice: &mut Dice, seen: &mut HashSet<(usize, usize)>) {
        let corners = [0; 3].map(|_| dice.below(self.points.len()));
        lay(&self.points, &mut self.triangles, seen, corners);
    }
}
