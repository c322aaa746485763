//! The search for the triangle of a point, and the elevation there, for the two plain programs.

use crate::gauges::Point;

/// The doubled parts of a triangle as a point divides it, each opposite its corner, negative where the point lies beyond that side. Row 4 holds, so
/// that they fit for every point.
#[inline(always)]
fn sub_areas(corners: [Point; 3], point: Point) -> [i64; 3] {
    let [c1, c2, c3] = corners.map(|corner| corner.map(i64::from));
    let [px, py] = point.map(i64::from);
    let part = |[xi, yi]: [i64; 2], [xj, yj]: [i64; 2]| (yi - yj) * (px - xi) + (xj - xi) * (py - yi);
    [part(c2, c3), part(c3, c1), part(c1, c2)]
}

/// The number of a triangle that contains a point, and the sub-areas there.
pub type Spot = (usize, [i64; 3]);

/// The first triangle that contains a point.
#[inline(always)]
pub fn locate(triangles: impl Iterator<Item = [Point; 3]>, point: Point) -> Option<Spot> {
    let mut parts = triangles.map(|corners| sub_areas(corners, point)).enumerate();
    parts.find(|(_, areas)| areas.iter().all(|&area| area >= 0))
}

/// The elevation at a point, by the sub-areas in the triangle that contains it, which make up its D, and the elevations of its corners.
#[inline(always)]
pub fn elevation(areas: [i64; 3], z: [f64; 3]) -> f64 {
    let d = areas.iter().sum::<i64>() as f64;
    let w = areas.map(|area| area as f64);
    ((w[0] * z[0] + w[1] * z[1]) + w[2] * z[2]) / d
}
