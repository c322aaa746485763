//! Where points lie: in, on and beside triangles, and at the ends of 32 bits.

use super::ON_A_MESH;
use crate::coverage::wanted::{of, Reached};
use crate::gauges::{gauges, Point, Run, Spot, RULE};
use crate::script::gauges::Gauge;
use crate::script::{Call, Called, Script};

/// Where a point lies in the triangle that it is found in.
const PLACES: [&str; 7] = [
    "inside",
    "on the edge opposite corner 1",
    "on the edge opposite corner 2",
    "on the edge opposite corner 3",
    "on corner 1",
    "on corner 2",
    "on corner 3",
];

/// How many triangles contain a point.
const COUNTS: [&str; 3] = [
    "in one triangle",
    "in two triangles",
    "in three triangles or more",
];

/// A point that is on no edge of the several triangles that contain it.
const OVERLAP: &str = "inside several triangles";

/// A point in several triangles, none of them the first of the mesh.
const NOT_FIRST: &str = "in several triangles, not in the first";

/// Coordinates at the ends of 32 bits.
const ENDS: [&str; 4] = [
    "x the least of 32 bits",
    "x the most of 32 bits",
    "y the least of 32 bits",
    "y the most of 32 bits",
];

/// How far outside a point is.
const BESIDE: [&str; 2] = ["a metre outside", "far outside"];

/// Which gauge is outside.
const GAUGES: [&str; 3] = ["gauge 0", "a gauge between", "gauge 63"];

/// A later gauge that is outside too.
const LATER_TOO: &str = "a later gauge too";

fn run(script: &Script) -> Option<Run> {
    Run::of(script.crossed()).ok()
}

/// Whether a triangle of a mesh that rows 1 to 10 let through contains a point.
pub(crate) fn contained(script: &Script, point: Point) -> bool {
    run(script).is_some_and(|run| run.spots(&RULE, point).next().is_some())
}

/// The points that a call found triangles of, by number.
fn asked(script: &Script, called: Called, gauge: Gauge) -> Vec<Point> {
    let rows = gauges(&script.record_lent).unwrap_or_default();
    let number = called.gauge as usize;
    match gauge {
        Gauge::Locate | Gauge::Add => vec![called.point],
        Gauge::Elevation => rows.get(number).map(|row| row.point).into_iter().collect(),
        _ => rows.iter().map(|row| row.point).collect(),
    }
}

/// The ends of 32 bits that a point stands at.
fn ends([x, y]: Point) -> Vec<String> {
    let is_at = [x == i32::MIN, x == i32::MAX, y == i32::MIN, y == i32::MAX];
    let names = ENDS.into_iter().zip(is_at);
    names
        .filter(|(_, is_at)| *is_at)
        .map(|(name, _)| String::from(name))
        .collect()
}

/// Where a point lies by its sub-areas.
fn place(w: [i128; 3]) -> &'static str {
    match w.map(|area| area == 0) {
        [false, false, false] => PLACES[0],
        [true, false, false] => PLACES[1],
        [false, true, false] => PLACES[2],
        [false, false, true] => PLACES[3],
        [false, ..] => PLACES[4],
        [_, false, _] => PLACES[5],
        _ => PLACES[6],
    }
}

/// What is said of the points of an accepted call.
pub(crate) fn found(script: &Script, called: Called, gauge: Gauge) -> Vec<String> {
    let Some(run) = run(script) else {
        return Vec::new();
    };
    let mut met = Vec::new();
    for point in asked(script, called, gauge) {
        let spots: Vec<Spot> = run.spots(&RULE, point).collect();
        let Some(first) = spots.first() else {
            continue;
        };
        met.push(String::from(place(first.w)));
        met.push(String::from(COUNTS[spots.len().min(3) - 1]));
        if spots.len() > 1 && spots.iter().all(|spot| place(spot.w) == PLACES[0]) {
            met.push(String::from(OVERLAP));
        }
        if spots.len() > 1 && first.number > 0 {
            met.push(String::from(NOT_FIRST));
        }
        met.extend(ends(point));
    }
    met
}

/// Whether a point next to this one is inside.
fn is_beside(run: &Run, [x, y]: Point) -> bool {
    let around = (0..9).map(|way| [way % 3 - 1, way / 3 - 1]);
    around
        .map(|[dx, dy]| [x.saturating_add(dx), y.saturating_add(dy)])
        .any(|point| run.spots(&RULE, point).next().is_some())
}

/// What is said of a 40.
pub(crate) fn outside(script: &Script, called: Called, gauge: Gauge) -> Vec<String> {
    let (place, points) = (called.answer.place, asked(script, called, gauge));
    // An update is refused for the gauge at the place, the others for their one.
    let at = if gauge == Gauge::Update { place } else { 0 };
    let (Some(run), Some(&point)) = (run(script), points.get(at)) else {
        return Vec::new();
    };
    let beside = usize::from(!is_beside(&run, point));
    let mut met = vec![String::from(BESIDE[beside])];
    met.extend(ends(point));
    if gauge != Gauge::Locate {
        met.push(String::from(match place {
            0 => GAUGES[0],
            63 => GAUGES[2],
            _ => GAUGES[1],
        }));
    }
    let mut later = points.iter().skip(at + 1);
    if later.any(|&point| !contained(script, point)) {
        met.push(String::from(LATER_TOO));
    }
    met
}

/// All that must be reached.
pub(crate) fn all_conditions() -> Vec<Reached> {
    let mut all = Vec::new();
    for gauge in ON_A_MESH {
        let call = Call::Gauge(gauge);
        for names in [&PLACES[..], &COUNTS, &[OVERLAP, NOT_FIRST], &ENDS] {
            all.extend(of(call, 0, names));
        }
        all.extend(of(call, 40, &BESIDE));
        all.extend(of(call, 40, &ENDS));
        if gauge != Gauge::Locate {
            all.extend(of(call, 40, &GAUGES));
        }
    }
    all.extend(of(Call::Gauge(Gauge::Update), 40, &[LATER_TOO]));
    all
}
