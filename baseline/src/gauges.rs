//! Request #106 of document 02, "A gauge product with a C host": where a point
//! lies, its elevation, and the record of peaks. Comments in quotation marks are
//! its own sentences.

use crate::mesh::{Lent, Mesh, Triangle, STATE_RUNS};
use crate::records::{Answer, Parameters};
use crate::step::{row_10, State};

/// "for at most 64 gauges".
pub(crate) const MOST: usize = 64;

/// The bytes of a row: "x, y (4 each), seen (1), peak (8), step (4)".
pub(crate) const ROW: usize = 21;

/// "The record is 1,345 bytes": "gauge count, then 64 rows".
pub(crate) const RECORD: usize = 1 + MOST * ROW;

/// A "whole-metre point", x and y.
pub(crate) type Point = [i32; 2];

/// A state and its mesh as they cross, "on numbers and byte slices only": "State
/// slices cross as big-endian byte patterns", and so do those of the mesh.
#[derive(Clone, Copy)]
pub struct Crossed<'a> {
    /// The six runs of the state, 8 bytes a number.
    pub state: &'a [u8],
    /// x of each node, 4 bytes.
    pub x: &'a [u8],
    /// y of each node, 4 bytes.
    pub y: &'a [u8],
    /// The corners of each triangle, 2 bytes each.
    pub tri: &'a [u8],
    /// The depth of each node, 8 bytes.
    pub h: &'a [u8],
    /// The kind of each node, 1 byte.
    pub kind: &'a [u8],
    /// The numbers of row 9. The setting of advection plays no part.
    pub p: Parameters,
}

/// The numbers that the byte slices stand for.
pub(crate) struct Run {
    pub state: Vec<f64>,
    pub x: Vec<i32>,
    pub y: Vec<i32>,
    pub tri: Vec<u16>,
    pub h: Vec<f64>,
    pub kind: Vec<u8>,
    p: Parameters,
}

/// The elements of a byte slice. 1: "a slice of another length", as one is that
/// has no whole number of elements.
fn elements<T, const WIDTH: usize>(
    bytes: &[u8],
    read: fn([u8; WIDTH]) -> T,
) -> Result<Vec<T>, Answer> {
    let (whole, over) = bytes.as_chunks();
    if !over.is_empty() {
        return Err(Answer::refused(1, 0));
    }
    Ok(whole.iter().copied().map(read).collect())
}

impl Run {
    /// The numbers, before any other row is tested than this part of row 1.
    pub fn of(crossed: Crossed) -> Result<Run, Answer> {
        Ok(Run {
            state: elements(crossed.state, f64::from_be_bytes)?,
            x: elements(crossed.x, i32::from_be_bytes)?,
            y: elements(crossed.y, i32::from_be_bytes)?,
            tri: elements(crossed.tri, u16::from_be_bytes)?,
            h: elements(crossed.h, f64::from_be_bytes)?,
            kind: crossed.kind.to_vec(),
            p: crossed.p,
        })
    }

    /// The numbers, where rows 1 to 10 let them through. Row 6 is not asked:
    /// "Row 6 is tested only when a mesh is opened".
    fn lent(crossed: Crossed) -> Result<Run, Answer> {
        let run = Run::of(crossed)?;
        let mesh = run.mesh();
        mesh.begin(&[Lent::runs(run.state.len(), STATE_RUNS)])?;
        row_10(&mesh, &State::of(&run.state))?;
        Ok(run)
    }

    fn mesh(&self) -> Mesh<'_> {
        Mesh::lent(&self.x, &self.y, &self.tri, &self.h, &self.kind, self.p)
    }

    /// Each triangle that contains a point, by ascending number.
    pub fn spots<'a>(&'a self, rule: &'a Rule, point: Point) -> impl Iterator<Item = Spot> + 'a {
        let node = |node: usize| [self.x[node], self.y[node]];
        let triangles = self.mesh().triangles().enumerate();
        triangles.filter_map(move |(number, triangle)| {
            let w = (rule.sub_areas)(triangle.corners.map(node), point);
            (rule.contains)(w).then_some(Spot {
                number,
                triangle,
                w,
            })
        })
    }

    /// 40: "exactly when no triangle contains the point", at the gauge's number.
    fn spot(&self, rule: &Rule, point: Point, gauge: usize) -> Result<Spot, Answer> {
        let chosen = (rule.chosen)(&mut self.spots(rule, point));
        chosen.ok_or(Answer::refused(40, gauge))
    }

    /// The elevation at a gauge.
    fn elevation(&self, rule: &Rule, point: Point, gauge: usize) -> Result<f64, Answer> {
        let Spot { triangle, w, .. } = self.spot(rule, point, gauge)?;
        let z = (rule.z)(&State::of(&self.state));
        let z = triangle.corners.map(|node| z[node]);
        // A point that is inside has sub-areas of at most D.
        let (w, d) = (w.map(|w| w as f64), triangle.twice_area() as f64);
        Ok((rule.elevation)(w, z, d))
    }
}

/// A triangle that contains a point, with its number and the sub-areas.
pub(crate) struct Spot {
    pub number: usize,
    pub triangle: Triangle,
    pub w: [i128; 3],
}

/// How a point is found, what its elevation is made of, and what is kept of it.
pub(crate) struct Rule {
    /// The sub-areas, by the three corners and the point.
    pub sub_areas: fn([Point; 3], Point) -> [i128; 3],
    /// Whether a triangle contains the point, by its sub-areas.
    pub contains: fn([i128; 3]) -> bool,
    /// The one triangle of all that contain the point, by ascending number.
    pub chosen: fn(&mut dyn Iterator<Item = Spot>) -> Option<Spot>,
    /// The run of the state that has the corners' elevations.
    pub z: for<'a> fn(&State<'a>) -> &'a [f64],
    /// The elevation, by w, z and D.
    pub elevation: fn([f64; 3], [f64; 3], f64) -> f64,
    /// What a gauge has after an elevation at a step, by what it had before.
    pub highest: fn(Highest, f64, u32) -> Highest,
}

/// "it finds the lowest-numbered triangle that contains it (three doubled
/// sub-areas w with their signs, each named for the corner it lies opposite, none
/// negative), and the gauge elevation is ((w1·z1 + w2·z2) + w3·z3)/D", with the
/// "present elevation z"; "an equal elevation doesn't replace the first". No
/// elevation is at most a NaN.
pub(crate) const RULE: Rule = Rule {
    sub_areas,
    contains: |w| w.iter().all(|&area| area >= 0),
    chosen: |spots| spots.next(),
    z: |state| state.z,
    elevation: |w, z, d| ((w[0] * z[0] + w[1] * z[1]) + w[2] * z[2]) / d,
    highest: |found, elevation, step| {
        if found.seen == 1 && elevation <= found.peak {
            found
        } else {
            Highest::new(elevation, step)
        }
    },
};

/// The sub-area that lies opposite a corner is the triangle with the point put
/// for that corner.
pub(crate) fn sub_areas(corners: [Point; 3], point: Point) -> [i128; 3] {
    [0, 1, 2].map(|corner| {
        let mut sub_triangle = corners;
        sub_triangle[corner] = point;
        twice_area(sub_triangle)
    })
}

/// "D = a3·b2 - a2·b3", of any points: a product of two differences of `i32` can
/// need 66 bits.
fn twice_area(corners: [Point; 3]) -> i128 {
    let [[x1, y1], [x2, y2], [x3, y3]] = corners.map(|corner| corner.map(i128::from));
    (x2 - x1) * (y3 - y1) - (x1 - x3) * (y1 - y2)
}

/// "per gauge, the highest elevation so far and the first step that had it".
#[derive(Clone, Copy, Debug, PartialEq)]
pub struct Highest {
    /// 1 where a state has been handed over since the gauge was added, else 0.
    pub seen: u8,
    /// The highest elevation so far, where one was seen.
    pub peak: f64,
    /// The first step that had it.
    pub step: u32,
}

impl Highest {
    /// Of a gauge that is not yet seen, and what a refusal hands back.
    const NONE: Highest = Highest {
        seen: 0,
        peak: 0.0,
        step: 0,
    };

    /// Of an elevation that is the highest so far.
    pub(crate) fn new(peak: f64, step: u32) -> Highest {
        let seen = 1;
        Highest { seen, peak, step }
    }
}

/// A row of the record.
#[derive(Clone, Copy)]
pub(crate) struct Row {
    pub point: Point,
    pub highest: Highest,
}

impl Row {
    fn of(bytes: &[u8; ROW]) -> Row {
        Row {
            point: [0, 4].map(|at| i32::from_be_bytes(field(bytes, at))),
            highest: Highest {
                seen: bytes[8],
                peak: f64::from_be_bytes(field(bytes, 9)),
                step: u32::from_be_bytes(field(bytes, 17)),
            },
        }
    }

    fn bytes(&self) -> Vec<u8> {
        let [x, y] = self.point.map(i32::to_be_bytes);
        let Highest { seen, peak, step } = self.highest;
        let (peak, step) = (peak.to_be_bytes(), step.to_be_bytes());
        [&x[..], &y, &[seen], &peak, &step].concat()
    }
}

/// The bytes of a row from this one on.
fn field<const WIDTH: usize>(row: &[u8; ROW], at: usize) -> [u8; WIDTH] {
    std::array::from_fn(|byte| row[at + byte])
}

/// Writes a gauge's row.
fn put(record: &mut [u8], gauge: usize, row: Row) {
    let at = 1 + ROW * gauge;
    record[at..at + ROW].copy_from_slice(&row.bytes());
}

/// The rows of the gauges given out. 43: "for a record of another length, count
/// above 64 or seen above 1", the last in any of the 64 rows and at that row.
pub(crate) fn gauges(record: &[u8]) -> Result<Vec<Row>, Answer> {
    let count = record.first().map_or(0, |&count| usize::from(count));
    if record.len() != RECORD || count > MOST {
        return Err(Answer::refused(43, 0));
    }
    let (rows, _) = record[1..].as_chunks();
    let mut rows: Vec<Row> = rows.iter().map(Row::of).collect();
    if let Some(row) = rows.iter().position(|row| row.highest.seen > 1) {
        return Err(Answer::refused(43, row));
    }
    rows.truncate(count);
    Ok(rows)
}

/// The row of a gauge. 42: "for a gauge number not yet given out".
fn given_out(record: &[u8], gauge: u32) -> Result<Row, Answer> {
    let (rows, gauge) = (gauges(record)?, gauge as usize);
    rows.get(gauge).copied().ok_or(Answer::refused(42, gauge))
}

/// What a call found, or what a refused one hands back in its place.
fn handed_back<T>(outcome: Result<T, Answer>, nothing: T) -> (Answer, T) {
    match outcome {
        Ok(found) => (Answer::accepted(0), found),
        Err(refusal) => (refusal, nothing),
    }
}

/// Finds the triangle of a point: rows 1 to 10, 40.
pub fn gauge_locate(crossed: Crossed, point: [i32; 2]) -> (Answer, u32) {
    handed_back(locate_by(&RULE, crossed, point), 0)
}

pub(crate) fn locate_by(rule: &Rule, crossed: Crossed, point: Point) -> Result<u32, Answer> {
    let spot = Run::lent(crossed)?.spot(rule, point, 0)?;
    Ok(spot.number as u32)
}

/// Adds a gauge and gives out its number: rows 1 to 10, 43, 41 and 40, the last
/// at the number that it would have had.
pub fn gauge_add(record: &mut [u8], crossed: Crossed, point: [i32; 2]) -> (Answer, u32) {
    handed_back(add_by(&RULE, record, crossed, point), 0)
}

pub(crate) fn add_by(
    rule: &Rule,
    record: &mut [u8],
    crossed: Crossed,
    point: Point,
) -> Result<u32, Answer> {
    let run = Run::lent(crossed)?;
    let gauge = gauges(record)?.len();
    // 41: "for a 65th gauge".
    if gauge == MOST {
        return Err(Answer::refused(41, gauge));
    }
    run.spot(rule, point, gauge)?;
    let highest = Highest::NONE;
    put(record, gauge, Row { point, highest });
    record[0] += 1;
    Ok(gauge as u32)
}

/// The elevation at a gauge: rows 1 to 10, 43, 42, 40.
pub fn gauge_elevation(record: &[u8], crossed: Crossed, gauge: u32) -> (Answer, f64) {
    handed_back(elevation_by(&RULE, record, crossed, gauge), 0.0)
}

pub(crate) fn elevation_by(
    rule: &Rule,
    record: &[u8],
    crossed: Crossed,
    gauge: u32,
) -> Result<f64, Answer> {
    let run = Run::lent(crossed)?;
    let row = given_out(record, gauge)?;
    run.elevation(rule, row.point, gauge as usize)
}

/// "Each state handed over updates every gauge": rows 1 to 10, 43, and 40 at the
/// first gauge that no triangle contains. "each leaves the peak record as found".
pub fn gauge_update(record: &mut [u8], crossed: Crossed, step: u32) -> Answer {
    let (answer, ()) = handed_back(update_by(&RULE, record, crossed, step), ());
    answer
}

pub(crate) fn update_by(
    rule: &Rule,
    record: &mut [u8],
    crossed: Crossed,
    step: u32,
) -> Result<(), Answer> {
    let run = Run::lent(crossed)?;
    let mut rows = gauges(record)?;
    for (gauge, row) in rows.iter_mut().enumerate() {
        let elevation = run.elevation(rule, row.point, gauge)?;
        row.highest = (rule.highest)(row.highest, elevation, step);
    }
    // No gauge is refused: the record is written.
    for (gauge, row) in rows.into_iter().enumerate() {
        put(record, gauge, row);
    }
    Ok(())
}

/// What the record has of a gauge: 43, 42. No mesh is lent.
pub fn gauge_peak(record: &[u8], gauge: u32) -> (Answer, Highest) {
    let found = given_out(record, gauge).map(|row| row.highest);
    handed_back(found, Highest::NONE)
}
