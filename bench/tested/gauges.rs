//! The gauges, with rows 1 to 10 and 40 to 43.

use super::{mesh, step};
use crate::gauges::{Highest, Lent, Point, MOST};
use crate::record::{self, Row};
use crate::run::{Answer, Mesh, Parameters, State};
use crate::search::{self, Spot};

/// The numbers that the bytes stand for. The kinds are bytes anyway.
pub struct Numbers<'a> {
    state: Vec<f64>,
    x: Vec<i32>,
    y: Vec<i32>,
    tri: Vec<u16>,
    h: Vec<f64>,
    kind: &'a [u8],
    p: Parameters,
}

/// The elements of a slice, and row 1 of one that is no whole number of them.
pub fn decoded<T, const BYTES: usize>(bytes: &[u8], number: impl Fn([u8; BYTES]) -> T) -> Result<Vec<T>, Answer> {
    let (whole, rest) = bytes.as_chunks();
    if !rest.is_empty() {
        return Err(Answer::refused(1, 0));
    }
    Ok(whole.iter().map(|&bytes| number(bytes)).collect())
}

impl<'a> Numbers<'a> {
    pub fn of(lent: Lent<'a>) -> Result<Numbers<'a>, Answer> {
        Ok(Numbers {
            state: decoded(lent.state, f64::from_be_bytes)?,
            x: decoded(lent.x, i32::from_be_bytes)?,
            y: decoded(lent.y, i32::from_be_bytes)?,
            tri: decoded(lent.tri, u16::from_be_bytes)?,
            h: decoded(lent.h, f64::from_be_bytes)?,
            kind: lent.kind,
            p: lent.p,
        })
    }

    /// Those that rows 1 to 10 let through.
    fn sound(lent: Lent<'a>) -> Result<Numbers<'a>, Answer> {
        let numbers = Numbers::of(lent)?;
        numbers.rows()?;
        Ok(numbers)
    }

    /// Rows 1 to 10, but 6.
    pub fn rows(&self) -> Result<(), Answer> {
        let mesh = self.mesh();
        mesh::rows_1_to_9(&mesh, &[(self.state.len(), 6 * mesh.nodes())])?;
        step::row_10(&mesh, &self.state)
    }

    fn mesh(&self) -> Mesh<'_> {
        Mesh { x: &self.x, y: &self.y, tri: &self.tri, h: &self.h, kind: self.kind, p: self.p }
    }

    /// The points of each triangle's corners, by ascending triangle.
    pub fn triangles(&self) -> impl Iterator<Item = [Point; 3]> + '_ {
        // one length for both, so that one test of a node number serves both
        let n = self.x.len();
        let (x, y) = (&self.x[..n], &self.y[..n]);
        self.mesh().corners().map(move |corners| corners.map(|i| [x[i], y[i]]))
    }

    pub fn locate(&self, point: Point) -> Option<Spot> {
        search::locate(self.triangles(), point)
    }

    /// 40 of a gauge, and the elevation at its point.
    fn elevation(&self, point: Point, gauge: usize) -> Result<f64, Answer> {
        let (triangle, areas) = self.locate(point).ok_or(Answer::refused(40, gauge))?;
        let corners = self.tri.as_chunks::<3>().0[triangle];
        let z = State::of(&self.state, self.x.len()).z;
        Ok(search::elevation(areas, corners.map(|node| z[usize::from(node)])))
    }
}

/// 43, and the rows of the gauges given out.
pub fn row_43(record: &[u8]) -> Result<&[Row], Answer> {
    if record.len() != record::BYTES || usize::from(record[0]) > MOST {
        return Err(Answer::refused(43, 0));
    }
    let rows = record::rows(record);
    match rows.iter().position(|row| row[record::SEEN] > 1) {
        Some(row) => Err(Answer::refused(43, row)),
        None => Ok(&rows[..usize::from(record[0])]),
    }
}

/// 43 and 42, and the row of a gauge.
fn row_42(record: &[u8], gauge: u32) -> Result<&Row, Answer> {
    let gauge = gauge as usize;
    row_43(record)?.get(gauge).ok_or(Answer::refused(42, gauge))
}

pub fn add(record: &mut [u8], lent: Lent, point: Point) -> Result<u32, Answer> {
    let numbers = Numbers::sound(lent)?;
    let gauge = row_43(record)?.len();
    if gauge == MOST {
        return Err(Answer::refused(41, MOST));
    }
    numbers.locate(point).ok_or(Answer::refused(40, gauge))?;
    Ok(record::add(record, point))
}

pub fn elevation(record: &[u8], lent: Lent, gauge: u32) -> Result<f64, Answer> {
    let numbers = Numbers::sound(lent)?;
    let row = row_42(record, gauge)?;
    numbers.elevation(record::point(row), gauge as usize)
}

/// No row is written before the last gauge is found.
pub fn update(record: &mut [u8], lent: Lent, step: u32) -> Result<(), Answer> {
    let numbers = Numbers::sound(lent)?;
    let mut elevations = [0.0; MOST];
    for (gauge, row) in row_43(record)?.iter().enumerate() {
        elevations[gauge] = numbers.elevation(record::point(row), gauge)?;
    }
    for (row, elevation) in record::given_out(record).iter_mut().zip(elevations) {
        record::hand_over(row, elevation, step);
    }
    Ok(())
}

pub fn peak(record: &[u8], gauge: u32) -> Result<Highest, Answer> {
    row_42(record, gauge).map(record::highest)
}
