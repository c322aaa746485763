//! The bare gauges: nothing is tested, and no more is decoded than is looked at, of the state the corners of the triangles found. Every gauge is
//! trusted to lie in one.

use crate::bare::{at, Bare};
use crate::gauges::{Gauges, Highest, Lent, Point};
use crate::record;
use crate::run::Answer;
use crate::search;

/// The corners of the triangles, as bytes.
fn triples<'a>(lent: Lent<'a>) -> &'a [[[u8; 2]; 3]] {
    lent.tri.as_chunks().0.as_chunks().0
}

#[inline(always)]
fn nodes(corners: [[u8; 2]; 3]) -> [usize; 3] {
    corners.map(|bytes| usize::from(u16::from_be_bytes(bytes)))
}

/// The triangles, each decoded when it is due.
#[inline(always)]
fn triangles<'a>(lent: Lent<'a>) -> impl Iterator<Item = [Point; 3]> + 'a {
    let ((x, _), (y, _)) = (lent.x.as_chunks(), lent.y.as_chunks());
    let point = move |node: usize| [at(x, node), at(y, node)].map(i32::from_be_bytes);
    triples(lent).iter().map(move |&corners| nodes(corners).map(point))
}

#[inline(always)]
fn elevation(lent: Lent, triangles: impl Iterator<Item = [Point; 3]>, point: Point) -> f64 {
    let (triangle, areas) = search::locate(triangles, point).unwrap_or_default();
    let (_, z) = lent.state.as_chunks().0.split_at(lent.kind.len());
    let corners = nodes(at(triples(lent), triangle));
    search::elevation(areas, corners.map(|node| f64::from_be_bytes(at(z, node))))
}

impl Gauges for Bare {
    #[inline(never)]
    fn add(&self, record: &mut [u8], _: Lent, point: Point) -> (Answer, u32) {
        (Answer::accepted(0), record::add(record, point))
    }

    #[inline(never)]
    fn elevation(&self, record: &[u8], lent: Lent, gauge: u32) -> (Answer, f64) {
        let row = at(record::rows(record), gauge as usize);
        (Answer::accepted(0), elevation(lent, triangles(lent), record::point(&row)))
    }

    /// The triangles are decoded once for all gauges, and their corners stand side by side then.
    #[inline(never)]
    fn update(&self, record: &mut [u8], lent: Lent, step: u32) -> Answer {
        let triangles: Vec<[Point; 3]> = triangles(lent).collect();
        for row in record::given_out(record) {
            let elevation = elevation(lent, triangles.iter().copied(), record::point(row));
            record::hand_over(row, elevation, step);
        }
        Answer::accepted(0)
    }

    #[inline(never)]
    fn peak(&self, record: &[u8], gauge: u32) -> (Answer, Highest) {
        (Answer::accepted(0), record::highest(&at(record::rows(record), gauge as usize)))
    }
}
