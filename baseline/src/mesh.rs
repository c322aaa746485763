//! "What is lent", "Triangle geometry", rows 1 to 9, and opening a mesh.

use crate::records::{within, Answer, Clock, Parameters};
use std::collections::HashSet;

/// "Each node is marked when a triangle names it, up to 4,096 marks."
const MARKS: usize = 4_096;

/// "Each |a|, |b| is at most 100,000".
const LONGEST: i64 = 100_000;

/// The state, and the next state: "6N numbers, with Wx and Wy of each node last".
pub(crate) const STATE_RUNS: usize = 6;

/// A mesh and its parameters as they are lent: "N nodes, E triangles (three
/// node numbers from 0 each)", "x and y in whole metres (32-bit signed), depth
/// h, kind 0 (free), 1 (open), 2 (held land)".
#[derive(Clone, Copy)]
pub(crate) struct Mesh<'a> {
    pub x: &'a [i32],
    pub y: &'a [i32],
    pub tri: &'a [u16],
    pub h: &'a [f64],
    pub kind: &'a [u8],
    pub p: Parameters,
}

/// The length of a slice lent beside the mesh, and what it must hold: so many
/// runs of N numbers, and so many numbers more; once, or any number of times.
pub(crate) struct Lent {
    length: usize,
    runs: usize,
    more: usize,
    once: bool,
}

impl Lent {
    /// A slice of runs of N numbers.
    pub fn runs(length: usize, runs: usize) -> Lent {
        let (more, once) = (0, true);
        Lent {
            length,
            runs,
            more,
            once,
        }
    }

    /// A forcing: the elevation, and two winds at each node.
    pub fn forcing(length: usize) -> Lent {
        let (runs, more, once) = (2, 1, true);
        Lent {
            length,
            runs,
            more,
            once,
        }
    }

    /// The list of request #107: "k forcings of 1+2N, one after another".
    pub fn forcings(length: usize) -> Lent {
        Lent {
            once: false,
            ..Lent::forcing(length)
        }
    }

    /// The numbers of what is held once. In 128 bits no length is too large.
    fn due(&self, n: usize) -> u128 {
        n as u128 * self.runs as u128 + self.more as u128
    }

    fn fits(&self, n: usize) -> bool {
        let (length, due) = (self.length as u128, self.due(n));
        if self.once {
            length == due
        } else {
            length.is_multiple_of(due)
        }
    }

    /// Whether it holds more than so many times what it would hold once.
    pub fn exceeds(&self, times: u32, n: usize) -> bool {
        self.length as u128 > u128::from(times) * self.due(n)
    }
}

/// "Corners 1, 2, 3. In whole numbers: a1 = x3-x2, a2 = x1-x3, a3 = x2-x1;
/// b1 = y2-y3, b2 = y3-y1, b3 = y1-y2."
pub(crate) struct Triangle {
    pub corners: [usize; 3],
    pub a: [i64; 3],
    pub b: [i64; 3],
}

impl Triangle {
    /// "Twice the area, with its sign, is D = a3·b2 - a2·b3." Row 4 has been
    /// tested, so that both products are at most 10^10.
    pub fn twice_area(&self) -> i64 {
        self.a[2] * self.b[1] - self.a[1] * self.b[2]
    }

    /// "all become floats without loss".
    pub fn a_floats(&self) -> [f64; 3] {
        self.a.map(|a| a as f64)
    }

    /// "all become floats without loss".
    pub fn b_floats(&self) -> [f64; 3] {
        self.b.map(|b| b as f64)
    }
}

impl<'a> Mesh<'a> {
    /// The mesh that a call is lent, before any row is tested.
    pub fn lent(
        x: &'a [i32],
        y: &'a [i32],
        tri: &'a [u16],
        h: &'a [f64],
        kind: &'a [u8],
        p: Parameters,
    ) -> Mesh<'a> {
        Mesh {
            x,
            y,
            tri,
            h,
            kind,
            p,
        }
    }

    /// "N is the length of the x slice".
    pub fn nodes(&self) -> usize {
        self.x.len()
    }

    /// "E a third of the triangle list's length".
    pub fn count_of_triangles(&self) -> usize {
        self.tri.len() / 3
    }

    /// The triangles by ascending number; only after row 3 has been tested.
    pub fn triangles(self) -> impl Iterator<Item = Triangle> + 'a {
        self.corners().map(move |corners| self.triangle(corners))
    }

    /// Request #105: "the sum of all D", each triangle's once; only after rows 1
    /// to 5 have been tested, so that it is far from the last of 8 bytes.
    pub fn sum_of_areas(&self) -> u64 {
        let areas = self.triangles().map(|triangle| triangle.twice_area());
        areas.map(i64::unsigned_abs).sum()
    }

    /// The three node numbers of each triangle, by ascending triangle number.
    fn corners(self) -> impl Iterator<Item = [usize; 3]> + 'a {
        let (triples, _) = self.tri.as_chunks::<3>();
        triples.iter().map(|triple| triple.map(usize::from))
    }

    /// The differences of one triangle; only for node numbers that row 3 lets
    /// through. The difference of two `i32` always fits an `i64`.
    pub fn triangle(&self, corners: [usize; 3]) -> Triangle {
        let [x1, x2, x3] = corners.map(|node| i64::from(self.x[node]));
        let [y1, y2, y3] = corners.map(|node| i64::from(self.y[node]));
        Triangle {
            corners,
            a: [x3 - x2, x1 - x3, x2 - x1],
            b: [y2 - y3, y3 - y1, y1 - y2],
        }
    }

    /// "Every call on a run begins with rows 1 to 9 over the slices lent to it.
    /// Row 6 is tested only when a mesh is opened".
    pub fn begin(&self, lent: &[Lent]) -> Result<(), Answer> {
        self.rows_1_and_2(lent)?;
        self.rows_3_to_5()?;
        self.row_7()?;
        self.rows_8_and_9()
    }

    /// All of rows 1 to 9, row 6 among them.
    fn begin_opening(&self, lent: &[Lent]) -> Result<(), Answer> {
        self.rows_1_and_2(lent)?;
        self.rows_3_to_5()?;
        self.row_6()?;
        self.row_7()?;
        self.rows_8_and_9()
    }

    /// 1: "triangle list no multiple of 3, or a slice of another length".
    /// 2: "N not 3..4,096 or E not 1..8,192".
    fn rows_1_and_2(&self, lent: &[Lent]) -> Result<(), Answer> {
        let n = self.nodes();
        let per_node = [self.y.len(), self.h.len(), self.kind.len()];
        let whole = self.tri.len().is_multiple_of(3)
            && per_node.iter().all(|&length| length == n)
            && lent.iter().all(|slice| slice.fits(n));
        if !whole {
            return Err(Answer::refused(1, 0));
        }
        let e = self.count_of_triangles();
        if !(3..=4_096).contains(&n) || !(1..=8_192).contains(&e) {
            return Err(Answer::refused(2, 0));
        }
        Ok(())
    }

    /// "then triangle by triangle 3, 4, 5": "a node number is N or more"; "an a
    /// or b beyond 100,000 in size"; "D is 0 or less".
    fn rows_3_to_5(&self) -> Result<(), Answer> {
        for (place, corners) in self.corners().enumerate() {
            if corners.iter().any(|&node| node >= self.nodes()) {
                return Err(Answer::refused(3, place));
            }
            let triangle = self.triangle(corners);
            let mut sides = triangle.a.iter().chain(&triangle.b);
            if sides.any(|side| side.abs() > LONGEST) {
                return Err(Answer::refused(4, place));
            }
            if triangle.twice_area() <= 0 {
                return Err(Answer::refused(5, place));
            }
        }
        Ok(())
    }

    /// 6: "a directed leg (1-2, 2-3, 3-1) seen in an earlier triangle", at the
    /// "later triangle". By row 5 the three corners of a triangle differ, so
    /// that no triangle repeats a leg of its own.
    fn row_6(&self) -> Result<(), Answer> {
        let mut seen = HashSet::new();
        for (place, [c1, c2, c3]) in self.corners().enumerate() {
            for leg in [(c1, c2), (c2, c3), (c3, c1)] {
                if !seen.insert(leg) {
                    return Err(Answer::refused(6, place));
                }
            }
        }
        Ok(())
    }

    /// 7: "node in no triangle".
    fn row_7(&self) -> Result<(), Answer> {
        let mut marks = [false; MARKS];
        for node in self.corners().flatten() {
            marks[node] = true;
        }
        match marks.iter().take(self.nodes()).position(|&mark| !mark) {
            Some(node) => Err(Answer::refused(7, node)),
            None => Ok(()),
        }
    }

    /// 8: "h not 1..12,000, or kind above 2". 9: "dt not 0.125..60, tau not
    /// 0..1, K not 0..1, f not -0.001..0.001", at places 0 to 3.
    fn rows_8_and_9(&self) -> Result<(), Answer> {
        for (node, (&h, &kind)) in self.h.iter().zip(self.kind).enumerate() {
            if !within(h, 1.0, 12_000.0) || kind > 2 {
                return Err(Answer::refused(8, node));
            }
        }
        let held = [
            within(self.p.dt, 0.125, 60.0),
            within(self.p.tau, 0.0, 1.0),
            within(self.p.k, 0.0, 1.0),
            within(self.p.f, -0.001, 0.001),
        ];
        match held.iter().position(|&holds| !holds) {
            Some(place) => Err(Answer::refused(9, place)),
            None => Ok(()),
        }
    }
}

/// Opens a mesh, "which is rows 1 to 9 and writes only the cold state; it hands
/// back the cold clock, refused or not".
pub fn open(
    state: &mut [f64],
    x: &[i32],
    y: &[i32],
    tri: &[u16],
    h: &[f64],
    kind: &[u8],
    p: Parameters,
) -> (Answer, Clock) {
    let mesh = Mesh::lent(x, y, tri, h, kind, p);
    let lent = [Lent::runs(state.len(), STATE_RUNS)];
    if let Err(refusal) = mesh.begin_opening(&lent) {
        return (refusal, Clock::COLD);
    }
    state.fill(0.0);
    (Answer::accepted(0), Clock::COLD)
}
