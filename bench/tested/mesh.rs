//! Rows 1 to 9.

use crate::run::{Answer, Mesh};

const LONGEST: i64 = 100_000;

/// The most nodes that row 2 lets through.
const MARKS: usize = 4_096;

/// A NaN is outside every range.
#[inline(always)]
pub fn within(low: f64, v: f64, high: f64) -> bool {
    (low <= v) & (v <= high)
}

/// How row 6 is tested.
pub type Row6 = fn(&Mesh) -> Result<(), Answer>;

/// Rows 1 to 9 but 6. Each pair is the length of a further slice and the one that it must have.
pub fn rows_1_to_9(mesh: &Mesh, lent: &[(usize, usize)]) -> Result<(), Answer> {
    rows_with_6(mesh, lent, |_| Ok(()))
}

/// Rows 1 to 9; the caller says how row 6 is tested.
pub fn rows_with_6(mesh: &Mesh, lent: &[(usize, usize)], row_6: Row6) -> Result<(), Answer> {
    rows(mesh, lent, row_6, |_| ())
}

/// Rows 1 to 9 but 6, and the sum of all D, which line 05 of a save has.
pub fn rows_and_areas(mesh: &Mesh, lent: &[(usize, usize)]) -> Result<u64, Answer> {
    let mut areas = 0;
    rows(mesh, lent, |_| Ok(()), |d| areas += d)?;
    Ok(areas)
}

fn rows(mesh: &Mesh, lent: &[(usize, usize)], row_6: Row6, each_d: impl FnMut(u64)) -> Result<(), Answer> {
    rows_1_and_2(mesh, lent)?;
    let marks = triangles(mesh, each_d)?;
    row_6(mesh)?;
    row_7(mesh, &marks)?;
    row_8(mesh)?;
    row_9(mesh)
}

fn rows_1_and_2(mesh: &Mesh, lent: &[(usize, usize)]) -> Result<(), Answer> {
    let n = mesh.nodes();
    let whole = mesh.tri.len().is_multiple_of(3)
        && mesh.y.len() == n
        && mesh.h.len() == n
        && mesh.kind.len() == n
        && lent.iter().all(|&(length, due)| length == due);
    if !whole {
        return Err(Answer::refused(1, 0));
    }
    if !(3..=4_096).contains(&n) || !(1..=8_192).contains(&mesh.triangles()) {
        return Err(Answer::refused(2, 0));
    }
    Ok(())
}

/// Rows 3 to 5, and the marks of row 7, in one pass over the triangles; the caller says what becomes of each D.
pub fn triangles(mesh: &Mesh, mut each_d: impl FnMut(u64)) -> Result<[bool; MARKS], Answer> {
    let mut marks = [false; MARKS];
    let n = mesh.nodes().min(MARKS);
    let (x, y) = (&mesh.x[..n], &mesh.y[..n]);
    for (t, [i, j, k]) in mesh.corners().enumerate() {
        if i >= n || j >= n || k >= n {
            return Err(Answer::refused(3, t));
        }
        let [x1, x2, x3] = [i, j, k].map(|node| i64::from(x[node]));
        let [y1, y2, y3] = [i, j, k].map(|node| i64::from(y[node]));
        let (a1, a2, a3) = (x3 - x2, x1 - x3, x2 - x1);
        let (b1, b2, b3) = (y2 - y3, y3 - y1, y1 - y2);
        // no early way out of the six: they are tested together
        if !(near(a1) & near(a2) & near(a3) & near(b1) & near(b2) & near(b3)) {
            return Err(Answer::refused(4, t));
        }
        let d = a3 * b2 - a2 * b3;
        if d <= 0 {
            return Err(Answer::refused(5, t));
        }
        each_d(d as u64);
        marks[i] = true;
        marks[j] = true;
        marks[k] = true;
    }
    Ok(marks)
}

fn near(side: i64) -> bool {
    (-LONGEST..=LONGEST).contains(&side)
}

/// Row 6 by the legs that start at each node: a node has few, so that the time grows with E.
pub fn row_6(mesh: &Mesh) -> Result<(), Answer> {
    let n = mesh.nodes();
    let mut starts = vec![0u32; n + 1];
    for &from in mesh.tri {
        starts[usize::from(from) + 1] += 1;
    }
    for i in 0..n {
        starts[i + 1] += starts[i];
    }
    let mut filled = starts.clone();
    let mut ends = vec![0u16; mesh.tri.len()];
    let (triples, _) = mesh.tri.as_chunks::<3>();
    for (t, &[c1, c2, c3]) in triples.iter().enumerate() {
        for (from, to) in [(c1, c2), (c2, c3), (c3, c1)] {
            let from = usize::from(from);
            let (first, free) = (starts[from] as usize, filled[from] as usize);
            if ends[first..free].contains(&to) {
                return Err(Answer::refused(6, t));
            }
            ends[free] = to;
            filled[from] += 1;
        }
    }
    Ok(())
}

/// Row 6 in the form that document 01 sets for the product: pairs of triangles and legs. It is measured to tell the form's cost from the language's.
pub fn row_6_by_pairs(mesh: &Mesh) -> Result<(), Answer> {
    let (triples, _) = mesh.tri.as_chunks::<3>();
    for (t, &[c1, c2, c3]) in triples.iter().enumerate() {
        for earlier in &triples[..t] {
            for leg in [[c1, c2], [c2, c3], [c3, c1]] {
                let &[d1, d2, d3] = earlier;
                if leg == [d1, d2] || leg == [d2, d3] || leg == [d3, d1] {
                    return Err(Answer::refused(6, t));
                }
            }
        }
    }
    Ok(())
}

pub fn row_7(mesh: &Mesh, marks: &[bool; MARKS]) -> Result<(), Answer> {
    let marks = &marks[..mesh.nodes()];
    // all at once, which the compiler does in wide registers; the place is looked for only where there is one
    if marks.iter().fold(true, |all, &mark| all & mark) {
        return Ok(());
    }
    let node = marks.iter().position(|&mark| !mark);
    Err(Answer::refused(7, node.unwrap_or(0)))
}

pub fn row_8(mesh: &Mesh) -> Result<(), Answer> {
    let sound = |(&h, &kind): (&f64, &u8)| within(1.0, h, 12_000.0) & (kind <= 2);
    if mesh.h.iter().zip(mesh.kind).fold(true, |all, node| all & sound(node)) {
        return Ok(());
    }
    let node = mesh.h.iter().zip(mesh.kind).position(|node| !sound(node));
    Err(Answer::refused(8, node.unwrap_or(0)))
}

fn row_9(mesh: &Mesh) -> Result<(), Answer> {
    let held = [within(0.125, mesh.p.dt, 60.0), within(0.0, mesh.p.tau, 1.0), within(0.0, mesh.p.k, 1.0), within(-0.001, mesh.p.f, 0.001)];
    match held.iter().position(|&holds| !holds) {
        Some(place) => Err(Answer::refused(9, place)),
        None => Ok(()),
    }
}
