//! What no step changes.

use crate::formulas::{weights, Shape, Terms};
use crate::run::Mesh;

/// How a program comes to the triangles' shapes.
pub trait Shapes {
    /// The corners and the shape of each triangle, by ascending triangle, handed to the work: the next of an iterator would stay a call in the loop.
    fn each(&self, mesh: &Mesh, work: impl FnMut([usize; 3], Shape));
}

/// In memory of its own, from before the first step.
pub struct Kept(Vec<Shape>);

impl Kept {
    pub fn of(mesh: &Mesh, shapes: impl Shapes) -> Kept {
        let mut kept = Vec::with_capacity(mesh.triangles());
        shapes.each(mesh, |_, shape| kept.push(shape));
        Kept(kept)
    }
}

impl Shapes for Kept {
    #[inline(always)]
    fn each(&self, mesh: &Mesh, mut work: impl FnMut([usize; 3], Shape)) {
        for (corners, &shape) in mesh.corners().zip(&self.0) {
            work(corners, shape);
        }
    }
}

/// A mesh with its terms. FORMED says that S stands in its room already, and what is made of it in another, as from the second step on of a list that
/// keeps them; otherwise every step forms both.
pub struct Fixed<'a, S, const FORMED: bool = false> {
    pub mesh: Mesh<'a>,
    pub terms: Terms,
    shapes: S,
    weights: &'a [[f64; 2]],
}

impl<'a, S: Shapes> Fixed<'a, S> {
    pub fn of(mesh: &Mesh<'a>, shapes: S) -> Self {
        Fixed { mesh: *mesh, terms: Terms::of(mesh.p), shapes, weights: &[] }
    }

    /// After the first step, for the later ones.
    pub fn later<const FORMED: bool>(self, sums: &[u64], room: &'a mut [[f64; 2]]) -> Fixed<'a, S, FORMED> {
        if FORMED {
            for (kept, &s) in room.iter_mut().zip(sums) {
                *kept = weights(&self.terms, s);
            }
        }
        Fixed { mesh: self.mesh, terms: self.terms, shapes: self.shapes, weights: room }
    }
}

impl<S: Shapes, const FORMED: bool> Fixed<'_, S, FORMED> {
    #[inline(always)]
    pub fn each_triangle(&self, work: impl FnMut([usize; 3], Shape)) {
        self.shapes.each(&self.mesh, work);
    }

    /// What the rises of each node are weighed by.
    #[inline(always)]
    pub fn weights<'a>(&'a self, sums: &'a [u64]) -> impl Iterator<Item = [f64; 2]> + 'a {
        let kept = &self.weights[..if FORMED { sums.len() } else { 0 }];
        sums.iter().enumerate().map(move |(i, &s)| if FORMED { kept[i] } else { weights(&self.terms, s) })
    }
}
