//! The independent second program of the storm-surge product.
//!
//! It is written from document 01 ("What the build includes and its rules") and
//! the requests of document 02 alone and laid out by their sections. Comments
//! in quotation marks are the documents' own sentences. "Arithmetic is IEEE 754
//! binary64, rounded to nearest even once per operation": every formula stands
//! here as plain `f64` operations in the document's order, with no fused
//! operation.
//!
//! - `records`: what goes into the calls and comes back, [`Answer`] first;
//! - [`mesh`]: what is lent, the triangle geometry, rows 1 to 9, [`open`];
//! - [`step`](mod@step): rows 10 to 13, elevation, velocity, [`step()`];
//! - [`lists`]: row 14, single calls one after another, [`step_all`];
//! - [`frames`]: digits, fields, check byte, line faults;
//! - [`forcings`]: the lines of one forcing, [`read_forcing`];
//! - [`saves`]: [`save`] and [`load`], of both editions;
//! - [`grids`]: lines, fields and numbers of a grid text, [`read_grid`];
//! - [`gauges`]: where a point lies, its elevation, and the record of peaks, from
//!   [`gauge_locate`] to [`gauge_peak`], on byte slices;
//! - [`printing`]: the printing program and example 13 on mesh T;
//! - [`cases`](mod@cases): inputs on which the printing program is tried;
//! - [`script`]: calls written down, as `docs/SCRIPT.md` says, [`run`];
//! - [`generate`](mod@generate): scripts drawn from a seed, [`generate()`];
//! - [`coverage`](mod@coverage): what generated scripts reach, [`coverage()`].

#![forbid(unsafe_code)]
#![warn(missing_docs)]

pub mod cases;
pub mod coverage;
pub mod forcings;
pub mod frames;
pub mod gauges;
pub mod generate;
pub mod grids;
pub mod lists;
pub mod mesh;
pub mod printing;
mod records;
pub mod saves;
pub mod script;
pub mod step;

#[cfg(test)]
mod tests;

pub use cases::{cases, Case};
pub use coverage::coverage;
pub use forcings::read_forcing;
pub use gauges::{gauge_add, gauge_elevation, gauge_locate, gauge_peak, gauge_update};
pub use gauges::{Crossed, Highest};
pub use generate::{generate, Family};
pub use grids::read_grid;
pub use lists::step_all;
pub use mesh::open;
pub use printing::{example_13, print};
pub use records::{Answer, Clock, Parameters};
pub use saves::{load, save};
pub use script::{run, Printed};
pub use step::step;
