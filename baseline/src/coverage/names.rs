//! The names that conditions are made of, those met and those to be reached:
//! slices, runs, parameters, and the sides of a range.

use crate::generate::values::Range;
use crate::script::Call;

/// The names of the numbers in a state's runs.
pub(crate) const RUN_NAMES: [&str; 6] = ["earlier z", "z", "U", "V", "Wx", "Wy"];

/// The names of the parameters.
pub(crate) const PARAMETER_NAMES: [&str; 4] = ["dt", "tau", "K", "f"];

/// A slice of row 1: its name, its runs of N numbers, and its numbers more.
pub(crate) type Length = (&'static str, usize, usize);

/// The slices of row 1 beside x and the triangles.
const LENGTHS: [Length; 8] = [
    ("y", 1, 0),
    ("h", 1, 0),
    ("kind", 1, 0),
    ("state", 6, 0),
    ("next", 6, 0),
    ("work", 5, 0),
    ("sums", 1, 0),
    ("forcing", 2, 1),
];

/// The same for a list of forcings, beside the list as well.
const LIST_LENGTHS: [Length; 7] = [
    LENGTHS[0],
    LENGTHS[1],
    LENGTHS[2],
    LENGTHS[3],
    LENGTHS[4],
    ("work", 11, 0),
    LENGTHS[6],
];

/// The slices of row 1 that a call is lent, beside x and the triangles.
pub(crate) fn lent_to(call: Call) -> &'static [Length] {
    match call {
        Call::Step => &LENGTHS,
        Call::StepAll => &LIST_LENGTHS,
        _ => &LENGTHS[..4],
    }
}

/// Lengths by runs and numbers more that slices had before a request, or that a
/// misreading would give them: row 1 refuses them. A single step's work room is told
/// by its setting too.
pub(crate) fn other_lengths(call: Call) -> &'static [Length] {
    match call {
        Call::StepAll => &[
            ("state", 4, 0),
            ("next", 4, 0),
            ("work", 5, 0),
            ("work", 6, 0),
            ("work", 10, 0),
        ],
        _ => &[
            ("state", 4, 0),
            ("next", 4, 0),
            ("forcing", 0, 3),
            ("forcing", 1, 1),
            ("forcing", 3, 0),
        ],
    }
}

/// What is said of a slice of one of these lengths.
pub(crate) fn other_length(&(name, runs, more): &Length) -> String {
    match (runs, more) {
        (0, _) => format!("{name} of {more}"),
        (_, 0) => format!("{name} of {runs}N"),
        _ => format!("{name} of {more}+{runs}N"),
    }
}

/// What is said of a value at one of its limits.
pub(crate) const LIMITS: [&str; 2] = ["least", "most"];

/// The ways to be beyond a range that must be reached.
pub(crate) const SIDES: [&str; 5] = ["one bit below", "one bit above", "below", "above", "NaN"];

/// The side of a range that a value is beyond, where it is.
pub(crate) fn side(value: f64, range: Range) -> Option<&'static str> {
    let at = if value == range.low.next_down() {
        0
    } else if value == range.high.next_up() {
        1
    } else if value < range.low {
        2
    } else if value > range.high {
        3
    } else if value.is_nan() {
        4
    } else {
        return None;
    };
    Some(SIDES[at])
}
