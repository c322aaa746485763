//! Row 1 of the byte slices.

use crate::coverage::wanted::{each, of, Reached};
use crate::mesh::STATE_RUNS;
use crate::script::{Call, Script};

/// A byte slice of row 1: its name, its length, and the bytes of an element and
/// those for each node.
struct Bytes {
    name: &'static str,
    length: usize,
    width: usize,
    per_node: usize,
}

/// The slices beside the triangles.
fn slices(script: &Script) -> [Bytes; 5] {
    let lent = script.crossed();
    let of = |name, slice: &[u8], width, runs| Bytes {
        name,
        length: slice.len(),
        width,
        per_node: width * runs,
    };
    [
        of("x", lent.x, 4, 1),
        of("y", lent.y, 4, 1),
        of("h", lent.h, 8, 1),
        of("kind", lent.kind, 1, 1),
        of("state", lent.state, 8, STATE_RUNS),
    ]
}

/// How a slice differs from the one that is due.
const DIFFERENCES: [&str; 5] = [
    "one byte short",
    "one byte over",
    "one element short",
    "one element over",
    "empty",
];

impl Bytes {
    fn fits(&self, nodes: usize) -> bool {
        self.length == self.per_node * nodes
    }

    fn difference(&self, nodes: usize) -> String {
        let (length, due) = (self.length, self.per_node * nodes);
        let how = if length == 0 {
            4
        } else if length + self.width == due {
            2
        } else if length == due + self.width {
            3
        } else if length + 1 == due {
            0
        } else if length == due + 1 {
            1
        } else {
            return String::from("of another length");
        };
        format!("{} {}", self.name, DIFFERENCES[how])
    }
}

/// The names of a difference that are told apart for a slice: a byte is an element
/// of the kinds.
fn differences(name: &str) -> &'static [&'static str] {
    match name {
        "kind" => &DIFFERENCES[2..],
        _ => &DIFFERENCES,
    }
}

/// What is over in the triangles' bytes, by their number modulo 6.
const OVER: [&str; 5] = [
    "tri one byte over",
    "tri one element over",
    "tri half an element and one over",
    "tri two elements over",
    "tri one byte short",
];

/// What is said of row 1 where row 2 would refuse as well.
const CROWDED: &str = "with N above 4,096";

/// The one slice that is wrong: all others are of one N.
pub(crate) fn conditions(script: &Script) -> Vec<String> {
    let (slices, over) = (slices(script), script.tribytes.0.len() % 6);
    let mut met = Vec::new();
    for wrong in &slices {
        let others = || slices.iter().filter(|slice| slice.name != wrong.name);
        let nodes = others().map(|slice| slice.length / slice.per_node).max();
        let nodes = nodes.unwrap_or(0);
        if over == 0 && !wrong.fits(nodes) && others().all(|slice| slice.fits(nodes)) {
            met.push(wrong.difference(nodes));
        }
    }
    let nodes = script.xbytes.0.len() / 4;
    if over != 0 && slices.iter().all(|slice| slice.fits(nodes)) {
        met.push(String::from(OVER[over - 1]));
    }
    if nodes > 4_096 {
        met.push(String::from(CROWDED));
    }
    met
}

/// All that must be reached.
pub(crate) fn all_conditions(call: Call) -> Vec<Reached> {
    let mut all = of(call, 1, &OVER);
    for name in ["x", "y", "h", "kind", "state"] {
        all.extend(each(call, 1, &[name], differences(name)));
    }
    all.extend(of(call, 1, &[CROWDED]));
    all
}
