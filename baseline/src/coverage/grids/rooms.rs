//! Row 33: rooms that have not the lengths that a text's N and E give.

use super::fields::{added, ADDED};
use super::{later, Sheet, ROOMS};
use crate::coverage::conditions::difference;
use crate::coverage::wanted::{each, of, Reached};
use crate::grids::{fields_of, whole};
use crate::script::{Call, Script};

/// How a slice of another length differs.
const LENGTHS: [&str; 3] = ["one shorter", "one longer", "empty"];

/// Counts that are the largest of their bits.
const LARGEST: [&str; 4] = [
    "the largest of 16 bits",
    "the largest of 32 bits",
    "the largest of 63 bits",
    "the largest of 64 bits",
];

/// E and N, each where it is a number.
fn counts(sheet: &Sheet) -> [Option<i128>; 2] {
    let fields = sheet
        .lines
        .get(1)
        .map_or(Vec::new(), |line| fields_of(line));
    [0, 1].map(|at| fields.get(at).and_then(|field| whole(field).ok()))
}

/// Whether an E or an N does not fit the rooms.
pub(crate) fn misfit(script: &Script, sheet: &Sheet) -> bool {
    let [e, n] = counts(sheet);
    let other = |count: Option<i128>, length: usize| count.is_some_and(|it| it != length as i128);
    let corners = e.map(|e| e.saturating_mul(3));
    other(corners, script.tri.0.len()) || lengths(script).iter().any(|&length| other(n, length))
}

/// The lengths of the nodes' rooms.
fn lengths(script: &Script) -> [usize; 3] {
    [script.x.0.len(), script.y.0.len(), script.h.0.len()]
}

/// What does not fit, and the rows that refuse later lines.
pub(crate) fn conditions(script: &Script, sheet: &Sheet) -> Vec<String> {
    let [Some(e), Some(n)] = counts(sheet) else {
        return Vec::new();
    };
    // The lines that follow are counted by the text.
    let most = sheet.lines.len();
    let [triangles, nodes] = [e, n].map(|count| usize::try_from(count).unwrap_or(most).min(most));
    let counted = Sheet::of(&script.text.0, nodes, triangles);
    let mut met = later(&counted, 1);
    met.push(misfitting(lengths(script), script.tri.0.len(), e, n));
    met
}

/// The one room or the one count that does not fit.
fn misfitting(lengths: [usize; 3], corners: usize, e: i128, n: i128) -> String {
    let wrong: Vec<usize> = (0..3).filter(|&room| lengths[room] as i128 != n).collect();
    let fits = e.saturating_mul(3) == corners as i128;
    let nodes = lengths[0];
    let alike = lengths == [nodes; 3];
    let exchanged = e == nodes as i128 && n.saturating_mul(3) == corners as i128;
    match wrong.as_slice() {
        [] if !fits => corners_off(corners, e),
        &[room] if fits => {
            let length = lengths[room];
            format!("{} {}", ROOMS[room], difference(length, n as usize))
        }
        [_, _, _] if alike && fits => {
            let how = count_off(n, nodes).unwrap_or("another");
            format!("N {how}")
        }
        [_, _, _] if alike && exchanged => String::from("E and N exchanged"),
        _ => String::from("several"),
    }
}

/// How a count is not the one that the rooms have, where that is told apart.
fn count_off(count: i128, length: usize) -> Option<&'static str> {
    let largest = [16, 32, 63, 64]
        .iter()
        .position(|&bits| count == (1 << bits) - 1);
    match largest {
        Some(at) => Some(LARGEST[at]),
        None => added(count, length as i128),
    }
}

/// The corners' room, or E where the room has whole triangles.
fn corners_off(corners: usize, e: i128) -> String {
    let over = e.saturating_mul(3) - corners as i128;
    let power = (16..66).find(|&power| over == 1 << power);
    match (over, power, count_off(e, corners / 3)) {
        (1, ..) => String::from("tri one shorter"),
        (-1, ..) => String::from("tri one longer"),
        (_, Some(power), _) => format!("3E 2^{power} more"),
        (.., Some(how)) => format!("E {how}"),
        _ if corners == 0 => String::from("tri empty"),
        _ => String::from("E another"),
    }
}

/// All that must be reached.
pub(crate) fn all_conditions() -> Vec<Reached> {
    let mut all = each(Call::Grid, 33, &ROOMS, &LENGTHS);
    for endings in [&ADDED[..], &LARGEST] {
        all.extend(each(Call::Grid, 33, &["E", "N"], endings));
    }
    for power in [16, 17, 32, 33, 64, 65] {
        all.push((Call::Grid, 33, format!("3E 2^{power} more")));
    }
    all.extend(of(Call::Grid, 33, &["E and N exchanged"]));
    all
}
