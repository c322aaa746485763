//! NaNs that a refusal leaves as found, by where they stand. The product's
//! proofs know one NaN, so that only a run shows a pattern that is kept.

use super::wanted::Reached;
use crate::script::{Call, Called, Script};

/// The sorts of NaN. `7FF8000000000000` is of neither: a NaN that is made anew
/// may have that pattern too.
const SORTS: [&str; 2] = ["a quiet NaN", "a signalling NaN"];

/// The bit of a NaN's pattern that makes it a quiet one.
const QUIET: u64 = 0x0008_0000_0000_0000;

/// The rows that refuse a call, where it is lent floats.
fn rows(call: Call) -> &'static [u32] {
    match call {
        Call::Open => &[1, 2, 3, 4, 5, 6, 7, 8, 9],
        Call::Step => &[1, 2, 3, 4, 5, 7, 8, 9, 10, 11, 12, 13],
        Call::Save => &[1, 2, 3, 4, 5, 7, 8, 9, 10, 24],
        Call::Load => &[1, 2, 3, 4, 5, 7, 8, 9, 10, 20, 21, 22, 23, 25],
        Call::Read => &[1, 20, 21, 22],
        Call::Grid => &[30, 31, 32, 33],
        Call::StepAll => &[1, 2, 3, 4, 5, 7, 8, 9, 10, 14],
        Call::Gauge(_) => &[],
    }
}

/// Where a NaN may stand that a refusal leaves as found: where an earlier row
/// refuses one, there is none.
fn places(call: Call, row: u32) -> Vec<&'static str> {
    let mut places = match (call, row) {
        (Call::Open, 1..=9) | (Call::Save, 1..=10) => vec!["state"],
        (Call::Load, 1..) => vec!["state"],
        (Call::Step, 1..=10) => vec!["state", "next", "work", "forcing"],
        (Call::Step, 11 | 12) => vec!["next", "work", "forcing"],
        (Call::Step, 13) => vec!["next"],
        (Call::Read, 1..) => vec!["forcing"],
        (Call::Grid, 30..) => vec!["h"],
        (Call::StepAll, 1..=10 | 14) => vec!["state", "next", "work", "forcings"],
        _ => Vec::new(),
    };
    if call != Call::Read && ((1..=8).contains(&row) || row == 14) {
        places.push("h");
    }
    places
}

fn condition(place: &str, sort: &str) -> String {
    format!("{place} keeps {sort}")
}

/// The NaNs that a refused call left.
pub(crate) fn kept(script: &Script, called: Called) -> Vec<String> {
    let mut met = Vec::new();
    for place in places(called.call, called.answer.number) {
        let floats = match place {
            "state" => &script.state.0,
            "next" => &script.next.0,
            "work" => &script.work.0,
            "h" => &script.h.0,
            "forcings" => &script.forcings.0,
            _ => &script.forcing.0,
        };
        met.extend(kept_in(place, floats));
    }
    met
}

/// The NaNs that are told apart in floats which a call left as found.
pub(crate) fn kept_in(place: &str, floats: &[f64]) -> Vec<String> {
    let held = |sort: &str| floats.iter().any(|&float| sort_of(float) == Some(sort));
    let sorts = SORTS.into_iter().filter(|sort| held(sort));
    sorts.map(|sort| condition(place, sort)).collect()
}

/// Every NaN that is to be kept at these places.
pub(crate) fn all_kept_in(call: Call, row: u32, places: &[&str]) -> Vec<Reached> {
    let mut all = Vec::new();
    for place in places {
        all.extend(SORTS.map(|sort| (call, row, condition(place, sort))));
    }
    all
}

/// The sort of a float, where it is a NaN that is told apart.
pub(crate) fn sort_of(float: f64) -> Option<&'static str> {
    let bits = float.to_bits();
    if !float.is_nan() || bits == f64::INFINITY.to_bits() | QUIET {
        return None;
    }
    Some(SORTS[usize::from(bits & QUIET == 0)])
}

/// Every NaN that these calls must be seen to keep.
pub(crate) fn all_kept(calls: &[Call]) -> Vec<Reached> {
    let mut all = Vec::new();
    for &call in calls {
        for &row in rows(call) {
            all.extend(all_kept_in(call, row, &places(call, row)));
        }
    }
    all
}
