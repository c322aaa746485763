//! All that a coverage is to reach.

use super::advection;
use super::conditions::{all_behind, LEG_TWICE};
use super::forcings;
use super::friction;
use super::gauges;
use super::grids;
use super::lists;
use super::names::{lent_to, other_length, other_lengths, LIMITS};
use super::names::{PARAMETER_NAMES, RUN_NAMES, SIDES};
use super::nans::all_kept;
use super::spellings;
use super::texts;
use super::winds;
use crate::generate::Family;
use crate::script::Call;

/// A call, a number of the refusal table, and a condition of it.
pub(crate) type Reached = (Call, u32, String);

/// The four calls on a run.
const ON_A_RUN: [Call; 4] = [Call::Open, Call::Step, Call::Save, Call::Load];

/// All that the scripts of a family must reach.
pub(crate) fn all_conditions(family: Family) -> Vec<Reached> {
    match family {
        Family::Runs => runs_and_lines(),
        Family::Grids => grids::all_conditions(),
        Family::Gauges => gauges::all_conditions(),
        Family::Lists => lists::all_conditions(),
    }
}

fn runs_and_lines() -> Vec<Reached> {
    let mut all = Vec::new();
    for call in ON_A_RUN {
        all.extend(lengths(call));
        all.extend(of(call, 2, &["N 2", "N 4097", "E 0", "E 8193"]));
        all.extend(mesh_rows(call));
        all.extend(of(call, 0, &["N 3", "N 4096", "E 1", "E 8192"]));
        if call != Call::Open {
            all.extend(of(call, 0, &[LEG_TWICE]));
            all.extend(row_10(call));
        }
    }
    for (later, earlier) in (0..9).map(|pair| (1 + pair / 3, 1 + pair % 3)) {
        all.push((Call::Open, 6, format!("leg {later} as leg {earlier}")));
    }
    all.extend(step_rows());
    all.extend(friction::all_conditions());
    all.extend(advection::all_conditions());
    all.extend(of(Call::Save, 24, &["one shorter", "empty"]));
    all.extend(of(Call::Save, 0, &["room just enough", "room to spare"]));
    all.extend(all_behind());
    all.extend(winds::all_conditions());
    all.extend(texts::all_conditions());
    all.extend(forcings::all_conditions());
    all.extend(spellings::all_conditions());
    all.extend(all_kept(&ON_A_RUN));
    all.extend(all_kept(&[Call::Read]));
    all
}

/// Row 10, of a load in each edition: an edition 1 text has the head's wind.
pub(crate) fn row_10(call: Call) -> Vec<Reached> {
    let mut all = Vec::new();
    let editions: &[&str] = match call {
        Call::Load => &["edition 1 ", "edition 2 "],
        _ => &[""],
    };
    for edition in editions {
        let names = RUN_NAMES.map(|name| format!("{edition}{name}"));
        all.extend(beyond(call, 10, &names.each_ref().map(String::as_str)));
        all.push((call, 10, format!("{edition}h+z just below")));
    }
    all
}

pub(crate) fn of(call: Call, number: u32, conditions: &[&str]) -> Vec<Reached> {
    let reached = |condition: &&str| (call, number, condition.to_string());
    conditions.iter().map(reached).collect()
}

/// Each name with each of some endings.
pub(crate) fn each(call: Call, number: u32, names: &[&str], endings: &[&str]) -> Vec<Reached> {
    let mut all = Vec::new();
    for name in names {
        for ending in endings {
            all.push((call, number, format!("{name} {ending}")));
        }
    }
    all
}

/// Each name beyond its range on each side.
fn beyond(call: Call, number: u32, names: &[&str]) -> Vec<Reached> {
    each(call, number, names, &SIDES)
}

/// Row 1: each slice lent to the call.
pub(crate) fn lengths(call: Call) -> Vec<Reached> {
    let mut names: Vec<&str> = lent_to(call).iter().map(|&(name, ..)| name).collect();
    names.push("x");
    let mut all = each(call, 1, &names, &["one shorter", "one longer", "empty"]);
    all.extend(of(call, 1, &["tri 1 over", "tri 2 over"]));
    for length in other_lengths(call) {
        if names.contains(&length.0) {
            all.push((call, 1, other_length(length)));
        }
    }
    all
}

/// Rows 3 to 9 but 6.
pub(crate) fn mesh_rows(call: Call) -> Vec<Reached> {
    let corners = ["corner 1", "corner 2", "corner 3"];
    let sides = ["a1", "a2", "a3", "b1", "b2", "b3"];
    let beyond_sides = ["100,001", "-100,001", "far above", "far below"];
    let mut all = each(call, 3, &corners, &["is N", "is above N"]);
    all.extend(each(call, 4, &sides, &beyond_sides));
    all.extend(of(call, 5, &["clockwise", "flat", "a corner twice"]));
    all.extend(of(call, 7, &["first node", "node between", "last node"]));
    all.extend(beyond(call, 8, &["h"]));
    all.extend(of(call, 8, &["kind 3", "kind above 3"]));
    all.extend(beyond(call, 9, &PARAMETER_NAMES));
    all
}

/// Row 13 of a step, and the limits that it accepts.
fn step_rows() -> Vec<Reached> {
    let forcing = ["elevation", "Wx'", "Wy'"];
    let mut all = each(Call::Step, 13, &["z'", "U'", "V'"], &["below", "above"]);
    all.extend(of(Call::Step, 13, &["H' below", "H' just below"]));
    for names in [&PARAMETER_NAMES[..], &RUN_NAMES, &forcing, &["h"]] {
        all.extend(each(Call::Step, 0, names, &LIMITS));
    }
    let others = ["h+z just enough", "step 4,294,967,294"];
    all.extend(of(Call::Step, 0, &others));
    all.extend(of(Call::Step, 0, &["kind 0", "kind 1", "kind 2"]));
    all
}
