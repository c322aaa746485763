//! Request #107, "Many forcings in one call": how long a list was, where it was
//! stopped and by what, what was left of the rooms, and by which misreadings it was
//! not stepped through; and all that must be reached.

mod beside;
mod lengths;
mod misreadings;
mod rooms;

use super::advection::SETTINGS;
use super::conditions::{accepted_mesh, conditions as of_a_run, LEG_TWICE};
use super::names::SIDES;
use super::nans::all_kept;
use super::wanted::{each, lengths as slice_lengths, mesh_rows, of, row_10, Reached};
use super::winds::{ALONE, NODES};
use crate::records::Clock;
use crate::script::{Call, Called, Script};
use crate::step::{row_12, Forcing};
pub(crate) use beside::Beside;

/// The rows that refuse a call on a list before its first forcing is looked at.
const AT_ONCE: [u32; 9] = [1, 2, 3, 4, 5, 7, 8, 9, 10];

/// The rows that stop a list at one of its forcings.
const STOPPING: [u32; 3] = [11, 12, 13];

/// The numbers of one forcing of the script's mesh.
fn width(script: &Script) -> usize {
    1 + 2 * script.x.0.len()
}

/// The whole forcings of the list.
fn count(script: &Script) -> usize {
    script.forcings.0.len() / width(script)
}

/// The conditions that a call met which no single call has: rows 2 to 10 are those of
/// any call on a run.
pub(crate) fn conditions(script: &Script, called: Called) -> Vec<String> {
    match called.answer.number {
        0 => accepted(script, called),
        1 => lengths::uneven(script),
        14 => lengths::above(script, called.clock),
        _ => stopped(script, called),
    }
}

/// What is said of a call on a list beside the conditions of its row.
pub(crate) fn of_any(script: &Script, called: Called) -> Vec<String> {
    let mut met = rooms::left(script, called);
    let number = called.answer.number;
    if AT_ONCE.contains(&number) && script.forcings.0.is_empty() {
        met.push(String::from(COUNTS[0]));
    }
    if number == 10 {
        met.extend(behind_10(script, called.clock));
    }
    met
}

/// The rows that row 10 comes before, at the first forcing.
const BEHIND_10: [&str; 2] = ["11 too", "12 too"];

fn behind_10(script: &Script, clock: Clock) -> Vec<String> {
    let Some(first) = script.forcings.0.chunks_exact(width(script)).next() else {
        return Vec::new();
    };
    let too = [clock.step == u32::MAX, row_12(&Forcing::of(first)).is_err()];
    let names = BEHIND_10.into_iter().zip(too).filter(|(_, too)| *too);
    names.map(|(name, _)| String::from(name)).collect()
}

/// How many forcings an accepted list has.
const COUNTS: [&str; 6] = [
    "no forcing",
    "one forcing",
    "two forcings",
    "some forcings",
    "hundreds of forcings",
    "4,096 forcings",
];

fn sort_of(count: usize) -> &'static str {
    COUNTS[match count {
        0..3 => count,
        3..100 => 3,
        100..4_096 => 4,
        _ => 5,
    }]
}

/// An accepted list that comes to the last step number; one that is empty there.
const LAST_STEP: [&str; 2] = [
    "comes to step 4,294,967,295",
    "no forcing at step 4,294,967,295",
];

/// What is said of an accepted list.
fn accepted(script: &Script, called: Called) -> Vec<String> {
    let (count, setting) = (count(script), SETTINGS[usize::from(script.p.advection)]);
    let mut met = accepted_mesh(script);
    met.push(format!("{} {setting}", sort_of(count)));
    if script.clock.step == u32::MAX {
        met.push(String::from(LAST_STEP[usize::from(count == 0)]));
    }
    met.extend(misreadings::not_by(script, called.clock));
    met
}

/// Where a list is stopped.
const POSITIONS: [&str; 4] = ["the first", "a middle one", "the last", "the only one"];

fn position(at: usize, count: usize) -> &'static str {
    POSITIONS[match (at, count) {
        (_, 1) => 3,
        (0, _) => 0,
        _ if at + 1 == count => 2,
        _ => 1,
    }]
}

/// A later forcing that row 12 would have refused as well: an answer that looks at
/// the whole list first would have been another.
const LATER_12: &str = "a later 12 too";

/// A clock that would not have done for the rest of the list.
const LATER_11: &str = "11 later";

/// Rows 11 to 13: what the single call would have met, by where it stands in the list.
fn stopped(script: &Script, called: Called) -> Vec<String> {
    let (at, count) = (called.accepted as usize, count(script));
    let (position, single) = (position(at, count), single_call(script, at));
    let single_called = Called {
        call: Call::Step,
        ..called
    };
    let mut met = vec![String::from(position)];
    for name in of_a_run(&single, single_called) {
        met.push(format!("{position}, {name}"));
    }
    let mut later = script.forcings.0.chunks_exact(width(script)).skip(at + 1);
    if later.any(|forcing| row_12(&Forcing::of(forcing)).is_err()) {
        met.push(String::from(LATER_12));
    }
    if u64::from(called.clock.step) + count as u64 > u64::from(u32::MAX) {
        met.push(String::from(LATER_11));
    }
    met
}

/// A script that holds what the single call numbered `at` is lent: the state after the
/// accepted steps, which is the next state where there are any, and its forcing.
fn single_call(script: &Script, at: usize) -> Script {
    let mut single = Script::new();
    let state = if at == 0 { &script.state } else { &script.next };
    single.state.0 = state.0.clone();
    let mut forcings = script.forcings.0.chunks_exact(width(script));
    single.forcing.0 = forcings.nth(at).unwrap_or_default().to_vec();
    (single.x.0, single.y.0) = (script.x.0.clone(), script.y.0.clone());
    single.tri.0 = script.tri.0.clone();
    (single.h.0, single.kind.0) = (script.h.0.clone(), script.kind.0.clone());
    (single.p, single.clock) = (script.p, script.clock);
    single
}

/// Rows 11 to 13, each at the first, at a middle and at the last forcing.
fn all_stops() -> Vec<Reached> {
    let (call, sides) = (Call::StepAll, &["below", "above"]);
    let mut all = Vec::new();
    for row in STOPPING {
        all.extend(of(call, row, &POSITIONS));
    }
    for position in &POSITIONS[..3] {
        let mut single = of(call, 11, &["12 too"]);
        single.extend(each(call, 12, &["elevation", "Wx'", "Wy'"], &SIDES));
        single.extend(each(call, 12, &ALONE, &NODES));
        single.extend(each(call, 13, &["z'", "U'", "V'"], sides));
        single.extend(of(call, 13, &["H' below", "H' just below"]));
        let named = |(call, row, name): Reached| (call, row, format!("{position}, {name}"));
        all.extend(single.into_iter().map(named));
    }
    for row in [12, 13] {
        all.extend(of(call, row, &[LATER_12, LATER_11]));
    }
    all
}

/// All that must be reached.
pub(crate) fn all_conditions() -> Vec<Reached> {
    let call = Call::StepAll;
    let mut all = slice_lengths(call);
    all.extend(of(call, 2, &["N 2", "N 4097", "E 0", "E 8193"]));
    all.extend(mesh_rows(call));
    all.extend(row_10(call));
    all.extend(of(call, 10, &BEHIND_10));
    for row in AT_ONCE {
        all.extend(of(call, row, &COUNTS[..1]));
    }
    all.extend(of(call, 0, &["N 3", "N 4096", "E 1", "E 8192", LEG_TWICE]));
    all.extend(each(call, 0, &COUNTS, &SETTINGS));
    all.extend(of(call, 0, &LAST_STEP));
    all.extend(all_stops());
    all.extend(all_kept(&[call]));
    all.extend(lengths::all_conditions());
    all.extend(rooms::all_conditions());
    all.extend(misreadings::all_conditions());
    all.extend(beside::all_conditions());
    all
}
