//! Row 14, and row 1 of a list that is no whole number of forcings.

use super::super::conditions::length;
use super::super::wanted::{each, of, Reached};
use super::width;
use crate::lists::{step_all, MOST};
use crate::records::Clock;
use crate::script::{Call, Script};

/// How far a list is above 4,096 forcings.
const ABOVE: [&str; 4] = [
    "one number above",
    "one forcing above",
    "uneven and above",
    "even and far above",
];

/// 1+2N is 1 where there is no node.
const NO_NODE: &str = "no node";

/// The rows that would have refused a list that is not too long.
const BEHIND_14: [u32; 11] = [1, 2, 3, 4, 5, 7, 8, 9, 10, 11, 12];

/// Row 14.
pub(super) fn above(script: &Script, clock: Clock) -> Vec<String> {
    let (width, length) = (width(script), script.forcings.0.len());
    let how = match length - MOST as usize * width {
        1 => ABOVE[0],
        more if more == width => ABOVE[1],
        more if more % width != 0 => ABOVE[2],
        _ => ABOVE[3],
    };
    let mut met = vec![String::from(how)];
    if script.x.0.is_empty() {
        met.push(String::from(NO_NODE));
    }
    met.extend(row_behind(script, clock, width).map(too));
    met
}

fn too(row: u32) -> String {
    format!("{row} too")
}

/// The row that refuses the call where its list has so many numbers of it alone.
fn row_behind(script: &Script, clock: Clock, length: usize) -> Option<u32> {
    let list = &script.forcings.0[..length];
    let (mut next, mut work) = (script.next.0.clone(), script.work.0.clone());
    let (mut sums, state) = (script.sums.0.clone(), &script.state.0);
    let (x, y, tri) = (&script.x.0, &script.y.0, &script.tri.0);
    let (h, kind, p) = (&script.h.0, &script.kind.0, script.p);
    let (answer, ..) = step_all(
        &mut next, &mut work, &mut sums, state, list, x, y, tri, h, kind, p, clock,
    );
    (answer.number != 0).then_some(answer.number)
}

/// How a list that is no whole number of forcings differs from one that is.
const UNEVEN: [&str; 4] = [
    "list one number too many",
    "list one number too few",
    "list half a forcing too many",
    "list one number short of 4,096 forcings",
];

/// The rows that an uneven list comes before.
const BEHIND_UNEVEN: [u32; 10] = [2, 3, 4, 5, 7, 8, 9, 10, 11, 12];

/// Row 1: the one slice that is wrong, the list among them. A wrong x makes the list
/// wrong as well.
pub(super) fn uneven(script: &Script) -> Vec<String> {
    let (n, width) = (script.x.0.len(), width(script));
    let (over, others) = (
        script.forcings.0.len() % width,
        length(script, Call::StepAll),
    );
    let fine = others == ["tri 0 over"];
    if over == 0 || others.iter().any(|name| name.starts_with("x ")) {
        return others;
    }
    if !fine {
        return vec![String::from("several")];
    }
    let mut met = Vec::new();
    let whole = script.forcings.0.len() - over;
    let is = [
        over == 1,
        over == width - 1,
        over == n,
        whole + width == MOST as usize * width && over == width - 1,
    ];
    let names = UNEVEN.into_iter().zip(is).filter(|(_, is)| *is);
    met.extend(names.map(|(name, _)| String::from(name)));
    met.extend(row_behind(script, script.clock, whole).map(too));
    met
}

/// All that must be reached.
pub(super) fn all_conditions() -> Vec<Reached> {
    let call = Call::StepAll;
    let mut all = of(call, 14, &ABOVE);
    all.extend(of(call, 14, &[NO_NODE]));
    all.extend(of(call, 1, &UNEVEN));
    for (number, rows) in [(14, &BEHIND_14[..]), (1, &BEHIND_UNEVEN)] {
        let rows: Vec<String> = rows.iter().map(u32::to_string).collect();
        let rows: Vec<&str> = rows.iter().map(String::as_str).collect();
        all.extend(each(call, number, &rows, &["too"]));
    }
    all
}
