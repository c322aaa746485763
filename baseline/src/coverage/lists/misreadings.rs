//! The ways in which an accepted list was not stepped through: a misreading would have
//! given another state.

use super::super::advection::patterns;
use super::super::wanted::{each, Reached};
use super::{count, width};
use crate::lists::{step_all, LIST_WORK_RUNS};
use crate::mesh::STATE_RUNS;
use crate::records::Clock;
use crate::script::{Call, Script};

/// Lists that are longer are not stepped through again.
const LONGEST: usize = 12;

/// What a misreading would have left in the next slice, where it accepts the list.
type Misreading = fn(&Script, Clock) -> Option<Vec<f64>>;

const WRONG: [(&str, Misreading); 7] = [
    ("the last forcing alone", |script, clock| {
        let last = count(script) - 1;
        by_list(script, clock, &[last])
    }),
    ("without the last forcing", |script, clock| {
        let all_but: Vec<usize> = (0..count(script) - 1).collect();
        by_list(script, clock, &all_but)
    }),
    ("the first forcing each time", |script, clock| {
        by_list(script, clock, &vec![0; count(script)])
    }),
    ("the last forcing first", |script, clock| {
        let back: Vec<usize> = (0..count(script)).rev().collect();
        by_list(script, clock, &back)
    }),
    ("the winds of the start", |script, clock| {
        holding(script, clock, 4..STATE_RUNS)
    }),
    ("the earlier z of the start", |script, clock| {
        holding(script, clock, 0..1)
    }),
    ("all elevations first", |script, clock| {
        let (numbers, count) = (&script.forcings.0, count(script));
        let (elevations, winds) = numbers.split_at(count);
        let both = winds.chunks_exact(width(script) - 1).zip(elevations);
        let list: Vec<f64> = both
            .flat_map(|(winds, &elevation)| [&[elevation], winds].concat())
            .collect();
        stepped(script, &script.state.0, &list, clock)
    }),
];

/// The state after a list from any state, where it is accepted.
fn stepped(script: &Script, state: &[f64], list: &[f64], clock: Clock) -> Option<Vec<f64>> {
    let n = script.x.0.len();
    let (mut next, mut work) = (vec![0.0; STATE_RUNS * n], vec![0.0; LIST_WORK_RUNS * n]);
    let (mut sums, p) = (vec![0; n], script.p);
    let (x, y, tri) = (&script.x.0, &script.y.0, &script.tri.0);
    let (h, kind) = (&script.h.0, &script.kind.0);
    let (answer, ..) = step_all(
        &mut next, &mut work, &mut sums, state, list, x, y, tri, h, kind, p, clock,
    );
    (answer.number == 0).then_some(next)
}

/// The state after the forcings of these numbers.
fn by_list(script: &Script, clock: Clock, numbers: &[usize]) -> Option<Vec<f64>> {
    let forcings: Vec<&[f64]> = script.forcings.0.chunks_exact(width(script)).collect();
    let chosen = numbers.iter().map(|&number| forcings[number]);
    let list: Vec<f64> = chosen.flatten().copied().collect();
    stepped(script, &script.state.0, &list, clock)
}

/// The state after all forcings, where some runs of the state stay those of the start.
fn holding(script: &Script, clock: Clock, runs: std::ops::Range<usize>) -> Option<Vec<f64>> {
    let n = script.x.0.len();
    let (start, held) = (&script.state.0, n * runs.start..n * runs.end);
    let mut state = start.clone();
    for forcing in script.forcings.0.chunks_exact(width(script)) {
        state[held.clone()].copy_from_slice(&start[held.clone()]);
        state = stepped(script, &state, forcing, clock)?;
    }
    Some(state)
}

/// What an accepted list was not stepped through by.
const NOT_BY: &str = "not by";

/// The misreadings that would have left another state.
pub(super) fn not_by(script: &Script, clock: Clock) -> Vec<String> {
    if !(2..=LONGEST).contains(&count(script)) {
        return Vec::new();
    }
    let found = patterns(&script.next.0);
    let mut met = Vec::new();
    for (name, misread) in &WRONG {
        let other = misread(script, clock).map(|next| patterns(&next));
        if other.as_ref() != Some(&found) {
            met.push(format!("{NOT_BY} {name}"));
        }
    }
    met
}

/// All that must be reached.
pub(super) fn all_conditions() -> Vec<Reached> {
    each(Call::StepAll, 0, &[NOT_BY], &WRONG.map(|(name, _)| name))
}
