//! Request #105, "Wind at each node": which winds a step, a save and a load had,
//! and the winds by which a step was not worked out.

use super::advection::patterns;
use super::conditions::{again_by, beyond};
use super::names::{side, LIMITS, SIDES};
use super::wanted::{each, of, Reached};
use crate::generate::values::{ELEVATION, WIND};
use crate::script::{Call, Script};
use crate::step::{axes, mean, Forcing, State, Winds};

/// The winds that a step is worked out by, to be changed.
struct Blown {
    in_j: fn([f64; 3]) -> f64,
    at_corners: [Vec<f64>; 2],
    present: [Vec<f64>; 2],
    new: [Vec<f64>; 2],
}

impl Blown {
    /// The right ones.
    fn of(script: &Script) -> Blown {
        let state = State::of(&script.state.0);
        let forcing = Forcing::of(&script.forcing.0);
        let present = [state.wx.to_vec(), state.wy.to_vec()];
        Blown {
            in_j: mean,
            at_corners: present.clone(),
            present,
            new: [forcing.wx.to_vec(), forcing.wy.to_vec()],
        }
    }

    fn winds(&self) -> Winds<'_> {
        Winds {
            in_j: self.in_j,
            at_corners: [&self.at_corners[0], &self.at_corners[1]],
            present: [&self.present[0], &self.present[1]],
            new: [&self.new[0], &self.new[1]],
        }
    }
}

/// Gives every node the wind of the first.
fn level(runs: &mut [Vec<f64>; 2]) {
    for run in runs {
        let first = run[0];
        run.fill(first);
    }
}

/// What a misreading makes of the winds.
type Misreading = fn(&mut Blown);

/// The winds that a misreading would have.
const WRONG: [(&str, Misreading); 10] = [
    ("the first corner's in J", |blown| blown.in_j = |w| w[0]),
    ("the sum of the corners' in J", |blown| {
        blown.in_j = |w| (w[0] + w[1]) + w[2]
    }),
    ("the mean from the last corner on in J", |blown| {
        blown.in_j = |w| (w[0] + (w[1] + w[2])) / 3.0
    }),
    ("the sum of the corners' thirds in J", |blown| {
        blown.in_j = |w| (w[0] / 3.0 + w[1] / 3.0) + w[2] / 3.0
    }),
    ("the new ones in J", |blown| {
        blown.at_corners = blown.new.clone()
    }),
    ("Wx and Wy exchanged in J", |blown| {
        blown.at_corners.reverse()
    }),
    ("the first node's for all in velocity", |blown| {
        level(&mut blown.present);
        level(&mut blown.new);
    }),
    ("present and new exchanged in velocity", |blown| {
        std::mem::swap(&mut blown.present, &mut blown.new)
    }),
    ("Wx and Wy exchanged in velocity", |blown| {
        blown.present.reverse()
    }),
    ("Wx' and Wy' exchanged in velocity", |blown| {
        blown.new.reverse()
    }),
];

/// What an accepted step is not worked out by.
const NOT_BY: &str = "winds not";

/// A next state whose winds are not the present ones, nor its Wx those of Wy.
const NEXT: [&str; 2] = ["next winds are new", "next Wx is not Wy"];

/// Winds that are not the same at all nodes, nor along x and y.
const DIFFER: &str = "winds differ";

/// A zero whose sign is kept.
const MINUS_ZERO: &str = "-0";

/// What is said of an accepted step.
pub(crate) fn accepted(script: &Script) -> Vec<String> {
    let n = script.x.0.len();
    let next = patterns(&script.next.0);
    let mut met = Vec::new();
    for (name, change) in &WRONG {
        let mut blown = Blown::of(script);
        change(&mut blown);
        let (work, outcome) = again_by(script, &blown.winds(), axes(script.p.advection));
        if outcome.is_err() || patterns(&work[..3 * n]) != next[n..4 * n] {
            met.push(format!("{NOT_BY} {name}"));
        }
    }
    if next[4 * n..] != patterns(&script.state.0[4 * n..]) {
        met.push(String::from(NEXT[0]));
    }
    if next[4 * n..5 * n] != next[5 * n..] {
        met.push(String::from(NEXT[1]));
    }
    met.extend(held(&script.next.0, ["next Wx", "next Wy"]));
    met
}

/// What is said of the winds of a state, by the names of its last two runs.
pub(crate) fn held(state: &[f64], names: [&str; 2]) -> Vec<String> {
    let state = State::of(state);
    let mut met = Vec::new();
    for (name, run) in names.into_iter().zip([state.wx, state.wy]) {
        for (limit, how) in [WIND.low, WIND.high].into_iter().zip(LIMITS) {
            if run.contains(&limit) {
                met.push(format!("{name} {how}"));
            }
        }
        let minus_zero = (-0.0_f64).to_bits();
        if run.iter().any(|wind| wind.to_bits() == minus_zero) {
            met.push(format!("{name} {MINUS_ZERO}"));
        }
    }
    let along_x = state.wx.windows(2).any(|pair| pair[0] != pair[1]);
    if along_x && state.wx != state.wy {
        met.push(String::from(DIFFER));
    }
    met
}

/// All that is said of the winds of a state.
fn all_held(call: Call, names: [&str; 2]) -> Vec<Reached> {
    each(call, 0, &names, &[LIMITS[0], LIMITS[1], MINUS_ZERO])
}

/// Where a node stands among all.
pub(crate) const NODES: [&str; 3] = ["first node", "node between", "last node"];

/// Which of these a node is.
pub(crate) fn which(node: usize, nodes: usize) -> &'static str {
    match node {
        0 => NODES[0],
        _ if node + 1 == nodes => NODES[2],
        _ => NODES[1],
    }
}

/// Row 12, where one wind of a node is beyond, by where the node stands.
pub(crate) const ALONE: [&str; 2] = ["Wx' alone at the", "Wy' alone at the"];

/// Row 12, where both winds of a node are beyond.
const BOTH: &str = "Wx' and Wy' of a node";

/// Row 12, where an order by runs would have answered another node.
const BY_NODE: &str = "Wy' before a later Wx'";

/// Row 12, where the elevation is beyond.
const WIND_TOO: &str = "a wind too";

/// Row 12.
pub(crate) fn row_12(script: &Script, place: usize) -> Vec<String> {
    let forcing = Forcing::of(&script.forcing.0);
    let Some(node) = place.checked_sub(2) else {
        let mut met = Vec::from_iter(beyond("elevation", forcing.elevation, ELEVATION));
        let mut winds = forcing.wx.iter().chain(forcing.wy);
        if winds.any(|&wind| side(wind, WIND).is_some()) {
            met.push(String::from(WIND_TOO));
        }
        return met;
    };
    let along_x = beyond("Wx'", forcing.wx[node], WIND);
    let along_y = beyond("Wy'", forcing.wy[node], WIND);
    let where_it_is = which(node, forcing.wx.len());
    match (along_x, along_y) {
        (Some(_), Some(_)) => vec![String::from(BOTH)],
        (Some(one), None) => vec![one, format!("{} {where_it_is}", ALONE[0])],
        (None, Some(one)) => {
            let mut met = vec![one, format!("{} {where_it_is}", ALONE[1])];
            let mut later = forcing.wx[node..].iter();
            if later.any(|&wind| side(wind, WIND).is_some()) {
                met.push(String::from(BY_NODE));
            }
            met
        }
        (None, None) => Vec::new(),
    }
}

/// All that must be reached.
pub(crate) fn all_conditions() -> Vec<Reached> {
    let mut all = each(Call::Step, 0, &[NOT_BY], &WRONG.map(|(name, _)| name));
    all.extend(of(Call::Step, 0, &NEXT));
    all.extend(all_held(Call::Step, ["next Wx", "next Wy"]));
    for call in [Call::Step, Call::Save, Call::Load] {
        all.extend(of(call, 0, &[DIFFER]));
    }
    all.extend(all_held(Call::Save, ["Wx", "Wy"]));
    all.extend(all_held(Call::Load, ["node 06 Wx", "node 06 Wy"]));
    all.extend(all_held(Call::Load, ["head 01 Wx", "head 01 Wy"]));
    all.extend(each(Call::Step, 12, &["elevation", "Wx'", "Wy'"], &SIDES));
    all.extend(each(Call::Step, 12, &ALONE, &NODES));
    all.extend(of(Call::Step, 12, &[BOTH, BY_NODE, WIND_TOO]));
    all
}
