//! Request #103, "Advection in narrow entrances": the setting of a step, what it
//! made of the step, and the forms by which the step was not worked out.

use super::conditions::again;
use super::wanted::{each, of, Reached};
use crate::script::{Call, Called, Script};
use crate::step::{axes, Advection, Axes, OFF, ON};

/// The sorts of byte, of an accepted step that the other setting would give
/// other bits.
const BYTES: [&str; 4] = [
    "advection off",
    "advection by 1",
    "advection by an even byte",
    "advection by another odd byte",
];

/// The runs of an accepted step that has other bits than it would have with
/// advection off.
const RUNS: [&str; 3] = [
    "advection tells in z'",
    "advection tells in U'",
    "advection tells in V'",
];

/// An accepted step that has other bits than it would have with advection off.
pub(crate) const TELLS: &str = "advection tells";

/// The third of such steps in a row.
pub(crate) const TELLS_ON: &str = "advection tells for the third time";

/// An accepted step with advection on and the bits that it would have with
/// advection off.
const SILENT: &str = "advection tells nothing";

/// What an accepted step is not worked out by, along one of the axes.
const AXES: [&str; 2] = ["advection along x not", "advection along y not"];

/// The forms that a misreading would have.
const WRONG: [(&str, Advection); 11] = [
    (
        "added in J",
        Advection {
            in_j: |coriolis, flux, squared| (coriolis + flux) - squared,
            ..ON
        },
    ),
    (
        "taken after the squared-elevation term",
        Advection {
            in_j: |coriolis, flux, squared| (coriolis - squared) - flux,
            ..ON
        },
    ),
    (
        "divided by 2·D",
        Advection {
            flux: |q, slope, d| (q[0] * slope[0] + q[1] * slope[1]) / (2.0 * d),
            ..ON
        },
    ),
    (
        "with b in both slopes of J",
        Advection {
            flux: |q, slope, d| (q[0] * slope[0] + q[1] * slope[0]) / d,
            ..ON
        },
    ),
    (
        "left out of J",
        Advection {
            in_j: OFF.in_j,
            ..ON
        },
    ),
    (
        "added in R",
        Advection {
            in_r: |up_to_slope, rate, wind| (up_to_slope + rate) + wind,
            ..ON
        },
    ),
    (
        "taken after the wind",
        Advection {
            in_r: |up_to_slope, rate, wind| (up_to_slope + wind) - rate,
            ..ON
        },
    ),
    (
        "without dt",
        Advection {
            rate: |sum, _, s| sum / s,
            ..ON
        },
    ),
    (
        "multiplied by dt after it is divided",
        Advection {
            rate: |sum, dt, s| dt * (sum / s),
            ..ON
        },
    ),
    (
        "with b in both slopes of R",
        Advection {
            sum: |mean, slope| mean[0] * slope[0] + mean[1] * slope[0],
            ..ON
        },
    ),
    (
        "left out of R",
        Advection {
            in_r: OFF.in_r,
            ..ON
        },
    ),
];

/// The sides on which a new value leaves its range by advection.
const OVER: [&str; 7] = [
    "z' below", "z' above", "H' below", "U' below", "U' above", "V' below", "V' above",
];

/// Work rooms of whole runs of N that row 1 refuses, the earlier one first.
const ROOMS: [(usize, &str); 3] = [(3, "work of 3N"), (4, "work of 4N"), (6, "work of 6N")];

/// The settings.
pub(crate) const SETTINGS: [&str; 2] = ["with advection off", "with advection on"];

/// Steps on from a save that was made under the other setting.
const CROSSED: [&str; 2] = [
    "advection off after a save under on",
    "advection on after a save under off",
];

fn sort_of(byte: u8) -> &'static str {
    BYTES[match byte {
        0 | 1 => usize::from(byte),
        _ => 2 + usize::from(byte % 2),
    }]
}

/// The patterns of floats.
pub(crate) fn patterns(values: &[f64]) -> Vec<u64> {
    values.iter().map(|value| value.to_bits()).collect()
}

/// z', U' and V' of a step as these formulas give them, where they accept it.
fn accepted_by(script: &Script, axes: Axes) -> Option<Vec<u64>> {
    let (work, outcome) = again(script, axes);
    outcome.ok()?;
    Some(patterns(&work[..3 * script.x.0.len()]))
}

/// What is said of an accepted step.
pub(crate) fn accepted(script: &Script) -> Vec<String> {
    let (n, on) = (script.x.0.len(), script.p.advection);
    let found = patterns(&script.next.0[n..4 * n]);
    let other = accepted_by(script, axes(!on));
    let tells = other.as_ref() != Some(&found);
    let mut met = Vec::new();
    if tells {
        met.push(String::from(sort_of(script.advection)));
    }
    if on {
        met.push(String::from(if tells { TELLS } else { SILENT }));
        met.extend(other.iter().flat_map(|other| runs(&found, other, n)));
        met.extend(not_by(script, &found));
    }
    met
}

/// The runs of N in which two steps differ.
fn runs(found: &[u64], other: &[u64], n: usize) -> Vec<String> {
    let both = found.chunks(n).zip(other.chunks(n)).zip(RUNS);
    both.filter(|((found, other), _)| found != other)
        .map(|(_, name)| String::from(name))
        .collect()
}

/// The forms that would give a step other bits.
fn not_by(script: &Script, found: &[u64]) -> Vec<String> {
    let mut met = Vec::new();
    for (name, wrong) in &WRONG {
        for (axes, axis) in [[wrong, &ON], [&ON, wrong]].into_iter().zip(AXES) {
            if accepted_by(script, axes).as_deref() != Some(found) {
                met.push(format!("{axis} {name}"));
            }
        }
    }
    met
}

/// What is said of a 13 by a value whose side of its range is known: that with
/// advection off the step is accepted.
pub(crate) fn refused(script: &Script, side: &str) -> Option<String> {
    let off = accepted_by(script, axes(false));
    off.map(|_| format!("{side} by advection"))
}

/// A work room of another number of runs.
pub(crate) fn room(script: &Script) -> Option<String> {
    let (n, length) = (script.x.0.len(), script.work.0.len());
    let (_, name) = ROOMS.into_iter().find(|(runs, _)| length == runs * n)?;
    let setting = SETTINGS[usize::from(script.p.advection)];
    Some(format!("{name} {setting}"))
}

/// The latest save, and the latest load of it under the other setting.
#[derive(Default)]
pub(crate) struct Crossing {
    saved: Option<(bool, Vec<u8>)>,
    loaded: Option<(bool, Vec<f64>)>,
}

impl Crossing {
    /// Follows an accepted call. What is said of a step on from such a load.
    pub fn follow(&mut self, script: &Script, called: Called) -> Option<String> {
        let on = script.p.advection;
        match called.call {
            Call::Save => {
                let text = &script.text.0[..called.answer.place];
                self.saved = Some((on, text.to_vec()));
            }
            Call::Load => {
                // The save's text in any spelling is that save.
                let crossed = self.saved == Some((!on, script.text.0.to_ascii_uppercase()));
                self.loaded = crossed.then(|| (on, script.state.0.clone()));
            }
            Call::Step if self.loaded == Some((on, script.state.0.clone())) => {
                return Some(String::from(CROSSED[usize::from(on)]));
            }
            _ => (),
        }
        None
    }
}

/// The bytes that steps must have.
pub(crate) fn all_bytes() -> Vec<Reached> {
    of(Call::Step, 0, &BYTES)
}

/// All that steps must reach.
pub(crate) fn all_conditions() -> Vec<Reached> {
    let mut all = all_bytes();
    for names in [&RUNS[..], &CROSSED, &[TELLS, TELLS_ON, SILENT]] {
        all.extend(of(Call::Step, 0, names));
    }
    all.extend(each(Call::Step, 0, &AXES, &WRONG.map(|(name, _)| name)));
    all.extend(each(Call::Step, 13, &OVER, &["by advection"]));
    all.extend(each(Call::Step, 1, &ROOMS.map(|(_, name)| name), &SETTINGS));
    all
}
