//! Request #106, "A gauge product with a C host": which conditions of rows 1 to
//! 10 and 40 to 43 a call on gauges met, what an accepted one found and wrote, and
//! by which misreadings it was not worked out; and all that must be reached.

mod lengths;
mod misreadings;
mod points;
mod records;

use super::conditions::{accepted_mesh, conditions as of_a_run, LEG_TWICE};
use super::wanted::{mesh_rows, of, row_10, Reached};
use crate::gauges::{gauges, Run};
use crate::script::gauges::Gauge;
use crate::script::{Call, Called, Script};

/// The calls that are lent a mesh and a state.
const ON_A_MESH: [Gauge; 4] = [Gauge::Locate, Gauge::Add, Gauge::Elevation, Gauge::Update];

/// The calls that are lent a record.
const ON_A_RECORD: [Gauge; 4] = [Gauge::Add, Gauge::Elevation, Gauge::Update, Gauge::Peak];

/// What is said of a refusal where row 43 would have refused as well.
const ROW_43_TOO: &str = "43 too";

/// What is said of a refusal where no triangle contains the point either.
const ROW_40_TOO: &str = "40 too";

/// What is said of a 41 where a triangle contains the point.
const INSIDE: &str = "a 65th gauge inside";

/// What is said of a 43 by an add to a record whose count is 64.
const ROW_41_TOO: &str = "41 too";

/// A script that holds, as numbers, what the byte slices of this one stand for,
/// where each is a whole number of elements.
fn unpacked(script: &Script) -> Option<Script> {
    let run = Run::of(script.crossed()).ok()?;
    let mut unpacked = Script::new();
    (unpacked.x.0, unpacked.y.0, unpacked.tri.0) = (run.x, run.y, run.tri);
    (unpacked.h.0, unpacked.kind.0) = (run.h, run.kind);
    (unpacked.state.0, unpacked.p) = (run.state, script.p);
    Some(unpacked)
}

/// The conditions that a call met.
pub(crate) fn conditions(script: &Script, called: Called, gauge: Gauge) -> Vec<String> {
    let number = called.answer.number;
    let mut met = match number {
        0 => accepted(script, called, gauge),
        1 => lengths::conditions(script),
        40 => points::outside(script, called, gauge),
        41 => vec![row_40_too(script, called).unwrap_or_else(|| String::from(INSIDE))],
        42 => vec![records::not_given_out(script, called.gauge)],
        43 => {
            let mut met = records::refused(script);
            met.extend(behind_43(script, called, gauge));
            met
        }
        _ => {
            let run = unpacked(script).unwrap_or_else(Script::new);
            of_a_run(&run, called)
        }
    };
    let lent_a_record = ON_A_RECORD.contains(&gauge);
    if number <= 10 && lent_a_record && gauges(&script.record_lent).is_err() {
        met.push(String::from(ROW_43_TOO));
    }
    if let 0 | 40 = number {
        met.extend(misreadings::not_by(script, called, gauge));
    }
    met
}

/// Whether no triangle contains the point that is asked.
fn row_40_too(script: &Script, called: Called) -> Option<String> {
    let inside = points::contained(script, called.point);
    (!inside).then(|| String::from(ROW_40_TOO))
}

/// The rows that 43 comes before.
fn behind_43(script: &Script, called: Called, gauge: Gauge) -> Vec<String> {
    if gauge != Gauge::Add {
        return Vec::new();
    }
    let mut met = Vec::from_iter(row_40_too(script, called));
    if script.record_lent.first() == Some(&64) {
        met.push(String::from(ROW_41_TOO));
    }
    met
}

/// What is said of an accepted call.
fn accepted(script: &Script, called: Called, gauge: Gauge) -> Vec<String> {
    let mut met = match gauge {
        Gauge::Locate => Vec::new(),
        Gauge::Add => records::added(script),
        Gauge::Elevation => Vec::new(),
        Gauge::Update => records::updated(script, called),
        Gauge::Peak => return records::asked(script, called.gauge),
    };
    met.extend(points::found(script, called, gauge));
    if let Some(run) = unpacked(script) {
        met.extend(accepted_mesh(&run));
    }
    met
}

/// The calls on gauges that came before.
#[derive(Default)]
pub(crate) struct Followed {
    /// Whether a load was accepted since the latest update.
    loaded: bool,
    /// Whether the latest update was refused.
    refused: bool,
}

impl Followed {
    /// What is said of an accepted update by what came before it.
    pub fn follow(&mut self, called: Called) -> Vec<String> {
        let accepted = called.answer.number == 0;
        let mut met = Vec::new();
        match called.call {
            Call::Load => self.loaded |= accepted,
            Call::Gauge(Gauge::Update) => {
                let before = [self.loaded, self.refused];
                let names = AFTER.into_iter().zip(before);
                met.extend(names.filter(|(_, met)| accepted && *met));
                self.loaded = false;
                self.refused = !accepted;
            }
            _ => (),
        }
        met.into_iter()
            .map(|(name, _)| String::from(name))
            .collect()
    }
}

/// What an accepted update may come after.
const AFTER: [&str; 2] = ["after a load", "after a refused one"];

/// All that must be reached.
pub(crate) fn all_conditions() -> Vec<Reached> {
    let mut all = Vec::new();
    for gauge in ON_A_MESH {
        let call = Call::Gauge(gauge);
        all.extend(lengths::all_conditions(call));
        all.extend(of(call, 2, &["N 2", "N 4097", "E 0", "E 8193"]));
        all.extend(mesh_rows(call));
        all.extend(row_10(call));
        all.extend(of(call, 0, &["N 3", "N 4096", "E 1", "E 8192"]));
        all.extend(of(call, 0, &[LEG_TWICE]));
    }
    for gauge in [Gauge::Add, Gauge::Elevation, Gauge::Update] {
        for row in [1, 2, 3, 4, 5, 7, 8, 9, 10] {
            all.extend(of(Call::Gauge(gauge), row, &[ROW_43_TOO]));
        }
    }
    all.extend(of(Call::Gauge(Gauge::Add), 41, &[INSIDE, ROW_40_TOO]));
    let behind = [ROW_40_TOO, ROW_41_TOO];
    all.extend(of(Call::Gauge(Gauge::Add), 43, &behind));
    all.extend(of(Call::Gauge(Gauge::Update), 0, &AFTER));
    all.extend(points::all_conditions());
    all.extend(records::all_conditions());
    all.extend(misreadings::all_conditions());
    all
}
