//! Misreadings of request #106: calls are made once more by them, and told apart
//! where the answer, what was found or the record would be another.

use super::{ON_A_MESH, ON_A_RECORD};
use crate::coverage::wanted::{each, of, Reached};
use crate::frames::pattern;
use crate::gauges::{add_by, elevation_by, gauge_peak, locate_by, sub_areas, update_by};
use crate::gauges::{Crossed, Highest, Rule, ROW, RULE};
use crate::records::Answer;
use crate::script::gauges::Gauge;
use crate::script::{Call, Called, Script};
use crate::step::mean;
use std::ops::Range;

/// What a call gives: its answer, what it finds and the record after it.
#[derive(PartialEq)]
struct Outcome {
    answer: Answer,
    found: [u64; 3],
    record: Vec<u8>,
}

/// Makes a call by any rule.
fn outcome(rule: &Rule, record: &[u8], crossed: Crossed, called: Called) -> Outcome {
    let mut record = record.to_vec();
    let number = |found: u32| [u64::from(found), 0, 0];
    let found = match called.call {
        Call::Gauge(Gauge::Add) => add_by(rule, &mut record, crossed, called.point).map(number),
        Call::Gauge(Gauge::Elevation) => {
            let elevation = elevation_by(rule, &record, crossed, called.gauge);
            elevation.map(|elevation| [pattern(elevation), 0, 0])
        }
        Call::Gauge(Gauge::Update) => {
            let step = called.clock.step;
            update_by(rule, &mut record, crossed, step).map(|()| [0; 3])
        }
        Call::Gauge(Gauge::Peak) => {
            let (answer, highest) = gauge_peak(&record, called.gauge);
            let numbers = [
                highest.seen.into(),
                pattern(highest.peak),
                highest.step.into(),
            ];
            match answer.number {
                0 => Ok(numbers),
                _ => Err(answer),
            }
        }
        _ => locate_by(rule, crossed, called.point).map(number),
    };
    let (answer, found) = match found {
        Ok(found) => (Answer::accepted(0), found),
        Err(refusal) => (refusal, [0; 3]),
    };
    Outcome {
        answer,
        found,
        record,
    }
}

/// The rules that a misreading would have, of accepted calls.
const WRONG: [(&str, Rule); 3] = [
    (
        "strictly inside",
        Rule {
            contains: |w| w.iter().all(|&area| area > 0),
            ..RULE
        },
    ),
    (
        "by sub-areas of 32 bits",
        Rule {
            sub_areas: |corners, point| sub_areas(corners, point).map(|w| i128::from(w as i32)),
            ..RULE
        },
    ),
    (
        "in the highest-numbered triangle",
        Rule {
            chosen: |spots| spots.last(),
            ..RULE
        },
    ),
];

/// The rules that a misreading would have, of calls that work out elevations.
const WRONG_ELEVATIONS: [(&str, Rule); 7] = [
    (
        "by sub-areas named for the corner after",
        Rule {
            sub_areas: |corners, point| turned(sub_areas(corners, point), 1),
            ..RULE
        },
    ),
    (
        "by sub-areas named for the corner before",
        Rule {
            sub_areas: |corners, point| turned(sub_areas(corners, point), 2),
            ..RULE
        },
    ),
    (
        "by the earlier z",
        Rule {
            z: |state| state.earlier,
            ..RULE
        },
    ),
    (
        "by each part divided by D",
        Rule {
            elevation: |w, z, d| (w[0] / d * z[0] + w[1] / d * z[1]) + w[2] / d * z[2],
            ..RULE
        },
    ),
    (
        "by the sum from the last corner on",
        Rule {
            elevation: |w, z, d| (w[0] * z[0] + (w[1] * z[1] + w[2] * z[2])) / d,
            ..RULE
        },
    ),
    (
        "by the mean of the corners",
        Rule {
            elevation: |_, z, _| mean(z),
            ..RULE
        },
    ),
    (
        "by 2·D",
        Rule {
            elevation: |w, z, d| ((w[0] * z[0] + w[1] * z[1]) + w[2] * z[2]) / (2.0 * d),
            ..RULE
        },
    ),
];

/// The rules that a misreading would have, of what an update keeps.
const WRONG_PEAKS: [(&str, Rule); 8] = [
    (
        "with an equal elevation in place of the first",
        Rule {
            highest: |found, elevation, step| {
                kept_if(
                    found.seen == 1 && elevation < found.peak,
                    found,
                    elevation,
                    step,
                )
            },
            ..RULE
        },
    ),
    (
        "with -0 below +0",
        Rule {
            highest: |found, elevation, step| {
                let below = elevation.total_cmp(&found.peak).is_le();
                kept_if(found.seen == 1 && below, found, elevation, step)
            },
            ..RULE
        },
    ),
    (
        "with a NaN kept",
        Rule {
            highest: |found, elevation, step| {
                let above = elevation > found.peak;
                kept_if(found.seen == 1 && !above, found, elevation, step)
            },
            ..RULE
        },
    ),
    (
        "with the step of the latest state",
        Rule {
            highest: |found, elevation, step| Highest {
                step,
                ..(RULE.highest)(found, elevation, step)
            },
            ..RULE
        },
    ),
    (
        "with the latest elevation",
        Rule {
            highest: |_, elevation, step| Highest::new(elevation, step),
            ..RULE
        },
    ),
    (
        "with the lowest elevation",
        Rule {
            highest: |found, elevation, step| {
                kept_if(
                    found.seen == 1 && elevation >= found.peak,
                    found,
                    elevation,
                    step,
                )
            },
            ..RULE
        },
    ),
    (
        "with the highest in size",
        Rule {
            highest: |found, elevation, step| {
                let below = elevation.abs() <= found.peak.abs();
                kept_if(found.seen == 1 && below, found, elevation, step)
            },
            ..RULE
        },
    ),
    (
        "without a look at seen",
        Rule {
            highest: |found, elevation, step| {
                kept_if(elevation <= found.peak, found, elevation, step)
            },
            ..RULE
        },
    ),
];

fn kept_if(kept: bool, found: Highest, elevation: f64, step: u32) -> Highest {
    if kept {
        found
    } else {
        Highest::new(elevation, step)
    }
}

/// The rules that a misreading would have, of points that no triangle contains.
const WRONG_OUTSIDE: [(&str, Rule); 4] = [
    (
        "by sub-areas without their signs",
        Rule {
            contains: |_| true,
            ..RULE
        },
    ),
    (
        "without w1",
        Rule {
            contains: |w| w[1] >= 0 && w[2] >= 0,
            ..RULE
        },
    ),
    (
        "without w2",
        Rule {
            contains: |w| w[0] >= 0 && w[2] >= 0,
            ..RULE
        },
    ),
    (
        "without w3",
        Rule {
            contains: |w| w[0] >= 0 && w[1] >= 0,
            ..RULE
        },
    ),
];

fn turned(mut w: [i128; 3], by: usize) -> [i128; 3] {
    w.rotate_left(by);
    w
}

/// What a call is not worked out by.
const NOT: &str = "not";

/// An update that is refused for a gauge after one that it would have updated.
const IN_PART: &str = "not with the gauges before it updated";

/// The slices whose bytes a misreading would take in the other order.
const ENDIAN: [&str; 5] = ["x", "y", "tri", "h", "state"];

/// The fields of a row whose bytes a misreading would take in the other order.
const FIELDS: [(&str, Range<usize>); 4] = [
    ("x of a row", 0..4),
    ("y of a row", 4..8),
    ("peak", 9..17),
    ("step", 17..21),
];

const LITTLE: &str = "little-endian";

/// The elements of a byte slice, each with its bytes in the other order.
fn reversed(bytes: &[u8], width: usize) -> Vec<u8> {
    let elements = bytes.chunks(width);
    elements
        .flat_map(|element| element.iter().rev().copied())
        .collect()
}

/// A record whose whole rows have the bytes of this field in the other order.
fn reversed_field(record: &[u8], field: &Range<usize>) -> Vec<u8> {
    let mut record = record.to_vec();
    if let Some(rows) = record.get_mut(1..) {
        for row in rows.chunks_exact_mut(ROW) {
            row[field.clone()].reverse();
        }
    }
    record
}

/// The misreadings by which a call that was accepted, or refused by 40, would give
/// another outcome.
pub(crate) fn not_by(script: &Script, called: Called, gauge: Gauge) -> Vec<String> {
    let (record, crossed) = (&script.record_lent, script.crossed());
    let right = outcome(&RULE, record, crossed, called);
    let mut met = Vec::new();
    let rules: &[(&str, Rule)] = match right.answer.number {
        0 if gauge == Gauge::Peak => &[],
        0 => &WRONG,
        _ => &WRONG_OUTSIDE,
    };
    let (elevations, peaks): (&[_], &[_]) = match gauge {
        Gauge::Elevation => (&WRONG_ELEVATIONS, &[]),
        Gauge::Update => (&WRONG_ELEVATIONS, &WRONG_PEAKS),
        _ => (&[], &[]),
    };
    for (name, wrong) in rules.iter().chain(elevations).chain(peaks) {
        if outcome(wrong, record, crossed, called) != right {
            met.push(format!("{NOT} {name}"));
        }
    }
    met.extend(not_little_endian(script, called, &right));
    met.extend(not_in_part(script, called, &right));
    met
}

/// The slices and fields whose bytes are not taken in the other order.
fn not_little_endian(script: &Script, called: Called, right: &Outcome) -> Vec<String> {
    let (record, crossed) = (&script.record_lent, script.crossed());
    let mut met = Vec::new();
    for name in ENDIAN {
        let mut other = crossed;
        let (slice, width) = match name {
            "x" => (&mut other.x, 4),
            "y" => (&mut other.y, 4),
            "tri" => (&mut other.tri, 2),
            "h" => (&mut other.h, 8),
            _ => (&mut other.state, 8),
        };
        let bytes = reversed(slice, width);
        *slice = &bytes;
        if outcome(&RULE, record, other, called) != *right {
            met.push(format!("{name} {LITTLE}"));
        }
    }
    for (name, field) in FIELDS {
        let wrong = outcome(&RULE, &reversed_field(record, &field), crossed, called);
        let record = reversed_field(&wrong.record, &field);
        if (Outcome { record, ..wrong }) != *right {
            met.push(format!("{name} {LITTLE}"));
        }
    }
    met.iter().map(|name| format!("{NOT} {name}")).collect()
}

/// Whether an update of the gauges before the one that it is refused for would
/// have written to the record.
fn not_in_part(script: &Script, called: Called, right: &Outcome) -> Option<String> {
    if called.call != Call::Gauge(Gauge::Update) || right.answer.number != 40 {
        return None;
    }
    let mut record = script.record_lent.clone();
    record[0] = right.answer.place as u8;
    let after = outcome(&RULE, &record, script.crossed(), called).record;
    (after != record).then(|| String::from(IN_PART))
}

/// The names of rules.
fn names<const COUNT: usize>(rules: &[(&'static str, Rule); COUNT]) -> [&'static str; COUNT] {
    rules.each_ref().map(|(name, _)| *name)
}

/// All that must be reached.
pub(crate) fn all_conditions() -> Vec<Reached> {
    let mut all = Vec::new();
    for gauge in ON_A_MESH {
        let call = Call::Gauge(gauge);
        // Which triangle contains a point that is added is not seen.
        let seen = if gauge == Gauge::Add { 2 } else { WRONG.len() };
        all.extend(each(call, 0, &[NOT], &names(&WRONG)[..seen]));
        all.extend(each(call, 40, &[NOT], &names(&WRONG_OUTSIDE)));
        all.extend(all_little_endian(call, &ENDIAN));
    }
    let [add, elevation, update, peak] = ON_A_RECORD.map(Call::Gauge);
    for call in [elevation, update] {
        all.extend(each(call, 0, &[NOT], &names(&WRONG_ELEVATIONS)));
    }
    all.extend(each(update, 0, &[NOT], &names(&WRONG_PEAKS)));
    all.extend(of(update, 40, &[IN_PART]));
    let fields = FIELDS.map(|(name, _)| name);
    all.extend(all_little_endian(add, &fields[..2]));
    all.extend(all_little_endian(elevation, &fields[..2]));
    all.extend(all_little_endian(update, &fields));
    all.extend(all_little_endian(peak, &fields[2..]));
    all
}

/// Each of these slices or fields not little-endian.
fn all_little_endian(call: Call, names: &[&str]) -> Vec<Reached> {
    let condition = |name: &&str| (call, 0, format!("{NOT} {name} {LITTLE}"));
    names.iter().map(condition).collect()
}
