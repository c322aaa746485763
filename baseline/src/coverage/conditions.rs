//! Which condition of a row a call met, worked out from what the script holds
//! after it: a refusal leaves everything as found but, at 13, the work room.

use super::advection;
use super::forcings;
use super::friction;
use super::grids;
use super::layouts::Layout;
use super::lists;
use super::names::{lent_to, other_length, other_lengths, side, LIMITS};
use super::names::{PARAMETER_NAMES, RUN_NAMES};
use super::texts;
use super::wanted::{each, of, Reached};
use super::winds;
use crate::frames::byte_of;
use crate::generate::values::{Range, COLUMN, DEPTH, ELEVATION, PARAMETERS, RUNS, VELOCITY, WIND};
use crate::generate::worlds::legs;
use crate::mesh::{Mesh, Triangle};
use crate::records::{Answer, Parameters};
use crate::saves::{read_lines, save_length};
use crate::script::{Call, Called, Script};
use crate::step::{axes, new_values, row_12, step, Axes, Forcing, State, Winds};
use std::collections::HashMap;

/// The conditions that a call met.
pub(crate) fn conditions(script: &Script, called: Called) -> Vec<String> {
    let place = called.answer.place;
    let one = |condition: String| vec![condition];
    match (called.answer.number, called.call) {
        (_, Call::Grid) => grids::conditions(script, called.answer),
        (0 | 1 | 11.., Call::StepAll) => lists::conditions(script, called),
        (0, Call::Read) => forcings::accepted(script, called.expected),
        (0, call) => accepted(script, call),
        (1, Call::Read) => forcings::room(script, called.expected),
        (1, call) => length(script, call),
        (2, _) => one(count(script)),
        (3, _) => numbers(script, place),
        (4, _) => sides_beyond(script, place),
        (5, _) => one(area(script, place)),
        (6, _) => repeated_legs(script, place),
        (7, _) => one(unnamed(script, place)),
        (8, _) => depth_or_kind(script, place),
        (9, _) => parameter(script.p, place),
        (10, call) => node(script, call, place),
        (11, _) => Vec::from_iter(row_12_too(script)),
        (12, _) => winds::row_12(script, place),
        (13, _) => outcome(script, place),
        (_, Call::Load) => texts::refused(script, called),
        (_, Call::Read) => forcings::refused(script, called),
        (24, _) => one(room(script, place)),
        _ => Vec::new(),
    }
}

pub(crate) fn mesh(script: &Script) -> Mesh<'_> {
    let (x, y, tri) = (&script.x.0, &script.y.0, &script.tri.0);
    Mesh::lent(x, y, tri, &script.h.0, &script.kind.0, script.p)
}

/// The length of a slice of row 1.
fn length_of(script: &Script, name: &str) -> usize {
    match name {
        "y" => script.y.0.len(),
        "h" => script.h.0.len(),
        "kind" => script.kind.0.len(),
        "state" => script.state.0.len(),
        "next" => script.next.0.len(),
        "work" => script.work.0.len(),
        "sums" => script.sums.0.len(),
        _ => script.forcing.0.len(),
    }
}

/// How a length differs from the one that is due.
pub(crate) fn difference(length: usize, due: usize) -> &'static str {
    match length {
        0 => "empty",
        _ if length + 1 == due => "one shorter",
        _ if length == due + 1 => "one longer",
        _ => "of another length",
    }
}

/// Row 1, the one slice that is wrong. A wrong x makes N wrong for all others.
pub(crate) fn length(script: &Script, call: Call) -> Vec<String> {
    let (n, over) = (script.x.0.len(), script.tri.0.len() % 3);
    let lent = lent_to(call);
    let wrong: Vec<_> = lent
        .iter()
        .filter(|(name, runs, more)| length_of(script, name) != runs * n + more)
        .collect();
    let several = || vec![String::from("several")];
    match wrong.as_slice() {
        [] => vec![format!("tri {over} over")],
        _ if over != 0 => several(),
        [("forcing", runs, more)] => {
            let mut met = vec![misfit(script, call, "forcing", runs * n + more)];
            met.extend(row_behind_the_forcing(script));
            met
        }
        [(name, runs, more)] => vec![misfit(script, call, name, runs * n + more)],
        all if all.len() == lent.len() => vec![format!("x {}", difference(n, script.y.0.len()))],
        _ => several(),
    }
}

/// How the one slice that is wrong differs.
fn misfit(script: &Script, call: Call, name: &str, due: usize) -> String {
    let (n, length) = (script.x.0.len(), length_of(script, name));
    let mut others = other_lengths(call).iter();
    let other =
        others.find(|&&(other, runs, more)| other == name && length == runs * n + more && n > 0);
    let room = match (name, call) {
        ("work", Call::Step) => advection::room(script),
        _ => other.map(other_length),
    };
    room.unwrap_or_else(|| format!("{name} {}", difference(length, due)))
}

/// The rows that a forcing of another length comes before.
const BEHIND_THE_FORCING: [u32; 3] = [9, 10, 11];

/// The row that refuses the step where its forcing has the right length.
fn row_behind_the_forcing(script: &Script) -> Option<String> {
    let n = script.x.0.len();
    let (mut next, mut work, mut sums) = (vec![0.0; 6 * n], vec![0.0; 5 * n], vec![0; n]);
    let (state, forcing) = (&script.state.0, vec![0.0; 1 + 2 * n]);
    let (x, y, tri) = (&script.x.0, &script.y.0, &script.tri.0);
    let (h, kind, p, clock) = (&script.h.0, &script.kind.0, script.p, script.clock);
    let (answer, _) = step(
        &mut next, &mut work, &mut sums, state, &forcing, x, y, tri, h, kind, p, clock,
    );
    (1..=12)
        .contains(&answer.number)
        .then(|| format!("forcing before {}", answer.number))
}

/// Row 2.
fn count(script: &Script) -> String {
    let (n, e) = (script.x.0.len(), script.tri.0.len() / 3);
    if (3..=4_096).contains(&n) {
        format!("E {e}")
    } else {
        format!("N {n}")
    }
}

/// The corners of a triangle.
fn corners(script: &Script, place: usize) -> [usize; 3] {
    [0, 1, 2].map(|corner| usize::from(script.tri.0[3 * place + corner]))
}

/// Row 3.
fn numbers(script: &Script, place: usize) -> Vec<String> {
    let n = script.x.0.len();
    let mut met = Vec::new();
    for (corner, node) in corners(script, place).into_iter().enumerate() {
        if node >= n {
            let how = if node == n { "is N" } else { "is above N" };
            met.push(format!("corner {} {how}", corner + 1));
        }
    }
    met
}

/// The geometry of a triangle whose node numbers row 3 lets through.
fn triangle(script: &Script, place: usize) -> Triangle {
    mesh(script).triangle(corners(script, place))
}

/// Row 4.
fn sides_beyond(script: &Script, place: usize) -> Vec<String> {
    let triangle = triangle(script, place);
    let mut met = Vec::new();
    for (letter, sides) in [("a", triangle.a), ("b", triangle.b)] {
        for (corner, side) in sides.into_iter().enumerate() {
            let how = match side {
                100_001 => "100,001",
                -100_001 => "-100,001",
                100_002.. => "far above",
                ..-100_001 => "far below",
                _ => continue,
            };
            met.push(format!("{letter}{} {how}", corner + 1));
        }
    }
    met
}

/// Row 5.
fn area(script: &Script, place: usize) -> String {
    let [c1, c2, c3] = corners(script, place);
    let how = if c1 == c2 || c2 == c3 || c3 == c1 {
        "a corner twice"
    } else if triangle(script, place).twice_area() == 0 {
        "flat"
    } else {
        "clockwise"
    };
    String::from(how)
}

/// Row 6: which leg of the later triangle was which of an earlier one.
fn repeated_legs(script: &Script, place: usize) -> Vec<String> {
    let mut seen = HashMap::new();
    for earlier in 0..place {
        for (at, leg) in legs(corners(script, earlier)).into_iter().enumerate() {
            seen.insert(leg, at + 1);
        }
    }
    let later = legs(corners(script, place)).into_iter().enumerate();
    later
        .filter_map(|(at, leg)| {
            let before = seen.get(&leg)?;
            Some(format!("leg {} as leg {before}", at + 1))
        })
        .collect()
}

/// Row 7.
fn unnamed(script: &Script, place: usize) -> String {
    String::from(winds::which(place, script.x.0.len()))
}

/// A value's name and the side of its range it is beyond.
pub(crate) fn beyond(name: &str, value: f64, range: Range) -> Option<String> {
    side(value, range).map(|side| format!("{name} {side}"))
}

/// Row 8.
fn depth_or_kind(script: &Script, place: usize) -> Vec<String> {
    let mut met: Vec<String> = beyond("h", script.h.0[place], DEPTH).into_iter().collect();
    match script.kind.0[place] {
        0..=2 => (),
        3 => met.push(String::from("kind 3")),
        _ => met.push(String::from("kind above 3")),
    }
    met
}

fn numbers_of(p: Parameters) -> [f64; 4] {
    [p.dt, p.tau, p.k, p.f]
}

/// Row 9.
fn parameter(p: Parameters, place: usize) -> Vec<String> {
    let (name, value) = (PARAMETER_NAMES[place], numbers_of(p)[place]);
    beyond(name, value, PARAMETERS[place]).into_iter().collect()
}

/// Row 10 of a step or a save, or of the values that a load would have given, with
/// the edition of its text.
fn node(script: &Script, call: Call, place: usize) -> Vec<String> {
    if call == Call::Load {
        let loaded = read_lines(&script.text.0, &mesh(script));
        let (numbers, _) = loaded.unwrap_or((script.state.0.clone(), script.clock));
        let (edition, met) = (texts::edition_of(script), at_node(script, &numbers, place));
        return met
            .map(|met| format!("{edition} {met}"))
            .into_iter()
            .collect();
    }
    let mut met = Vec::from_iter(at_node(script, &script.state.0, place));
    met.extend(wind_first(script, place));
    if call == Call::Save {
        let short = script.text.0.len() < save_length(script.x.0.len());
        met.extend(short.then(|| String::from("24 too")));
    } else if call == Call::Step {
        let last = script.clock.step == u32::MAX;
        met.extend(last.then(|| String::from("11 too")));
        met.extend(row_12_too(script));
    }
    met
}

/// The one condition of row 10 that a node meets: a z beyond its size may leave too
/// little water as well.
fn at_node(script: &Script, numbers: &[f64], place: usize) -> Option<String> {
    let n = script.x.0.len();
    let value = |run: usize| numbers[run * n + place];
    let mut met: Vec<String> = (0..RUNS.len())
        .filter_map(|run| beyond(RUN_NAMES[run], value(run), RUNS[run]))
        .collect();
    if side(value(1), ELEVATION).is_none() {
        met.extend(short_of_water("h+z", script.h.0[place] + value(1)));
    }
    match met.len() {
        0 | 1 => met.pop(),
        _ => Some(String::from("several")),
    }
}

/// What is said of a wind that is beyond at a node before one whose water is: rows
/// that went run by run would have answered the later.
const WIND_FIRST: &str = "a wind before a later node's water";

fn wind_first(script: &Script, place: usize) -> Option<String> {
    let (n, state) = (script.x.0.len(), &script.state.0);
    let is_beyond = |run: usize, node: usize| side(state[run * n + node], RUNS[run]).is_some();
    let wind_alone = (0..4).all(|run| !is_beyond(run, place));
    let later = (place + 1..n).any(|node| (0..4).any(|run| is_beyond(run, node)));
    (wind_alone && later).then(|| String::from(WIND_FIRST))
}

/// Whether row 12 would refuse the step as well.
fn row_12_too(script: &Script) -> Option<String> {
    let refused = row_12(&Forcing::of(&script.forcing.0)).is_err();
    refused.then(|| String::from("12 too"))
}

/// All of row 10, and of the rows that it comes before.
pub(crate) fn all_behind() -> Vec<Reached> {
    let mut all = Vec::new();
    for call in [Call::Step, Call::Save] {
        all.extend(of(call, 10, &[WIND_FIRST]));
    }
    all.extend(of(Call::Step, 10, &["11 too", "12 too"]));
    all.extend(of(Call::Step, 11, &["12 too"]));
    all.extend(of(Call::Save, 10, &["24 too"]));
    let rows = BEHIND_THE_FORCING.map(|row| row.to_string());
    let rows = rows.each_ref().map(String::as_str);
    all.extend(each(Call::Step, 1, &["forcing before"], &rows));
    all
}

/// "below 0.1", by one bit of z or by more.
fn short_of_water(name: &str, column: f64) -> Option<String> {
    // Over a depth, one bit of z moves the column by far more than one bit of
    // its own.
    let by = if column > COLUMN - 1e-14 {
        "just below"
    } else {
        "below"
    };
    (column < COLUMN).then(|| format!("{name} {by}"))
}

/// The new values of a step, worked out once more by any formulas.
pub(crate) fn again(script: &Script, axes: Axes) -> (Vec<f64>, Result<(), Answer>) {
    let state = State::of(&script.state.0);
    let winds = Winds::of(&state, &Forcing::of(&script.forcing.0));
    again_by(script, &winds, axes)
}

/// The new values of a step, by any winds as well.
pub(crate) fn again_by(
    script: &Script,
    winds: &Winds,
    axes: Axes,
) -> (Vec<f64>, Result<(), Answer>) {
    let n = script.x.0.len();
    let (mut work, mut sums) = (vec![0.0; 5 * n], vec![0; n]);
    let (mesh, state) = (mesh(script), State::of(&script.state.0));
    let elevation = script.forcing.0[0];
    let outcome = new_values(&mut work, &mut sums, &mesh, &state, elevation, winds, axes);
    (work, outcome)
}

/// Row 13: the new values are worked out once more, to see which left its
/// range.
fn outcome(script: &Script, place: usize) -> Vec<String> {
    let n = script.x.0.len();
    // The refusal is known: the call has answered it.
    let (work, _) = again(script, axes(script.p.advection));
    // The runs after z' hold velocities only where every elevation passed.
    let all_pass = (0..n).all(|node| {
        side(work[node], ELEVATION).is_none() && script.h.0[node] + work[node] >= COLUMN
    });
    let met = if all_pass {
        let (u, v) = (work[n + place], work[2 * n + place]);
        beyond("U'", u, VELOCITY).or(beyond("V'", v, VELOCITY))
    } else {
        let (z, column) = (work[place], script.h.0[place] + work[place]);
        beyond("z'", z, ELEVATION).or(short_of_water("H'", column))
    };
    let met = met.unwrap_or_default();
    let mut all = Vec::from_iter(advection::refused(script, &met));
    if all_pass {
        all.extend(friction::refused(script, &work, place, &met));
    }
    all.push(met);
    all
}

/// The faults of row 20 that a line of any kind has. A line that is too long has no
/// line feed where it is due.
pub(crate) const LINE_FAULTS: [&str; 5] = [
    "missing",
    "too short",
    "no line feed",
    "line feed too early",
    "wrong digit",
];

/// What is wrong with a line of the kind that is due, by row 20.
pub(crate) fn line_fault(line: &[u8], layout: &Layout) -> &'static str {
    let due = layout.length();
    let digits = line.split_last().map_or(line, |(_, digits)| digits);
    let wrong = digits.iter().find(|byte| !byte.is_ascii_hexdigit());
    match wrong {
        _ if line.is_empty() => LINE_FAULTS[0],
        _ if line.len() < due => LINE_FAULTS[1],
        _ if line.len() > due => "too long",
        _ if line.last() != Some(&b'\n') => LINE_FAULTS[2],
        Some(b'\n') => LINE_FAULTS[3],
        _ => LINE_FAULTS[4],
    }
}

/// Row 22: the kind or, where that is right, the sequence.
pub(crate) fn beginning_fault(line: &[u8], layout: &Layout) -> &'static str {
    let first = line.first_chunk().and_then(|&pair| byte_of(pair));
    if first == Some(layout.kind) {
        "sequence"
    } else {
        "kind"
    }
}

/// Row 24.
fn room(script: &Script, needed: usize) -> String {
    String::from(difference(script.text.0.len(), needed))
}

/// The limits that an accepted call on a run stood at.
fn accepted(script: &Script, call: Call) -> Vec<String> {
    let mut met = match call {
        Call::Open => sizes(script),
        _ => accepted_mesh(script),
    };
    match call {
        Call::Step => {
            met.extend(step_limits(script));
            met.extend(friction::accepted(script));
            met.extend(advection::accepted(script));
            met.extend(winds::accepted(script));
        }
        Call::Save => {
            met.push(spare_room(script));
            met.extend(winds::held(&script.state.0, ["Wx", "Wy"]));
        }
        Call::Load => met.extend(texts::accepted(script)),
        _ => (),
    }
    met
}

/// What is said of a mesh that has a leg twice.
pub(crate) const LEG_TWICE: &str = "a leg twice";

/// The limits that the mesh of an accepted call other than `open` stood at.
pub(crate) fn accepted_mesh(script: &Script) -> Vec<String> {
    let mut met = sizes(script);
    if has_leg_twice(script) {
        met.push(String::from(LEG_TWICE));
    }
    met
}

/// N and E at the ends of row 2's ranges.
pub(crate) fn sizes(script: &Script) -> Vec<String> {
    let (n, e) = (script.x.0.len(), script.tri.0.len() / 3);
    let mut met = Vec::new();
    if let 3 | 4_096 = n {
        met.push(format!("N {n}"));
    }
    if let 1 | 8_192 = e {
        met.push(format!("E {e}"));
    }
    met
}

/// "Row 6 is tested only when a mesh is opened": other calls take such a mesh.
fn has_leg_twice(script: &Script) -> bool {
    let triangles = script.tri.0.len() / 3;
    let mut all: Vec<_> = (0..triangles)
        .flat_map(|place| legs(corners(script, place)))
        .collect();
    all.sort_unstable();
    all.windows(2).any(|pair| pair[0] == pair[1])
}

fn spare_room(script: &Script) -> String {
    let needed = save_length(script.x.0.len());
    String::from(if script.text.0.len() == needed {
        "room just enough"
    } else {
        "room to spare"
    })
}

/// Every number of an accepted step that stood at a limit of its range, the
/// kinds of its nodes, and the last step but one.
fn step_limits(script: &Script) -> Vec<String> {
    let mut met = Vec::new();
    let mut look = |name: &str, values: &[f64], range: Range| {
        for (limit, how) in [(range.low, LIMITS[0]), (range.high, LIMITS[1])] {
            if values.contains(&limit) {
                met.push(format!("{name} {how}"));
            }
        }
    };
    for (place, value) in numbers_of(script.p).into_iter().enumerate() {
        look(PARAMETER_NAMES[place], &[value], PARAMETERS[place]);
    }
    let (n, state) = (script.x.0.len(), &script.state.0);
    let forcing = Forcing::of(&script.forcing.0);
    for (run, numbers) in state.chunks(n).enumerate() {
        look(RUN_NAMES[run], numbers, RUNS[run]);
    }
    look("h", &script.h.0, DEPTH);
    look("elevation", &[forcing.elevation], ELEVATION);
    look("Wx'", forcing.wx, WIND);
    look("Wy'", forcing.wy, WIND);
    let columns = script.h.0.iter().zip(&state[n..]).map(|(h, z)| h + z);
    if columns.into_iter().any(|column| column < COLUMN + 1e-14) {
        met.push(String::from("h+z just enough"));
    }
    for kind in 0..3 {
        if script.kind.0.contains(&kind) {
            met.push(format!("kind {kind}"));
        }
    }
    if script.clock.step == u32::MAX {
        met.push(String::from("step 4,294,967,294"));
    }
    met
}
