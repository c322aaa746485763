//! Which conditions of rows 30 to 33 a reading of a grid text met, and which
//! spellings an accepted one had; and all that must be reached.

mod fields;
mod rooms;
mod spellings;

use super::advection::all_bytes;
use super::nans::all_kept;
use super::wanted::{each, of, Reached};
use crate::grids::{fields_of, signed, Depth};
use crate::records::Answer;
use crate::script::{Call, Script};
use fields::{Faults, Kind, COUNTS, KINDS, NODE, TRIANGLE};

/// The rooms of a reading.
const ROOMS: [&str; 4] = ["x", "y", "h", "tri"];

/// A text by its lines, as a reading into these rooms goes through them.
struct Sheet<'a> {
    lines: Vec<&'a [u8]>,
    /// Whether the last line has its line feed.
    ended: bool,
    nodes: usize,
    triangles: usize,
}

impl<'a> Sheet<'a> {
    fn of(text: &'a [u8], nodes: usize, triangles: usize) -> Sheet<'a> {
        let lines = text.split_inclusive(|&byte| byte == b'\n');
        Sheet {
            lines: lines
                .map(|line| line.strip_suffix(b"\n").unwrap_or(line))
                .collect(),
            ended: text.ends_with(b"\n"),
            nodes,
            triangles,
        }
    }

    /// The kind of a line that a reading asks for, after the title.
    fn kind(&self, line: usize) -> &'static Kind {
        match line {
            1 => &COUNTS,
            _ if line < 2 + self.nodes => &NODE,
            _ => &TRIANGLE,
        }
    }

    /// The number due on a node line or a triangle line.
    fn due(&self, line: usize) -> i128 {
        let before = if line < 2 + self.nodes {
            1
        } else {
            1 + self.nodes
        };
        line.saturating_sub(before) as i128
    }

    /// The faults of a line, whatever those before it have.
    fn faults(&self, line: usize) -> Faults {
        let kind = self.kind(line);
        match self.lines.get(line) {
            Some(bytes) => kind.faults(bytes, self.due(line), self.nodes),
            None => kind.missing(self.ended),
        }
    }
}

/// The conditions that a reading met.
pub(crate) fn conditions(script: &Script, answer: Answer) -> Vec<String> {
    let (nodes, triangles) = (script.x.0.len(), script.tri.0.len() / 3);
    let sheet = Sheet::of(&script.text.0, nodes, triangles);
    let (number, place) = (answer.number, answer.place);
    match (number, place) {
        (0, _) => spellings::conditions(&sheet),
        (30, 0) => vec![String::from("title missing")],
        (33, _) => rooms::conditions(script, &sheet),
        (_, 1) => counts_line(script, &sheet),
        _ => {
            let mut met = line_faults(&sheet, number, place);
            met.extend(as_found(script, &sheet, place));
            met
        }
    }
}

/// 30 on the line of E and N, and whether its numbers would not fit either.
fn counts_line(script: &Script, sheet: &Sheet) -> Vec<String> {
    let mut met = alone(sheet.faults(1).malformed);
    if rooms::misfit(script, sheet) {
        met.push(String::from("33 too"));
    }
    met
}

/// One condition, or that there are several.
fn alone(mut conditions: Vec<String>) -> Vec<String> {
    if conditions.len() > 1 {
        conditions = vec![String::from("several")];
    }
    conditions
}

/// The fault that refused a line, those of it and of later lines that did not,
/// and whether 16 bits hold its place.
fn line_faults(sheet: &Sheet, number: u32, place: usize) -> Vec<String> {
    let (faults, name) = (sheet.faults(place), sheet.kind(place).name);
    let mut met = Vec::new();
    if number < 31 && faults.order.is_some() {
        met.push(format!("{name} with 31 too"));
    }
    if number < 32 && !faults.beyond.is_empty() {
        met.push(format!("{name} with 32 too"));
    }
    met.extend(match number {
        30 => alone(faults.malformed),
        31 => faults.order.into_iter().collect(),
        _ => alone(faults.beyond),
    });
    met.extend(later(sheet, place));
    if place > 65_535 {
        met.push(String::from("a line above 65,535"));
    }
    met
}

/// The rows that refuse lines after this one.
fn later(sheet: &Sheet, place: usize) -> Vec<String> {
    let end = sheet.nodes.saturating_add(sheet.triangles);
    let end = end.saturating_add(2).min(sheet.lines.len() + 1);
    let rows = (place + 1..end).filter_map(|line| sheet.faults(line).row());
    rows.map(|row| format!("{row} on a later line")).collect()
}

/// The rooms that do not hold what a line before the refused one says: a
/// reading that wrote as it went on would be seen.
fn as_found(script: &Script, sheet: &Sheet, place: usize) -> Vec<String> {
    let mut met = Vec::new();
    let mut look = |name: &str, differs: bool| {
        if differs {
            met.push(format!("{name} as found"));
        }
    };
    for line in 2..place {
        let (fields, at) = (fields_of(sheet.lines[line]), line - 2);
        if line < 2 + sheet.nodes {
            let coordinate = |field: usize| signed(fields[field]);
            look("x", coordinate(1) != Ok(script.x.0[at].into()));
            look("y", coordinate(2) != Ok(script.y.0[at].into()));
            let depth = Depth::read(fields[3]).map(|depth| depth.thousandths());
            let held = script.h.0[at] * 1000.0;
            look("h", depth.is_ok_and(|depth| depth as f64 != held));
        } else {
            let corner = script.tri.0[3 * (at - sheet.nodes)];
            look("tri", signed(fields[2]) != Ok(i128::from(corner) + 1));
        }
    }
    met
}

/// All that must be reached.
pub(crate) fn all_conditions() -> Vec<Reached> {
    let mut all = of(Call::Grid, 30, &["title missing", "33 too"]);
    for kind in KINDS {
        all.extend(kind.all_malformed());
    }
    for kind in [NODE, TRIANGLE] {
        all.extend(kind.all_out_of_order());
        all.extend(kind.all_beyond());
        all.extend(each(
            Call::Grid,
            30,
            &[kind.name],
            &["with 31 too", "with 32 too"],
        ));
        all.extend(each(Call::Grid, 31, &[kind.name], &["with 32 too"]));
    }
    let rows = ["30", "31", "32"];
    for number in 30..=33 {
        all.extend(each(Call::Grid, number, &rows, &["on a later line"]));
    }
    for number in 30..=32 {
        all.extend(each(Call::Grid, number, &ROOMS, &["as found"]));
        all.extend(of(Call::Grid, number, &["a line above 65,535"]));
    }
    all.extend(rooms::all_conditions());
    all.extend(spellings::all_conditions());
    all.extend(all_kept(&[Call::Grid]));
    all.extend(runs());
    all.extend(all_bytes());
    all
}

/// "01's mesh rows then decide": calls on a mesh that was read.
fn runs() -> Vec<Reached> {
    let on_read = |call, number| (call, number, String::from(ON_READ));
    let opened = [0, 2, 3, 4, 5, 6, 7, 8].map(|number| on_read(Call::Open, number));
    let others = [Call::Step, Call::Save, Call::Load].map(|call| on_read(call, 0));
    [&opened[..], &others].concat()
}

/// What is said of a call on a mesh that was read.
pub(crate) const ON_READ: &str = "on a mesh that was read";
