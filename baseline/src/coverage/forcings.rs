//! Which conditions the reading of a forcing met: row 1 of its room, rows 20 to 22
//! of its lines, and what an accepted one had.

use super::conditions::{beginning_fault, line_fault, LINE_FAULTS};
use super::layouts::{of_forcing, KIND_10};
use super::wanted::{each, of, Reached};
use super::winds::{which, NODES};
use crate::forcings::read_forcing;
use crate::script::{Call, Called, Script};

/// How many nodes the room of a forcing has places for.
pub(crate) fn nodes_of(script: &Script) -> usize {
    script.forcing.0.len() / 2
}

/// Rooms that no N gives.
const ROOMS: [&str; 2] = ["room empty", "room of an even length"];

/// "the room's length is asked before the text is looked at".
const TEXT_TOO: &str = "the lines are refused too";

/// Row 1.
pub(crate) fn room(script: &Script, expected: u32) -> Vec<String> {
    let length = script.forcing.0.len();
    let mut met = vec![String::from(ROOMS[usize::from(length > 0)])];
    // The lines themselves say for how many nodes they are.
    let feeds = script.lines.0.iter().filter(|&&byte| byte == b'\n').count();
    let mut fitting = vec![0.0; 1 + 2 * feeds.saturating_sub(1)];
    if read_forcing(&mut fitting, &script.lines.0, expected).number != 0 {
        met.push(String::from(TEXT_TOO));
    }
    met
}

/// Bytes after the last line.
const TRAILING: &str = "trailing";

/// Sequences that a misreading of kinds 14 and 15 would have.
const COUNTED: [&str; 3] = [
    "kind 14 with sequence 1",
    "kind 15 counted from 0",
    "kind 14 with the expected sequence",
];

/// A line of kind 10 whose number is due in no line.
const UNMET: &str = "kind 10, expected above 65,535";

/// A first line that is of the other form but for its kind.
const OTHER_FORM: [&str; 2] = ["kind 10 of 24 digits", "kind 14 of 56 digits"];

/// The room has place for fewer nodes than the lines are for.
const MORE_LINES: &str = "trailing by a line of kind 15";

/// Rows 20 to 22: every line before the place is right.
pub(crate) fn refused(script: &Script, called: Called) -> Vec<String> {
    let (text, n, place) = (&script.lines.0, nodes_of(script), called.answer.place);
    let lines = of_forcing(text, n);
    let Some(&(layout, line)) = lines.get(place) else {
        let before: usize = lines.iter().map(|(_, line)| line.len()).sum();
        let mut met = vec![String::from(TRAILING)];
        if text[before..].starts_with(b"15") && text.ends_with(b"\n") {
            met.push(String::from(MORE_LINES));
        }
        return met;
    };
    let name = layout.name;
    let mut met = match called.answer.number {
        // A line of kind 10 is all that there is.
        20 if layout.kind == KIND_10.kind => {
            let mut met = vec![format!("{name} {}", line_fault(text, layout))];
            met.extend((text.get(24) == Some(&b'\n')).then(|| String::from(OTHER_FORM[0])));
            met
        }
        20 => missing_or(line_fault(line, layout), name, place, n),
        21 => vec![String::from(name)],
        _ if name == KIND_10.name && called.expected > 65_535 => vec![String::from(UNMET)],
        _ => vec![format!("{name} {}", beginning_fault(line, layout))],
    };
    if called.answer.number == 20 && place == 0 && is_kind_10_but_for_its_kind(text) {
        met.push(String::from(OTHER_FORM[1]));
    }
    if called.answer.number == 22 {
        met.extend(counted(line, called.expected, place));
    }
    met
}

/// Row 20: a node's line that is missing is told by its node too.
fn missing_or(fault: &str, name: &str, place: usize, n: usize) -> Vec<String> {
    let mut met = vec![format!("{name} {fault}")];
    if fault == LINE_FAULTS[0] && place > 0 {
        met.push(format!("{name} missing at the {}", which(place - 1, n)));
    }
    met
}

fn is_kind_10_but_for_its_kind(text: &[u8]) -> bool {
    text.starts_with(b"14") && text.len() == KIND_10.length() && text.ends_with(b"\n")
}

/// Row 22: the sequences that a misreading would have made right.
fn counted(line: &[u8], expected: u32, place: usize) -> Option<String> {
    let digits = line.get(..6)?.to_ascii_uppercase();
    let is = |kind: &str, sequence: u32| digits == format!("{kind}{sequence:04X}").into_bytes();
    let counted = [
        place == 0 && is("14", 1),
        place == 1 && is("15", 0),
        place == 0 && expected > 1 && is("14", expected),
    ];
    let which = counted.iter().position(|&is| is)?;
    Some(String::from(COUNTED[which]))
}

/// The two forms, of an accepted forcing.
const FORMS: [&str; 2] = ["kind 10", "kinds 14 and 15"];

/// What an accepted forcing had, each with its form.
const HAD: [&str; 6] = ["N 0", "N 1", "N 3", "a NaN", "-0", "expected 0"];

/// "it is not looked at" in kinds 14 and 15.
const NOT_LOOKED_AT: [&str; 2] = [
    "kinds 14 and 15, expected another",
    "kinds 14 and 15, expected above 65,535",
];

/// The last number that a line of kind 10 has.
const LAST: &str = "kind 10, expected 65535";

fn form_of(script: &Script) -> &'static str {
    FORMS[usize::from(!script.lines.0.starts_with(b"10"))]
}

/// What is said of an accepted reading.
pub(crate) fn accepted(script: &Script, expected: u32) -> Vec<String> {
    let (form, numbers) = (form_of(script), &script.forcing.0);
    let mut met = Vec::new();
    let mut had = |which: usize, is: bool| {
        if is {
            met.push(format!("{form}, {}", HAD[which]));
        }
    };
    had(0, numbers.len() == 1);
    had(1, numbers.len() == 3);
    had(2, numbers.len() == 7);
    had(3, numbers.iter().any(|number| number.is_nan()));
    let minus_zero = (-0.0_f64).to_bits();
    had(
        4,
        numbers.iter().any(|number| number.to_bits() == minus_zero),
    );
    had(5, expected == 0);
    match (form == FORMS[1], expected) {
        (true, 65_536..) => met.push(String::from(NOT_LOOKED_AT[1])),
        (true, 1..) => met.push(String::from(NOT_LOOKED_AT[0])),
        (false, 65_535) => met.push(String::from(LAST)),
        _ => (),
    }
    met
}

/// Forcings of both forms in one script.
const MIXED: [&str; 2] = [
    "kind 10 after kinds 14 and 15",
    "kinds 14 and 15 after kind 10",
];

/// The form of the latest forcing that was read.
#[derive(Default)]
pub(crate) struct Mixed(Option<&'static str>);

impl Mixed {
    /// Follows a call.
    pub fn follow(&mut self, script: &Script, called: Called) -> Option<String> {
        if (called.call, called.answer.number) != (Call::Read, 0) {
            return None;
        }
        let form = form_of(script);
        let before = self.0.replace(form).filter(|&before| before != form);
        before.map(|_| String::from(MIXED[usize::from(form == FORMS[1])]))
    }
}

/// All that must be reached.
pub(crate) fn all_conditions() -> Vec<Reached> {
    let mut all = of(Call::Read, 1, &ROOMS);
    all.extend(of(Call::Read, 1, &[TEXT_TOO]));
    // A text that starts with 10 is not missing.
    all.extend(each(Call::Read, 20, &["kind 10"], &LINE_FAULTS[1..]));
    all.extend(of(Call::Read, 20, &["kind 10 too long"]));
    all.extend(each(Call::Read, 20, &["kind 14", "kind 15"], &LINE_FAULTS));
    all.extend(each(Call::Read, 20, &["kind 15 missing at the"], &NODES));
    all.extend(of(Call::Read, 20, &[TRAILING, MORE_LINES]));
    all.extend(of(Call::Read, 20, &OTHER_FORM));
    all.extend(of(Call::Read, 21, &["kind 10", "kind 14", "kind 15"]));
    all.extend(of(Call::Read, 22, &["kind 10 sequence", UNMET]));
    let beginnings = ["kind", "sequence"];
    all.extend(each(Call::Read, 22, &["kind 14", "kind 15"], &beginnings));
    all.extend(of(Call::Read, 22, &COUNTED));
    all.extend(each(Call::Read, 0, &["kind 10,", "kinds 14 and 15,"], &HAD));
    all.extend(of(Call::Read, 0, &NOT_LOOKED_AT));
    all.extend(of(Call::Read, 0, &[LAST]));
    all.extend(of(Call::Read, 0, &MIXED));
    all
}
