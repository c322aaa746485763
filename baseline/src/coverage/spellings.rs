//! Request #104, "Lower-case lines from the weather office": how the digits of
//! what was read, loaded and saved were spelled, what was done from it on, and
//! the misreadings by which it was not read.

mod misreadings;

use super::advection::patterns;
use super::forcings::nodes_of;
use super::layouts::{of_forcing, of_save, Line};
use super::layouts::{END_1, END_2, HEAD_1, HEAD_2, NODE_1, NODE_2, SETTING};
use super::layouts::{KIND_10, KIND_14, KIND_15};
use super::wanted::{each, of, Reached};
use crate::records::Clock;
use crate::saves::Edition;
use crate::script::{Call, Called, Script};
use misreadings::{not_by, OF_DIGITS, OF_NO_DIGITS};

/// The cases of all letters.
const CASES: [&str; 3] = [
    "letters in upper case",
    "letters in lower case",
    "letters in both cases",
];

/// The letters, each in lower case.
const LETTERS: [(u8, &str); 6] = [
    (b'a', "an a in lower case"),
    (b'b', "a b in lower case"),
    (b'c', "a c in lower case"),
    (b'd', "a d in lower case"),
    (b'e', "an e in lower case"),
    (b'f', "an f in lower case"),
];

/// Two letters of one byte that are not of one case.
const BYTES: [&str; 2] = ["a byte as aB", "a byte as Ab"];

/// Check bytes that are not spelled as the rest is.
const CHECKS: [&str; 2] = [
    "check bytes alone in lower case",
    "all but check bytes in lower case",
];

/// What is said of a field that has a lower-case letter.
const LOWER: &str = "in lower case";

/// The first of a sequence's two bytes, with a lower-case letter.
const FIRST_BYTE: &str = "first byte of a sequence in lower case";

/// A line or a text that was accepted in another spelling just before.
const AGAIN: &str = "in a second spelling";

/// A step on from a text, and one by lines, that had lower-case letters.
const ON_FROM: &str = "on from a text with lower case";
const BY: &str = "by lines with lower case";

/// A save of what was loaded from a text that had lower-case letters, which
/// gives that text in upper case.
const WRITTEN: &str = "the text that was loaded, in upper case";

/// A line that is refused, or whose numbers are.
const REFUSED: &str = "in a line with lower case";

/// The characters next to the digits.
const NEIGHBOURS: [(u8, &str); 6] = [
    (b'g', "g for a digit"),
    (b'G', "G for a digit"),
    (b'`', "` for a digit"),
    (b'@', "@ for a digit"),
    (b'/', "/ for a digit"),
    (b':', ": for a digit"),
];

fn is_lower(byte: u8) -> bool {
    matches!(byte, b'a'..=b'f')
}

fn is_upper(byte: u8) -> bool {
    matches!(byte, b'A'..=b'F')
}

fn has_lower(digits: &[u8]) -> bool {
    digits.iter().any(|&digit| is_lower(digit))
}

fn has_upper(digits: &[u8]) -> bool {
    digits.iter().any(|&digit| is_upper(digit))
}

/// What is said of the spelling of what a call wrote, read or refused.
pub(crate) fn conditions(script: &Script, called: Called) -> Vec<String> {
    let (n, place) = (script.x.0.len(), called.answer.place);
    let text = &script.text.0;
    let of_text = || of_save(text, n);
    let of_lines = || of_forcing(&script.lines.0, nodes_of(script));
    let mut met = match (called.call, called.answer.number) {
        (Call::Save, 0) => return strings(&spelling(&of_save(&text[..place], n))),
        (Call::Load, 0) => accepted_lines(&of_text()),
        (Call::Load, number @ 20..=25) => refused(of_text().get(place), number),
        // An edition 1 text may have been refused for its head's wind.
        (Call::Load, 10) if Edition::of(text) == Edition::Two => {
            return refused(of_text().get(place + 2), 10)
        }
        (Call::Read, 0) => accepted_lines(&of_lines()),
        (Call::Read, number @ 20..) => refused(of_lines().get(place), number),
        _ => return Vec::new(),
    };
    met.extend(not_by(script, called));
    met
}

fn strings(names: &[&str]) -> Vec<String> {
    names.iter().map(|name| name.to_string()).collect()
}

/// How the letters of lines are spelled.
fn spelling(lines: &[Line]) -> Vec<&'static str> {
    let mut met = Vec::new();
    // Whether there are letters of each case, elsewhere and in check bytes.
    let mut cases = [[false; 2]; 2];
    for &(layout, line) in lines {
        for (name, digits) in layout.fields(line) {
            let part = &mut cases[usize::from(name == "check byte")];
            part[0] |= has_upper(digits);
            part[1] |= has_lower(digits);
        }
        met.extend(letters(line));
    }
    let [elsewhere, checks] = cases;
    match [0, 1].map(|case| elsewhere[case] || checks[case]) {
        [true, false] => met.push(CASES[0]),
        [false, true] => met.push(CASES[1]),
        [true, true] => met.push(CASES[2]),
        [false, false] => (),
    }
    match cases {
        [[true, false], [false, true]] => met.push(CHECKS[0]),
        [[false, true], [true, false]] => met.push(CHECKS[1]),
        _ => (),
    }
    met
}

/// The lower-case letters of a line, and the bytes in which they stand beside
/// others.
fn letters(line: &[u8]) -> Vec<&'static str> {
    let mut met = Vec::new();
    for (letter, name) in LETTERS {
        if line.contains(&letter) {
            met.push(name);
        }
    }
    for &[high, low] in line.as_chunks().0 {
        if is_lower(high) && is_upper(low) {
            met.push(BYTES[0]);
        } else if is_upper(high) && is_lower(low) {
            met.push(BYTES[1]);
        }
    }
    if line.get(2..4).is_some_and(has_lower) {
        met.push(FIRST_BYTE);
    }
    met
}

/// The fields of a line that have a lower-case letter.
fn fields((layout, line): Line) -> Vec<&'static str> {
    let mut fields = layout.fields(line);
    fields.retain(|(_, digits)| has_lower(digits));
    fields.into_iter().map(|(name, _)| name).collect()
}

fn accepted_lines(lines: &[Line]) -> Vec<String> {
    let mut met = strings(&spelling(lines));
    for &line in lines {
        let name = line.0.name;
        let fields = fields(line);
        met.extend(fields.iter().map(|field| format!("{name} {field} {LOWER}")));
    }
    met
}

/// The fields that a row looks at, where a letter can make it refuse.
fn looked_at(number: u32) -> &'static [&'static str] {
    match number {
        22 => &["kind", "sequence"],
        23 => &["N", "E"],
        _ => &[],
    }
}

/// What is said of the line that a row refuses, or whose numbers it refuses; bytes
/// after the last are none.
fn refused(line: Option<&Line>, number: u32) -> Vec<String> {
    let mut met = Vec::new();
    let Some(&line) = line else {
        return met;
    };
    if has_lower(line.1) {
        met.push(String::from(REFUSED));
    }
    if number == 20 {
        met.extend(neighbour(line).map(String::from));
    }
    let mut fields = fields(line);
    fields.retain(|name| looked_at(number).contains(name));
    met.extend(fields.iter().map(|name| format!("{name} {LOWER}")));
    met
}

/// The first character that is no digit, of a line that has its length and its
/// line feed, where it is one next to the digits.
fn neighbour((layout, line): Line) -> Option<&'static str> {
    let digits = line.strip_suffix(b"\n")?;
    let wrong = digits.iter().find(|digit| !digit.is_ascii_hexdigit())?;
    let (_, name) = NEIGHBOURS.iter().find(|(byte, _)| byte == wrong)?;
    (line.len() == layout.length()).then_some(name)
}

/// The latest accepted lines and text, and what they gave.
#[derive(Default)]
pub(crate) struct Latest {
    lines: Vec<u8>,
    forcing: Vec<u64>,
    text: Vec<u8>,
    state: Vec<u64>,
    step: u32,
}

/// Takes what was read, and tells whether it is the same as before in another
/// spelling.
fn take(latest: &mut Vec<u8>, read: &[u8]) -> bool {
    let again = latest != read && latest.eq_ignore_ascii_case(read);
    *latest = read.to_vec();
    again
}

impl Latest {
    /// Follows a call. What is said of a second spelling, and of a step and a save
    /// that come from what had lower-case letters.
    pub fn follow(&mut self, script: &Script, called: Called) -> Vec<String> {
        let mut met = Vec::new();
        match (called.call, called.answer.number) {
            (Call::Read, 0) => {
                if take(&mut self.lines, &script.lines.0) {
                    met.push(AGAIN);
                }
                self.forcing = patterns(&script.forcing.0);
            }
            (Call::Load, 0) => {
                if take(&mut self.text, &script.text.0) {
                    met.push(AGAIN);
                }
                self.state = patterns(&script.state.0);
                self.step = script.clock.step;
            }
            (Call::Step, 0 | 12) => {
                if self.is_read(&script.forcing.0) {
                    met.push(BY);
                }
                if self.is_loaded(script, called.clock) {
                    met.push(ON_FROM);
                }
            }
            (Call::Save, 0) if self.is_loaded(script, called.clock) => {
                let saved = &script.text.0[..called.answer.place];
                if saved == self.text.to_ascii_uppercase() {
                    met.push(WRITTEN);
                }
            }
            _ => (),
        }
        strings(&met)
    }

    /// Whether a forcing is what was read from lines with lower case.
    fn is_read(&self, forcing: &[f64]) -> bool {
        has_lower(&self.lines) && self.forcing == patterns(forcing)
    }

    /// Whether a call is lent what was loaded from a text with lower case.
    fn is_loaded(&self, script: &Script, clock: Clock) -> bool {
        has_lower(&self.text) && self.step == clock.step && self.state == patterns(&script.state.0)
    }
}

/// All that must be reached.
pub(crate) fn all_conditions() -> Vec<Reached> {
    let mut all = Vec::new();
    for call in [Call::Read, Call::Load] {
        for names in [&CASES[..], &BYTES, &CHECKS, &[FIRST_BYTE, AGAIN]] {
            all.extend(of(call, 0, names));
        }
        all.extend(of(call, 0, &LETTERS.map(|(_, name)| name)));
        all.extend(each(call, 0, &["not"], &OF_DIGITS.map(|(name, _)| name)));
        all.extend(of(call, 20, &NEIGHBOURS.map(|(_, name)| name)));
        all.extend(each(
            call,
            20,
            &["not"],
            &OF_NO_DIGITS.map(|(name, _)| name),
        ));
        for number in 20..=22 {
            all.extend(of(call, number, &[REFUSED]));
        }
        all.extend(each(call, 22, looked_at(22), &[LOWER]));
    }
    all.extend(all_fields());
    all.extend(each(Call::Load, 23, looked_at(23), &[LOWER]));
    for number in [23, 25, 10] {
        all.extend(of(Call::Load, number, &[REFUSED]));
    }
    all.extend(of(Call::Save, 0, &[CASES[0], WRITTEN]));
    all.extend(of(Call::Step, 0, &[ON_FROM, BY]));
    all.extend(of(Call::Step, 12, &[BY]));
    all
}

/// Every field of every kind of line that can have a letter: no kind has one, nor
/// has the sequence of a line 0 or 1.
fn all_fields() -> Vec<Reached> {
    let later = [(KIND_10, 1), (KIND_14, 2), (KIND_15, 1)];
    let of_read = later.map(|(layout, first)| (Call::Read, layout, first));
    let saved = [
        (HEAD_1, 2),
        (NODE_1, 1),
        (END_1, 1),
        (HEAD_2, 2),
        (SETTING, 2),
        (NODE_2, 1),
        (END_2, 1),
    ];
    let of_load = saved.map(|(layout, first)| (Call::Load, layout, first));
    let mut all = Vec::new();
    for (call, layout, first) in of_read.into_iter().chain(of_load) {
        for field in &layout.names()[first..] {
            all.push((call, 0, format!("{} {field} {LOWER}", layout.name)));
        }
    }
    all
}
