//! Which conditions a load met: rows 20 to 25 of the lines of either edition, and
//! what an accepted text had; and the calls that go on from an older one.

use super::advection::patterns;
use super::conditions::{beginning_fault, line_fault, mesh, sizes, LINE_FAULTS};
use super::layouts::{of_save, Layout, HEAD_1, HEAD_2};
use super::wanted::{each, of, Reached};
use super::winds;
use crate::saves::{read_lines, setting, setting_line, Edition};
use crate::script::{Call, Called, Script};
use crate::step::{row_10, State};

/// The editions by name.
pub(crate) const EDITIONS: [&str; 2] = ["edition 1", "edition 2"];

/// The edition of the text that a script holds.
pub(crate) fn edition_of(script: &Script) -> &'static str {
    EDITIONS[usize::from(Edition::of(&script.text.0) == Edition::Two)]
}

/// Texts of less than the two bytes that tell the editions apart.
const ONE_BYTE: &str = "one byte";

/// Heads of one edition's kind and the other's length.
const OTHER_EDITION: [&str; 2] = ["head 01 of 24 digits", "head 04 of 56 digits"];

/// Row 22 on line 05, where a field differs too.
const SETTING_TOO: &str = "line 05 with 25 too";

/// Row 25, where what follows line 05 is refused too.
const LATER: [&str; 2] = ["a later line too", "10 too"];

/// The fields of line 05.
const FIELDS: [&str; 5] = ["dt", "tau", "K", "f", "sum of D"];

/// Zeros of the other sign, the text's first.
const ZEROS: [&str; 2] = ["+0 for -0", "-0 for +0"];

/// Rows 20 to 25: every line before the place is right.
pub(crate) fn refused(script: &Script, called: Called) -> Vec<String> {
    let (text, place) = (&script.text.0, called.answer.place);
    let lines = of_save(text, script.x.0.len());
    let Some(&(layout, line)) = lines.get(place) else {
        return vec![format!("trailing in {}", edition_of(script))];
    };
    let name = layout.name;
    match called.answer.number {
        20 => {
            let mut met = vec![format!("{name} {}", line_fault(line, layout))];
            met.extend(head_fault(text, place));
            met
        }
        21 => vec![String::from(name)],
        22 => {
            let mut met = vec![format!("{name} {}", beginning_fault(line, layout))];
            let differs = place == 1 && fields_of(layout, line) != setting(&mesh(script));
            met.extend(differs.then(|| String::from(SETTING_TOO)));
            met
        }
        23 => vec![format!(
            "{name} {}",
            differing_count(line, script.x.0.len())
        )],
        _ => differing_fields(script, layout, line),
    }
}

/// Row 20 on line 0: what the text's beginning and its first line feed say.
fn head_fault(text: &[u8], place: usize) -> Option<String> {
    let first = text.iter().position(|&byte| byte == b'\n');
    let has = |layout: &Layout| first.map(|feed| feed + 1) == Some(layout.length());
    let met = match text {
        _ if place > 0 => return None,
        [_] => ONE_BYTE,
        [b'0', b'1', ..] if has(&HEAD_2) => OTHER_EDITION[0],
        [b'0', b'4', ..] if has(&HEAD_1) => OTHER_EDITION[1],
        _ => return None,
    };
    Some(String::from(met))
}

/// Row 23: N or, where that is right, E.
fn differing_count(line: &[u8], n: usize) -> &'static str {
    let digits = line.get(6..10).unwrap_or(&[]);
    if digits.eq_ignore_ascii_case(format!("{n:04X}").as_bytes()) {
        "E"
    } else {
        "N"
    }
}

/// The five numbers of line 05, which has its length and no wrong digit.
fn fields_of(layout: &Layout, line: &[u8]) -> [u64; 5] {
    let fields = layout.fields(line);
    let number = |at: usize| {
        let digits = std::str::from_utf8(fields[2 + at].1).unwrap_or("");
        u64::from_str_radix(digits, 16).unwrap_or(0)
    };
    [0, 1, 2, 3, 4].map(number)
}

/// Row 25: the one field that differs, and by how much; and what follows.
fn differing_fields(script: &Script, layout: &Layout, line: &[u8]) -> Vec<String> {
    let (found, due) = (fields_of(layout, line), setting(&mesh(script)));
    let mut met = Vec::new();
    for (field, name) in FIELDS.into_iter().enumerate() {
        let (text, run) = (found[field], due[field]);
        if (text ^ run).count_ones() == 1 {
            met.push(format!("{name} by one bit"));
        } else if text != run {
            met.push(format!("{name} by more"));
        }
    }
    let mut met = match met.len() {
        1 => met,
        _ => vec![String::from("several")],
    };
    for (field, name) in FIELDS.into_iter().enumerate() {
        match [found[field], due[field]].map(f64::from_bits) {
            [0.0, 0.0] if found[field] != due[field] => {
                let which = usize::from(found[field] != 0);
                met.push(format!("{name} {}", ZEROS[which]));
            }
            _ => (),
        }
    }
    met.extend(behind(script).map(String::from));
    met
}

/// What would refuse the text if line 05 were the run's.
fn behind(script: &Script) -> Option<&'static str> {
    let (mesh, mut text) = (mesh(script), script.text.0.clone());
    let from = HEAD_2.length();
    let right = setting_line(&mesh);
    text[from..from + right.as_bytes().len()].copy_from_slice(right.as_bytes());
    match read_lines(&text, &mesh) {
        Err(_) => Some(LATER[0]),
        Ok((state, _)) if row_10(&mesh, &State::of(&state)).is_err() => Some(LATER[1]),
        Ok(_) => None,
    }
}

/// What an accepted text had.
pub(crate) fn accepted(script: &Script) -> Vec<String> {
    let edition = edition_of(script);
    let mut met = vec![String::from(edition)];
    met.extend(
        sizes(script)
            .iter()
            .map(|size| format!("{edition}, {size}")),
    );
    if script.clock.step == u32::MAX {
        met.push(format!("{edition}, last step"));
    }
    let names = if edition == EDITIONS[0] {
        ["head 01 Wx", "head 01 Wy"]
    } else {
        ["node 06 Wx", "node 06 Wy"]
    };
    met.extend(winds::held(&script.state.0, names));
    met
}

/// A step and a save of what an edition 1 text gave.
const ON_FROM: &str = "on from edition 1";

/// A load of edition 1 after one of edition 2, and the other way round.
const AFTER: [&str; 2] = ["edition 1 after edition 2", "edition 2 after edition 1"];

/// The edition of the latest text that was loaded, and what it gave.
#[derive(Default)]
pub(crate) struct Loaded {
    edition: Option<&'static str>,
    state: Vec<u64>,
    step: u32,
}

impl Loaded {
    /// Follows an accepted call.
    pub fn follow(&mut self, script: &Script, called: Called) -> Option<String> {
        match called.call {
            Call::Load => self.load(script),
            Call::Step | Call::Save => {
                let same = self.edition == Some(EDITIONS[0])
                    && self.step == called.clock.step
                    && self.state == patterns(&script.state.0);
                same.then(|| String::from(ON_FROM))
            }
            _ => None,
        }
    }

    fn load(&mut self, script: &Script) -> Option<String> {
        let edition = edition_of(script);
        self.state = patterns(&script.state.0);
        self.step = script.clock.step;
        let before = self.edition.replace(edition);
        let other = before.filter(|&before| before != edition);
        other.map(|_| String::from(AFTER[usize::from(edition == EDITIONS[1])]))
    }
}

/// All that must be reached.
pub(crate) fn all_conditions() -> Vec<Reached> {
    let mut all = of(Call::Load, 0, &EDITIONS);
    let had = ["last step", "N 3", "N 4096", "E 1", "E 8192"];
    all.extend(each(Call::Load, 0, &["edition 1,", "edition 2,"], &had));
    all.extend(of(Call::Load, 0, &AFTER));
    all.extend(of(Call::Step, 0, &[ON_FROM]));
    all.extend(of(Call::Save, 0, &[ON_FROM]));
    // A text that starts with 01 is not missing, and no kind but 01 is its head's.
    let others = [
        "node 02",
        "end 03 of edition 1",
        "head 04",
        "line 05",
        "node 06",
        "end 03 of edition 2",
    ];
    all.extend(each(Call::Load, 20, &["head 01"], &LINE_FAULTS[1..]));
    all.extend(each(Call::Load, 20, &others, &LINE_FAULTS));
    all.extend(each(Call::Load, 20, &["trailing in"], &EDITIONS));
    all.extend(of(Call::Load, 20, &[ONE_BYTE]));
    all.extend(of(Call::Load, 20, &OTHER_EDITION));
    all.extend(of(Call::Load, 21, &["head 01"]));
    all.extend(of(Call::Load, 21, &others));
    all.extend(of(Call::Load, 22, &["head 01 sequence", SETTING_TOO]));
    all.extend(each(Call::Load, 22, &others, &["kind", "sequence"]));
    all.extend(each(Call::Load, 23, &["head 01", "head 04"], &["N", "E"]));
    let ends = ["end 03 of edition 1", "end 03 of edition 2"];
    all.extend(each(Call::Load, 23, &ends, &["N"]));
    all.extend(each(Call::Load, 25, &FIELDS, &["by one bit", "by more"]));
    all.extend(each(Call::Load, 25, &["tau", "K", "f"], &ZEROS));
    all.extend(of(Call::Load, 25, &LATER));
    all
}
