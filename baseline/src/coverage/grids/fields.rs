//! The kinds of lines, what stands in their fields, and the ways that a field
//! is malformed, out of order or beyond its limits.

use crate::coverage::wanted::{each, of, Reached};
use crate::grids::{fields_of, signed, unsigned, whole, Depth};
use crate::script::Call;

/// A kind of line after the title: its name, and its fields with theirs.
pub(crate) struct Kind {
    pub name: &'static str,
    pub fields: &'static [(&'static str, Sort)],
}

/// What may stand in a field.
#[derive(Clone, Copy, PartialEq)]
pub(crate) enum Sort {
    Count,
    Number,
    Three,
    Coordinate,
    Depth,
    Corner,
}

pub(crate) const COUNTS: Kind = Kind {
    name: "counts",
    fields: &[("E", Sort::Count), ("N", Sort::Count)],
};

pub(crate) const NODE: Kind = Kind {
    name: "node",
    fields: &[
        ("node number", Sort::Number),
        ("x", Sort::Coordinate),
        ("y", Sort::Coordinate),
        ("depth", Sort::Depth),
    ],
};

pub(crate) const TRIANGLE: Kind = Kind {
    name: "triangle",
    fields: &[
        ("triangle number", Sort::Number),
        ("the 3", Sort::Three),
        ("corner 1", Sort::Corner),
        ("corner 2", Sort::Corner),
        ("corner 3", Sort::Corner),
    ],
};

/// Every kind of line after the title.
pub(crate) const KINDS: [Kind; 3] = [COUNTS, NODE, TRIANGLE];

/// The faults of a line. Where it has not as many fields as it must, those that
/// it has are not looked at one by one for row 30.
#[derive(Default)]
pub(crate) struct Faults {
    pub malformed: Vec<String>,
    pub order: Option<String>,
    pub beyond: Vec<String>,
}

impl Faults {
    /// The row that refuses the line, where one does.
    pub fn row(&self) -> Option<u32> {
        match self {
            Faults { malformed, .. } if !malformed.is_empty() => Some(30),
            Faults { order: Some(_), .. } => Some(31),
            Faults { beyond, .. } if !beyond.is_empty() => Some(32),
            _ => None,
        }
    }
}

/// Lines of no use, or with another count of fields than they must have.
const LINES: [&str; 7] = [
    "missing after a line feed",
    "missing after no line feed",
    "empty",
    "of spaces alone",
    "with too few fields",
    "with too many fields",
    "with a minus for a field",
];

impl Kind {
    /// A line that is not there.
    pub fn missing(&self, ended: bool) -> Faults {
        let how = LINES[usize::from(!ended)];
        Faults {
            malformed: vec![format!("{} {how}", self.name)],
            ..Faults::default()
        }
    }

    /// The faults of a line of this kind.
    pub fn faults(&self, line: &[u8], due: i128, nodes: usize) -> Faults {
        let fields = fields_of(line);
        let mut faults = Faults::default();
        let counted = fields.len() == self.fields.len();
        if !counted {
            let how = self.wrong_count(line, &fields);
            faults.malformed.push(format!("{} {how}", self.name));
        }
        for (field, (name, sort)) in fields.iter().zip(self.fields) {
            if let Some(cause) = sort.malformed(field).filter(|_| counted) {
                faults.malformed.push(format!("{name} {cause}"));
            }
            if let (Sort::Number, Ok(number)) = (sort, whole(field)) {
                let how = out_of_order(number, due, nodes);
                faults.order = how.map(|how| format!("{name} {how}"));
            }
            if let Some(how) = sort.beyond(field) {
                faults.beyond.push(format!("{name} {how}"));
            }
        }
        faults
    }

    fn wrong_count(&self, line: &[u8], fields: &[&[u8]]) -> &'static str {
        let due = self.fields.len();
        let at = match fields.len() {
            _ if line.is_empty() => 2,
            0 => 3,
            count if count < due => 4,
            count if count == due + 1 && fields.contains(&&b"-"[..]) => 6,
            _ => 5,
        };
        LINES[at]
    }

    pub fn all_malformed(&self) -> Vec<Reached> {
        let mut all = each(Call::Grid, 30, &[self.name], &LINES);
        for &(name, sort) in self.fields {
            for causes in sort.causes() {
                all.extend(each(Call::Grid, 30, &[name], causes));
            }
        }
        all
    }

    pub fn all_out_of_order(&self) -> Vec<Reached> {
        let (name, _) = self.fields[0];
        let mut all = each(Call::Grid, 31, &[name], &ADDED);
        all.extend(each(Call::Grid, 31, &[name], &["zero", "another"]));
        if name == TRIANGLE.fields[0].0 {
            all.extend(of(Call::Grid, 31, &["triangle number after the nodes"]));
        }
        all
    }

    pub fn all_beyond(&self) -> Vec<Reached> {
        let mut all = Vec::new();
        for &(name, sort) in self.fields {
            all.extend(each(Call::Grid, 32, &[name], sort.limits()));
        }
        all
    }
}

/// Bytes that no number has, of every sort.
const STRANGE: [&str; 7] = [
    "with a tab",
    "with a carriage return",
    "with a plus",
    "with an e",
    "with a zero byte",
    "with a byte above 127",
    "with another byte",
];

/// Minuses that no number has.
const MINUSES: [&str; 3] = ["a minus alone", "with two minuses", "with a minus within"];

/// What a number without a sign has not, and what no whole number has.
const WHOLE: [&str; 2] = ["below zero", "with a point"];

/// Points that no depth has.
const POINTS: [&str; 4] = [
    "with two points",
    "a point alone",
    "without a digit before its point",
    "without a digit behind its point",
];

/// A 3 that is another number.
const THREES: [&str; 5] = ["another number", ADDED[2], ADDED[3], ADDED[4], ADDED[5]];

/// By how much a number is another one.
pub(crate) const ADDED: [&str; 6] = [
    "one less",
    "one more",
    "2^16 more",
    "2^32 more",
    "2^64 more",
    "far more",
];

/// By how much a number is more than another, where that is told apart.
pub(crate) fn added(number: i128, to: i128) -> Option<&'static str> {
    let known = [-1, 1, 1 << 16, 1 << 32, 1 << 64];
    let at = known.iter().position(|&by| number - to == by);
    let far = (number == i128::MAX).then_some(known.len());
    at.or(far).map(|at| ADDED[at])
}

/// Row 31.
fn out_of_order(number: i128, due: i128, nodes: usize) -> Option<&'static str> {
    match number {
        _ if number == due => None,
        0 => Some("zero"),
        _ if nodes > 1 && number == due + nodes as i128 => Some("after the nodes"),
        _ => added(number, due).or(Some("another")),
    }
}

/// The sides of 32 bits signed.
const COORDINATES: [&str; 8] = [
    "one above",
    "one below",
    "2^32 above",
    "2^32 below",
    "2^64 above",
    "2^64 below",
    "far above",
    "far below",
];

const DEPTHS: [&str; 7] = [
    "with digits too many on both sides",
    "with a fourth decimal of 0",
    "with a fourth decimal",
    "with more decimals",
    "with ten whole digits",
    "with ten whole digits by zeros",
    "with more whole digits",
];

const CORNERS: [&str; 6] = ["0", "65,537", ADDED[2], ADDED[3], ADDED[4], ADDED[5]];

impl Sort {
    /// The causes of a malformed field.
    fn causes(self) -> Vec<&'static [&'static str]> {
        let mut all: Vec<&[&str]> = vec![&STRANGE, &MINUSES];
        all.extend(match self {
            Sort::Depth => vec![&POINTS[..]],
            Sort::Coordinate => vec![&WHOLE[1..]],
            Sort::Three => vec![&WHOLE[..], &THREES],
            _ => vec![&WHOLE[..]],
        });
        all
    }

    /// The ways to be beyond the limits of row 32.
    fn limits(self) -> &'static [&'static str] {
        match self {
            Sort::Coordinate => &COORDINATES,
            Sort::Depth => &DEPTHS,
            Sort::Corner => &CORNERS,
            _ => &[],
        }
    }

    /// Row 30 of one field.
    fn malformed(self, field: &[u8]) -> Option<&'static str> {
        let right = match self {
            Sort::Depth => Depth::read(field).is_ok(),
            Sort::Coordinate => signed(field).is_ok(),
            _ => whole(field).is_ok(),
        };
        match (self, whole(field)) {
            (Sort::Three, Ok(3)) => None,
            (Sort::Three, Ok(number)) => Some(other_three(number)),
            _ if right => None,
            _ => strange_byte(field).or(Some(self.shape(field))),
        }
    }

    /// What is wrong with a field of digits, minuses and points.
    fn shape(self, field: &[u8]) -> &'static str {
        let (below_zero, size) = unsigned(field);
        let points = size.iter().filter(|&&byte| byte == b'.').count();
        match size {
            b"" => MINUSES[0],
            [b'-', ..] => MINUSES[1],
            _ if size.contains(&b'-') => MINUSES[2],
            _ if below_zero && self != Sort::Coordinate && self != Sort::Depth => WHOLE[0],
            _ if self != Sort::Depth => WHOLE[1],
            _ if points > 1 => POINTS[0],
            b"." => POINTS[1],
            [b'.', ..] => POINTS[2],
            _ => POINTS[3],
        }
    }

    /// Row 32 of one field.
    fn beyond(self, field: &[u8]) -> Option<&'static str> {
        match self {
            Sort::Coordinate => beyond_32_bits(signed(field).ok()?),
            Sort::Depth => too_long(&Depth::read(field).ok()?),
            Sort::Corner => no_corner(whole(field).ok()?),
            _ => None,
        }
    }
}

/// The first byte that no number has, by its group.
fn strange_byte(field: &[u8]) -> Option<&'static str> {
    let group = |byte: &u8| match byte {
        b'0'..=b'9' | b'-' | b'.' => None,
        b'\t' => Some(0),
        b'\r' => Some(1),
        b'+' => Some(2),
        b'e' | b'E' => Some(3),
        0 => Some(4),
        128.. => Some(5),
        _ => Some(6),
    };
    field.iter().find_map(group).map(|at| STRANGE[at])
}

fn other_three(number: i128) -> &'static str {
    match number {
        2 | 4 => THREES[0],
        _ => added(number, 3).unwrap_or(THREES[0]),
    }
}

fn beyond_32_bits(number: i128) -> Option<&'static str> {
    let within = |number: i128| i32::try_from(number).is_ok();
    let at = match number {
        _ if within(number) => return None,
        _ if within(number.saturating_sub(1)) => 0,
        _ if within(number.saturating_add(1)) => 1,
        _ if within(number.saturating_sub(1 << 32)) => 2,
        _ if within(number.saturating_add(1 << 32)) => 3,
        _ if within(number.saturating_sub(1 << 64)) => 4,
        _ if within(number.saturating_add(1 << 64)) => 5,
        1.. => 6,
        _ => 7,
    };
    Some(COORDINATES[at])
}

fn too_long(depth: &Depth) -> Option<&'static str> {
    let at = match (depth.whole, depth.decimals) {
        _ if depth.is_short() => return None,
        (whole, decimals) if whole.len() > 9 && decimals.len() > 3 => 0,
        (_, [_, _, _, b'0']) => 1,
        (_, [_, _, _, _]) => 2,
        (_, [_, _, _, _, ..]) => 3,
        ([b'0', rest @ ..], _) if rest.len() == 9 => 5,
        (whole, _) if whole.len() == 10 => 4,
        _ => 6,
    };
    Some(DEPTHS[at])
}

fn no_corner(number: i128) -> Option<&'static str> {
    let within = |number: i128| (1..=65_536).contains(&number);
    let at = match number {
        _ if within(number) => return None,
        0 => 0,
        65_537 => 1,
        _ if within(number.saturating_sub(1 << 16)) => 2,
        _ if within(number.saturating_sub(1 << 32)) => 3,
        _ if within(number.saturating_sub(1 << 64)) => 4,
        _ => 5,
    };
    Some(CORNERS[at])
}
