//! The spellings that an accepted grid text had.

use super::fields::{Kind, Sort, KINDS};
use super::Sheet;
use crate::coverage::wanted::{each, of, Reached};
use crate::grids::{fields_of, signed, unsigned, whole, Depth};
use crate::script::Call;

/// Titles.
const TITLES: [&str; 6] = [
    "title empty",
    "title of spaces alone",
    "title with a zero byte",
    "title with a carriage return",
    "title with a byte above 127",
    "title of numbers",
];

/// Spaces that need not be.
const SPACES: [&str; 3] = ["after spaces", "before spaces", "with several spaces"];

/// How a text ends with the last line of a kind.
const ENDS: [&str; 2] = ["last, with its line feed", "last, without a line feed"];

/// What follows the last line.
const FOLLOWING: [&str; 4] = [
    "an empty line after",
    "a triangle line after",
    "a zero byte after",
    "any other bytes after",
];

/// Zeros before a number.
const ZEROS: [&str; 2] = ["with leading zeros", "with hundreds of zeros"];

/// A coordinate.
const COORDINATES: [&str; 4] = ["least", "most", "minus zero", "minus leading zeros"];

/// A depth.
const DEPTHS: [&str; 12] = [
    "with 0 decimals",
    "with 1 decimals",
    "with 2 decimals",
    "with 3 decimals",
    "with leading zeros",
    "with nine whole digits",
    "with nine whole digits by zeros",
    "below zero",
    "minus zero",
    "minus zero with decimals",
    "least",
    "most",
];

/// The counts that are told apart.
const SIZES: [&str; 5] = [
    "N 0 and E 0",
    "N 0",
    "E 0",
    "N above 65,535",
    "E above 65,535",
];

/// The conditions of an accepted text.
pub(crate) fn conditions(sheet: &Sheet) -> Vec<String> {
    let after = 2 + sheet.nodes + sheet.triangles;
    let mut met: Vec<String> = title(sheet.lines[0])
        .into_iter()
        .map(String::from)
        .collect();
    for line in 1..after {
        let (kind, bytes) = (sheet.kind(line), sheet.lines[line]);
        met.extend(spaces(bytes).map(|how| format!("{} {how}", kind.name)));
        for (field, &(name, sort)) in fields_of(bytes).into_iter().zip(kind.fields) {
            let how = spelling(field, sort);
            met.extend(how.into_iter().map(|how| format!("{name} {how}")));
        }
    }
    met.push(end(sheet, after));
    met.extend(size(sheet).map(String::from));
    met
}

/// What a list names where it holds.
fn holding<const COUNT: usize>(
    names: [&'static str; COUNT],
    holds: [bool; COUNT],
) -> impl Iterator<Item = &'static str> {
    let both = names.into_iter().zip(holds);
    both.filter(|(_, holds)| *holds).map(|(name, _)| name)
}

fn title(title: &[u8]) -> Vec<&'static str> {
    let fields = fields_of(title);
    let spaces = !title.is_empty() && fields.is_empty();
    let numbers = fields.len() == 2 && fields.iter().all(|field| whole(field).is_ok());
    let holds = [
        title.is_empty(),
        spaces,
        title.contains(&0),
        title.contains(&b'\r'),
        title.iter().any(|&byte| byte > 127),
        numbers,
    ];
    holding(TITLES, holds).collect()
}

fn spaces(line: &[u8]) -> impl Iterator<Item = &'static str> {
    let (after, before) = (line.starts_with(b" "), line.ends_with(b" "));
    let several = line.trim_ascii().windows(2).any(|pair| pair == b"  ");
    holding(SPACES, [after, before, several])
}

/// How a field is spelled.
fn spelling(field: &[u8], sort: Sort) -> Vec<&'static str> {
    let (below_zero, size) = unsigned(field);
    let zeros = size.iter().take_while(|&&byte| byte == b'0').count();
    let led = size.len() > 1 && zeros > 0;
    let mut met = Vec::new();
    if sort == Sort::Depth {
        if let Ok(depth) = Depth::read(field) {
            met.extend(depth_spelling(&depth));
        }
        return met;
    }
    met.extend(holding(ZEROS, [led, zeros >= 100]));
    match (sort, signed(field)) {
        (Sort::Coordinate, Ok(number)) => {
            let (least, most) = (i128::from(i32::MIN), i128::from(i32::MAX));
            let zero = below_zero && number == 0;
            let holds = [number == least, number == most, zero, below_zero && led];
            met.extend(holding(COORDINATES, holds));
        }
        (Sort::Corner, Ok(1)) => met.push("1"),
        (Sort::Corner, Ok(65_536)) => met.push("65,536"),
        _ => (),
    }
    met
}

fn depth_spelling(depth: &Depth) -> Vec<&'static str> {
    let (thousandths, decimals) = (depth.thousandths(), depth.decimals.len());
    let nine = depth.whole.len() == 9;
    let led = depth.whole.len() > 1 && depth.whole.starts_with(b"0");
    let zero = depth.below_zero && thousandths == 0;
    let holds = [
        decimals == 0,
        decimals == 1,
        decimals == 2,
        decimals == 3,
        led,
        nine && !led,
        nine && led,
        thousandths < 0,
        zero && decimals == 0,
        zero && decimals > 0,
        thousandths == -999_999_999_999,
        thousandths == 999_999_999_999,
    ];
    holding(DEPTHS, holds).collect()
}

/// How the text ends, or goes on after its last line.
fn end(sheet: &Sheet, after: usize) -> String {
    let Some(line) = sheet.lines.get(after) else {
        let how = ENDS[usize::from(!sheet.ended)];
        return format!("{} {how}", sheet.kind(after - 1).name);
    };
    let fields = fields_of(line);
    let triangle = fields.len() == 5 && fields.iter().all(|field| whole(field).is_ok());
    let at = match line {
        [] => 0,
        _ if triangle => 1,
        _ if line.contains(&0) => 2,
        _ => 3,
    };
    String::from(FOLLOWING[at])
}

fn size(sheet: &Sheet) -> impl Iterator<Item = &'static str> {
    let (n, e) = (sheet.nodes, sheet.triangles);
    let none = [n, e] == [0, 0];
    let holds = [
        none,
        n == 0 && !none,
        e == 0 && !none,
        n > 65_535,
        e > 65_535,
    ];
    holding(SIZES, holds)
}

/// All that must be reached.
pub(crate) fn all_conditions() -> Vec<Reached> {
    let mut all = Vec::new();
    for names in [&TITLES[..], &FOLLOWING, &SIZES] {
        all.extend(of(Call::Grid, 0, names));
    }
    for Kind { name, fields } in KINDS {
        all.extend(each(Call::Grid, 0, &[name], &SPACES));
        all.extend(each(Call::Grid, 0, &[name], &ENDS));
        for &(name, sort) in fields {
            let spellings: &[&[&str]] = match sort {
                Sort::Depth => &[&DEPTHS],
                Sort::Coordinate => &[&ZEROS, &COORDINATES],
                Sort::Corner => &[&ZEROS, &["1", "65,536"]],
                _ => &[&ZEROS],
            };
            for endings in spellings {
                all.extend(each(Call::Grid, 0, &[name], endings));
            }
        }
    }
    all
}
