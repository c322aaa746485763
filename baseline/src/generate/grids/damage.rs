//! Every way to damage a grid text, and rooms that do not fit it.

use super::numbers::{
    any_coordinate, any_corner, any_depth, beyond_32_bits, no_corner, out_of_order, too_long_depth,
    whole, wrapped,
};
use super::sheets::{Kind, Sheet};
use crate::generate::dice::Dice;
use crate::generate::texts::lines_of;

/// Bytes that no number has, in the groups that are told apart.
const STRANGE: [&[u8]; 7] = [
    b"\t",
    b"\r",
    b"+",
    b"eE",
    b"\x80\xA0\xB1\xFF",
    b"\0",
    b"/:,_xA#\x0B\x7F",
];

/// Any line but the title, each kind about as often as it has fields.
pub(crate) fn any_line(dice: &mut Dice, sheet: &Sheet) -> usize {
    let node = 1 + dice.below(sheet.nodes);
    let triangle = 1 + sheet.nodes + dice.below(sheet.triangles);
    let line = match dice.below(12) {
        0..3 => 0,
        3..7 => node,
        _ => triangle,
    };
    // There may be no line of that kind.
    line.min(sheet.lines.len() - 1)
}

/// A row that refuses lines of this kind.
pub(crate) fn any_row(dice: &mut Dice, kind: Kind) -> u32 {
    match kind {
        Kind::Counts => dice.one_of(&[30, 33]),
        _ => dice.one_of(&[30, 30, 30, 30, 31, 32, 32]),
    }
}

/// One fault on a line, meant for a row that refuses lines of its kind.
pub(crate) fn fault(dice: &mut Dice, sheet: &mut Sheet, line: usize, row: u32) {
    let kind = sheet.kind(line);
    match (row, kind) {
        (30, _) => malformed_line(dice, &mut sheet.lines[line], kind),
        (31, _) => {
            let number = out_of_order(dice, sheet.due(line), sheet.nodes);
            put(&mut sheet.lines[line], 0, number);
        }
        (32, Kind::Node) => beyond_node(dice, &mut sheet.lines[line]),
        (32, _) => {
            let corner = any_corner(dice, sheet.nodes);
            let (at, number) = (2 + dice.below(3), no_corner(dice, corner));
            put(&mut sheet.lines[line], at, number);
        }
        _ => other_lengths(dice, sheet),
    }
}

/// Puts a word into a field, where the line still has it.
fn put(line: &mut [Vec<u8>], at: usize, word: impl Into<Vec<u8>>) {
    if let Some(field) = line.get_mut(at) {
        *field = word.into();
    }
}

/// 30: "a malformed, missing or extra field".
fn malformed_line(dice: &mut Dice, line: &mut Vec<Vec<u8>>, kind: Kind) {
    // An earlier fault may have left none of its fields.
    if line.is_empty() {
        return;
    }
    let at = dice.below(line.len());
    match dice.below(8) {
        0 => other_count(dice, line, at),
        1 if kind == Kind::Triangle => put(line, 1, no_three(dice)),
        _ => line[at] = malformed(dice, &line[at], Sort::of(kind, at)),
    }
}

/// A line with a field missing or extra, or with none at all.
fn other_count(dice: &mut Dice, line: &mut Vec<Vec<u8>>, at: usize) {
    match dice.below(6) {
        0 => line.clear(),
        1 => drop(line.remove(at)),
        2 => line.insert(at, line[at].clone()),
        3 => {
            let more = [&b"0"[..], b"1", b"-", b"x", b"\r", b"\0"];
            line.push(dice.one_of(&more).to_vec());
        }
        // A space behind a minus, or between digits.
        4 => line.insert(at, b"-".to_vec()),
        _ => {
            let middle = line[at].len() / 2;
            let second = line[at].split_off(middle);
            line.insert(at + 1, second);
        }
    }
}

/// A second field of a triangle line that is a number but not 3.
fn no_three(dice: &mut Dice) -> String {
    match dice.below(3) {
        0 => dice.one_of(&["0", "2", "4", "33", "30", "13"]).to_string(),
        _ => wrapped(dice, 3),
    }
}

/// What may stand in a field.
#[derive(Clone, Copy, PartialEq)]
enum Sort {
    Whole,
    Signed,
    Depth,
}

impl Sort {
    fn of(kind: Kind, at: usize) -> Sort {
        match (kind, at) {
            (Kind::Node, 1 | 2) => Sort::Signed,
            (Kind::Node, 3) => Sort::Depth,
            _ => Sort::Whole,
        }
    }
}

/// A field that is no number of its sort.
fn malformed(dice: &mut Dice, field: &[u8], sort: Sort) -> Vec<u8> {
    let digits = field.strip_prefix(b"-").unwrap_or(field);
    match dice.below(14) {
        0 => b"-".to_vec(),
        1 => [b"--", digits].concat(),
        2 => with_byte(dice, digits, b'-', 1),
        3..6 if sort == Sort::Depth => other_point(dice, digits),
        3 => with_byte(dice, digits, b'.', 0),
        4..6 if sort == Sort::Whole => [b"-", digits].concat(),
        _ => {
            let group = dice.one_of(&STRANGE);
            let byte = dice.one_of(group);
            with_byte(dice, field, byte, 0)
        }
    }
}

/// A field with one byte more, at a place from this one on, the last as often
/// as all others.
fn with_byte(dice: &mut Dice, field: &[u8], byte: u8, from: usize) -> Vec<u8> {
    let mut field = field.to_vec();
    let last = field.len();
    let any = dice.between(from.min(last) as i64, last as i64) as usize;
    field.insert(dice.one_of(&[any, last]), byte);
    field
}

/// A depth whose point has not "digits on both sides", or that has two.
fn other_point(dice: &mut Dice, digits: &[u8]) -> Vec<u8> {
    let minus = dice.one_of(&[&b""[..], b"-"]);
    let whole: Vec<u8> = digits
        .iter()
        .copied()
        .take_while(|&byte| byte != b'.')
        .collect();
    let rest = match dice.below(5) {
        0 => [b".", &whole[..]].concat(),
        1 => [&whole[..], b"."].concat(),
        2 => b".".to_vec(),
        3 => [&whole[..], b"..5"].concat(),
        _ => [&whole[..], b".2.5"].concat(),
    };
    [minus, &rest].concat()
}

/// 32: "a coordinate beyond 32 bits signed, a depth with more than three
/// decimals or nine whole digits".
fn beyond_node(dice: &mut Dice, line: &mut [Vec<u8>]) {
    let at = 1 + dice.below(3);
    let number = if at == 3 {
        let depth = any_depth(dice);
        too_long_depth(dice, depth)
    } else {
        let coordinate = any_coordinate(dice);
        beyond_32_bits(dice, coordinate)
    };
    put(line, at, number);
}

/// 33: "a room lent hasn't the length its N and E give".
fn other_lengths(dice: &mut Dice, sheet: &mut Sheet) {
    match dice.below(4) {
        0 => other_room(dice, sheet),
        1 => thrice(dice, sheet),
        _ => other_counts(dice, sheet),
    }
}

/// One room, or all of the nodes', shorter or longer.
fn other_room(dice: &mut Dice, sheet: &mut Sheet) {
    let at = dice.below(5);
    let length = sheet.rooms[at.min(3)];
    let by = if at == 3 { dice.one_of(&[1, 1, 3]) } else { 1 };
    let other = match dice.below(3) {
        0 => length.saturating_sub(by),
        1 => length + by,
        _ => 0,
    };
    match at {
        4 => sheet.rooms[..3].fill(other.min(sheet.nodes + 1)),
        _ => sheet.rooms[at] = other,
    }
}

/// An E or N that is the rooms' own only in too few bits, or by one; or the two
/// in the other order.
fn other_counts(dice: &mut Dice, sheet: &mut Sheet) {
    let at = dice.below(2);
    let count = [sheet.triangles, sheet.nodes][at] as i128;
    let power = 1i128 << dice.one_of(&[16, 32, 63, 64]);
    let word = match dice.below(9) {
        0 => whole(dice, count + 1),
        1 => whole(dice, (count - 1).abs()),
        2..5 => whole(dice, power - 1),
        5 => whole(dice, power),
        6 => {
            sheet.lines[0].reverse();
            return;
        }
        _ => wrapped(dice, count),
    };
    put(&mut sheet.lines[0], at, word);
}

/// An E whose three corners each are, in too few bits, as many as the room has.
fn thrice(dice: &mut Dice, sheet: &mut Sheet) {
    let power = dice.one_of(&[16, 32, 64]);
    // 2^16, 2^32 and 2^64 leave 1 when divided by 3.
    let times = 1 + dice.below(2);
    let length = 3 * sheet.triangles + 3 - times;
    sheet.rooms[3] = length;
    let corners = ((times as i128) << power) + length as i128;
    let word = whole(dice, corners / 3);
    put(&mut sheet.lines[0], 0, word);
}

/// A text that ends too early, or whose lines are left out, laid twice,
/// exchanged, parted by an empty one, or ended as on other machines.
pub(crate) fn rearranged(dice: &mut Dice, text: &[u8]) -> Vec<u8> {
    let mut lines = lines_of(text);
    let at = dice.below(lines.len());
    let kept: usize = lines[..at].iter().map(Vec::len).sum();
    match dice.below(9) {
        0 => return Vec::new(),
        1 => return text[..dice.below(text.len() + 1)].to_vec(),
        2 => return text[..kept].to_vec(),
        3 => return text[..kept.saturating_sub(1)].to_vec(),
        4 => drop(lines.remove(at)),
        5 => lines.insert(at, lines[at].clone()),
        6 if at + 1 < lines.len() => lines.swap(at, at + 1),
        7 => lines.insert(at, dice.one_of(&[&b"\n"[..], b" \n", b"\r\n"]).to_vec()),
        _ => {
            for line in &mut lines {
                let last = line.len() - 1;
                line.insert(last, b'\r');
            }
        }
    }
    lines.concat()
}
