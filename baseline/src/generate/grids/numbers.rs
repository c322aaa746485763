//! The numbers of a grid text: those that stand at a limit, and the spellings
//! that a number may have.

use crate::generate::dice::Dice;

/// Thousandths of the largest depth: nine whole digits and three decimals.
const MOST: i64 = 999_999_999_999;

/// What a number that is held in too few bits loses.
const LOST: [i128; 3] = [1 << 16, 1 << 32, 1 << 64];

/// A coordinate, often at an end of 32 bits.
pub(crate) fn any_coordinate(dice: &mut Dice) -> i64 {
    let (any, small) = (dice.bits() as i32, dice.between(-1_000, 1_000) as i32);
    let ends = [i32::MIN, i32::MIN + 1, i32::MAX, i32::MAX - 1, 0];
    let end = dice.one_of(&ends);
    i64::from(dice.one_of(&[any, small, end]))
}

/// The thousandths of a depth, often at a limit of its digits.
pub(crate) fn any_depth(dice: &mut Dice) -> i64 {
    let (any, small) = (dice.between(-MOST, MOST), dice.between(-20_000, 20_000));
    let tenth = 100 * dice.between(-90, 90);
    let ends = [MOST, -MOST, MOST - 999, 0, 1, -1, 999, -1_000];
    let end = dice.one_of(&ends);
    dice.one_of(&[any, small, tenth, end])
}

/// A corner's number, often of one of the nodes, or at a limit.
pub(crate) fn any_corner(dice: &mut Dice, nodes: usize) -> i64 {
    let (any, node) = (dice.between(1, 65_536), 1 + dice.below(nodes) as i64);
    let end = dice.one_of(&[1, 2, 65_535, 65_536]);
    dice.one_of(&[any, node, node, node, end])
}

/// Zeros that change nothing: none most often, seldom hundreds.
fn zeros(dice: &mut Dice) -> String {
    let count = match dice.below(60) {
        0 => 100 + dice.below(250),
        1..8 => 1 + dice.below(3),
        _ => 0,
    };
    "0".repeat(count)
}

/// A number without a sign: "leading zeros change nothing".
pub(crate) fn whole(dice: &mut Dice, number: i128) -> String {
    zeros(dice) + &number.unsigned_abs().to_string()
}

/// A number with its sign; 0 may have a minus.
pub(crate) fn signed(dice: &mut Dice, number: i128) -> String {
    let size = whole(dice, number);
    minus(dice, number) + &size
}

/// The minus of a number, or none.
fn minus(dice: &mut Dice, number: i128) -> String {
    let is = number < 0 || (number == 0 && dice.one_in(3));
    String::from(if is { "-" } else { "" })
}

/// A depth, with as few decimals as it needs or with up to three, and at times
/// with zeros up to nine whole digits.
pub(crate) fn depth(dice: &mut Dice, thousandths: i64) -> String {
    let size = thousandths.unsigned_abs();
    let width = dice.one_of(&[1, 1, 1, 1, 1, 1, 3, 9]);
    let minus = minus(dice, i128::from(thousandths));
    let mut text = format!("{minus}{:0width$}.{:03}", size / 1000, size % 1000);
    for _ in 0..dice.below(4) {
        if text.ends_with('0') {
            text.pop();
        }
    }
    let bare = text.strip_suffix('.').map(String::from);
    bare.unwrap_or(text)
}

/// The same digits behind hundreds of others: a number that is the same in any
/// few bits.
fn far(dice: &mut Dice, number: i128) -> String {
    let zeros = "0".repeat(130 + dice.below(200));
    format!("1{zeros}{}", number.unsigned_abs())
}

/// A number that too few bits would hold as this one.
pub(crate) fn wrapped(dice: &mut Dice, number: i128) -> String {
    match dice.below(4) {
        0 => far(dice, number),
        lost => whole(dice, number + LOST[lost - 1]),
    }
}

/// A coordinate beyond 32 bits signed, on either side.
pub(crate) fn beyond_32_bits(dice: &mut Dice, coordinate: i64) -> String {
    let (low, high) = (i128::from(i32::MIN), i128::from(i32::MAX));
    let coordinate = i128::from(coordinate);
    let number = match dice.below(8) {
        0 => high + 1,
        1 => low - 1,
        2 => coordinate + LOST[1],
        3 => coordinate - LOST[1],
        4 => coordinate + LOST[2],
        5 => coordinate - LOST[2],
        sign => {
            let minus = if sign == 6 { "-" } else { "" };
            return format!("{minus}{}", far(dice, coordinate));
        }
    };
    signed(dice, number)
}

/// A depth with more than three decimals or nine whole digits.
pub(crate) fn too_long_depth(dice: &mut Dice, thousandths: i64) -> String {
    let size = thousandths.unsigned_abs();
    let minus = if thousandths < 0 { "-" } else { "" };
    let (whole, decimals) = (size / 1000, size % 1000);
    let more = 1_000_000_000 + whole;
    let zeros = "0".repeat(1 + dice.below(300));
    let digit = 1 + dice.below(9);
    let size = match dice.below(8) {
        0 => format!("{whole}.{decimals:03}0"),
        1 => format!("{whole}.{decimals:03}{digit}"),
        2 => format!("{whole}.{decimals:03}{zeros}{digit}"),
        3 => more.to_string(),
        4 => format!("{more}.{decimals:03}"),
        5 => format!("{whole:010}"),
        6 => format!("{zeros}{more}.{decimals:03}"),
        _ => format!("{more}.{decimals:03}{digit}"),
    };
    format!("{minus}{size}")
}

/// A corner's number outside 1 to 65,536.
pub(crate) fn no_corner(dice: &mut Dice, corner: i64) -> String {
    match dice.below(6) {
        0 => whole(dice, 0),
        1 => whole(dice, 65_537),
        _ => wrapped(dice, i128::from(corner)),
    }
}

/// A number that is not the one due.
pub(crate) fn out_of_order(dice: &mut Dice, due: usize, nodes: usize) -> String {
    let due = due as i128;
    match dice.below(9) {
        0 => whole(dice, 0),
        1 => whole(dice, due - 1),
        2 => whole(dice, due + 1),
        // Triangles that are numbered on from the nodes.
        3 => whole(dice, due + nodes.max(1) as i128),
        4 => format!("{due}0"),
        _ => wrapped(dice, due),
    }
}
