//! Grid texts: right ones in every spelling, damaged ones, and runs on the
//! meshes that are read from them.

mod damage;
mod numbers;
mod sheets;

use super::dice::Dice;
use super::pen::Pen;
use super::runs::{save_and_load, step_on};
use super::settings::{any_manner, any_size, parameters, small_size};
use super::values::{anything, nan, word};
use super::worlds::{world, Manner};
use crate::records::Answer;
use crate::script::Call;
use damage::{any_line, any_row, fault, rearranged};
use sheets::{Grid, Kind, Sheet};

/// The rooms of a reading.
const ROOMS: [&str; 4] = ["x", "y", "h", "tri"];

/// Slices up to this length are lent with other contents at each place.
const SHORT: usize = 16;

/// A script of the family.
pub(crate) fn grids(pen: &mut Pen) {
    match pen.dice.below(300) {
        0..2 => many(pen, Kind::Node),
        2..4 => many(pen, Kind::Triangle),
        4..90 => meshes(pen),
        _ => readings(pen),
    }
}

/// Readings of texts that are right or damaged, one after the other.
fn readings(pen: &mut Pen) {
    for _ in 0..14 + pen.dice.below(14) {
        let grid = Grid::any(&mut pen.dice);
        let sheet = Sheet::of(&mut pen.dice, &grid);
        let answer = if pen.dice.one_in(5) {
            read_sheet(pen, &sheet)
        } else {
            read_damaged(pen, sheet)
        };
        if answer.number == 0 && pen.dice.one_in(2) {
            open(pen, &grid.kind, Manner::Wild);
        }
    }
}

/// Meshes that are written as texts, read, opened, stepped and saved.
fn meshes(pen: &mut Pen) {
    for _ in 0..1 + pen.dice.below(3) {
        let nodes = match pen.dice.below(12) {
            0 => any_size(pen),
            _ => small_size(pen),
        };
        let manner = match pen.dice.below(4) {
            0 => Manner::Raw,
            _ => any_manner(pen),
        };
        let world = world(&mut pen.dice, nodes, manner);
        let mut grid = Grid::of(&world);
        if pen.dice.one_in(4) {
            grid.break_row(&mut pen.dice);
        }
        let sheet = Sheet::of(&mut pen.dice, &grid);
        if pen.dice.one_in(2) {
            read_damaged(pen, sheet.clone());
        }
        read_sheet(pen, &sheet);
        if open(pen, &grid.kind, manner).number == 0 {
            run(pen, manner);
        }
    }
}

/// Reads a text as its fields give it.
fn read_sheet(pen: &mut Pen, sheet: &Sheet) -> Answer {
    let text = sheet.text(&mut pen.dice);
    read(pen, sheet.rooms, &text)
}

/// Reads a text with one to three faults, as often on one line as on several.
fn read_damaged(pen: &mut Pen, mut sheet: Sheet) -> Answer {
    let mut rows = String::from("echo rows");
    let same = any_line(&mut pen.dice, &sheet);
    for _ in 0..pen.dice.one_of(&[1, 1, 1, 2, 2, 3]) {
        let other = any_line(&mut pen.dice, &sheet);
        let line = pen.dice.one_of(&[same, other]);
        let row = any_row(&mut pen.dice, sheet.kind(line));
        fault(&mut pen.dice, &mut sheet, line, row);
        rows += &format!(" {row}");
    }
    pen.say(rows);
    let mut text = sheet.text(&mut pen.dice);
    if pen.dice.one_in(8) {
        text = rearranged(&mut pen.dice, &text);
    }
    read(pen, sheet.rooms, &text)
}

/// Lends rooms of these lengths that hold anything, reads a text, and looks at
/// the rooms, which a refusal leaves as found.
fn read(pen: &mut Pen, rooms: [usize; 4], text: &[u8]) -> Answer {
    for (name, length) in ROOMS.into_iter().zip(rooms) {
        lend(pen, name, length);
    }
    pen.become_bytes("text", text);
    let answer = pen.say(Call::Grid.name());
    for name in ROOMS {
        pen.look(name);
    }
    answer.unwrap_or(Answer::accepted(0))
}

/// A room that holds anything, NaNs of any payload among the depths.
fn lend(pen: &mut Pen, name: &str, length: usize) {
    if length <= SHORT {
        let words: Vec<String> = (0..length).map(|_| dirt(&mut pen.dice, name)).collect();
        pen.say_list(&format!("set {name}"), words);
        return;
    }
    let filling = dirt(&mut pen.dice, name);
    pen.say(format!("fill {name} {length} {filling}"));
    for _ in 0..3 {
        let (at, word) = (pen.dice.below(length), dirt(&mut pen.dice, name));
        pen.say(format!("put {name} {at} {word}"));
    }
}

/// Any element of a room.
fn dirt(dice: &mut Dice, name: &str) -> String {
    match name {
        "h" if dice.one_in(2) => word(nan(dice)),
        "h" => word(anything(dice)),
        "tri" => (dice.bits() as u16).to_string(),
        _ => (dice.bits() as i32).to_string(),
    }
}

/// Opens the mesh that was read, with kinds beside it.
fn open(pen: &mut Pen, kind: &[u8], manner: Manner) -> Answer {
    pen.say_list("set kind", kind);
    pen.rooms();
    let p = parameters(pen, manner);
    pen.set_parameters(p);
    pen.call(Call::Open)
}

/// A few steps from the opening, and a save.
fn run(pen: &mut Pen, manner: Manner) {
    for _ in 0..1 + pen.dice.below(4) {
        if !step_on(pen, manner) {
            break;
        }
    }
    save_and_load(pen);
}

/// More lines of a kind than 16 bits count, and faults on the last of them.
fn many(pen: &mut Pen, kind: Kind) {
    let sheet = Sheet::many(&mut pen.dice, kind);
    read_sheet(pen, &sheet);
    for row in [30, 31, 32] {
        let (mut damaged, last) = (sheet.clone(), sheet.lines.len() - 1);
        fault(&mut pen.dice, &mut damaged, last, row);
        pen.say(format!("echo rows {row}"));
        read_sheet(pen, &damaged);
    }
}
