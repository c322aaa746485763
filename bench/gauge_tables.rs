//! The gauges' calls measured: a mesh with 64 gauges.

use crate::bare::Bare;
use crate::board::{points, Board, Tape};
use crate::gauges::{Gauges, Lent, Point, MOST};
use crate::parts;
use crate::product::Product;
use crate::timing::interleaved;
use crate::world::{Log, World};
use crate::{line, ratio, time, TESTED};

/// A measure hands over so many states in each round, and asks for an elevation and for a peak so often.
const UPDATES: usize = 8;
const ELEVATIONS: usize = 100;
const PEAKS: usize = 10_000;

/// The gauge that is asked for alone: the search for it goes over half of the mesh.
const MIDDLE: usize = MOST / 2;

const PROGRAMS: [&dyn Gauges; 3] = [&Product, &TESTED, &Bare];

/// Updates by one program, so many times.
pub fn only(name: &str, world: &World, log: &Log, count: usize) {
    let program = PROGRAMS.iter().find(|program| program.name() == name).expect("product, tested or bare");
    let tape = Tape::of(&TESTED, world, log);
    let mut board = board(*program, &tape, &points(world));
    (0..count).for_each(|at| board.update(tape.at(at), at));
}

pub fn all(rounds: usize, world: &World, log: &Log) {
    let (tape, points) = (Tape::of(&TESTED, world, log), points(world));
    calls(rounds, &tape, &points);
    parts_of_an_update(rounds, tape.at(0), &points);
}

/// A board with its gauges, which the program itself has added.
fn board<'a>(program: &'a dyn Gauges, tape: &Tape, points: &[Point]) -> Board<'a> {
    let mut board = Board::new(program);
    board.add(tape.at(0), points);
    board
}

/// A line of the table, after which the boards hold the same.
fn measured(rounds: usize, call: &str, count: usize, boards: &mut [Board], work: impl Fn(&mut Board, usize)) {
    let times = interleaved(rounds, boards, |board| (0..count).for_each(|at| work(board, at)));
    line(call, count, &times);
    for board in &boards[1..] {
        assert!(board.record == boards[0].record, "{}: another record", board.program.name());
        assert!(board.bits() == boards[0].bits(), "{}: another elevation or peak", board.program.name());
    }
}

fn calls(rounds: usize, tape: &Tape, points: &[Point]) {
    println!("\n| call, {MOST} gauges | product | (b) tested | (c) bare | product/(b) | product/(c) | by medians |");
    println!("|---|---|---|---|---|---|---|");
    let mut boards = PROGRAMS.map(|program| board(program, tape, points));
    measured(rounds, "gauge_update", UPDATES, &mut boards, |board, at| board.update(tape.at(at), at));
    measured(rounds, "gauge_elevation, of one in the middle", ELEVATIONS, &mut boards, |board, at| board.elevation(tape.at(at), MIDDLE));
    measured(rounds, "gauge_peak", PEAKS, &mut boards, |board, at| board.peak(at % MOST));
    println!("\nrecords byte-equal, elevations and peaks bit-equal\n");
}

fn parts_of_an_update(rounds: usize, lent: Lent, points: &[Point]) {
    let parts = parts::updates(rounds, &[&Product, &TESTED], lent, points);
    println!("| part of gauge_update, by one without gauges | product | (b) | ratio |");
    println!("|---|---|---|---|");
    let compare = |name: &str, part: fn(&(f64, f64)) -> f64| {
        let (p, b) = (part(&parts[0]), part(&parts[1]));
        println!("| {name} | {} | {} | {} |", time(p), time(b), ratio(p, b));
    };
    compare("rows 1 to 10 over the bytes, 43", |&(rows, _)| rows);
    compare("the searches, 40, the record written", |&(rows, whole)| whole - rows);
    compare("the whole", |&(_, whole)| whole);
    println!("\n| part of gauge_update, (b) by itself | time |");
    println!("|---|---|");
    for (name, seconds) in parts::inside_update(rounds, lent, points) {
        println!("| {name} | {} |", time(seconds));
    }
}
