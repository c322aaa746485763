//! Gauges: points of every kind, states one after the other, records that are
//! fresh, foreign and damaged, and whatever rows 1 to 10 refuse.

mod points;
mod records;

use super::dice::Dice;
use super::faults::break_row;
use super::pen::{byte_word, Pen};
use super::runs::{save_and_load, step_on};
use super::settings::{any_manner, clock, parameters, set_state, small_size};
use super::values::{legal, lowest_elevation, word, ELEVATION};
use super::worlds::{full_grid, world, Manner, World};
use crate::gauges::{MOST, RECORD};
use crate::mesh::STATE_RUNS;
use crate::records::{Answer, Clock};
use crate::script::gauges::Gauge;
use crate::script::Call;
use points::{any_point, point_inside};
use records::{any_number, damage, foreign, move_gauge};

/// The byte slices, and the bytes of their elements.
const SLICES: [(&str, usize); 6] = [
    ("statebytes", 8),
    ("xbytes", 4),
    ("ybytes", 4),
    ("tribytes", 2),
    ("hbytes", 8),
    ("kindbytes", 1),
];

/// A script of the family.
pub(crate) fn gauges(pen: &mut Pen) {
    match pen.dice.below(300) {
        0 => full_mesh(pen),
        1..5 => many_nodes(pen),
        5..8 => many_triangles(pen),
        8..40 => full_record(pen),
        40..110 => run(pen),
        _ => rounds(pen),
    }
}

/// A small mesh with its state, and a clock.
fn begin(pen: &mut Pen, manner: Manner) {
    let nodes = small_size(pen);
    let mut world = world(&mut pen.dice, nodes, manner);
    match pen.dice.below(4) {
        0 => world.overlap(&mut pen.dice, 40),
        1 => repeat(&mut pen.dice, &mut world),
        _ => (),
    }
    pen.set_world(&world);
    let p = parameters(pen, manner);
    pen.set_parameters(p);
    pen.call(Call::Open);
    set_state(pen, manner);
    set_clock(pen);
    pen.say("pack");
}

/// Lays triangles twice, which row 6 alone refuses: the calls on gauges do not
/// ask it.
fn repeat(dice: &mut Dice, world: &mut World) {
    for _ in 0..1 + dice.below(3) {
        let mut triangle = world.triangles[dice.below(world.triangles.len())];
        triangle.rotate_left(dice.below(3));
        let at = dice.below(world.triangles.len() + 1);
        world.triangles.insert(at, triangle);
    }
}

/// A record that is "all zero when fresh".
fn fresh(pen: &mut Pen) {
    pen.say(format!("fill record {RECORD} 00"));
}

/// Any step number: a state of any step may be handed over.
fn set_clock(pen: &mut Pen) {
    let any = clock(pen);
    let clocks = [any, any, any, Clock::COLD, Clock { step: u32::MAX }];
    let clock = pen.dice.one_of(&clocks);
    pen.set_clock(clock);
}

/// Makes a call on gauges and looks at the record. The answer.
fn call(pen: &mut Pen, gauge: Gauge, asked: &str) -> Answer {
    let answer = pen.say(format!("{}{asked}", gauge.name()));
    if pen.dice.one_in(12) {
        pen.say("print record");
    } else {
        pen.look("record");
    }
    answer.unwrap_or(Answer::accepted(0))
}

fn at_point(pen: &mut Pen, gauge: Gauge, [x, y]: [i32; 2]) -> Answer {
    call(pen, gauge, &format!(" {x} {y}"))
}

/// Makes a call with anything that it may ask.
fn ask(pen: &mut Pen, gauge: Gauge) -> Answer {
    match gauge {
        Gauge::Locate | Gauge::Add => {
            let point = any_point(pen);
            at_point(pen, gauge, point)
        }
        Gauge::Elevation | Gauge::Peak => {
            let number = any_number(pen);
            call(pen, gauge, &format!(" {number}"))
        }
        Gauge::Update => call(pen, gauge, ""),
    }
}

/// Most of the five calls, in any order.
fn ask_all(pen: &mut Pen) {
    let mut calls = Gauge::ALL;
    pen.dice.shuffle(&mut calls);
    for gauge in calls {
        if !pen.dice.one_in(8) {
            ask(pen, gauge);
        }
    }
}

/// Adds gauges that the mesh contains, as far as there is room for them.
fn add_gauges(pen: &mut Pen, count: usize) {
    for _ in 0..count {
        let point = point_inside(pen);
        at_point(pen, Gauge::Add, point);
    }
}

/// Rounds on a mesh, and at times on another one with the same record: in each the
/// record, the state or the mesh is changed, and the calls meet it.
fn rounds(pen: &mut Pen) {
    let manner = any_manner(pen);
    begin(pen, manner);
    fresh(pen);
    let count = pen.dice.below(5);
    add_gauges(pen, count);
    for _ in 0..12 + pen.dice.below(10) {
        round(pen, manner);
    }
    if pen.dice.one_in(4) {
        begin(pen, manner);
        ask_all(pen);
        for _ in 0..4 {
            round(pen, manner);
        }
    }
}

fn round(pen: &mut Pen, manner: Manner) {
    match pen.dice.below(34) {
        0..3 => points(pen),
        3..10 => hand_over(pen, manner),
        10..12 => foreign(pen),
        12 => fresh(pen),
        13..17 => damaged(pen),
        17..20 => astray(pen),
        20..23 => other_bytes(pen),
        23 => crowded_bytes(pen),
        _ => broken(pen),
    }
    if pen.dice.one_in(3) {
        ask_all(pen);
    }
}

/// Points of any kind, and gauges there.
fn points(pen: &mut Pen) {
    for _ in 0..2 + pen.dice.below(6) {
        let gauge = pen.dice.one_of(&[Gauge::Locate, Gauge::Locate, Gauge::Add]);
        ask(pen, gauge);
    }
}

/// "Each state handed over updates every gauge": some states one after the
/// other.
fn hand_over(pen: &mut Pen, manner: Manner) {
    for _ in 0..1 + pen.dice.below(4) {
        other_state(pen, manner);
        set_clock(pen);
        update(pen);
    }
}

/// Hands over the state that the script holds.
fn update(pen: &mut Pen) {
    pen.say("pack");
    call(pen, Gauge::Update, "");
    for gauge in [Gauge::Elevation, Gauge::Peak] {
        if pen.dice.one_in(2) {
            ask(pen, gauge);
        }
    }
}

/// Another state, or the same again: one that is new in every number, zeros of
/// either sign, one elevation for all nodes, or another z at one node.
fn other_state(pen: &mut Pen, manner: Manner) {
    match pen.dice.below(10) {
        0 => set_state(pen, manner),
        1..4 => level(pen),
        4..6 => (),
        _ => other_elevation(pen, manner),
    }
}

/// Still water: a zero of either sign in all runs, or the same z at all nodes.
fn level(pen: &mut Pen) {
    let (nodes, zero) = (pen.nodes(), pen.dice.one_of(&[0.0, -0.0]));
    pen.say(format!("fill state {} {}", STATE_RUNS * nodes, word(zero)));
    if pen.dice.one_in(4) {
        // Every node has at least 1 m below it.
        let z = pen.dice.one_of(&[0.25, -0.5, 0.1, 29.9]);
        for node in 0..nodes {
            pen.say(format!("put state {} {}", nodes + node, word(z)));
        }
    }
}

/// Another present elevation, or an earlier one, at one node: by one bit, or any
/// that row 10 lets through.
fn other_elevation(pen: &mut Pen, manner: Manner) {
    let (node, nodes) = (pen.any_node(), pen.nodes());
    let run = pen.dice.one_of(&[0, 1, 1, 1, 1]);
    let (old, h) = (pen.script.state.0[run * nodes + node], pen.script.h.0[node]);
    let any = legal(&mut pen.dice, ELEVATION);
    let any = match manner {
        Manner::Wild => any,
        _ => any / 64.0,
    };
    let others = [old.next_up(), old.next_down(), -old, any, any];
    let new = pen
        .dice
        .one_of(&others)
        .clamp(ELEVATION.low, ELEVATION.high);
    let new = new.max(lowest_elevation(h));
    pen.say(format!("put state {} {}", run * nodes + node, word(new)));
}

/// Calls on a damaged record, at times with a mesh or a state that is refused as
/// well.
fn damaged(pen: &mut Pen) {
    let found = pen.script.record.0.clone();
    damage(pen);
    if pen.dice.one_in(3) {
        let row = break_any(pen);
        pen.say(format!("echo rows {row} 43"));
    }
    ask_all(pen);
    pen.mend();
    pen.become_bytes("record", &found);
    pen.say("pack");
}

/// Calls on a gauge that was moved to any point, at times out of the mesh.
fn astray(pen: &mut Pen) {
    let found = pen.script.record.0.clone();
    let Some(gauge) = move_gauge(pen) else {
        return;
    };
    call(pen, Gauge::Elevation, &format!(" {gauge}"));
    call(pen, Gauge::Update, "");
    pen.become_bytes("record", &found);
}

/// The rows of the mesh, the parameters and the state, as often as they have
/// conditions to reach.
const ROWS: [u32; 22] = [
    1, 2, 2, 3, 4, 4, 4, 4, 5, 6, 7, 7, 8, 8, 9, 9, 9, 10, 10, 10, 10, 10,
];

/// Breaks one of rows 1 to 10 in what the script holds, and packs it.
fn break_any(pen: &mut Pen) -> u32 {
    let row = pen.dice.one_of(&ROWS);
    break_row(pen, row);
    pen.say("pack");
    row
}

/// Calls on a mesh, parameters or a state that one of rows 1 to 10 refuses, or
/// row 6 at an opening alone.
fn broken(pen: &mut Pen) {
    let row = break_any(pen);
    pen.say(format!("echo rows {row}"));
    ask_all(pen);
    pen.mend();
    pen.say("pack");
}

/// Row 1 of one byte slice: shorter or longer, by a byte or by an element, or
/// empty.
fn other_bytes(pen: &mut Pen) {
    let (name, width) = pen.dice.one_of(&SLICES);
    let (length, any) = (pen.length(name), 2 + pen.dice.below(5));
    let change = pen.dice.one_of(&[1, width, any]);
    match pen.dice.below(7) {
        0..3 => {
            pen.say(format!("keep {name} {}", length.saturating_sub(change)));
        }
        3..6 => {
            let byte = byte_word(pen.dice.bits() as u8);
            pen.say_list(&format!("add {name}"), vec![byte; change]);
        }
        _ => {
            pen.say(format!("set {name}"));
        }
    }
    ask_all(pen);
    pen.say("pack");
}

/// Byte slices for more nodes or triangles than row 2 lets through, at times one
/// of them of another length: "All row 1 tests come before row 2".
fn crowded_bytes(pen: &mut Pen) {
    let nodes = pen.dice.one_of(&[4_097, 4_097, 4_100, 8_192]);
    let byte = byte_word(pen.dice.one_of(&[0, 0, 1, 64, 255]));
    for (name, width) in SLICES {
        let elements = match name {
            "statebytes" => STATE_RUNS * nodes,
            "tribytes" => 3 * 8_193,
            _ => nodes,
        };
        pen.say(format!("fill {name} {} {byte}", width * elements));
    }
    if pen.dice.one_in(2) {
        let (name, width) = pen.dice.one_of(&SLICES);
        let less = pen.dice.one_of(&[1, width, 4 * width]);
        let length = pen.length(name) - less;
        pen.say(format!("keep {name} {length}"));
    }
    ask_all(pen);
    pen.say("pack");
}

/// A run from its opening on, with a state handed over after most steps and
/// after loads: "a load doesn't rewind it".
fn run(pen: &mut Pen) {
    let manner = any_manner(pen);
    begin(pen, manner);
    fresh(pen);
    let count = 1 + pen.dice.below(6);
    add_gauges(pen, count);
    for _ in 0..3 + pen.dice.below(8) {
        if !step_on(pen, manner) {
            set_state(pen, manner);
        }
        if !pen.dice.one_in(5) {
            update(pen);
        }
        match pen.dice.below(8) {
            0 | 1 => {
                save_and_load(pen);
                update(pen);
            }
            2 => broken(pen),
            3 => damaged(pen),
            _ => (),
        }
    }
}

/// "for at most 64 gauges": a record with nearly as many, and one too many.
fn full_record(pen: &mut Pen) {
    let manner = any_manner(pen);
    begin(pen, manner);
    fresh(pen);
    if pen.dice.one_in(3) {
        add_gauges(pen, MOST - 3);
    } else {
        foreign(pen);
        pen.say(format!("put record 0 {}", byte_word(MOST as u8 - 3)));
    }
    for _ in 0..5 {
        hand_over(pen, manner);
        let point = pen.dice.one_of(&[point_inside, any_point])(pen);
        at_point(pen, Gauge::Add, point);
        ask_all(pen);
    }
    for _ in 0..3 {
        damaged(pen);
        astray(pen);
        round(pen, manner);
    }
}

/// As many nodes as row 2 lets through, and as many triangles at times.
fn full_mesh(pen: &mut Pen) {
    let mut world = full_grid(&mut pen.dice);
    if pen.dice.one_in(2) {
        world.crowd(&mut pen.dice, 8_192);
    }
    crowded(pen, &world);
}

/// Mesh T with its third node laid 4,094 times: each is in a triangle, and all
/// triangles but the first repeat a leg.
fn many_nodes(pen: &mut Pen) {
    let nodes = pen.dice.one_of(&[4_096, 4_096, 4_097]);
    let mut points = vec![[0, 100]; nodes];
    (points[0], points[1]) = ([0, 0], [100, 0]);
    crowded(
        pen,
        &World {
            points,
            triangles: (2..nodes).map(|node| [0, 1, node]).collect(),
            h: vec![8.0; nodes],
            kind: vec![0; nodes],
        },
    );
}

/// Mesh T with its triangle laid 8,192 times, or once more.
fn many_triangles(pen: &mut Pen) {
    let triangles = pen.dice.one_of(&[8_192, 8_192, 8_193]);
    crowded(
        pen,
        &World {
            points: vec![[0, 0], [100, 0], [0, 100]],
            triangles: vec![[0, 1, 2]; triangles],
            h: vec![8.0; 3],
            kind: vec![0; 3],
        },
    );
}

/// The calls on a large mesh, with elevations at a few nodes.
fn crowded(pen: &mut Pen, world: &World) {
    pen.set_world(world);
    let p = parameters(pen, Manner::Calm);
    pen.set_parameters(p);
    level(pen);
    fresh(pen);
    for _ in 0..3 {
        other_elevation(pen, Manner::Calm);
        pen.say("pack");
        points(pen);
        add_gauges(pen, 2);
        set_clock(pen);
        update(pen);
        ask_all(pen);
    }
}
