//! Lists of forcings: of every length, refused before the first forcing and at any
//! of them, beside the single calls that they stand for.

mod stops;

use super::faults::{break_row, number_for_12, other_length};
use super::nans;
use super::pen::Pen;
use super::runs::{save_and_load, step_on};
use super::settings::{any_manner, any_size, clock, forcing, otherwise, parameters};
use super::settings::{set_state, small_size, start};
use super::values::{anything, word};
use super::worlds::{full_grid, world, Manner};
use crate::lists::{LIST_WORK_RUNS, MOST};
use crate::mesh::STATE_RUNS;
use crate::records::{Clock, Parameters};
use crate::script::Call;
use crate::step::WORK_RUNS;

/// A script of the family.
pub(crate) fn lists(pen: &mut Pen) {
    match pen.dice.below(200) {
        0..2 => full_mesh(pen),
        2..5 => no_nodes(pen),
        5..12 => long_lists(pen),
        12..18 => raw(pen),
        18..92 => refused_at_once(pen),
        92..150 => stops::stopped(pen),
        _ => run(pen),
    }
}

/// The numbers of one forcing, "1+2N".
fn width(pen: &Pen) -> usize {
    1 + 2 * pen.nodes()
}

/// How many whole forcings the list has.
fn count(pen: &Pen) -> usize {
    pen.script.forcings.0.len() / width(pen)
}

/// Lists of 0, of 1, of 2 and of some forcings.
fn any_count(pen: &mut Pen) -> usize {
    let some = 3 + pen.dice.below(6);
    pen.dice.one_of(&[0, 1, 1, 2, 2, some, some, some])
}

/// Makes the list one of so many legal forcings, some of them the same a few times.
fn set_list(pen: &mut Pen, manner: Manner, count: usize) {
    pen.say("set forcings");
    let mut left = count;
    while left > 0 {
        let forcing = forcing(pen, manner);
        pen.set_forcing(&forcing);
        let times = pen.dice.one_of(&[1, 1, 1, 2, 3]).min(left);
        pen.say(format!("queue {times}"));
        left -= times;
    }
}

/// Changes one number of the list's forcing numbered `at`.
fn change_number(pen: &mut Pen, at: usize, number: usize, new: f64) {
    let at = at * width(pen) + number;
    pen.change_float("forcings", at, new);
}

/// 12: "forcing elevation beyond 30; Wx', Wy' beyond 0.1", in the forcing numbered `at`.
fn beyond_12(pen: &mut Pen, at: usize) {
    let (number, new) = number_for_12(pen);
    change_number(pen, at, number, new);
}

/// NaNs in what a call on a list is lent: often in the rooms and in the list, less
/// often where a row would meet them first.
fn scatter_nans(pen: &mut Pen) {
    for (name, times) in [
        ("next", 2),
        ("work", 2),
        ("forcings", 4),
        ("state", 6),
        ("h", 10),
    ] {
        if pen.dice.one_in(times) {
            nans::in_slice(pen, name);
        }
    }
}

/// Rounds of rows 14 and 1 to 12 on one small mesh. In each, a list is set, some faults
/// are made, a call meets them, and all but the list is undone.
fn refused_at_once(pen: &mut Pen) {
    let (nodes, manner) = (small_size(pen), any_manner(pen));
    start(pen, nodes, manner);
    for _ in 0..10 + pen.dice.below(10) {
        let count = any_count(pen);
        set_list(pen, manner, count);
        pen.list_rooms();
        let mut rows = String::from("echo rows");
        for _ in 0..pen.dice.one_of(&[1, 1, 1, 2, 2, 3]) {
            rows += &format!(" {}", fault(pen));
        }
        pen.say(rows);
        if !pen.dice.one_in(4) {
            scatter_nans(pen);
        }
        pen.call(Call::StepAll);
        pen.mend();
        if pen.dice.one_in(3) {
            set_state(pen, manner);
            let clock = clock(pen);
            pen.set_clock(clock);
        }
        if pen.dice.one_in(4) {
            pen.set_parameters(otherwise(pen.script.p));
        }
    }
}

/// The rows whose faults change whole slices at times, as often as they have conditions
/// to reach.
const WHOLE: [u32; 22] = [
    14, 14, 14, 1, 1, 1, 1, 1, 1, 2, 2, 3, 3, 4, 4, 4, 4, 4, 5, 6, 7, 7,
];

/// The rows whose faults are of single numbers.
const SINGLE: [u32; 12] = [8, 8, 9, 9, 9, 10, 10, 10, 10, 10, 11, 12];

/// One fault. The row it is meant for.
fn fault(pen: &mut Pen) -> u32 {
    // Slices that are long already would make a long script if undone whole, and a
    // list above 4,096 forcings of many nodes would fill the memory.
    let long = pen.nodes() > 300 || pen.triangles() > 1_000;
    let whole = if long { &[] } else { &WHOLE[..] };
    let row = pen.dice.one_of(&[whole, &SINGLE].concat());
    match row {
        14 => above(pen),
        1 => length(pen),
        12 => {
            let at = count(pen);
            let at = pen.dice.below(at);
            beyond_12(pen, at);
        }
        _ => break_mesh_or_state(pen, row),
    }
    row
}

/// A fault of what a single step is lent too. Where N is then another, the work room
/// and the list are made to fit it.
fn break_mesh_or_state(pen: &mut Pen, row: u32) {
    let (nodes, count) = (pen.nodes(), count(pen).min(8));
    break_row(pen, row);
    if pen.nodes() != nodes {
        let zero = word(0.0);
        pen.say(format!("fill work {} {zero}", LIST_WORK_RUNS * pen.nodes()));
        pen.say(format!("fill forcings {} {zero}", count * width(pen)));
    }
}

/// 14: "a list above 4,096 forcings of 1+2N numbers": by a number, by a forcing, by
/// less than one and by more; or just not above, and uneven.
fn above(pen: &mut Pen) {
    let (most, width) = (MOST as usize * width(pen), width(pen));
    let half = width / 2;
    let lengths = [
        most + 1,
        most + 1,
        most + width,
        most + width,
        most + half,
        most + 3 * width,
        most - 1,
    ];
    let length = pen.dice.one_of(&lengths);
    pen.fill("forcings", length);
}

/// 1: "a slice of another length", the list as often as all others.
fn length(pen: &mut Pen) {
    match pen.dice.below(6) {
        0..3 => uneven(pen),
        3 => other_runs(pen),
        _ => {
            let names = [
                "x", "y", "tri", "h", "kind", "state", "next", "work", "sums",
            ];
            let name = pen.dice.one_of(&names);
            other_length(pen, name);
        }
    }
}

/// 1: a list with a number too many or too few, or with half a forcing more.
fn uneven(pen: &mut Pen) {
    match pen.dice.below(5) {
        0 | 1 => {
            let more = word(anything(&mut pen.dice));
            pen.say(format!("add forcings {more}"));
        }
        2 | 3 => cut_short(pen),
        _ => {
            let half = vec![word(0.0); pen.nodes()];
            pen.say_list("add forcings", half);
        }
    }
}

/// A list without its last number.
fn cut_short(pen: &mut Pen) {
    let length = pen.length("forcings");
    pen.say(format!("keep forcings {}", length.saturating_sub(1)));
}

/// 1: a work room of a single step, of another number of runs, or a state or a next
/// state as long as before request #105.
fn other_runs(pen: &mut Pen) {
    let (name, runs) = match pen.dice.below(5) {
        0..3 => ("work", pen.dice.one_of(&[WORK_RUNS, 6, 10])),
        3 => ("state", 4),
        _ => ("next", 4),
    };
    let (length, filling) = (runs * pen.nodes(), word(anything(&mut pen.dice)));
    pen.change_slice(name, format!("fill {name} {length} {filling}"));
}

/// No mesh at all: 1+2N is 1 then, so that lists of any length are even.
fn no_nodes(pen: &mut Pen) {
    for length in [0, 1, 4_095, 4_096, 4_097, 5_000] {
        pen.fill("forcings", length);
        pen.call(Call::StepAll);
        if pen.dice.one_in(3) {
            let name = pen.dice.one_of(&["y", "kind", "sums"]);
            pen.lengthen(name, "7");
            pen.call(Call::StepAll);
            pen.mend();
        }
    }
}

/// Calls on lists and single ones, in any order, each on from the other, with saves
/// and loads between them.
fn run(pen: &mut Pen) {
    let (small, any, manner) = (small_size(pen), any_size(pen), any_manner(pen));
    let nodes = pen.dice.one_of(&[small, small, small, any]);
    start(pen, nodes.min(300), manner);
    pen.list_rooms();
    for _ in 0..4 + pen.dice.below(5) {
        match pen.dice.below(9) {
            0..3 => list_on(pen, manner),
            3..5 => {
                let count = any_count(pen);
                set_list(pen, manner, count);
                both_ways(pen);
            }
            5..7 => steps_on(pen, manner),
            7 => save_and_load(pen),
            _ => {
                pen.call(Call::Open);
                list_on(pen, manner);
            }
        }
    }
}

/// A call on a list, at times in rooms that were filled anew, and the move to the
/// state after its accepted steps.
fn list_on(pen: &mut Pen, manner: Manner) {
    let count = any_count(pen);
    set_list(pen, manner, count);
    if !pen.dice.one_in(3) {
        pen.list_rooms();
    }
    if pen.dice.one_in(6) {
        pen.set_parameters(otherwise(pen.script.p));
    }
    call_and_move(pen);
    // A run that came to its last step begins anew, and others at times.
    if pen.script.clock.step == u32::MAX || pen.dice.one_in(8) {
        set_state(pen, manner);
        let clock = clock(pen);
        pen.set_clock(clock);
    }
}

/// Calls, and goes on from the next state where a step was accepted.
fn call_and_move(pen: &mut Pen) {
    let before = pen.script.clock;
    pen.call(Call::StepAll);
    if pen.script.clock != before {
        pen.say("swap");
    }
}

/// Single steps, in the work room of their own.
fn steps_on(pen: &mut Pen, manner: Manner) {
    pen.work_rooms();
    for _ in 0..1 + pen.dice.below(3) {
        if !step_on(pen, manner) {
            break;
        }
    }
    pen.list_rooms();
}

/// "equal single calls made one after another": the call on the list and the single
/// calls from the same state and clock, either of them first.
fn both_ways(pen: &mut Pen) {
    let (clock, state) = (pen.script.clock, pen.words("state").join(" "));
    let single_first = pen.dice.one_in(2);
    if single_first {
        one_by_one(pen);
        pen.say(format!("set state {state}"));
        pen.set_clock(clock);
    }
    pen.list_rooms();
    pen.call(Call::StepAll);
    if !single_first {
        pen.set_clock(clock);
        one_by_one(pen);
        pen.list_rooms();
    }
}

/// Single calls by the list's forcings, up to the first refusal.
fn one_by_one(pen: &mut Pen) {
    let list = pen.script.forcings.0.clone();
    pen.work_rooms();
    for forcing in list.chunks_exact(width(pen)) {
        pen.set_forcing(forcing);
        if pen.call(Call::Step).number != 0 {
            break;
        }
        pen.say("swap");
    }
}

/// Lists of some hundred forcings, of 4,096 and of more, on a small mesh.
fn long_lists(pen: &mut Pen) {
    let nodes = 3 + pen.dice.below(3);
    start(pen, nodes, Manner::Calm);
    let p = parameters(pen, Manner::Calm);
    pen.set_parameters(Parameters { dt: 0.125, ..p });
    for _ in 0..3 {
        pen.call(Call::Open);
        let hundreds = 100 + pen.dice.below(400);
        let most = MOST as usize;
        let count = pen.dice.one_of(&[hundreds, most, most, most + 1]);
        gentle_list(pen, count);
        match pen.dice.below(6) {
            0 => beyond_12(pen, count - 1),
            1 => {
                let at = pen.dice.below(count);
                beyond_12(pen, at);
            }
            2 => pen.lengthen("forcings", &word(0.0)),
            3 => cut_short(pen),
            4 => {
                let step = u32::MAX - pen.dice.below(count + 2) as u32;
                pen.set_clock(Clock { step });
            }
            _ => (),
        }
        pen.list_rooms();
        call_and_move(pen);
        pen.mend();
    }
}

/// A list of so many forcings, three of them different, so light that calm water
/// stays within its limits for long.
fn gentle_list(pen: &mut Pen, count: usize) {
    pen.say("set forcings");
    for times in [count / 2, count / 3, count - count / 2 - count / 3] {
        let strong = forcing(pen, Manner::Calm);
        let light: Vec<f64> = strong.iter().map(|number| number / 256.0).collect();
        pen.set_forcing(&light);
        pen.say(format!("queue {times}"));
    }
}

/// As many nodes as row 2 lets through, and as many triangles at times, by a few
/// forcings.
fn full_mesh(pen: &mut Pen) {
    let mut world = full_grid(&mut pen.dice);
    if pen.dice.one_in(2) {
        world.crowd(&mut pen.dice, 8_192);
    }
    pen.set_world(&world);
    let p = parameters(pen, Manner::Calm);
    pen.set_parameters(p);
    pen.call(Call::Open);
    for count in [0, 2, 3] {
        set_list(pen, Manner::Calm, count);
        pen.list_rooms();
        call_and_move(pen);
    }
}

/// A list on a mesh as its shape gave it, whatever rows it breaks, and none.
fn raw(pen: &mut Pen) {
    let nodes = any_size(pen).min(40);
    let world = world(&mut pen.dice, nodes, Manner::Raw);
    pen.set_world(&world);
    let p = parameters(pen, Manner::Calm);
    pen.set_parameters(p);
    still(pen);
    for count in [2, 0] {
        set_list(pen, Manner::Calm, count);
        pen.list_rooms();
        pen.call(Call::StepAll);
    }
    pen.call(Call::Open);
}

/// Still water: a zero in all runs of the state.
fn still(pen: &mut Pen) {
    let zeros = format!("fill state {} {}", STATE_RUNS * pen.nodes(), word(0.0));
    pen.change_slice("state", zeros);
}
