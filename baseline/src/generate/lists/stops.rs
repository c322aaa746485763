//! Lists that rows 11, 12 and 13 stop at the first, at a middle and at the last of
//! their forcings.

use super::super::faults::{becalm, level, low_tide};
use super::super::nans;
use super::super::pen::Pen;
use super::super::settings::{any_manner, clock, otherwise, set_state, small_size, start};
use super::super::values::word;
use super::super::worlds::Manner;
use super::{beyond_12, both_ways, call_and_move, change_number, set_list, still, width};
use crate::records::Clock;
use crate::script::Call;

/// Rounds on one small mesh: a list that is meant to be stopped at one of its
/// forcings, and what may come after.
pub(super) fn stopped(pen: &mut Pen) {
    let nodes = small_size(pen);
    let manner = match any_manner(pen) {
        Manner::Wild => Manner::Calm,
        manner => manner,
    };
    start(pen, nodes, manner);
    for _ in 0..6 + pen.dice.below(6) {
        let count = 1 + pen.dice.below(6);
        let middle = pen.dice.below(count);
        let at = pen.dice.one_of(&[0, middle, count - 1]);
        pen.list_rooms();
        match pen.dice.below(9) {
            0 | 1 => too_late(pen, manner, count, at),
            2..5 => too_strong(pen, manner, count, at),
            5 => drawn_down(pen, count, at),
            6 => lifted(pen, count, at),
            _ => hastened(pen, count, at),
        }
        if pen.dice.one_in(3) {
            let later = at + pen.dice.below(count - at);
            beyond_12(pen, later);
        }
        make_calls(pen, manner);
        pen.mend();
        if pen.dice.one_in(2) {
            set_state(pen, manner);
            let clock = clock(pen);
            pen.set_clock(clock);
        }
    }
}

/// The call, at times beside the single ones, at times with NaNs about, at times
/// once more and on from what was accepted.
fn make_calls(pen: &mut Pen, manner: Manner) {
    if pen.dice.one_in(4) {
        pen.change_parameters(otherwise(pen.script.p));
    }
    match pen.dice.below(4) {
        0 => both_ways(pen),
        1 => {
            call_and_move(pen);
            set_list(pen, manner, 2);
            pen.call(Call::StepAll);
        }
        _ => {
            for name in ["next", "work", "work"] {
                nans::in_slice(pen, name);
            }
            pen.call(Call::StepAll);
        }
    }
}

/// 11: a clock that has so many steps left, all of them at times.
fn too_late(pen: &mut Pen, manner: Manner, count: usize, at: usize) {
    set_list(pen, manner, count);
    let left = pen.dice.one_of(&[at, at, at, count, 0]) as u32;
    let step = u32::MAX - left;
    pen.change_clock(Clock { step });
    if pen.dice.one_in(8) {
        pen.say("set forcings");
    }
}

/// 12: one number of one forcing beyond its range.
fn too_strong(pen: &mut Pen, manner: Manner, count: usize, at: usize) {
    set_list(pen, manner, count);
    beyond_12(pen, at);
    // So near the end that the clock would not have done for the rest.
    if pen.dice.one_in(6) {
        let step = u32::MAX - 1 - at as u32;
        pen.change_clock(Clock { step });
    }
}

/// Still water, and a list of forcings that leave it as it is.
fn stand_still(pen: &mut Pen, count: usize) {
    still(pen);
    becalm(pen, 0.125, 0.0);
    pen.set_forcing(&vec![0.0; width(pen)]);
    pen.say("set forcings");
    pen.say(format!("queue {count}"));
    pen.say("echo rows 13");
}

/// 13: "H' below 0.1", at an open node, by the elevation of one forcing.
fn drawn_down(pen: &mut Pen, count: usize, at: usize) {
    stand_still(pen, count);
    let node = pen.any_node();
    low_tide(pen, node);
    let elevation = pen.script.forcing.0[0];
    change_number(pen, at, 0, elevation);
}

/// 13: "z' beyond 30" or "H' below 0.1": level water at a limit, and a wind that moves it
/// once the state holds it, which is after the forcing before this one.
fn lifted(pen: &mut Pen, count: usize, at: usize) {
    stand_still(pen, count);
    level(pen);
    let (nodes, node) = (pen.nodes(), pen.any_node());
    let (axis, wind) = (pen.dice.below(2), pen.dice.one_of(&[0.1, -0.1]));
    match at.checked_sub(1) {
        Some(before) => change_number(pen, before, 1 + axis * nodes + node, wind),
        None => pen.change_float("state", (4 + axis) * nodes + node, wind),
    }
}

/// 13: "U' or V' beyond 20": water that streams at the limit, the same everywhere, and
/// a wind of one forcing that blows that way.
fn hastened(pen: &mut Pen, count: usize, at: usize) {
    stand_still(pen, count);
    let (nodes, node, axis) = (pen.nodes(), pen.any_node(), pen.dice.below(2));
    let sign = pen.dice.one_of(&[1.0, -1.0]);
    pen.change_slice("kind", format!("fill kind {nodes} 0"));
    for at in 0..nodes {
        let speed = word(sign * 20.0);
        pen.say(format!("put state {} {speed}", (2 + axis) * nodes + at));
    }
    change_number(pen, at, 1 + axis * nodes + node, sign * 0.1);
}
