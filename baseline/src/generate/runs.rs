//! Long runs: open, steps, saves and loads.

use super::lines::{kind_10, kinds_14_and_15, read};
use super::pen::{byte_word, Pen};
use super::settings::{any_manner, any_size, clock, forcing, parameters, room_needed};
use super::settings::{otherwise, start, Wind};
use super::spellings::respell;
use super::values::{anything, word};
use super::worlds::{world, Manner};
use crate::mesh::STATE_RUNS;
use crate::saves::edition_1;
use crate::script::Call;

/// How many steps a run of this size takes.
fn any_steps(pen: &mut Pen, nodes: usize) -> usize {
    let most = match nodes {
        0..=8 if pen.dice.one_in(12) => 400,
        0..=8 => 48,
        9..=40 => 24,
        41..=300 => 8,
        _ => 3,
    };
    1 + pen.dice.below(most)
}

/// A run from its opening to its last save.
pub(crate) fn run(pen: &mut Pen) {
    let manner = any_manner(pen);
    let nodes = any_size(pen);
    start(pen, nodes, manner);
    for _ in 0..any_steps(pen, nodes) {
        if !step_on(pen, manner) {
            break;
        }
        if pen.dice.one_in(12) {
            save_and_load(pen);
        }
        if pen.dice.one_in(16) {
            let p = parameters(pen, manner);
            pen.set_parameters(p);
        }
    }
    pen.call(Call::Step);
    save_and_load(pen);
}

/// One step, and the move to the next state where it is accepted. Whether the
/// run can go on.
pub(crate) fn step_on(pen: &mut Pen, manner: Manner) -> bool {
    force(pen, manner);
    if pen.dice.one_in(6) {
        pen.work_rooms();
    }
    if pen.dice.one_in(10) {
        step_otherwise(pen);
    }
    let answer = if pen.dice.one_in(4) {
        pen.call(Call::Step)
    } else {
        pen.call_unseen(Call::Step)
    };
    match answer.number {
        0 => {
            pen.say("swap");
        }
        11 => {
            let clock = clock(pen);
            pen.set_clock(clock);
        }
        _ => return false,
    }
    true
}

/// The step under the other setting of advection, and back to before it: both
/// settings meet the same state.
fn step_otherwise(pen: &mut Pen) {
    let (p, clock) = (pen.script.p, pen.script.clock);
    pen.set_parameters(otherwise(p));
    pen.call(Call::Step);
    pen.set_parameters(p);
    pen.set_clock(clock);
}

/// Sets a forcing, at times by lines that are read.
fn force(pen: &mut Pen, manner: Manner) {
    let forcing = forcing(pen, manner);
    if pen.dice.one_in(5) {
        read_forcing(pen, &forcing);
    } else {
        pen.set_forcing(&forcing);
    }
}

/// Meshes up to this size have forcings of kinds 14 and 15.
const LINE_BY_LINE: usize = 40;

/// Reads a forcing from lines of its own: of kinds 14 and 15, or of kind 10 with
/// the wind of the first node for all, if there is one.
pub(crate) fn read_forcing(pen: &mut Pen, forcing: &[f64]) {
    let (nodes, sequence) = (pen.nodes(), pen.dice.bits() as u16);
    pen.forcing_room();
    let in_one = nodes > LINE_BY_LINE || pen.dice.one_in(3);
    let text = if in_one && nodes > 0 {
        kind_10(sequence, [forcing[0], forcing[1], forcing[1 + nodes]])
    } else {
        kinds_14_and_15(forcing)
    };
    read(pen, &text, u32::from(sequence));
}

/// Room for a save, with some bytes more than it needs.
pub(crate) fn make_room(pen: &mut Pen, more: usize) {
    let filling = byte_word(pen.dice.bits() as u8);
    let room = room_needed(pen) + more;
    pen.say(format!("fill text {room} {filling}"));
}

/// Saves, loads into this or another slice, at times under the other setting of
/// advection, in another spelling or in two, and saves again: "loading it returns
/// the same bits", and "one written form".
pub(crate) fn save_and_load(pen: &mut Pen) {
    let more = pen.dice.one_of(&[0, 1, 17, 105]);
    make_room(pen, more);
    let saved = pen.call(Call::Save);
    pen.say(format!("keep text {}", saved.place));
    match pen.dice.below(3) {
        0 => {
            let filling = word(anything(&mut pen.dice));
            let length = pen.length("state");
            pen.say(format!("fill state {length} {filling}"));
        }
        1 => {
            pen.say("swap");
        }
        _ => (),
    }
    if pen.dice.one_in(2) {
        let clock = clock(pen);
        pen.set_clock(clock);
    }
    if pen.dice.one_in(4) {
        pen.set_parameters(otherwise(pen.script.p));
    }
    if pen.dice.one_in(2) {
        respell(pen);
    }
    pen.call(Call::Load);
    if pen.dice.one_in(8) {
        respell(pen);
        pen.call(Call::Load);
    }
    if pen.nodes() <= LINE_BY_LINE && pen.dice.one_in(4) {
        load_older(pen);
    }
    make_room(pen, 0);
    pen.call(Call::Save);
}

/// "last night's" save: the text of edition 1 that the run would have left, with
/// one wind for all nodes.
pub(crate) fn older_text(pen: &mut Pen, wind: Wind) -> Vec<u8> {
    let both = [wind.draw(&mut pen.dice), wind.draw(&mut pen.dice)];
    let (state, clock) = (&pen.script.state.0, pen.script.clock);
    edition_1(state, pen.triangles(), clock, both)
}

/// Loads a text of edition 1, in any spelling.
pub(crate) fn load_older(pen: &mut Pen) {
    let wind = pen.dice.one_of(&[Wind::Any, Wind::Any, Wind::AtEdge]);
    let text = older_text(pen, wind);
    pen.become_bytes("text", &text);
    if pen.dice.one_in(2) {
        respell(pen);
    }
    pen.call(Call::Load);
}

/// The calls on a mesh as its shape gave it, whatever rows it breaks.
pub(crate) fn raw(pen: &mut Pen) {
    let nodes = any_size(pen);
    let world = world(&mut pen.dice, nodes.min(300), Manner::Raw);
    pen.set_world(&world);
    let p = parameters(pen, Manner::Calm);
    pen.set_parameters(p);
    pen.say(format!(
        "fill state {} {}",
        STATE_RUNS * pen.nodes(),
        word(0.0)
    ));
    let forcing = forcing(pen, Manner::Calm);
    pen.set_forcing(&forcing);
    for call in [Call::Step, Call::Save, Call::Load, Call::Open] {
        pen.call(call);
    }
}
