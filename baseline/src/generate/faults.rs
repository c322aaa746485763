//! Faults: each row of the refusal table at each of its conditions, alone or
//! several at once, and undone again.

use super::nans;
use super::pen::Pen;
use super::runs::{make_room, read_forcing};
use super::settings::{any_manner, clock, forcing, room_needed, set_state, small_size};
use super::settings::{otherwise, start};
use super::spellings::respell;
use super::texts::damage;
use super::values::{anything, in_size, inside, lowest_elevation, tested, word};
use super::values::{DEPTH, ELEVATION, PARAMETERS, RUNS, WIND};
use crate::mesh::STATE_RUNS;
use crate::records::{Clock, Parameters};
use crate::script::Call;

/// Rounds of faults on one small mesh. In each, some faults are made, calls
/// meet them, and they are undone.
pub(crate) fn faults(pen: &mut Pen) {
    let (nodes, manner) = (small_size(pen), any_manner(pen));
    start(pen, nodes, manner);
    make_room(pen, 0);
    pen.call(Call::Save);
    if pen.dice.one_in(3) {
        respell(pen);
    }
    for _ in 0..8 + pen.dice.below(10) {
        let forcing = forcing(pen, manner);
        pen.set_forcing(&forcing);
        if !pen.dice.one_in(3) {
            pen.work_rooms();
        }
        if pen.dice.one_in(4) {
            pen.set_parameters(otherwise(pen.script.p));
        }
        match pen.dice.below(12) {
            0 | 1 => nudge(pen),
            2 => stream(pen),
            _ => round(pen),
        }
        pen.mend();
        // The calls may have left a cold state and clock behind.
        if pen.dice.one_in(2) {
            set_state(pen, manner);
            let clock = clock(pen);
            pen.set_clock(clock);
        }
    }
}

/// One to three faults, and calls that meet them, most often with NaNs about.
fn round(pen: &mut Pen) {
    let mut rows = String::from("echo rows");
    for _ in 0..pen.dice.one_of(&[1, 1, 1, 2, 2, 3]) {
        rows += &format!(" {}", fault(pen));
    }
    pen.say(rows);
    if !pen.dice.one_in(4) {
        nans::anywhere(pen);
    }
    let mut calls = [Call::Step, Call::Save, Call::Load, Call::Open];
    pen.dice.shuffle(&mut calls);
    for call in calls {
        if !pen.dice.one_in(4) {
            pen.call(call);
        }
    }
}

/// The rows of faults, as often as they have conditions to reach.
const ROWS: [u32; 38] = [
    1, 1, 1, 1, 1, 2, 2, 3, 4, 4, 4, 5, 6, 6, 7, 7, 20, 24, // whole slices among them
    8, 8, 9, 9, 10, 10, 10, 10, 10, 10, 10, 10, 11, 11, 12, 12, 12, 12, 12,
    12, // single numbers
];

/// Where the faults of single numbers begin.
const SINGLE: usize = 18;

/// One fault. The row it is meant for.
fn fault(pen: &mut Pen) -> u32 {
    // Slices that are long already would make a long script if undone whole.
    let long = pen.nodes() > 300 || pen.triangles() > 1_000;
    let row = pen.dice.one_of(&ROWS[if long { SINGLE } else { 0 }..]);
    break_row(pen, row);
    row
}

/// A fault that is meant for this row; row 20 stands for those of the text.
pub(crate) fn break_row(pen: &mut Pen, row: u32) {
    match row {
        1 => length(pen),
        2 => counts(pen),
        3 => number(pen),
        4 => far_corner(pen),
        5 => turned(pen),
        6 => leg_again(pen),
        7 => unnamed(pen),
        8 => depth_or_kind(pen),
        9 => parameter(pen),
        10 => state(pen),
        11 => last_step(pen),
        12 => winds(pen),
        20 => text(pen),
        _ => room(pen),
    }
}

/// 1: "triangle list no multiple of 3, or a slice of another length": one
/// shorter, one longer, or empty.
fn length(pen: &mut Pen) {
    if pen.dice.one_in(5) {
        return other_runs(pen);
    }
    let names = [
        "x", "y", "tri", "h", "kind", "state", "next", "work", "sums", "forcing",
    ];
    let name = pen.dice.one_of(&names);
    other_length(pen, name);
}

/// 1: a slice one shorter, one longer, or empty.
pub(crate) fn other_length(pen: &mut Pen, name: &str) {
    let length = pen.length(name);
    let Some(last) = pen.words(name).pop() else {
        return;
    };
    match pen.dice.below(3) {
        0 => {
            let less = length.saturating_sub(1);
            pen.change(format!("keep {name} {less}"), format!("add {name} {last}"));
        }
        1 => pen.lengthen(name, &last),
        _ => pen.change_slice(name, format!("set {name}")),
    }
}

/// 1: a slice as long as it was before a request, or as a misreading would have it:
/// a work room of 3N, a state of 4N, a forcing of three numbers, and so on.
fn other_runs(pen: &mut Pen) {
    let nodes = pen.nodes();
    let (name, length) = match pen.dice.below(6) {
        0 | 1 => ("work", pen.dice.one_of(&[3, 4, 6]) * nodes),
        2 => (pen.dice.one_of(&["state", "next"]), 4 * nodes),
        3 => ("forcing", 3),
        4 => ("forcing", 1 + nodes),
        _ => ("forcing", 3 * nodes),
    };
    let filling = word(anything(&mut pen.dice));
    pen.change_slice(name, format!("fill {name} {length} {filling}"));
}

/// 2: "N not 3..4,096 or E not 1..8,192", and the limits themselves.
fn counts(pen: &mut Pen) {
    match pen.dice.below(4) {
        0 => pen.change_slice("tri", String::from("set tri")),
        1 => {
            let count = pen.dice.one_of(&[8_193, 8_193, 8_192, 9_000, 21_845]);
            pen.change_slice("tri", format!("fill tri {} 0", 3 * count));
        }
        2 => resize(pen, 2),
        _ => {
            let count = pen.dice.one_of(&[4_097, 4_097, 4_096, 5_000, 65_536, 1, 0]);
            resize(pen, count);
        }
    }
}

/// Makes every slice that has runs of N elements fit another N.
fn resize(pen: &mut Pen, nodes: usize) {
    for name in ["x", "y", "kind", "sums"] {
        pen.change_slice(name, format!("fill {name} {nodes} 0"));
    }
    pen.change_slice("h", format!("fill h {nodes} {}", word(8.0)));
    change_rooms(pen, nodes);
}

/// Makes the rooms of a step fit another N.
fn change_rooms(pen: &mut Pen, nodes: usize) {
    for (name, length) in [
        ("state", STATE_RUNS * nodes),
        ("next", STATE_RUNS * nodes),
        ("work", 5 * nodes),
        ("forcing", 1 + 2 * nodes),
    ] {
        pen.change_slice(name, format!("fill {name} {length} {}", word(0.0)));
    }
}

/// Any triangle's number and corners, where there is one.
fn any_triangle(pen: &mut Pen) -> (usize, [u16; 3]) {
    let at = pen.triangles();
    let at = pen.dice.below(at);
    let corner = |i: usize| pen.script.tri.0.get(3 * at + i).copied().unwrap_or(0);
    (at, [corner(0), corner(1), corner(2)])
}

/// 3: "a node number is N or more".
fn number(pen: &mut Pen) {
    let (at, corners) = any_triangle(pen);
    let (corner, nodes) = (pen.dice.below(3), pen.nodes() as u16);
    let above = nodes.saturating_add(1);
    let new = pen.dice.one_of(&[nodes, nodes, above, u16::MAX]);
    pen.change_element("tri", 3 * at + corner, new, corners[corner]);
}

/// 4: "an a or b beyond 100,000 in size", or just at that.
fn far_corner(pen: &mut Pen) {
    let (_, corners) = any_triangle(pen);
    let (from, to) = pen
        .dice
        .one_of(&[(0, 1), (1, 2), (2, 0), (1, 0), (2, 1), (0, 2)]);
    let (name, coordinates) = if pen.dice.one_in(2) {
        ("x", &pen.script.x.0)
    } else {
        ("y", &pen.script.y.0)
    };
    let coordinate = |corner: usize| coordinates.get(usize::from(corners[corner])).copied();
    let (Some(start), Some(old)) = (coordinate(from), coordinate(to)) else {
        return;
    };
    let away = [100_001, -100_001, 100_001, -100_001, 100_000, -100_000];
    let new = match pen.dice.below(6) {
        0 => i32::MIN,
        1 => i32::MAX,
        _ => start.saturating_add(pen.dice.one_of(&away)),
    };
    pen.change_element(name, usize::from(corners[to]), new, old);
}

/// 5: "D is 0 or less": corners exchanged, a corner twice, or one node laid
/// upon another.
fn turned(pen: &mut Pen) {
    let (at, corners) = any_triangle(pen);
    let (one, other) = pen.dice.one_of(&[(0, 1), (1, 2), (2, 0)]);
    match pen.dice.below(3) {
        0 => {
            pen.change_element("tri", 3 * at + one, corners[other], corners[one]);
            pen.change_element("tri", 3 * at + other, corners[one], corners[other]);
        }
        1 => pen.change_element("tri", 3 * at + one, corners[other], corners[one]),
        _ => lay_upon(pen, usize::from(corners[one]), usize::from(corners[other])),
    }
}

/// Gives one node the place of another.
fn lay_upon(pen: &mut Pen, node: usize, other: usize) {
    let (x, y) = (pen.script.x.0.clone(), pen.script.y.0.clone());
    for (name, list) in [("x", x), ("y", y)] {
        if let (Some(&old), Some(&new)) = (list.get(node), list.get(other)) {
            pen.change_element(name, node, new, old);
        }
    }
}

/// 6: "a directed leg (1-2, 2-3, 3-1) seen in an earlier triangle": one more
/// triangle at the end, with a leg of an earlier one and any third corner.
fn leg_again(pen: &mut Pen) {
    let (_, corners) = any_triangle(pen);
    let from = pen.dice.below(3);
    let third = match pen.any_node() as u16 {
        any if pen.dice.one_in(2) => any,
        _ => corners[(from + 2) % 3],
    };
    let mut added = [corners[from], corners[(from + 1) % 3], third];
    added.rotate_left(pen.dice.below(3));
    let [c1, c2, c3] = added;
    pen.lengthen("tri", &format!("{c1} {c2} {c3}"));
}

/// 7: "node in no triangle": triangles taken away, or a node added.
fn unnamed(pen: &mut Pen) {
    let triangles = pen.triangles();
    if triangles > 1 && !pen.dice.one_in(3) {
        let kept = 3 * (1 + pen.dice.below(triangles - 1));
        let words = pen.words("tri");
        let undo = format!("add tri {}", words[kept..].join(" "));
        pen.change(format!("keep tri {kept}"), undo);
        return;
    }
    let nodes = pen.nodes();
    for name in ["x", "y", "kind", "sums"] {
        pen.lengthen(name, "0");
    }
    pen.lengthen("h", &word(8.0));
    change_rooms(pen, nodes + 1);
    if pen.dice.one_in(2) {
        name_the_last(pen, nodes);
    }
}

/// Has the last triangle's first corner be the node that was added; the node
/// that the corner named may then be in no triangle.
fn name_the_last(pen: &mut Pen, added: usize) {
    let Some(at) = pen.length("tri").checked_sub(3) else {
        return;
    };
    let old = pen.script.tri.0[at];
    lay_upon(pen, added, usize::from(old));
    pen.change_element("tri", at, added, old);
}

/// 8: "h not 1..12,000, or kind above 2".
fn depth_or_kind(pen: &mut Pen) {
    let node = pen.any_node();
    if pen.dice.one_in(3) {
        let Some(&old) = pen.script.kind.0.get(node) else {
            return;
        };
        let new = pen.dice.one_of(&[3, 3, 4, 128, 255, 2]);
        pen.change_element("kind", node, new, old);
        return;
    }
    let Some(&old) = pen.script.h.0.get(node) else {
        return;
    };
    let new = tested(&mut pen.dice, DEPTH);
    pen.change_element("h", node, word(new), word(old));
}

/// 9: "dt not 0.125..60, tau not 0..1, K not 0..1, f not -0.001..0.001".
fn parameter(pen: &mut Pen) {
    let p = pen.script.p;
    let mut numbers = [p.dt, p.tau, p.k, p.f];
    for _ in 0..1 + pen.dice.below(5) / 4 {
        let place = pen.dice.below(4);
        numbers[place] = tested(&mut pen.dice, PARAMETERS[place]);
    }
    let [dt, tau, k, f] = numbers;
    pen.change_parameters(Parameters { dt, tau, k, f, ..p });
}

/// 10: "either z beyond 30 in size, present h+z below 0.1, U or V beyond 20", and
/// "the node winds at 0.1". At times a later node is beyond in another run too.
fn state(pen: &mut Pen) {
    let (node, nodes) = (pen.any_node(), pen.nodes());
    let run = pen.dice.below(7);
    if node + 1 < nodes && pen.dice.one_in(6) {
        let (later, run) = (node + 1, pen.dice.below(6));
        let beyond = tested(&mut pen.dice, RUNS[run]);
        change_state(pen, run * nodes + later, beyond);
    }
    let (Some(&h), Some(range)) = (pen.script.h.0.get(node), RUNS.get(run)) else {
        return dry(pen, node);
    };
    let new = tested(&mut pen.dice, *range);
    // A node that a low z is tried at is to have the water for it.
    if run == 1 && h < 31.0 {
        pen.change_element("h", node, word(31.0), word(h));
    }
    change_state(pen, run * nodes + node, new);
}

/// Changes one number of the state.
fn change_state(pen: &mut Pen, at: usize, new: f64) {
    pen.change_float("state", at, new);
}

/// 10: "present h+z below 0.1", by one bit, or just not below.
fn dry(pen: &mut Pen, node: usize) {
    let Some(&old) = pen.script.h.0.get(node) else {
        return;
    };
    let h = pen
        .dice
        .one_of(&[1.0, 1.5, 8.0, 30.0, 30.05, old.clamp(1.0, 30.0)]);
    pen.change_element("h", node, word(h), word(old));
    let lowest = lowest_elevation(h);
    let z = pen.dice.one_of(&[lowest, lowest.next_down()]);
    let at = pen.nodes() + node;
    change_state(pen, at, z);
}

/// 11: "step number is 4,294,967,295", or one before it.
fn last_step(pen: &mut Pen) {
    let step = pen.dice.one_of(&[u32::MAX, u32::MAX, u32::MAX - 1]);
    pen.change_clock(Clock { step });
}

/// A place of a forcing, the first and the last node's as often as all others', and a
/// number for row 12 to test there.
pub(crate) fn number_for_12(pen: &mut Pen) -> (usize, f64) {
    let (nodes, any) = (pen.nodes(), pen.any_node());
    let node = pen.dice.one_of(&[0, any, nodes.saturating_sub(1)]);
    let (at, range) = match pen.dice.below(5) {
        0 => (0, ELEVATION),
        1 | 2 => (1 + node, WIND),
        _ => (1 + nodes + node, WIND),
    };
    (at, tested(&mut pen.dice, range))
}

/// 12: "forcing elevation beyond 30; Wx', Wy' beyond 0.1". At times the forcing is then
/// read from lines.
fn winds(pen: &mut Pen) {
    for _ in 0..pen.dice.one_of(&[1, 1, 1, 2, 2]) {
        let (at, new) = number_for_12(pen);
        pen.change_float("forcing", at, new);
    }
    let forcing = pen.script.forcing.0.clone();
    if forcing.len() == 1 + 2 * pen.nodes() && pen.dice.one_in(4) {
        read_forcing(pen, &forcing);
    }
}

/// 20 to 23, 25, and 10 of what is loaded.
fn text(pen: &mut Pen) {
    keep_text(pen);
    damage(pen);
}

/// 24: "A save is then 127+105N bytes, and row 24 reads so".
fn room(pen: &mut Pen) {
    keep_text(pen);
    let needed = room_needed(pen);
    let any = pen.dice.below(needed);
    let kept = pen.dice.one_of(&[needed - 1, needed - 1, 0, any]);
    pen.say(format!("keep text {kept}"));
}

/// Has the text be undone to what it is now.
fn keep_text(pen: &mut Pen) {
    pen.change_slice("text", String::from("# the text is undone afterwards"));
}

/// Short steps without tau and friction.
pub(crate) fn becalm(pen: &mut Pen, dt: f64, f: f64) {
    pen.change_parameters(Parameters {
        dt,
        tau: 0.0,
        k: 0.0,
        f,
        ..pen.script.p
    });
    pen.change_clock(Clock { step: 5 });
}

/// A step, and at times the same under the other setting of advection.
fn step_and_otherwise(pen: &mut Pen) {
    pen.call(Call::Step);
    if pen.dice.one_in(2) {
        pen.change_parameters(otherwise(pen.script.p));
        pen.call(Call::Step);
    }
}

/// Water that streams past water at rest and neither rises nor falls: what moves
/// it is not rounded away, so that the order of the terms is seen.
fn stream(pen: &mut Pen) {
    let f = pen.dice.one_of(&[0.001, -0.001]);
    let dt = 0.25 + inside(&mut pen.dice, in_size(0.125));
    becalm(pen, dt, f);
    let (nodes, dice) = (pen.nodes(), &mut pen.dice);
    let mut any = |limit: f64| {
        let some = inside(dice, in_size(limit));
        dice.one_of(&[some, 0.0])
    };
    let z: Vec<f64> = (0..nodes).map(|_| any(0.5)).collect();
    let velocities: Vec<f64> = (0..2 * nodes).map(|_| any(4.0)).collect();
    let state = [&z[..], &z, &velocities, &vec![0.0; 2 * nodes]].concat();
    let words: Vec<String> = state.into_iter().map(word).collect();
    pen.change_slice("state", format!("set state {}", words.join(" ")));
    step_and_otherwise(pen);
}

/// 13: "z' beyond 30, H' below 0.1, U' or V' beyond 20": still water with a few
/// nodes that stand at a limit and are pushed over it.
fn nudge(pen: &mut Pen) {
    let still = format!("fill state {} {}", STATE_RUNS * pen.nodes(), word(0.0));
    pen.change_slice("state", still);
    becalm(pen, 0.125, 0.0);
    for _ in 0..pen.dice.one_of(&[1, 1, 2, 3]) {
        let node = pen.any_node();
        match pen.dice.below(7) {
            0 => rising(pen, node),
            1 => low_tide(pen, node),
            2 => flooded(pen, node),
            3 => lifted(pen, node),
            4 => carried(pen),
            _ => fast(pen, node),
        }
    }
    for name in ["next", "work"] {
        nans::in_slice(pen, name);
    }
    pen.say("echo rows 13");
    step_and_otherwise(pen);
}

/// A node's elevation goes on as it went, over the limit.
fn rising(pen: &mut Pen, node: usize) {
    let nodes = pen.nodes();
    let sign = pen.dice.one_of(&[1.0, -1.0]);
    let before = pen.dice.one_of(&[29.0, 30.0_f64.next_down(), 30.0]);
    pen.change_element("h", node, word(64.0), word(pen.script.h.0[node]));
    pen.change_element("kind", node, 0, pen.script.kind.0[node]);
    change_state(pen, node, sign * before);
    change_state(pen, nodes + node, sign * 30.0);
}

/// The open elevation leaves a node with just enough water, or one bit less.
pub(crate) fn low_tide(pen: &mut Pen, node: usize) {
    let h = pen.dice.one_of(&[1.0, 1.25, 8.0, 29.0]);
    let lowest = lowest_elevation(h);
    let elevation = pen.dice.one_of(&[lowest, lowest.next_down(), -30.0]);
    open_to(pen, node, h, elevation);
}

/// Makes a node an open one over a depth, with an open elevation.
fn open_to(pen: &mut Pen, node: usize, h: f64, elevation: f64) {
    pen.change_element("h", node, word(h), word(pen.script.h.0[node]));
    pen.change_element("kind", node, 1, pen.script.kind.0[node]);
    pen.change_float("forcing", 0, elevation);
}

/// A node with little water is flooded: friction by H in m and H' in p turns
/// its U or V round and makes it faster, over the limit or not.
fn flooded(pen: &mut Pen, node: usize) {
    let (nodes, run) = (pen.nodes(), 2 + pen.dice.below(2));
    let elevation = pen.dice.one_of(&[0.0, 0.25, 1.0]);
    open_to(pen, node, 1.0, elevation);
    let k = pen.dice.one_of(&[1.0, 0.75]);
    pen.change_parameters(Parameters {
        dt: 2.0,
        k,
        ..pen.script.p
    });
    change_state(pen, nodes + node, -0.875);
    let speed = pen.dice.one_of(&[20.0, -20.0, 1.0, -1.0]);
    change_state(pen, run * nodes + node, speed);
}

/// Level water at a limit of z, or with just enough of it, and no open node.
pub(crate) fn level(pen: &mut Pen) {
    let nodes = pen.nodes();
    let levels = [(64.0, 30.0), (64.0, -30.0), (1.0, lowest_elevation(1.0))];
    let (h, z) = pen.dice.one_of(&levels);
    pen.change_slice("h", format!("fill h {nodes} {}", word(h)));
    pen.change_slice("kind", format!("fill kind {nodes} 0"));
    pen.change_slice("state", format!("fill state {} {}", 2 * nodes, word(z)));
    pen.lengthen("state", &vec![word(0.0); 4 * nodes].join(" "));
}

/// Level water at a limit of z, or with just enough of it, and a node that moves:
/// advection alone lifts nodes around it or draws them down, over the limit.
fn lifted(pen: &mut Pen, node: usize) {
    let (nodes, run) = (pen.nodes(), 2 + pen.dice.below(2));
    level(pen);
    let speed = pen.dice.one_of(&[10.0, -10.0]);
    change_state(pen, run * nodes + node, speed);
}

/// Everywhere U or V stands at a limit in still air: where advection carries none
/// over, they stay.
fn carried(pen: &mut Pen) {
    let (nodes, run) = (pen.nodes(), 2 + pen.dice.below(2));
    for node in 0..nodes {
        let speed = pen.dice.one_of(&[20.0, -20.0]);
        change_state(pen, run * nodes + node, speed);
    }
    let still = format!("fill forcing {} {}", 1 + 2 * nodes, word(0.0));
    pen.change_slice("forcing", still);
}

/// A node's U or V stands at its limit, and the wind may blow that way.
fn fast(pen: &mut Pen, node: usize) {
    let (nodes, run) = (pen.nodes(), 2 + pen.dice.below(2));
    let sign = pen.dice.one_of(&[1.0, -1.0]);
    let wind = sign * pen.dice.one_of(&[0.1, 0.1, 0.0]);
    pen.change_element("kind", node, 0, pen.script.kind.0[node]);
    change_state(pen, run * nodes + node, sign * 20.0);
    pen.change_float("forcing", 1 + (run - 2) * nodes + node, wind);
}
