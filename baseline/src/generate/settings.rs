//! Sizes, parameters, clocks, forcings and states, legal each.

use super::dice::Dice;
use super::pen::Pen;
use super::values::{at_edge, in_size, inside, legal, lowest_elevation, word, Range};
use super::values::{COLUMN, DEPTH, ELEVATION, PARAMETERS, VELOCITY, WIND};
use super::worlds::{world, Manner};
use crate::mesh::STATE_RUNS;
use crate::records::{Clock, Parameters};
use crate::saves::save_length;
use crate::script::Call;

/// The numbers of calm water: elevations, velocities.
const CALM: Range = in_size(0.03125);

/// How many nodes a mesh is asked to have: small most often, seldom large.
pub(crate) fn any_size(pen: &mut Pen) -> usize {
    let dice = &mut pen.dice;
    let size = match dice.below(100) {
        0..62 => dice.between(3, 8),
        62..92 => dice.between(9, 40),
        92..99 => dice.between(41, 300),
        _ => dice.between(301, 4_096),
    };
    size as usize
}

/// How many nodes a mesh is asked to have where much is written about it.
pub(crate) fn small_size(pen: &mut Pen) -> usize {
    let most = pen.dice.one_of(&[4, 8, 24]);
    pen.dice.between(3, most) as usize
}

/// Calm water most often.
pub(crate) fn any_manner(pen: &mut Pen) -> Manner {
    let manners = [Manner::Calm, Manner::Calm, Manner::Bold, Manner::Wild];
    pen.dice.one_of(&manners)
}

/// Meshes up to this size have a wind of its own at every node, larger ones at a
/// few.
const WINDY: usize = 300;

/// The bytes of a save of the run.
pub(crate) fn room_needed(pen: &Pen) -> usize {
    save_length(pen.nodes())
}

/// Legal parameters; calm ones let a run go on for long.
pub(crate) fn parameters(pen: &mut Pen, manner: Manner) -> Parameters {
    let [dt, tau, k, f] = PARAMETERS.map(|range| legal(&mut pen.dice, range));
    let any = Parameters {
        dt,
        tau,
        k,
        f,
        advection: pen.dice.one_in(2),
    };
    if manner == Manner::Wild {
        return any;
    }
    let some = inside(&mut pen.dice, CALM).abs();
    let dice = &mut pen.dice;
    if manner == Manner::Bold {
        let dt = dice.one_of(&[0.125, 0.5 + some, 2.0]);
        return Parameters { dt, ..any };
    }
    Parameters {
        dt: dice
            .one_of(&[0.125, 0.125, 1.0, 2.5, 0.5 + some, dt / 16.0, 60.0])
            .max(0.125),
        tau: dice.one_of(&[0.0, -0.0, some, some, tau / 64.0, 1.0]),
        k: dice.one_of(&[0.0, -0.0, some, k / 64.0, 1.0]),
        f: dice.one_of(&[0.0, -0.0, f, -0.001, 0.001]),
        ..any
    }
}

/// The same parameters under the other setting of advection.
pub(crate) fn otherwise(p: Parameters) -> Parameters {
    Parameters {
        advection: !p.advection,
        ..p
    }
}

/// A legal clock, at times close to the last step.
pub(crate) fn clock(pen: &mut Pen) -> Clock {
    let step = match pen.dice.below(4) {
        0 => u32::MAX - pen.dice.below(6) as u32,
        1 => pen.dice.bits() as u32,
        _ => pen.dice.below(100) as u32,
    };
    Clock { step }
}

/// A legal forcing: the elevation, then Wx' of all nodes and Wy' of all nodes.
pub(crate) fn forcing(pen: &mut Pen, manner: Manner) -> Vec<f64> {
    let (nodes, dice) = (pen.nodes(), &mut pen.dice);
    let elevation = legal(dice, ELEVATION);
    let (elevation, wind) = match (manner, dice.below(12)) {
        (Manner::Wild, _) => (elevation, Wind::Any),
        // An open node has at least 1 m below it.
        (Manner::Bold, _) => (elevation.abs() - 0.5, Wind::Any),
        // The wind may be anything it can: it takes long to move the water.
        (_, 0) => (dice.one_of(&[0.0, -0.0]), Wind::AtEdge),
        _ => (inside(dice, CALM), Wind::Light),
    };
    let mut forcing = vec![elevation];
    forcing.extend(winds(dice, nodes, wind));
    forcing
}

/// What a wind is drawn from.
#[derive(Clone, Copy)]
pub(crate) enum Wind {
    Any,
    AtEdge,
    Light,
}

impl Wind {
    pub fn draw(self, dice: &mut Dice) -> f64 {
        match self {
            Wind::Any => legal(dice, WIND),
            Wind::AtEdge => at_edge(dice, WIND),
            Wind::Light => legal(dice, WIND) / 16.0,
        }
    }
}

/// Wx and then Wy of all nodes: one wind for the whole mesh, or, most often, each
/// node's own.
fn winds(dice: &mut Dice, nodes: usize, wind: Wind) -> Vec<f64> {
    if nodes > WINDY {
        return gusts(dice, nodes, wind);
    }
    if dice.one_in(5) {
        let both = [wind.draw(dice), wind.draw(dice)];
        return both.iter().flat_map(|&one| vec![one; nodes]).collect();
    }
    (0..2 * nodes).map(|_| wind.draw(dice)).collect()
}

/// The winds of many nodes: the same but at a few.
fn gusts(dice: &mut Dice, nodes: usize, wind: Wind) -> Vec<f64> {
    let mut winds = vec![wind.draw(dice); 2 * nodes];
    for _ in 0..8 {
        let at = dice.below(winds.len());
        winds[at] = wind.draw(dice);
    }
    winds
}

/// A legal number for one run of the state. A bold one stays so far within its
/// limits that a step does not leave them.
fn any_number(pen: &mut Pen, manner: Manner, range: Range) -> f64 {
    match manner {
        Manner::Wild => legal(&mut pen.dice, range),
        Manner::Bold => inside(&mut pen.dice, range) * 0.875,
        _ => legal(&mut pen.dice, CALM),
    }
}

/// Earlier z, z, U, V, Wx and Wy of a node, such that row 10 lets them through.
fn node_numbers(pen: &mut Pen, manner: Manner, h: f64) -> [f64; STATE_RUNS] {
    let water = [ELEVATION, ELEVATION, VELOCITY, VELOCITY];
    let [mut earlier, mut z, u, v] = water.map(|range| any_number(pen, manner, range));
    let [wx, wy] = [(); 2].map(|()| legal(&mut pen.dice, WIND));
    // "present h+z below 0.1" is row 10's.
    if h + z < COLUMN {
        z = lowest_elevation(h);
    }
    if manner == Manner::Bold {
        // What rises by metres in one step would be over the limit after it.
        z = z.max(0.5 - h);
        earlier = z + earlier / 64.0;
    }
    [earlier, z, u, v, wx, wy]
}

/// Sets a legal state.
pub(crate) fn set_state(pen: &mut Pen, manner: Manner) {
    let nodes = pen.nodes();
    let mut numbers = vec![0.0; STATE_RUNS * nodes];
    for node in 0..nodes {
        let h = pen.script.h.0.get(node).copied().unwrap_or(DEPTH.low);
        for (run, number) in node_numbers(pen, manner, h).into_iter().enumerate() {
            numbers[run * nodes + node] = number;
        }
    }
    pen.say_list("set state", numbers.into_iter().map(word));
}

/// Sets a mesh of about this size, opens it, and most often goes on from a
/// state and a clock that are not cold.
pub(crate) fn start(pen: &mut Pen, nodes: usize, manner: Manner) {
    let world = world(&mut pen.dice, nodes, manner);
    pen.set_world(&world);
    let p = parameters(pen, manner);
    pen.set_parameters(p);
    pen.call(Call::Open);
    if !pen.dice.one_in(4) {
        set_state(pen, manner);
        let clock = clock(pen);
        pen.set_clock(clock);
    }
}
