//! Scripts drawn from a seed: the same text for a seed and an index on every
//! machine. Whole numbers decide what is drawn; the floats that are worked out
//! come from single IEEE 754 operations.

pub(crate) mod dice;
mod faults;
mod forcings;
mod gauges;
mod grids;
mod lines;
mod lists;
mod nans;
mod pen;
mod runs;
mod settings;
pub(crate) mod spellings;
mod texts;
pub(crate) mod values;
pub(crate) mod worlds;

use crate::script::Call;
use dice::Dice;
use pen::Pen;
use worlds::Manner;

/// The families of scripts: each has draws of its own, and its own conditions
/// to reach.
#[derive(Clone, Copy, Debug, PartialEq)]
pub enum Family {
    /// The calls on runs, and forcings.
    Runs,
    /// Grid texts, and runs on the meshes that are read from them.
    Grids,
    /// Gauges, and the runs whose states are handed over to them.
    Gauges,
    /// Lists of forcings, and the single calls that they stand for.
    Lists,
}

/// The script of a family, a seed and an index.
pub fn generate(family: Family, seed: u64, index: u64) -> Vec<u8> {
    let mut pen = Pen::new(Dice::of(seed, index));
    match family {
        Family::Runs => {
            pen.say(format!("# seed {seed}, script {index}"));
            runs_and_lines(&mut pen);
        }
        Family::Grids => {
            pen.say(format!("# grids, seed {seed}, script {index}"));
            grids::grids(&mut pen);
        }
        Family::Gauges => {
            pen.say(format!("# gauges, seed {seed}, script {index}"));
            gauges::gauges(&mut pen);
        }
        Family::Lists => {
            pen.say(format!("# lists, seed {seed}, script {index}"));
            lists::lists(&mut pen);
        }
    }
    pen.into_text()
}

fn runs_and_lines(pen: &mut Pen) {
    match pen.dice.below(100) {
        0..23 => runs::run(pen),
        23..62 => faults::faults(pen),
        62..85 => texts::texts(pen),
        85..93 => forcings::reads(pen),
        93..99 => runs::raw(pen),
        _ => full(pen),
    }
}

/// A mesh of as many nodes and triangles as row 2 lets through, and then of one
/// triangle or one node more.
fn full(pen: &mut Pen) {
    let mut world = worlds::full_grid(&mut pen.dice);
    if pen.dice.one_in(2) {
        world.crowd(&mut pen.dice, 8_192);
    }
    pen.set_world(&world);
    let p = settings::parameters(pen, Manner::Calm);
    pen.set_parameters(p);
    pen.call(Call::Open);
    for _ in 0..2 {
        runs::step_on(pen, Manner::Calm);
    }
    runs::save_and_load(pen);
    if pen.dice.one_in(2) {
        runs::load_older(pen);
    }
    match pen.dice.below(3) {
        0 => {
            pen.say_list("add tri", world.triangles[0]);
        }
        1 => {
            for (name, word) in [("x", "0"), ("y", "0"), ("kind", "0"), ("h", EIGHT)] {
                pen.say(format!("add {name} {word}"));
            }
            pen.rooms();
        }
        _ => (),
    }
    for call in [Call::Open, Call::Step, Call::Save, Call::Load] {
        pen.call(call);
    }
}

/// The word of 8, a depth.
const EIGHT: &str = "4020000000000000";
