//! The call with a list of forcings measured, and beside it single calls by the same forcings.

use crate::held::Held;
use crate::product::Product;
use crate::run::Program;
use crate::timing::{interleaved, Times};
use crate::world::World;
use crate::{held, line, ratio, same, time, KEEPING, PROGRAMS};

/// The forcings of the list: an overnight catch-up.
const FORCINGS: usize = 2_000;

/// The list by one program, so many times.
pub fn only(run: &mut Held, world: &World, count: usize) {
    let list = world.list(FORCINGS);
    for _ in 0..count {
        run.restart();
        run.step_all(&world.mesh(), &list);
    }
}

pub fn all(rounds: usize, world: &World) {
    let list = world.list(FORCINGS);
    let settings = [("step_all", world), ("step_all, advection on", &world.with_advection())];
    let measured = settings.map(|(call, world)| (call, measured(rounds, world, &list)));
    println!("{FORCINGS} forcings in one call; (b) and (c) make at each the passes of their single step, in the lent slices alone\n");
    println!("| call, time for each forcing | product | (b) tested | (c) bare | product/(b) | product/(c) | by medians |");
    println!("|---|---|---|---|---|---|---|");
    measured.iter().for_each(|(call, times)| line(call, FORCINGS, &times[..PROGRAMS.len()]));
    println!("\n| call, time for each forcing, (b) keeping what no step changes | product | (b) | product/(b) | by medians |");
    println!("|---|---|---|---|---|");
    for (call, [product, .., weights, shapes, _]) in &measured {
        pair(&format!("{call}, (b) keeping S and the weights of z' in the lent room"), product, weights);
        pair(&format!("{call}, (b) keeping the triangles' shapes too, in memory of its own"), product, shapes);
    }
    println!("\n| product alone | a step in the list | a single call by the same forcings | a step in the list / a single call | by medians |");
    println!("|---|---|---|---|---|");
    measured.iter().for_each(|(call, [list, .., single])| pair(call, list, single));
    println!("\nstates after {FORCINGS} forcings bit-equal at either setting, by all these lists and by the three programs' single calls\n");
}

/// The times of the lists by the three programs and by the two that keep something, and then of the product's single calls; all come to the same
/// state, single calls by the other two as well.
fn measured(rounds: usize, world: &World, list: &[f64]) -> [Times; 6] {
    let mesh = world.mesh();
    let by = |programs: &[&'static dyn Program], whole: bool| held(programs, world).into_iter().map(move |run| (run, whole));
    let mut runs: Vec<(Held, bool)> = by(&PROGRAMS, true).chain(by(&KEEPING, true)).chain(by(&[&Product], false)).collect();
    let step = |(run, whole): &mut (Held, bool)| {
        run.restart();
        if *whole {
            run.step_all(&mesh, list);
        } else {
            run.step_each(&mesh, list);
        }
    };
    let times = interleaved(rounds, &mut runs, step);
    let others = runs.len();
    runs.extend(by(&PROGRAMS[1..], false));
    runs[others..].iter_mut().for_each(step);
    same(&runs.into_iter().map(|(run, _)| run).collect::<Vec<Held>>());
    times.try_into().ok().expect("six runs")
}

/// A line of two times and their ratio.
fn pair(call: &str, one: &Times, other: &Times) {
    let [first, second] = [one, other].map(|times| times.best() / FORCINGS as f64);
    let (shortest, medians) = (ratio(first, second), ratio(one.median(), other.median()));
    println!("| {call} | {} | {} | {shortest} | {medians} |", time(first), time(second));
}
