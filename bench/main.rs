//! Measures the product beside two plain Rust programs, in one run and in turn: one that makes the same refusal tests and one that tests nothing.
//! `tools/bench` builds and runs it; docs/SPEED.md has the figures of one run.
//!
//!     bench [ROUNDS]              the tables
//!     bench CALL PROGRAM COUNT    one call by one program, for a profiler: open, step, step-on, list, list-on, save, load, forcing, grid or update,
//!                                 by product, tested or bare

mod agree;
mod agree_gauges;
mod agree_grids;
mod agree_lists;
mod bare;
mod bare_gauges;
mod bare_grids;
mod board;
mod fixed;
mod formulas;
mod gauge_tables;
mod gauges;
mod held;
mod hex;
mod lists;
mod parts;
mod product;
mod product_gauges;
mod record;
mod run;
mod search;
mod tested;
mod texts;
mod timing;
mod walk;
mod world;

use bare::Bare;
use held::Held;
use product::Product;
use run::{Mesh, Program};
use tested::{Keeps, Tested};
use timing::{interleaved, Times};
use world::{respell, Log, World};

/// A measure takes this many steps, and calls that read or write a text, in each round.
const STEPS: usize = 1_000;
const TEXTS: usize = 20;

/// The steps of a measure of growth, times its nodes: short, since there are five.
const NODE_STEPS: usize = 600_000;

const TESTED: Tested = Tested { forms_as_set: false, keeps: Keeps::Nothing };
const AS_SET: Tested = Tested { forms_as_set: true, ..TESTED };

const PROGRAMS: [&dyn Program; 3] = [&Product, &TESTED, &Bare];
/// TESTED but for its lists.
const KEEPING: [&dyn Program; 2] = [&Tested { keeps: Keeps::Weights, ..TESTED }, &Tested { keeps: Keeps::Shapes, ..TESTED }];

fn main() {
    let words: Vec<String> = std::env::args().skip(1).collect();
    if let [call, program, count] = &words[..] {
        return only(call, program, count.parse().expect("a count of calls"));
    }
    let rounds = words.first().map_or(7, |word| word.parse().expect("a count of rounds"));
    println!("{} faults answered alike by the product and the tested program, advection off and on", agree::refusals());
    let (faults, right) = agree_grids::readings();
    println!("{faults} faults of grid texts and {right} right ones likewise");
    let (faults, right) = agree_gauges::calls();
    println!("{faults} faults of gauges likewise, and {right} right calls, by the bare program too");
    let (faults, right) = agree_lists::calls();
    println!("{faults} faults of lists likewise, whatever (b) keeps, advection off and on, and {right} right lists, by the bare program too");
    let world = World::grid(80, 50);
    let log = world.log(STEPS);
    let (off, on) = calls(rounds, &world, &log);
    lists::all(rounds, &world);
    growth(rounds);
    parts_of_a_step(rounds, "a step", &world, &off, log.at(0));
    parts_of_a_step(rounds, "a step, advection on", &world.with_advection(), &on, log.at(0));
    parts_of_a_reading(rounds, &world);
    gauge_tables::all(rounds, &world, &log);
}

/// One call by one program, so many times. Steps begin anew at the end of the log.
fn only(call: &str, name: &str, count: usize) {
    let mut world = World::grid(80, 50);
    world.p.advection = call.ends_with("-on");
    let mesh = world.mesh();
    let program = PROGRAMS.iter().find(|program| program.name() == name).expect("product, tested or bare");
    let mut run = Held::new(*program, &mesh);
    let (log, grid) = (world.log(STEPS), world.grid_text());
    let winds = texts::winds(log.at(0));
    if call == "update" {
        return gauge_tables::only(name, &world, &log, count);
    }
    if call.starts_with("list") {
        return lists::only(&mut run, &world, count);
    }
    run.save(&mesh);
    for at in 0..count {
        match call {
            "open" => run.open(&mesh),
            "step" | "step-on" => {
                if at % STEPS == 0 {
                    run.restart();
                }
                run.steps(&mesh, &log, 1);
            }
            "save" => run.save(&mesh),
            "load" => run.load(&mesh),
            "forcing" => run.read_forcing(&winds),
            "grid" => run.read_grid(&grid),
            _ => panic!("open, step, step-on, list, list-on, save, load, forcing, grid or update"),
        }
    }
}

fn held<'a>(programs: &[&'a dyn Program], world: &World) -> Vec<Held<'a>> {
    programs.iter().map(|&program| Held::new(program, &world.mesh())).collect()
}

/// Stops unless every program holds the same bits and the same text.
fn same(runs: &[Held]) {
    for run in &runs[1..] {
        assert!(run.bits() == runs[0].bits(), "{}: another state", run.program.name());
        assert!(run.text == runs[0].text, "{}: another text", run.program.name());
    }
}

fn time(seconds: f64) -> String {
    match seconds {
        s if s >= 1.0 => format!("{s:.3} s"),
        s if s >= 1e-3 => format!("{:.3} ms", s * 1e3),
        s if s.abs() < 1e-6 => format!("{:.1} ns", s * 1e9),
        s => format!("{:.1} us", s * 1e6),
    }
}

fn ratio(a: f64, b: f64) -> String {
    let ratio = a / b;
    if ratio < 100.0 {
        format!("{ratio:.2}")
    } else {
        format!("{ratio:.0}")
    }
}

/// A line of the table: shortest rounds, their ratios, and the ratios of the medians.
fn line(call: &str, count: usize, times: &[Times]) {
    let best: Vec<f64> = times.iter().map(|times| times.best() / count as f64).collect();
    let middle: Vec<f64> = times.iter().map(Times::median).collect();
    println!(
        "| {call} | {} | {} | {} | {} | {} | {} / {} |",
        time(best[0]),
        time(best[1]),
        time(best[2]),
        ratio(best[0], best[1]),
        ratio(best[0], best[2]),
        ratio(middle[0], middle[1]),
        ratio(middle[0], middle[2]),
    );
}

/// A line of the table for a call that reads or writes a text, after which the programs hold the same.
fn text_line(rounds: usize, call: &str, runs: &mut [Held], work: impl Fn(&mut Held)) -> Vec<Times> {
    let times = interleaved(rounds, runs, |run| (0..TEXTS).for_each(|_| work(run)));
    line(call, TEXTS, &times);
    same(runs);
    times
}

/// What such a call takes for each byte of its text, to stand below the table.
fn by_the_byte(call: &str, bytes: usize, times: &[Times]) -> String {
    let [p, b, c] = [0, 1, 2].map(|at: usize| times[at].best() / (TEXTS * bytes) as f64 * 1e9);
    format!("| {call} | {bytes} | {p:.3} | {b:.3} | {c:.3} |")
}

/// So many steps from the cold start by a log; the programs hold the same afterwards.
fn steps(rounds: usize, mesh: &Mesh, runs: &mut [Held], log: &Log, count: usize) -> Vec<Times> {
    let times = interleaved(rounds, runs, |run| {
        run.restart();
        run.steps(mesh, log, count);
    });
    same(runs);
    times
}

/// The calls by the three programs, a step at both settings. The states after the steps come back, without advection and with it.
fn calls(rounds: usize, world: &World, log: &Log) -> (Vec<f64>, Vec<f64>) {
    let mesh = world.mesh();
    println!("N {}, E {}, {rounds} rounds, shortest round\n", mesh.nodes(), mesh.triangles());
    println!("| call | product | (b) tested | (c) bare | product/(b) | product/(c) | by medians |");
    println!("|---|---|---|---|---|---|---|");
    let mut runs = held(&PROGRAMS, world);
    line("open", 1, &interleaved(rounds, &mut runs, |run| run.open(&mesh)));
    let mut as_set = held(&[&Product, &AS_SET, &Bare], world);
    line("open, (b) with row 6 by pairs", 1, &interleaved(rounds, &mut as_set, |run| run.open(&mesh)));
    line("step", STEPS, &steps(rounds, &mesh, &mut runs, log, STEPS));
    let mut on = held(&PROGRAMS, world);
    line("step, advection on", STEPS, &steps(rounds, &world.with_advection().mesh(), &mut on, log, STEPS));
    assert!(on[0].bits() != runs[0].bits(), "the setting changes nothing");
    let stepped = runs[0].state.clone();
    let mut below = saves(rounds, &mesh, &mut runs);
    below.push(forcings(rounds, &mut runs, log));
    below.push(grids(rounds, world, &mut runs, &mut as_set));
    println!("\nstates after {STEPS} steps bit-equal at either setting, saves byte-equal, loads give the state back, what is read bit-equal");
    println!("\n| ns for each byte | bytes | product | (b) | (c) |");
    println!("|---|---|---|---|---|");
    println!("{}\n", below.join("\n"));
    (stepped, on.swap_remove(0).state)
}

/// The lines of saves and of loads; what they take for each byte comes back. The last load, of edition 1, leaves one wind at every node.
fn saves(rounds: usize, mesh: &Mesh, runs: &mut [Held]) -> Vec<String> {
    let stepped = runs[0].bits();
    let mut below = Vec::new();
    let mut measured = |call: &str, runs: &mut [Held], work: fn(&mut Held, &Mesh)| {
        let times = text_line(rounds, call, runs, |run| work(run, mesh));
        below.push(by_the_byte(call, runs[0].text.len(), &times));
    };
    measured("save", runs, |run, mesh| run.save(mesh));
    measured("load", runs, |run, mesh| run.load(mesh));
    runs.iter_mut().for_each(|run| respell(&mut run.text));
    measured("load, digits in both cases", runs, |run, mesh| run.load(mesh));
    assert!(runs[0].bits() == stepped, "another state after the loads");
    let old = texts::edition_1(mesh, &runs[0].state, runs[0].clock.step, [0.002, -0.001]);
    runs.iter_mut().for_each(|run| run.text.clone_from(&old));
    measured("load of edition 1", runs, |run, mesh| run.load(mesh));
    assert!(runs[0].bits() != stepped, "the wind of edition 1 is not loaded");
    below
}

/// The lines of forcing readings, of a wind for each node and of one for all. A line of kind 10 fills a whole room, so that its bytes say nothing.
fn forcings(rounds: usize, runs: &mut [Held], log: &Log) -> String {
    let (winds, one_wind) = (texts::winds(log.at(0)), texts::one_wind(0, 0.5, [0.002, -0.001]));
    let call = "read_forcing, kinds 14 and 15";
    let times = text_line(rounds, call, runs, |run| run.read_forcing(&winds));
    text_line(rounds, "read_forcing, kind 10", runs, |run| run.read_forcing(&one_wind));
    by_the_byte(call, winds.len(), &times)
}

/// The lines of the grid readings.
fn grids(rounds: usize, world: &World, runs: &mut [Held], as_set: &mut [Held]) -> String {
    let text = world.grid_text();
    let read = |run: &mut Held| run.read_grid(&text);
    let times = text_line(rounds, "read_grid", runs, read);
    text_line(rounds, "read_grid, (b) reading twice", as_set, read);
    let due = world.as_read().bits();
    for run in runs.iter().chain(&*as_set) {
        assert!(run.grid.bits() == due, "{}: another grid", run.program.name());
    }
    by_the_byte("read_grid", text.len(), &times)
}

/// The time of a step for each node, as the mesh grows.
fn growth(rounds: usize) {
    println!("| N | E | product, ns per node and step | (b) | (c) | product/(b) | product/(c) |");
    println!("|---|---|---|---|---|---|---|");
    for (across, along) in [(25, 10), (25, 20), (40, 25), (50, 40), (80, 50)] {
        let world = World::grid(across, along);
        let mesh = world.mesh();
        let n = mesh.nodes();
        let count = (NODE_STEPS / n).min(STEPS);
        let mut runs = held(&PROGRAMS, &world);
        let times = steps(rounds, &mesh, &mut runs, &world.log(count), count);
        let [p, b, c] = [0, 1, 2].map(|at: usize| times[at].best() / (count * n) as f64 * 1e9);
        println!("| {n} | {} | {p:.1} | {b:.1} | {c:.1} | {} | {} |", mesh.triangles(), ratio(p, b), ratio(p, c));
    }
    println!();
}

fn parts_of_a_step(rounds: usize, name: &str, world: &World, state: &[f64], forcing: &[f64]) {
    let programs: [&dyn Program; 2] = [&Product, &TESTED];
    let parts = parts::outside(rounds, &programs, world, state);
    println!("| part of {name}, by refused calls | product | (b) | ratio |");
    println!("|---|---|---|---|");
    let compare = |name: &str, part: fn(&parts::Outside) -> f64| {
        let (p, b) = (part(&parts[0]), part(&parts[1]));
        println!("| {name} | {} | {} | {} |", time(p), time(b), ratio(p, b));
    };
    compare("rows 1 to 12", |t| t.rows);
    compare("both clearings, R and S, z', row 13 of z'", |t| t.levels - t.rows);
    compare("Px and Py, U' and V', row 13 of them, the next state written", |t| t.whole - t.levels);
    compare("the whole", |t| t.whole);
    println!("\n| part of {name}, (b) by itself | time |");
    println!("|---|---|");
    for (name, seconds) in parts::inside(rounds, world, state, forcing) {
        println!("| {name} | {} |", time(seconds));
    }
    println!();
}

fn parts_of_a_reading(rounds: usize, world: &World) {
    let programs: [&dyn Program; 3] = [&Product, &TESTED, &AS_SET];
    let parts = parts::readings(rounds, &programs, world);
    println!("| part of read_grid, by a refused call | product | (b) | (b) reading twice | product/(b) | product/(b) reading twice |");
    println!("|---|---|---|---|---|---|");
    let compare = |name: &str, part: fn(&(f64, f64)) -> f64| {
        let [p, b, twice] = [0, 1, 2].map(|at: usize| part(&parts[at]));
        println!("| {name} | {} | {} | {} | {} | {} |", time(p), time(b), time(twice), ratio(p, b), ratio(p, twice));
    };
    compare("refused at the last line: every line asked, no room filled", |&(asked, _)| asked);
    compare("the rooms filled", |&(asked, whole)| whole - asked);
    compare("the whole", |&(_, whole)| whole);
}
