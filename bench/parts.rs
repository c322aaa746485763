//! What a step's time, a grid reading's time and the time of an update of the gauges are made of.

use crate::board::Board;
use crate::fixed::Fixed;
use crate::gauges::{Gauges, Lent, Point};
use crate::held::Held;
use crate::record;
use crate::run::{Forcing, Known, Program, State};
use crate::search::{self, Spot};
use crate::tested::step::{self, Checked};
use crate::tested::{gauges, mesh};
use crate::timing::{each, interleaved};
use crate::world::World;
use std::hint::black_box;

/// How often a part is done in each round.
const TIMES: usize = 200;

/// How often a grid text is read in each round, a state handed over, or the triangles of all gauges searched.
const READINGS: usize = 20;

/// The seconds of a program's parts, told apart from outside by calls that are refused at a known point.
pub struct Outside {
    /// a call that row 12 refuses at the first node, so that no time goes to the search for it: rows 1 to 12
    pub rows: f64,
    /// a call that row 13 refuses at the last node's elevation: what is above, both clearings, the first pass (with advection Au and Av too), z'
    pub levels: f64,
    /// an accepted call
    pub whole: f64,
}

/// The two programs' parts, in turn.
pub fn outside(rounds: usize, programs: &[&dyn Program], world: &World, state: &[f64]) -> Vec<Outside> {
    let calm = vec![0.0; 1 + 2 * world.x.len()];
    let (mut stormy, mut dry) = (calm.clone(), calm.clone());
    stormy[1] = 1.0;
    dry[0] = -30.0;
    // the last node alone is open, and above the water that is asked for there
    let mut last_open = world.clone();
    last_open.kind.fill(0);
    *last_open.kind.last_mut().unwrap() = 1;
    *last_open.h.last_mut().unwrap() = 25.0;
    let mut times = [(world, stormy, 12), (&last_open, dry, 13), (world, calm, 0)]
        .map(|(world, forcing, row)| calls(rounds, programs, world, state, &forcing, row).into_iter());
    let mut next = |which: usize| times[which].next().unwrap();
    programs.iter().map(|_| Outside { rows: next(0), levels: next(1), whole: next(2) }).collect()
}

/// The seconds of each program's call, which must answer `row`.
fn calls(rounds: usize, programs: &[&dyn Program], world: &World, state: &[f64], forcing: &[f64], row: u32) -> Vec<f64> {
    let mesh = world.mesh();
    let mut runs: Vec<Held> = programs.iter().map(|&program| Held::new(program, &mesh)).collect();
    for run in &mut runs {
        run.state.copy_from_slice(state);
    }
    let times = interleaved(rounds, &mut runs, |run| {
        for _ in 0..TIMES {
            assert_eq!(run.step(&mesh, forcing).0.number, row);
        }
    });
    times.iter().map(|times| times.best() / TIMES as f64).collect()
}

/// The seconds of each program's reading of a grid text without its last line, which asks every line and fills nothing, and of the whole text.
pub fn readings(rounds: usize, programs: &[&dyn Program], world: &World) -> Vec<(f64, f64)> {
    let text = world.grid_text();
    let last = text[..text.len() - 1].iter().rposition(|&byte| byte == b'\n').unwrap_or(0);
    let mut runs: Vec<Held> = programs.iter().map(|&program| Held::new(program, &world.mesh())).collect();
    let mut seconds = |text: &[u8], row: u32| -> Vec<f64> {
        let times = interleaved(rounds, &mut runs, |run| {
            for _ in 0..READINGS {
                assert_eq!(run.read(text).number, row);
            }
        });
        times.iter().map(|times| times.best() / READINGS as f64).collect()
    };
    let (asked, whole) = (seconds(&text[..=last], 30), seconds(&text, 0));
    asked.into_iter().zip(whole).collect()
}

/// The seconds of each program's update of a record without gauges, which asks all rows but 40, and of one with gauges.
pub fn updates(rounds: usize, programs: &[&dyn Gauges], lent: Lent, points: &[Point]) -> Vec<(f64, f64)> {
    let seconds = |points: &[Point]| -> Vec<f64> {
        let mut boards: Vec<Board> = programs.iter().map(|&program| Board::new(program)).collect();
        boards.iter_mut().for_each(|board| board.add(lent, points));
        let times = interleaved(rounds, &mut boards, |board| (0..READINGS).for_each(|step| board.update(lent, step)));
        times.iter().map(|times| times.best() / READINGS as f64).collect()
    };
    seconds(&[]).into_iter().zip(seconds(points)).collect()
}

/// The seconds of the parts of the tested program's update, each by itself.
pub fn inside_update(rounds: usize, lent: Lent, points: &[Point]) -> Vec<(&'static str, f64)> {
    let numbers = gauges::Numbers::of(lent).expect("whole slices");
    let mut board = Board::new(&crate::TESTED);
    board.add(lent, points);
    let mut parts = Vec::new();
    let mut part = |name: &'static str, count: usize, work: &mut dyn FnMut()| parts.push((name, each(rounds, count, work)));
    part("the six slices decoded", TIMES, &mut || assert!(black_box(gauges::Numbers::of(black_box(lent))).is_ok()));
    part("of these the state", TIMES, &mut || assert!(black_box(gauges::decoded(black_box(lent.state), f64::from_be_bytes)).is_ok()));
    part("rows 1 to 10", TIMES, &mut || assert!(black_box(&numbers).rows().is_ok()));
    part("43", TIMES, &mut || assert!(gauges::row_43(black_box(&board.record)).is_ok()));
    let mut searched = |name: &'static str, search: &dyn Fn(Point) -> Option<Spot>| {
        part(name, READINGS, &mut || points.iter().for_each(|&point| assert!(search(black_box(point)).is_some())));
    };
    searched("the search", &|point| numbers.locate(point));
    let triangles: Vec<[Point; 3]> = numbers.triangles().collect();
    searched("the search, over corners that were gathered before it", &|point| search::locate(triangles.iter().copied(), point));
    part("the corners gathered", TIMES, &mut || assert!(!black_box(black_box(&numbers).triangles().collect::<Vec<_>>()).is_empty()));
    // an elevation that rises each time, so that every row is written
    let mut height = 0.0;
    part("the record written", TIMES, &mut || {
        height += 1e-3;
        record::given_out(black_box(&mut board.record)).iter_mut().for_each(|row| record::hand_over(row, height, 1));
    });
    parts
}

/// The seconds of the tested program's parts, each by itself, at the setting of the world.
pub fn inside(rounds: usize, world: &World, numbers: &[f64], forced: &[f64]) -> Vec<(&'static str, f64)> {
    let inside = if world.p.advection { inside_at::<true> } else { inside_at::<false> };
    inside(rounds, world, numbers, forced)
}

fn inside_at<const ADVECTION: bool>(rounds: usize, world: &World, numbers: &[f64], forced: &[f64]) -> Vec<(&'static str, f64)> {
    let mesh = world.mesh();
    let n = mesh.nodes();
    let (state, forcing) = (State::of(numbers, n), Forcing::of(forced, n));
    let due = Fixed::of(&mesh, Checked);
    let (mut r, mut px, mut py) = (vec![0.0; n], vec![0.0; n], vec![0.0; n]);
    let (mut work, mut next, mut sums) = (vec![0.0; 5 * n], vec![0.0; 6 * n], vec![0u64; n]);
    let mut carried = vec![[0.0; 2]; n];
    let mut parts = Vec::new();
    let mut part = |name: &'static str, work: &mut dyn FnMut()| parts.push((name, each(rounds, TIMES, work)));
    let marks = mesh::triangles(&mesh, |_| ()).expect("a sound mesh");
    part("rows 3 to 5 and the marks, over the triangles", &mut || assert!(black_box(mesh::triangles(black_box(&mesh), |_| ())).is_ok()));
    part("row 7, over the marks", &mut || assert!(mesh::row_7(black_box(&mesh), &marks).is_ok()));
    part("row 8, over the nodes", &mut || assert!(mesh::row_8(black_box(&mesh)).is_ok()));
    part("row 10, over the nodes", &mut || assert!(step::row_10(black_box(&mesh), numbers).is_ok()));
    part("row 12, over the nodes", &mut || assert!(step::row_12(black_box(forcing)).is_ok()));
    let gathered = if ADVECTION { "R, S, Au and Av, over the triangles" } else { "R and S, over the triangles" };
    part(gathered, &mut || step::gather::<ADVECTION, _, _>(black_box(&due), state, &mut r, &mut carried, &mut sums));
    // z' is made in the place of R, so that later rounds find z' there: the time does not go by the value
    part("z', over the nodes", &mut || step::raise(black_box(&due), state, &mut r, &sums, forcing.elevation));
    r.copy_from_slice(state.z);
    part("row 13 of z'", &mut || assert!(step::row_13_levels(black_box(&mesh), &r).is_ok()));
    part("Px and Py, over the triangles", &mut || step::slopes(black_box(&due), state, &r, &mut px, &mut py));
    let known = Known { z_new: &r, forcing, carried: &carried, sums: &sums };
    part("U' and V', over the nodes", &mut || step::flows::<ADVECTION>(black_box(&mesh), &due.terms, state, known, &mut px, &mut py));
    px.copy_from_slice(state.u);
    py.copy_from_slice(state.v);
    part("row 13 of U' and V'", &mut || assert!(step::row_13_speeds(black_box(&px), black_box(&py)).is_ok()));
    part("the next state written", &mut || step::publish(&mut next, black_box(state), &work, &forced[1..]));
    part("work room cleared", &mut || step::clear(black_box(&mut work), &mut sums));
    parts
}
