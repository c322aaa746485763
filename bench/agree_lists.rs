//! That the tested program steps through a list of forcings as the product does, whatever it keeps of what no step changes: all are given the same
//! lists and faults, in rooms that are full of numbers, and must answer alike and leave the same behind. Where the whole list is accepted, the bare
//! program must reach the same state.

use crate::bare::Bare;
use crate::product::Product;
use crate::run::{Clock, Program, Rooms, Stepped};
use crate::world::World;
use crate::{KEEPING, TESTED};

/// The nodes of the mesh, the numbers of a forcing, and the forcings of the sound list.
const N: usize = 20;
const EACH: usize = 1 + 2 * N;
const FORCINGS: usize = 5;

/// The most forcings that a list may have.
const MOST: usize = 4_096;

/// All that goes into the call.
#[derive(Clone)]
struct Given {
    world: World,
    state: Vec<f64>,
    clock: Clock,
    list: Vec<f64>,
    next: usize,
    work: usize,
    sums: usize,
}

impl Given {
    /// A list that is accepted, with other winds at every node and at every step.
    fn sound() -> Given {
        let world = World::grid(5, 4);
        let water = (0..4 * N).map(|i| (i % 7) as f64 / 8.0 - 0.25);
        let winds = (0..2 * N).map(|i| (i % 11) as f64 / 128.0 - 0.04);
        Given { state: water.chain(winds).collect(), clock: Clock { step: 5 }, list: world.list(FORCINGS), world, next: 6 * N, work: 11 * N, sums: N }
    }

    fn forcing(&mut self, at: usize) -> &mut [f64] {
        &mut self.list[EACH * at..][..EACH]
    }

    /// The list becomes as long as this.
    fn lengthen(&mut self, numbers: usize) {
        self.list = self.list.iter().copied().cycle().take(numbers).collect();
    }

    /// So many steps are left before the last number of a clock.
    fn steps_left(&mut self, steps: u32) {
        self.clock.step = u32::MAX - steps;
    }
}

/// What came back, as numbers to compare, and what the next slice and the work rooms hold.
struct Outcome {
    stepped: Stepped,
    reached: Vec<u64>,
    rooms: Vec<u64>,
}

fn outcome(program: &dyn Program, given: &Given) -> Outcome {
    // another number at each place, so that one that is moved or not cleared shows
    let full = |length: usize| (0..length).map(|i| 7.0 + i as f64).collect::<Vec<f64>>();
    let (mut next, mut work, mut sums) = (full(given.next), full(given.work), vec![7; given.sums]);
    let rooms = Rooms { next: &mut next, work: &mut work, sums: &mut sums };
    let stepped = program.step_all(&given.world.mesh(), rooms, &given.state, given.clock, &given.list);
    let Stepped { answer, clock, accepted } = &stepped;
    let said = [answer.number.into(), answer.place as u64, answer.value.to_bits(), clock.step.into(), (*accepted).into()];
    let reached = said.into_iter().chain(next.iter().map(|v| v.to_bits())).collect();
    Outcome { reached, rooms: work.iter().map(|v| v.to_bits()).chain(sums).collect(), stepped }
}

/// The row that must come out, the count of accepted steps, and what is done to the sound list.
type Case = (u32, usize, fn(&mut Given));

/// Lists that are accepted to their end.
const RIGHT: &[Case] = &[
    (0, FORCINGS, |_| {}),
    (0, 1, |g| g.lengthen(EACH)),
    (0, 2, |g| g.lengthen(2 * EACH)),
    // from rest, since the water of the sound state runs too fast after 1,483 steps with advection
    (0, MOST, |g| {
        g.lengthen(MOST * EACH);
        g.state.fill(0.0);
    }),
    (0, FORCINGS, |g| g.steps_left(FORCINGS as u32)),
    // row 6 is asked only when a mesh is opened
    (0, FORCINGS, |g| g.world.tri.extend([0, 1, 6])),
    (0, 0, |g| g.list.clear()),
    (0, 0, |g| {
        g.list.clear();
        g.steps_left(0);
    }),
];

const FAULTS: &[Case] = &[
    (14, 0, |g| g.lengthen((MOST + 1) * EACH)),
    (14, 0, |g| g.lengthen(MOST * EACH + 1)),
    // before row 1, and with N 0, for which a forcing has one number
    (14, 0, |g| {
        g.lengthen(MOST * EACH + 1);
        g.work = 5 * N;
        g.world.h.clear();
    }),
    (14, 0, |g| {
        g.lengthen(MOST + 1);
        g.world.x.clear();
    }),
    (1, 0, |g| {
        g.lengthen(MOST);
        g.world.x.clear();
    }),
    (1, 0, |g| g.list.push(0.0)),
    (1, 0, |g| g.lengthen(FORCINGS * EACH - 1)),
    (1, 0, |g| g.lengthen(1)),
    (1, 0, |g| g.lengthen(MOST * EACH - 1)),
    // the room of a single step
    (1, 0, |g| g.work = 5 * N),
    (1, 0, |g| g.work = 11 * N - 1),
    (1, 0, |g| g.work = 11 * N + 1),
    (1, 0, |g| g.sums = N - 1),
    (1, 0, |g| g.next = 4 * N),
    (1, 0, |g| g.state.truncate(4 * N)),
    (1, 0, |g| g.world.tri.truncate(71)),
    (1, 0, |g| {
        g.list.clear();
        g.work = 5 * N;
    }),
    (2, 0, |g| g.world.tri.clear()),
    (3, 0, |g| g.world.tri[7] = 20),
    (4, 0, |g| g.world.x[19] = 200_000),
    (5, 0, |g| g.world.tri.swap(9, 10)),
    (7, 0, |g| g.world.tri.truncate(66)),
    (8, 0, |g| g.world.h[11] = f64::NAN),
    (9, 0, |g| g.world.p.f = 0.01),
    (10, 0, |g| g.state[3] = 30.5),
    (10, 0, |g| {
        g.list.clear();
        g.state[5 * N + 19] = f64::NAN;
    }),
    // before 11 and 12
    (10, 0, |g| {
        g.state[N + 4] = -g.world.h[4];
        g.steps_left(0);
        g.forcing(0)[0] = 31.0;
    }),
    (11, 0, |g| g.steps_left(0)),
    (11, 2, |g| g.steps_left(2)),
    (11, 4, |g| g.steps_left(4)),
    // before 12 and 13 of the same forcing
    (11, 2, |g| {
        g.steps_left(2);
        g.forcing(2)[0] = -31.0;
    }),
    (12, 0, |g| g.forcing(0)[0] = -31.0),
    (12, 2, |g| g.forcing(2)[0] = f64::NAN),
    (12, 4, |g| g.forcing(4)[0] = 30.5),
    (12, 0, |g| g.forcing(0)[1] = f64::INFINITY),
    (12, 1, |g| g.forcing(1)[N + 20] = 0.11),
    (12, 3, |g| {
        g.forcing(3)[1 + 9] = f64::NAN;
        g.forcing(3)[1 + N + 8] = -0.2;
    }),
    (12, 4, |g| g.forcing(4)[2 * N] = -0.2),
    (13, 0, |g| g.forcing(0)[0] = -29.0),
    (13, 1, |g| g.forcing(1)[0] = -29.0),
    (13, 2, |g| g.forcing(2)[0] = -29.0),
    (13, 4, |g| g.forcing(4)[0] = -29.0),
    (13, 0, |g| g.state[N + 7] = 29.0),
    // a speed, after all elevations have passed, at the first forcing and at the second
    (13, 0, |g| g.state[2 * N + 8] = 19.9999),
    (13, 1, |g| g.state[2 * N..3 * N].fill(19.99)),
    // the first of two
    (12, 1, |g| {
        g.forcing(1)[7] = 0.11;
        g.forcing(3)[0] = -29.0;
    }),
    (13, 1, |g| {
        g.forcing(1)[0] = -29.0;
        g.forcing(3)[0] = 31.0;
    }),
];

/// Stops where the programs differ, at either setting. Says how many faults and how many right lists were tried.
pub fn calls() -> (usize, usize) {
    let sound = Given::sound();
    for (at, &(row, accepted, change)) in RIGHT.iter().chain(FAULTS).enumerate() {
        let mut given = sound.clone();
        change(&mut given);
        for advection in [false, true] {
            given.world.p.advection = advection;
            alike(&format!("list {at}, advection {advection}"), (row, accepted), &given);
        }
    }
    (FAULTS.len(), RIGHT.len())
}

fn alike(case: &str, due: (u32, usize), given: &Given) {
    let product = outcome(&Product, given);
    let Stepped { answer, accepted, .. } = product.stepped;
    assert!((answer.number, accepted as usize) == due, "{case}: the product gives {answer:?} after {accepted} steps, not {due:?}");
    for program in [&TESTED as &dyn Program].into_iter().chain(KEEPING) {
        let tested = outcome(program, given);
        let (same, name) = (tested.reached == product.reached && tested.rooms == product.rooms, program.name());
        assert!(same, "{case}: product {answer:?} after {accepted} steps, {name} {:?} after {}", tested.stepped.answer, tested.stepped.accepted);
    }
    if answer.number == 0 {
        assert!(outcome(&Bare, given).reached == product.reached, "{case}: the bare program reaches another state");
    }
}
