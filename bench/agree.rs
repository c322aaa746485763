//! That the tested program makes the product's refusal tests in the calls on a run and on its forcings: both are given the same faults, and must
//! answer alike and leave the same behind.

use crate::hex;
use crate::product::Product;
use crate::run::{Answer, Clock, Mesh, Program, Rooms};
use crate::texts;
use crate::world::{respell, World};
use crate::{AS_SET, TESTED};

/// The nodes of the mesh, and where in a save the line of parameters, the node lines and the end line begin.
const N: usize = 20;
const PARAMETERS: usize = hex::line(hex::HEAD);
const NODES: usize = PARAMETERS + hex::line(hex::PARAMETERS);
const END: usize = NODES + N * hex::line(hex::NODE);

/// Where in a save of edition 1 and in a forcing the node lines begin.
const NODES_1: usize = hex::line(hex::HEAD_1);
const WINDS: usize = hex::line(hex::SEA);

/// All that goes into the five calls.
#[derive(Clone)]
struct Given {
    world: World,
    state: Vec<f64>,
    clock: Clock,
    forcing: Vec<f64>,
    text: Vec<u8>,
    work: usize,
    room: usize,
    /// a forcing's lines, and the sequence that is due where it is one line
    log: Vec<u8>,
    expected: u32,
}

impl Given {
    /// A run that is accepted by every call, with other winds at every node.
    fn sound() -> Given {
        let world = World::grid(5, 4);
        let water = (0..4 * N).map(|i| (i % 7) as f64 / 8.0 - 0.25);
        let wind = |i: usize| (i % 11) as f64 / 128.0 - 0.04;
        let forcing: Vec<f64> = [0.5].into_iter().chain((0..2 * N).map(|i| -wind(3 * i))).collect();
        let mut given = Given {
            world,
            state: water.chain((0..2 * N).map(wind)).collect(),
            clock: Clock { step: 5 },
            log: texts::winds(&forcing),
            forcing,
            text: Vec::new(),
            work: 5 * N,
            room: hex::save(N),
            expected: 5,
        };
        given.save();
        given
    }

    /// The text becomes the run's own save.
    fn save(&mut self) {
        self.text = vec![0; hex::save(N)];
        assert_eq!(Product.save(&self.world.mesh(), &mut self.text, &self.state, self.clock).number, 0);
    }

    /// The text becomes a save of edition 1.
    fn save_1(&mut self, wind: [f64; 2]) {
        self.text = texts::edition_1(&self.world.mesh(), &self.state, self.clock.step, wind);
    }

    /// The forcing's lines become the one of kind 10.
    fn one_wind(&mut self, sequence: usize) {
        self.log = texts::one_wind(sequence, 0.5, [0.03, -0.04]);
    }
}

/// What the calls answer and leave behind, as numbers to compare.
fn outcomes(program: &dyn Program, given: &Given) -> (Vec<u32>, Vec<u64>) {
    let (mut numbers, mut traces) = (Vec::new(), Vec::new());
    let mut trace = |answer: Answer, clock: Clock, slices: &[&[f64]]| {
        numbers.push(answer.number);
        traces.extend([u64::from(answer.number), answer.place as u64, answer.value.to_bits(), u64::from(clock.step)]);
        traces.extend(slices.iter().flat_map(|slice| slice.iter()).map(|v| v.to_bits()));
    };
    let mesh: Mesh = given.world.mesh();
    let n = mesh.nodes();

    let mut state = vec![7.0; given.state.len()];
    let (answer, clock) = program.open(&mesh, &mut state);
    trace(answer, clock, &[&state]);

    let (mut next, mut work, mut sums) = (vec![7.0; 6 * n], vec![7.0; given.work], vec![7; n]);
    let rooms = Rooms { next: &mut next, work: &mut work, sums: &mut sums };
    let (answer, clock) = program.step(&mesh, rooms, &given.state, given.clock, &given.forcing);
    let sums: Vec<f64> = sums.iter().map(|&s| s as f64).collect();
    trace(answer, clock, &[&next, &work, &sums]);

    let mut text = vec![b'.'; given.room];
    let answer = program.save(&mesh, &mut text, &given.state, given.clock);
    let text: Vec<f64> = text.iter().map(|&byte| f64::from(byte)).collect();
    trace(answer, given.clock, &[&text]);

    let mut state = vec![7.0; given.state.len()];
    let (answer, clock) = program.load(&mesh, &mut state, &given.text, given.clock);
    trace(answer, clock, &[&state]);

    let mut forcing = vec![7.0; given.forcing.len()];
    let answer = program.read_forcing(&mut forcing, &given.log, given.expected);
    trace(answer, given.clock, &[&forcing]);
    (numbers, traces)
}

/// Mends the check byte of the line that starts at `from` and whose frame has so many bytes, so that only what is meant is wrong.
fn mend(text: &mut [u8], from: usize, frame: usize) {
    let byte = |at: usize, text: &[u8]| {
        let word = std::str::from_utf8(&text[at..at + 2]).unwrap();
        u8::from_str_radix(word, 16).unwrap()
    };
    let check = from + 2 * (frame - 1);
    let sum = (from..check).step_by(2).fold(0u8, |sum, at| sum.wrapping_add(byte(at, text)));
    text[check..check + 2].copy_from_slice(format!("{:02X}", sum.wrapping_neg()).as_bytes());
}

type Fault = (u32, fn(&mut Given));

/// No fault, the texts in other spellings and forms, and then faults for each row; the row is the one that it must bring out in at least one call,
/// 0 in all.
const FAULTS: &[Fault] = &[
    (0, |_| {}),
    (0, |g| g.text.make_ascii_lowercase()),
    (0, |g| respell(&mut g.text)),
    (0, |g| g.log.make_ascii_lowercase()),
    (0, |g| g.one_wind(5)),
    (0, |g| {
        g.save_1([0.1, -0.1]);
        respell(&mut g.text);
    }),
    (1, |g| g.work += 1),
    // the rooms that were asked before #103 and before #105
    (1, |g| g.work = 3 * N),
    (1, |g| g.state.truncate(4 * N)),
    (1, |g| g.forcing.truncate(3)),
    (1, |g| g.forcing.push(0.0)),
    (1, |g| g.forcing.clear()),
    (1, |g| g.world.tri.truncate(71)),
    (2, |g| g.world.tri.clear()),
    (3, |g| g.world.tri[7] = 20),
    (4, |g| g.world.x[19] = 200_000),
    (4, |g| g.world.y[0] = i32::MIN),
    (5, |g| g.world.tri.swap(9, 10)),
    (6, |g| g.world.tri.extend([0, 1, 6])),
    (7, |g| g.world.tri.truncate(66)),
    (8, |g| g.world.h[11] = f64::NAN),
    (8, |g| g.world.kind[12] = 3),
    (9, |g| g.world.p.dt = 0.1),
    (9, |g| g.world.p.f = 0.01),
    (10, |g| g.state[3] = 30.5),
    (10, |g| g.state[N + 4] = -g.world.h[4]),
    (10, |g| g.state[3 * N + 19] = f64::NAN),
    (10, |g| g.state[4 * N] = 0.11),
    (10, |g| g.state[5 * N + 19] = f64::NAN),
    // a node's wind before a later node's speed
    (10, |g| {
        g.state[2 * N + 9] = 21.0;
        g.state[5 * N + 8] = -0.2;
    }),
    (10, |g| g.save_1([0.0, 0.11])),
    (11, |g| g.clock.step = u32::MAX),
    (12, |g| g.forcing[0] = -31.0),
    (12, |g| g.forcing[1] = f64::INFINITY),
    (12, |g| g.forcing[N + 20] = 0.11),
    // Wy' of a node before Wx' of a later one
    (12, |g| {
        g.forcing[1 + 9] = f64::NAN;
        g.forcing[1 + N + 8] = -0.2;
    }),
    (13, |g| g.forcing[0] = -29.0),
    (13, |g| g.state[N + 7] = 29.0),
    (13, |g| g.state[2 * N + 8] = 19.9999),
    (20, |g| g.text.clear()),
    (20, |g| g.text.truncate(1)),
    (20, |g| g.text[11] = b'g'),
    (20, |g| g.text[11] = b'`'),
    (20, |g| g.text[PARAMETERS + 30] = b'/'),
    (20, |g| g.text[NODES + 30] = b'G'),
    (20, |g| g.text[NODES + 104] = b' '),
    (20, |g| g.text.truncate(300)),
    (20, |g| g.text.truncate(END)),
    (20, |g| g.text.push(b'\n')),
    // a text of edition 2 under the lengths of edition 1
    (20, |g| g.text[..2].copy_from_slice(b"01")),
    (20, |g| {
        g.save_1([0.0; 2]);
        g.text.push(b'\n');
    }),
    (20, |g| g.log.clear()),
    (20, |g| g.log[WINDS + 40] = b'0'),
    (20, |g| g.log.truncate(WINDS + 41 * 19 + 7)),
    (20, |g| g.log.extend(b"15")),
    (20, |g| {
        g.one_wind(5);
        g.log.extend(b"\n");
    }),
    (21, |g| g.text[11] = b'a'),
    (21, |g| g.text[PARAMETERS + 80] ^= 1),
    (21, |g| g.text[NODES + 105 + 20] ^= 1),
    (21, |g| {
        g.save_1([0.0; 2]);
        g.text[NODES_1 + 20] ^= 1;
    }),
    (21, |g| g.log[WINDS + 30] ^= 1),
    (22, |g| {
        g.text[NODES + 5] = b'7';
        mend(&mut g.text, NODES, hex::NODE);
    }),
    // the sequence that edition 1 has at the end
    (22, |g| {
        g.text[END + 5] = b'5';
        mend(&mut g.text, END, hex::END);
    }),
    (22, |g| {
        g.save_1([0.0; 2]);
        g.text[NODES_1 + 5] = b'2';
        mend(&mut g.text, NODES_1, hex::NODE_1);
    }),
    (22, |g| {
        g.log[WINDS + 1] = b'4';
        mend(&mut g.log, WINDS, hex::WIND);
    }),
    (22, |g| g.one_wind(4)),
    (22, |g| {
        g.one_wind(0);
        g.expected = 65_536;
    }),
    (23, |g| {
        g.text[9] = b'5';
        g.text[13] -= 1;
    }),
    (23, |g| {
        g.text[END + 9] = b'3';
        mend(&mut g.text, END, hex::END);
    }),
    (24, |g| g.room -= 1),
    (25, |g| g.world.p.dt = 2.5),
    (25, |g| g.world.p.tau = 0.0),
    (25, |g| g.world.p.f = -0.0001),
    // the other zero
    (25, |g| {
        g.world.p.k = 0.0;
        g.save();
        g.world.p.k = -0.0;
    }),
    // D of some triangles
    (25, |g| g.world.x[0] -= 1),
];

/// Stops where the two differ, at either setting. Says how many faults were tried.
pub fn refusals() -> usize {
    let sound = Given::sound();
    for (at, &(row, spoil)) in FAULTS.iter().enumerate() {
        let mut given = sound.clone();
        spoil(&mut given);
        alike(at, row, &given);
        given.world.p.advection = true;
        alike(at, row, &given);
    }
    FAULTS.iter().filter(|fault| fault.0 != 0).count()
}

fn alike(at: usize, row: u32, given: &Given) {
    let advection = given.world.p.advection;
    let (numbers, product) = outcomes(&Product, given);
    let others = numbers.iter().any(|&number| number != row);
    assert!(numbers.contains(&row) && !(row == 0 && others), "fault {at}, advection {advection}: the product answers {numbers:?}, not {row}");
    for program in [TESTED, AS_SET] {
        let (tested, traces) = outcomes(&program, given);
        assert!(product == traces, "fault {at}, row {row}, advection {advection}: product {numbers:?}, tested {tested:?}");
    }
}
