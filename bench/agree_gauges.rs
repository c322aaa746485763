//! That the tested program makes the gauges' calls as the product does: both are given the same records, states and faults, and must answer alike and
//! leave the same record behind; where all calls are accepted, the bare program too.

use crate::bare::Bare;
use crate::gauges::{Gauges, Highest, Packed, Point, MOST};
use crate::product::Product;
use crate::record::{self, ROW, SEEN};
use crate::run::Answer;
use crate::world::World;
use crate::TESTED;

/// The nodes of the mesh.
const N: usize = 20;

/// All that goes into the calls.
#[derive(Clone)]
struct Given {
    world: World,
    state: Vec<f64>,
    /// what becomes of the bytes, after they are packed
    bytes: fn(&mut Packed),
    record: Vec<u8>,
    point: Point,
    gauge: u32,
    step: u32,
}

impl Given {
    /// Five gauges that are seen: within a triangle, at a node, at a node of the mesh's edge, on a side of two triangles, and on the mesh's edge.
    fn sound() -> Given {
        let mut world = World::grid(5, 4);
        for (node, [x, y]) in [(1, [1_000, 0]), (2, [2_000, 0]), (7, [2_000, 1_000]), (8, [3_000, 1_000])] {
            world.x[node] = x;
            world.y[node] = y;
        }
        let points = [[1_700, 1_400], [2_000, 1_000], [1_000, 0], [2_500, 1_000], [1_500, 0]];
        let mut given = Given {
            state: (0..6 * N).map(|i| (i % 13) as f64 / 128.0 - 0.04).collect(),
            world,
            bytes: |_| {},
            record: vec![0; record::BYTES],
            point: [2_300, 900],
            gauge: 3,
            step: 5,
        };
        let packed = given.packed();
        for point in points {
            assert_eq!(Product.add(&mut given.record, packed.lent(), point).0.number, 0);
        }
        given.update();
        given
    }

    fn packed(&self) -> Packed {
        let mut packed = Packed::of(&self.world, &self.state);
        (self.bytes)(&mut packed);
        packed
    }

    /// Hands the state over to the record.
    fn update(&mut self) {
        let packed = self.packed();
        assert_eq!(Product.update(&mut self.record, packed.lent(), self.step).number, 0);
        self.step += 1;
    }

    /// The water stands at one height everywhere.
    fn flat(&mut self, z: f64) {
        self.state[N..2 * N].fill(z);
    }

    fn row(&mut self, gauge: usize) -> &mut [u8] {
        &mut self.record[1 + ROW * gauge..][..ROW]
    }

    fn moved(&mut self, gauge: usize, point: Point) {
        let [x, y] = point.map(i32::to_be_bytes);
        self.row(gauge)[..SEEN].copy_from_slice(&[x, y].concat());
    }
}

/// What the calls answer and leave behind.
fn outcomes(program: &dyn Gauges, given: &Given) -> (Vec<u32>, Vec<u64>) {
    let (mut numbers, mut traces) = (Vec::new(), Vec::new());
    let mut trace = |answer: Answer, found: &[u64], record: &[u8]| {
        numbers.push(answer.number);
        traces.extend([u64::from(answer.number), answer.place as u64, answer.value.to_bits()]);
        traces.extend(found);
        traces.extend(record.iter().map(|&byte| u64::from(byte)));
    };
    let packed = given.packed();
    let lent = packed.lent();

    let mut record = given.record.clone();
    let (answer, gauge) = program.add(&mut record, lent, given.point);
    trace(answer, &[gauge.into()], &record);

    let mut record = given.record.clone();
    let (answer, elevation) = program.elevation(&record, lent, given.gauge);
    trace(answer, &[elevation.to_bits()], &[]);

    let answer = program.update(&mut record, lent, given.step);
    trace(answer, &[], &record);

    let (answer, Highest { seen, peak, step }) = program.peak(&record, given.gauge);
    trace(answer, &[seen.into(), peak.to_bits(), step.into()], &[]);
    (numbers, traces)
}

/// The row that must come out of at least one call, 0 of all, and what is done to the sound record and state.
type Case = (u32, fn(&mut Given));

/// Records and states that look odd and are right.
const RIGHT: &[Case] = &[
    (0, |_| {}),
    // an elevation that is higher, lower and equal, at the last step number that there is
    (0, |g| g.flat(0.5)),
    (0, |g| g.flat(-0.5)),
    (0, |g| {
        g.flat(0.25);
        g.update();
        g.step = u32::MAX;
    }),
    // either zero beside the other
    (0, |g| {
        g.flat(-0.0);
        (0..5).for_each(|gauge| g.row(gauge)[SEEN..].fill(0));
        g.update();
        g.flat(0.0);
    }),
    // a gauge not yet seen, with all zero and with foreign bytes; a NaN for a peak, also in a row that is not given out
    (0, |g| g.row(3)[SEEN..].fill(0)),
    (0, |g| g.row(3)[SEEN..].copy_from_slice(&[0, 0xFF, 0xFF, 0, 0, 0, 0, 0, 1, 2, 3, 4, 5])),
    (0, |g| g.row(3)[SEEN + 1..].fill(0xFF)),
    (0, |g| g.row(5)[SEEN + 1..].fill(0xFF)),
    // room for one gauge more, and all but the first five at one point
    (0, |g| {
        let first: Vec<u8> = g.row(0).into();
        (5..MOST).for_each(|gauge| g.row(gauge).copy_from_slice(&first));
        g.record[0] = MOST as u8 - 1;
        g.gauge = MOST as u32 - 2;
    }),
    // row 6 is not asked: a triangle again, and one that covers others
    (0, |g| g.world.tri.extend([0, 1, 6])),
    (0, |g| {
        let all = [0, 4, 19];
        g.world.tri.splice(..0, all);
    }),
    // the setting is not asked for
    (0, |g| g.world.p.advection = true),
];

/// At least one fault for each row, and the rows' order.
const FAULTS: &[Case] = &[
    (1, |g| g.bytes = |p| p.state.truncate(48 * N - 1)),
    (1, |g| g.bytes = |p| p.state.truncate(40 * N)),
    (1, |g| g.bytes = |p| p.state.push(0)),
    (1, |g| g.bytes = |p| p.x.truncate(4 * N - 1)),
    (1, |g| g.bytes = |p| p.x.extend([0; 4])),
    (1, |g| g.bytes = |p| p.x.clear()),
    (1, |g| g.bytes = |p| p.y.truncate(4 * N - 4)),
    (1, |g| g.bytes = |p| p.y.push(0)),
    (1, |g| g.bytes = |p| p.tri.truncate(6 * 23 + 2)),
    (1, |g| g.bytes = |p| p.tri.push(0)),
    (1, |g| g.bytes = |p| p.h.truncate(8 * N - 1)),
    (1, |g| g.bytes = |p| p.h.extend([0; 8])),
    (1, |g| g.bytes = |p| p.kind.truncate(N - 1)),
    // row 1 of the last slice before row 2
    (1, |g| {
        g.bytes = |p| {
            p.tri.clear();
            p.kind.push(0);
        }
    }),
    (2, |g| g.world.tri.clear()),
    (3, |g| g.world.tri[7] = 20),
    (4, |g| g.world.x[19] = 200_000),
    (4, |g| g.world.y[0] = i32::MIN),
    (5, |g| g.world.tri.swap(9, 10)),
    (7, |g| g.world.tri.truncate(66)),
    (8, |g| g.world.h[11] = f64::NAN),
    (8, |g| g.world.kind[12] = 3),
    (9, |g| g.world.p.dt = 0.1),
    (9, |g| g.world.p.f = 0.01),
    (10, |g| g.state[3] = 30.5),
    (10, |g| g.state[N + 4] = -g.world.h[4]),
    (10, |g| g.state[3 * N + 19] = f64::NAN),
    (10, |g| g.state[5 * N + 19] = 0.11),
    // rows 1 to 10 before 43
    (10, |g| {
        g.state[2 * N] = -20.5;
        g.record.clear();
    }),
    (40, |g| g.point = [-1_000, 0]),
    (40, |g| g.point = [i32::MAX, i32::MIN]),
    (40, |g| g.point = [i32::MIN, i32::MAX]),
    (40, |g| g.point[0] += 65_536),
    (40, |g| g.moved(3, [i32::MIN, i32::MIN])),
    (40, |g| g.moved(4, [i32::MAX, i32::MAX])),
    // the first of two, and the rows before it not updated
    (40, |g| {
        g.flat(0.5);
        g.moved(4, [0, 9_000]);
        g.moved(2, [9_000, 0]);
    }),
    (41, |g| g.record[0] = MOST as u8),
    (41, |g| {
        g.record[0] = MOST as u8;
        g.point = [-1_000, 0];
    }),
    (42, |g| g.gauge = 5),
    (42, |g| g.gauge = u32::MAX),
    (42, |g| g.record.fill(0)),
    (43, |g| g.record.clear()),
    (43, |g| g.record.truncate(record::BYTES - 1)),
    (43, |g| g.record.push(0)),
    (43, |g| g.record[0] = MOST as u8 + 1),
    (43, |g| g.row(0)[SEEN] = 2),
    (43, |g| g.row(MOST - 1)[SEEN] = 0xFF),
    // a count at place 0 before a row, the first of two rows, and both before 41 and 42
    (43, |g| {
        g.record[0] = 0xFF;
        g.row(3)[SEEN] = 2;
    }),
    (43, |g| {
        g.row(9)[SEEN] = 3;
        g.row(8)[SEEN] = 2;
        g.gauge = 9;
    }),
    (43, |g| {
        g.record[0] = MOST as u8;
        g.row(7)[SEEN] = 2;
    }),
];

/// Stops where the programs differ. Says how many faults and how many right records and states were tried.
pub fn calls() -> (usize, usize) {
    let sound = Given::sound();
    for (at, &(row, change)) in RIGHT.iter().chain(FAULTS).enumerate() {
        let mut given = sound.clone();
        change(&mut given);
        alike(at, row, &given);
    }
    (FAULTS.len(), RIGHT.len())
}

fn alike(at: usize, row: u32, given: &Given) {
    let (numbers, product) = outcomes(&Product, given);
    let others = numbers.iter().any(|&number| number != row);
    assert!(numbers.contains(&row) && !(row == 0 && others), "gauges {at}: the product answers {numbers:?}, not {row}");
    let programs: &[&dyn Gauges] = if row == 0 { &[&TESTED, &Bare] } else { &[&TESTED] };
    for &program in programs {
        let (answers, traces) = outcomes(program, given);
        assert!(product == traces, "gauges {at}, row {row}: product {numbers:?}, {} {answers:?}", program.name());
    }
}
