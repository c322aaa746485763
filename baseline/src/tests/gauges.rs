//! Gauges, sentence by sentence. On mesh T, whose D is 10,000, the sub-areas of a
//! point (x, y) are w1 = 10,000 - 100x - 100y, w2 = 100x and w3 = 100y.

use super::*;
use crate::{gauge_add, gauge_elevation, gauge_locate, gauge_peak, gauge_update};
use crate::{Crossed, Highest};

/// What the board lends: bytes, and four numbers.
#[derive(Clone)]
struct Board {
    state: Vec<u8>,
    x: Vec<u8>,
    y: Vec<u8>,
    tri: Vec<u8>,
    h: Vec<u8>,
    kind: Vec<u8>,
    p: Parameters,
    record: Vec<u8>,
}

/// The patterns of floats, big-endian.
fn patterns(floats: &[f64]) -> Vec<u8> {
    floats
        .iter()
        .flat_map(|float| float.to_be_bytes())
        .collect()
}

impl Board {
    /// A run's bytes, and a fresh record.
    fn of(lent: &Lent) -> Board {
        let whole = |numbers: &[i32]| numbers.iter().flat_map(|x| x.to_be_bytes()).collect();
        Board {
            state: patterns(&lent.state),
            x: whole(&lent.x),
            y: whole(&lent.y),
            tri: lent
                .tri
                .iter()
                .flat_map(|node| node.to_be_bytes())
                .collect(),
            h: patterns(&lent.h),
            kind: lent.kind.clone(),
            p: lent.p,
            record: vec![0; 1_345],
        }
    }

    /// Mesh T with these present elevations, and with others before.
    fn mesh_t(z: [f64; 3]) -> Board {
        let mut board = Board::of(&Lent::mesh_t());
        board.rise(z);
        board
    }

    /// The square of two triangles that share the diagonal.
    fn square() -> Board {
        Board::of(&Lent::square())
    }

    /// A state of mesh T with these present elevations.
    fn rise(&mut self, z: [f64; 3]) {
        let earlier = [-7.0, -6.0, -5.0];
        let flow = [0.5, -0.5, 0.25, 0.125, 1.0, -1.0];
        let wind = [0.01, 0.02, 0.03, -0.01, -0.02, -0.03];
        self.state = patterns(&[&earlier[..], &z, &flow, &wind].concat());
    }

    fn crossed(&self) -> Crossed<'_> {
        Crossed {
            state: &self.state,
            x: &self.x,
            y: &self.y,
            tri: &self.tri,
            h: &self.h,
            kind: &self.kind,
            p: self.p,
        }
    }

    fn locate(&self, x: i32, y: i32) -> (Answer, u32) {
        gauge_locate(self.crossed(), [x, y])
    }

    fn add(&mut self, x: i32, y: i32) -> (Answer, u32) {
        let mut record = std::mem::take(&mut self.record);
        let outcome = gauge_add(&mut record, self.crossed(), [x, y]);
        self.record = record;
        outcome
    }

    fn elevation(&self, gauge: u32) -> (Answer, f64) {
        gauge_elevation(&self.record, self.crossed(), gauge)
    }

    fn update(&mut self, step: u32) -> Answer {
        let mut record = std::mem::take(&mut self.record);
        let answer = gauge_update(&mut record, self.crossed(), step);
        self.record = record;
        answer
    }

    fn peak(&self, gauge: u32) -> (Answer, Highest) {
        gauge_peak(&self.record, gauge)
    }

    /// Expects the triangle of a point.
    fn finds(&self, x: i32, y: i32, triangle: u32) {
        let (answer, found) = self.locate(x, y);
        accepted(answer, 0);
        assert_eq!(found, triangle, "{x} {y}");
    }

    /// Adds a gauge, and expects this number.
    fn adds(&mut self, x: i32, y: i32, gauge: u32) {
        let (answer, given_out) = self.add(x, y);
        accepted(answer, 0);
        assert_eq!(given_out, gauge);
    }

    /// Expects an elevation to the last bit.
    fn stands_at(&self, gauge: u32, expected: f64) {
        let (answer, elevation) = self.elevation(gauge);
        accepted(answer, 0);
        assert_eq!(elevation.to_bits(), expected.to_bits(), "{elevation}");
    }

    /// Hands over a state of mesh T.
    fn hands_over(&mut self, z: [f64; 3], step: u32) {
        self.rise(z);
        accepted(self.update(step), 0);
    }

    /// Expects what the record has of a gauge.
    fn has(&self, gauge: u32, seen: u8, peak: f64, step: u32) {
        let (answer, highest) = self.peak(gauge);
        accepted(answer, 0);
        assert_eq!((highest.seen, highest.step), (seen, step));
        assert_eq!(highest.peak.to_bits(), peak.to_bits(), "{}", highest.peak);
    }

    /// Expects each call that is lent a mesh to refuse so, whatever is asked, with
    /// the record as found and nothing handed back.
    fn refuses_all(mut self, number: u32, place: usize) {
        let (answer, triangle) = self.locate(25, 25);
        refused(answer, number, place);
        assert_eq!(triangle, 0);
        self.refuses_with_a_record(number, place);
    }

    /// The same of the three calls that are lent a record as well.
    fn refuses_with_a_record(&mut self, number: u32, place: usize) {
        let found = self.record.clone();
        let (answer, gauge) = self.add(25, 25);
        refused(answer, number, place);
        assert_eq!(gauge, 0);
        let (answer, elevation) = self.elevation(0);
        refused(answer, number, place);
        assert_eq!(elevation.to_bits(), 0);
        refused(self.update(9), number, place);
        assert_eq!(self.record, found);
    }

    /// Expects a 43 of the four calls that are lent a record.
    fn refuses_the_record(mut self, place: usize) {
        accepted(self.locate(25, 25).0, 0);
        self.refuses_with_a_record(43, place);
        let (answer, highest) = self.peak(0);
        refused(answer, 43, place);
        nothing(highest);
    }
}

/// What a refused question for a peak hands back.
fn nothing(highest: Highest) {
    assert_eq!((highest.seen, highest.step), (0, 0));
    assert_eq!(highest.peak.to_bits(), 0);
}

/// The bytes of a row.
fn row(x: i32, y: i32, seen: u8, peak: f64, step: u32) -> Vec<u8> {
    let mut row = [x.to_be_bytes(), y.to_be_bytes()].concat();
    row.push(seen);
    row.extend(peak.to_be_bytes());
    row.extend(step.to_be_bytes());
    row
}

/// Puts a row into a record.
fn put_row(record: &mut [u8], gauge: usize, row: &[u8]) {
    record[1 + 21 * gauge..][..21].copy_from_slice(row);
}

/// "three doubled sub-areas w with their signs, each named for the corner it lies
/// opposite": a point at (10, 20) has w = 7,000, 1,000 and 2,000.
#[test]
fn each_sub_area_weighs_the_corner_it_lies_opposite() {
    let mut board = Board::mesh_t([0.0; 3]);
    board.adds(10, 20, 0);
    for (z, elevation) in [
        ([1.0, 0.0, 0.0], 0.7),
        ([0.0, 1.0, 0.0], 0.1),
        ([0.0, 0.0, 1.0], 0.2),
        ([1.0, 2.0, 4.0], 1.7),
    ] {
        board.rise(z);
        board.stands_at(0, elevation);
    }
}

/// "the gauge elevation is ((w1·z1 + w2·z2) + w3·z3)/D", and no other order: at
/// (33, 10) w is 5,700, 3,300 and 1,000.
#[test]
fn the_elevation_is_worked_out_in_this_order() {
    let z = [0.1, 1.1, 1.0 / 3.0];
    let mut board = Board::mesh_t(z);
    board.adds(33, 10, 0);
    let parts = [5_700.0 * z[0], 3_300.0 * z[1], 1_000.0 * z[2]];
    let expected = ((parts[0] + parts[1]) + parts[2]) / 10_000.0;
    assert_eq!(expected.to_bits(), 0x3FDD_0369_D036_9D03);
    board.stands_at(0, expected);
    assert_ne!((parts[0] + (parts[1] + parts[2])) / 10_000.0, expected);
    let [w1, w2, w3] = [0.57, 0.33, 0.1];
    assert_ne!((w1 * z[0] + w2 * z[1]) + w3 * z[2], expected);
}

/// At a node's own point it is (D·z)/D, which is not always z; and it may be above
/// all of its corners.
#[test]
fn the_elevation_is_rounded() {
    let z = f64::from_bits(0x3FCB_D017_0EBB_CF60);
    let mut board = Board::mesh_t([z, 0.0, 0.0]);
    board.adds(0, 0, 0);
    board.stands_at(0, z.next_down());
    board.adds(72, 10, 1);
    let third = 1.0 / 3.0;
    board.rise([third; 3]);
    board.stands_at(1, third.next_up());
}

/// It is never beyond 30 where row 10 holds.
#[test]
fn an_elevation_is_within_row_10() {
    let mut board = Board::mesh_t([0.0; 3]);
    board.h = patterns(&[31.0; 3]);
    for (gauge, (x, y)) in (0..101)
        .flat_map(|x| (0..101 - x).map(move |y| (x, y)))
        .enumerate()
    {
        if gauge % 81 == 0 {
            board.adds(x, y, gauge as u32 / 81);
        }
    }
    for limit in [30.0, -30.0] {
        board.rise([limit; 3]);
        for gauge in 0..u32::from(board.record[0]) {
            let (_, elevation) = board.elevation(gauge);
            assert!(elevation.abs() <= 30.0);
        }
    }
}

/// "none negative": an edge and a corner are inside.
#[test]
fn edges_and_corners_are_inside() {
    let board = Board::mesh_t([0.0; 3]);
    for (x, y) in [(0, 0), (100, 0), (0, 100), (1, 0), (99, 0), (0, 1), (0, 99)] {
        board.finds(x, y, 0);
    }
    for x in 0..=100 {
        board.finds(x, 100 - x, 0);
    }
    for (x, y) in [(25, 25), (1, 1), (98, 1), (1, 98), (33, 33)] {
        board.finds(x, y, 0);
    }
}

/// "then 40 exactly when no triangle contains the point".
#[test]
fn row_40_a_metre_outside() {
    let mut board = Board::mesh_t([0.0; 3]);
    for (x, y) in [
        (-1, 0),
        (0, -1),
        (-1, -1),
        (101, 0),
        (100, -1),
        (0, 101),
        (-1, 100),
    ] {
        refused(board.locate(x, y).0, 40, 0);
        refused(board.add(x, y).0, 40, 0);
    }
    for x in 0..=101 {
        refused(board.locate(x, 101 - x).0, 40, 0);
    }
    assert_eq!(board.record, [0; 1_345]);
}

/// Every point is a 32-bit one: a difference can need 33 bits, and a product 66.
#[test]
fn points_at_the_ends_of_32_bits() {
    let ends = [i32::MIN, i32::MIN + 1, 0, i32::MAX - 1, i32::MAX];
    let mut board = Board::mesh_t([0.0; 3]);
    for (x, y) in ends.into_iter().flat_map(|x| ends.map(|y| (x, y))) {
        let number = if (x, y) == (0, 0) { 0 } else { 40 };
        assert_eq!(board.locate(x, y).0.number, number, "{x} {y}");
    }
    let (low, high) = (i32::MIN, i32::MAX);
    for [x, y] in [
        [low, low],
        [low, high - 100],
        [high - 100, low],
        [high - 100; 2],
    ] {
        board.x = [x, x + 100, x]
            .iter()
            .flat_map(|x| x.to_be_bytes())
            .collect();
        board.y = [y, y, y + 100]
            .iter()
            .flat_map(|y| y.to_be_bytes())
            .collect();
        board.finds(x, y, 0);
        board.finds(x + 100, y, 0);
        board.finds(x, y + 100, 0);
        refused(board.locate(x + 100, y + 100).0, 40, 0);
        for (px, py) in [(low, low), (low, high), (high, low), (high, high), (0, 0)] {
            let inside = i64::from(px) + i64::from(py) <= i64::from(x) + i64::from(y) + 100;
            let number = if px >= x && py >= y && inside { 0 } else { 40 };
            assert_eq!(board.locate(px, py).0.number, number, "{x} {y} {px} {py}");
        }
    }
}

/// "it finds the lowest-numbered triangle that contains it".
#[test]
fn the_lowest_numbered_triangle() {
    let mut board = Board::square();
    for (x, y, triangle) in [
        (75, 25, 0),
        (25, 75, 1),
        (50, 50, 0),
        (0, 0, 0),
        (0, 100, 1),
    ] {
        board.finds(x, y, triangle);
    }
    board.tri.rotate_left(6);
    for (x, y, triangle) in [
        (75, 25, 1),
        (25, 75, 0),
        (50, 50, 0),
        (0, 0, 0),
        (0, 100, 0),
    ] {
        board.finds(x, y, triangle);
    }
}

/// The elevation is that of the lowest-numbered triangle: two halves of the square
/// over both diagonals, with z = 1, 0, 0, 0. At (50, 25) w is 5,000, 2,500, 2,500
/// in 0 1 2, and 2,500, 5,000, 2,500 in 0 1 3.
#[test]
fn the_elevation_where_triangles_overlap() {
    for (tri, elevation) in [([0, 1, 2, 0, 1, 3], 0.5), ([0, 1, 3, 0, 1, 2], 0.25)] {
        let mut lent = Lent::square();
        lent.tri = tri.to_vec();
        lent.state[4] = 1.0;
        let mut board = Board::of(&lent);
        board.adds(50, 25, 0);
        board.stands_at(0, elevation);
    }
}

/// "Row 6 is tested only when a mesh is opened".
#[test]
fn a_leg_twice_is_not_asked() {
    let mut lent = Lent::mesh_t();
    lent.tri = vec![0, 1, 2, 1, 2, 0];
    let mut board = Board::of(&lent);
    lent.open_refused(6, 1);
    board.finds(25, 25, 0);
    board.adds(25, 25, 0);
    board.stands_at(0, 0.0);
    accepted(board.update(3), 0);
    board.has(0, 1, 0.0, 3);
}

/// "The record is 1,345 bytes, all zero when fresh: gauge count, then 64 rows of
/// x, y (4 each), seen (1), peak (8), step (4)", big-endian.
#[test]
fn the_record_byte_by_byte() {
    let mut board = Board::mesh_t([1.0, 2.0, 4.0]);
    board.adds(25, 25, 0);
    board.adds(0, 100, 1);
    let mut expected = vec![0; 1_345];
    expected[0] = 2;
    expected[4] = 25;
    expected[8] = 25;
    expected[29] = 100;
    assert_eq!(board.record, expected);
    accepted(board.update(0x0102_0304), 0);
    for (at, byte) in [(9, 1), (10, 0x40), (18, 1), (19, 2), (20, 3), (21, 4)] {
        expected[at] = byte;
    }
    for (at, byte) in [
        (30, 1),
        (31, 0x40),
        (32, 0x10),
        (39, 1),
        (40, 2),
        (41, 3),
        (42, 4),
    ] {
        expected[at] = byte;
    }
    assert_eq!(board.record, expected);
    board.has(0, 1, 2.0, 0x0102_0304);
    board.has(1, 1, 4.0, 0x0102_0304);
}

/// Coordinates below zero.
#[test]
fn x_and_y_are_signed() {
    let mut lent = Lent::mesh_t();
    lent.x = vec![-50, 50, -50];
    lent.y = vec![-2, -2, 98];
    let mut board = Board::of(&lent);
    board.adds(-50, -2, 0);
    assert_eq!(board.record[1..9], [255, 255, 255, 206, 255, 255, 255, 254]);
    accepted(board.update(0), 0);
}

/// "the highest elevation so far and the first step that had it"; "an equal
/// elevation doesn't replace the first".
#[test]
fn the_first_step_that_had_the_highest() {
    let mut board = Board::mesh_t([0.0; 3]);
    board.adds(50, 0, 0);
    board.has(0, 0, 0.0, 0);
    // z1 and z2 weigh half each.
    for (z, step, peak, first) in [
        ([-3.0, -1.0, 9.0], 5, -2.0, 5),
        ([-1.0, -3.0, 7.0], 6, -2.0, 5),
        ([-3.0, -3.0, 8.0], 7, -2.0, 5),
        ([1.0, 2.0, 0.0], 8, 1.5, 8),
        ([3.0, 0.0, 0.0], 9, 1.5, 8),
        ([3.0, 1.0, 0.0], 4, 2.0, 4),
        ([2.0, 2.0, 0.0], 3, 2.0, 4),
    ] {
        board.hands_over(z, step);
        board.has(0, 1, peak, first);
    }
}

/// Elevations are compared as floats: a zero of one sign is equal to that of the
/// other.
#[test]
fn a_zero_beside_the_other() {
    for (first, second) in [(0.0, -0.0), (-0.0, 0.0)] {
        let mut board = Board::mesh_t([0.0; 3]);
        board.adds(25, 25, 0);
        board.hands_over([first; 3], 1);
        board.hands_over([second; 3], 2);
        board.has(0, 1, first, 1);
    }
}

/// One bit higher is higher.
#[test]
fn one_bit_higher_replaces() {
    let mut board = Board::mesh_t([0.0; 3]);
    board.adds(0, 0, 0);
    board.hands_over([0.5, 0.0, 0.0], 1);
    board.hands_over([0.5_f64.next_down(), 0.0, 0.0], 2);
    board.has(0, 1, 0.5, 1);
    let higher = 0.5_f64.next_up();
    board.hands_over([higher, 0.0, 0.0], 3);
    board.has(0, 1, higher, 3);
}

/// A row of a foreign record: where it is not seen its peak is not looked at, and
/// a NaN is no peak.
#[test]
fn peaks_of_a_foreign_record() {
    let nans = [
        f64::NAN,
        f64::from_bits(FILL),
        f64::from_bits(0xFFF0_0000_0000_0001),
    ];
    let mut fresh = Board::mesh_t([0.25; 3]);
    fresh.adds(25, 25, 0);
    for (seen, peak, replaced) in [
        (1, nans[0], true),
        (1, nans[1], true),
        (1, nans[2], true),
        (0, nans[1], true),
        (0, 30.0, true),
        (0, f64::INFINITY, true),
        (0, 0.25, true),
        (1, 30.0, false),
        (1, f64::INFINITY, false),
        (1, 0.25, false),
        (1, f64::NEG_INFINITY, true),
    ] {
        let mut board = fresh.clone();
        put_row(&mut board.record, 0, &row(25, 25, seen, peak, 7));
        let found = board.record.clone();
        accepted(board.update(9), 0);
        if replaced {
            board.has(0, 1, 0.25, 9);
        } else {
            assert_eq!(board.record, found);
        }
    }
}

/// "Each state handed over updates every gauge", of those given out alone.
#[test]
fn every_gauge_is_updated() {
    let mut board = Board::mesh_t([1.0, 2.0, 4.0]);
    let corners = [(0, 0), (100, 0), (0, 100)];
    for (gauge, (x, y)) in corners.into_iter().enumerate() {
        board.adds(x, y, gauge as u32);
    }
    for gauge in 3..64 {
        put_row(&mut board.record, gauge, &row(-9, 9, 1, f64::NAN, 7));
    }
    let found = board.record.clone();
    accepted(board.update(5), 0);
    board.hands_over([2.0, 1.0, 4.0], 6);
    board.has(0, 1, 2.0, 6);
    board.has(1, 1, 2.0, 5);
    board.has(2, 1, 4.0, 5);
    assert_eq!(board.record[0], 3);
    assert_eq!(board.record[64..], found[64..]);
}

/// A record without a gauge is accepted, at every step number: row 11 is not asked.
#[test]
fn any_step_number() {
    for step in [0, 1, u32::MAX - 1, u32::MAX] {
        let mut board = Board::mesh_t([1.0; 3]);
        accepted(board.update(step), 0);
        assert_eq!(board.record, [0; 1_345]);
        board.adds(50, 50, 0);
        accepted(board.update(step), 0);
        board.has(0, 1, 1.0, step);
    }
}

/// "a load doesn't rewind it": the record is lent apart from the run.
#[test]
fn a_load_does_not_rewind_the_record() {
    let mut lent = Lent::mesh_t();
    lent.kind = vec![1; 3];
    let mut record = vec![0; 1_345];
    let mut text = vec![0; 442];
    let handed_over = |lent: &Lent, record: &mut Vec<u8>| {
        let mut board = Board::of(lent);
        board.record.clone_from(record);
        if record[0] == 0 {
            board.adds(25, 25, 0);
        }
        accepted(board.update(lent.clock.step), 0);
        record.clone_from(&board.record);
        board
    };
    accepted(lent.save(&mut text), 442);
    for (elevation, peak, step) in [(1.0, 1.0, 1), (3.0, 3.0, 2), (2.0, 3.0, 2)] {
        lent.force(elevation, 0.0, 0.0);
        lent.step_accepted();
        handed_over(&lent, &mut record).has(0, 1, peak, step);
    }
    let (answer, clock) = lent.load(&text);
    accepted(answer, 0);
    lent.clock = clock;
    handed_over(&lent, &mut record).has(0, 1, 3.0, 2);
    lent.force(3.0, 0.0, 0.0);
    lent.step_accepted();
    assert_eq!(lent.clock.step, 1);
    handed_over(&lent, &mut record).has(0, 1, 3.0, 2);
}

/// "for at most 64 gauges": "41 for a 65th gauge", before 40.
#[test]
fn row_41_a_65th_gauge() {
    let mut board = Board::mesh_t([1.0; 3]);
    for gauge in 0..64 {
        board.adds(gauge, 0, gauge as u32);
    }
    let found = board.record.clone();
    for (x, y) in [(25, 25), (0, 0), (-1, 0)] {
        let (answer, gauge) = board.add(x, y);
        refused(answer, 41, 64);
        assert_eq!(gauge, 0);
    }
    assert_eq!(board.record, found);
    accepted(board.update(3), 0);
    board.has(63, 1, 1.0, 3);
    board.stands_at(63, 1.0);
    refused(board.elevation(64).0, 42, 64);
    refused(board.peak(64).0, 42, 64);
}

/// "42 for a gauge number not yet given out", at the number asked.
#[test]
fn row_42_a_number_not_given_out() {
    let mut board = Board::mesh_t([1.0; 3]);
    for count in [0, 1, 2] {
        for gauge in [
            count,
            count + 1,
            63,
            64,
            255,
            256,
            65_536,
            1 << 31,
            u32::MAX,
        ] {
            let (answer, elevation) = board.elevation(gauge);
            refused(answer, 42, gauge as usize);
            assert_eq!(elevation.to_bits(), 0);
            let (answer, highest) = board.peak(gauge);
            refused(answer, 42, gauge as usize);
            nothing(highest);
        }
        board.adds(25, 25, count);
    }
}

/// "43 for a record of another length, count above 64 or seen above 1".
#[test]
fn row_43() {
    let board = Board::mesh_t([1.0; 3]);
    for length in [0, 1, 21, 1_324, 1_344, 1_346, 1_366, 2_690] {
        let mut board = board.clone();
        board.record.resize(length, 0);
        board.refuses_the_record(0);
    }
    for count in 65..=255 {
        let mut board = board.clone();
        board.record[0] = count;
        board.clone().refuses_the_record(0);
        // The count is asked before any row.
        board.record[9 + 21 * 5] = 2;
        board.refuses_the_record(0);
    }
    for row in 0..64 {
        for seen in [2, 3, 128, 255] {
            for count in [0, 1, 63, 64] {
                let mut board = board.clone();
                board.record[0] = count;
                board.record[9 + 21 * row] = seen;
                board.record[9 + 21 * 63] = seen;
                board.refuses_the_record(row);
            }
        }
    }
}

/// "after rows 1 to 10, 43", "then 41", "then 42", "then 40".
#[test]
fn the_order_of_the_rows() {
    let mut board = Board::mesh_t([31.0, 0.0, 0.0]);
    board.record.pop();
    board.refuses_all(10, 0);
    let mut board = Board::mesh_t([0.0; 3]);
    board.record[0] = 64;
    board.record[9 + 21 * 63] = 2;
    refused(board.add(-1, -1).0, 43, 63);
    refused(board.elevation(u32::MAX).0, 43, 63);
    refused(board.peak(u32::MAX).0, 43, 63);
    board.record[9 + 21 * 63] = 1;
    refused(board.add(-1, -1).0, 41, 64);
    // A point outside in a row that is not given out.
    board.record[0] = 1;
    put_row(&mut board.record, 1, &row(-1, -1, 1, 0.0, 0));
    refused(board.elevation(1).0, 42, 1);
}

/// "gauge number from 0 as place" of 40: that which an add would have given out,
/// that which is asked, or the first that an update meets.
#[test]
fn the_place_of_row_40() {
    let mut board = Board::mesh_t([1.0; 3]);
    refused(board.add(101, 0).0, 40, 0);
    board.adds(25, 25, 0);
    board.adds(30, 30, 1);
    refused(board.add(101, 0).0, 40, 2);
    refused(board.locate(101, 0).0, 40, 0);
    for gauge in [2, 3, 5] {
        put_row(&mut board.record, gauge, &row(101, 0, 0, 0.0, 0));
    }
    put_row(&mut board.record, 4, &row(25, 25, 0, 0.0, 0));
    board.record[0] = 6;
    for gauge in [2, 3, 5] {
        let (answer, elevation) = board.elevation(gauge);
        refused(answer, 40, gauge as usize);
        assert_eq!(elevation.to_bits(), 0);
    }
    // "each leaves the peak record as found", the gauges before it too.
    let found = board.record.clone();
    refused(board.update(9), 40, 2);
    assert_eq!(board.record, found);
    board.record[0] = 2;
    accepted(board.update(9), 0);
    assert_ne!(board.record, found);
}

/// One record serves one mesh: on another one its gauges may be outside.
#[test]
fn a_record_of_another_mesh() {
    let mut board = Board::square();
    board.adds(10, 10, 0);
    board.adds(90, 90, 1);
    accepted(board.update(1), 0);
    let mut other = Board::mesh_t([5.0; 3]);
    other.record.clone_from(&board.record);
    refused(other.update(2), 40, 1);
    assert_eq!(other.record, board.record);
    other.stands_at(0, 5.0);
}

/// An add writes the whole row, whatever a foreign record had there.
#[test]
fn an_add_writes_the_whole_row() {
    for peak in [1.0, f64::from_bits(FILL), f64::INFINITY, -0.0] {
        let mut board = Board::mesh_t([1.0; 3]);
        put_row(&mut board.record, 0, &row(-7, 7, 1, peak, 77));
        put_row(&mut board.record, 1, &row(-8, 8, 1, peak, 88));
        let mut expected = board.record.clone();
        board.adds(25, 25, 0);
        expected[0] = 1;
        put_row(&mut expected, 0, &row(25, 25, 0, 0.0, 0));
        assert_eq!(board.record, expected);
    }
}

/// A peak is handed back as it stands, seen or not.
#[test]
fn a_peak_as_it_stands() {
    let mut board = Board::mesh_t([1.0; 3]);
    board.record[0] = 2;
    for (seen, peak, step) in [(0, 2.5, 7), (1, -0.0, u32::MAX), (1, f64::INFINITY, 0)] {
        put_row(&mut board.record, 1, &row(-9, -9, seen, peak, step));
        let found = board.record.clone();
        board.has(1, seen, peak, step);
        assert_eq!(board.record, found);
    }
}

/// A question for a peak is lent no mesh, and the board may ask it at any time.
#[test]
fn a_peak_without_a_mesh() {
    let mut board = Board::mesh_t([1.0; 3]);
    board.adds(25, 25, 0);
    accepted(board.update(5), 0);
    let (answer, highest) = gauge_peak(&board.record, 0);
    accepted(answer, 0);
    assert_eq!((highest.seen, highest.peak, highest.step), (1, 1.0, 5));
}

/// 1: every slice, by a byte and by an element, shorter and longer, and empty. All
/// of row 1 comes before row 2.
#[test]
fn row_1_of_byte_slices() {
    let slice = |board: &mut Board, name: usize, length: fn(usize, usize) -> usize| {
        let (bytes, width) = match name {
            0 => (&mut board.state, 8),
            1 => (&mut board.x, 4),
            2 => (&mut board.y, 4),
            3 => (&mut board.tri, 2),
            4 => (&mut board.h, 8),
            _ => (&mut board.kind, 1),
        };
        let length = length(bytes.len(), width);
        bytes.resize(length, 0);
    };
    let lengths: [fn(usize, usize) -> usize; 6] = [
        |length, _| length - 1,
        |length, _| length + 1,
        |length, width| length - width,
        |length, width| length + width,
        |length, width| length + 4_097 * width,
        |_, _| 0,
    ];
    for name in 0..6 {
        for (change, length) in lengths.into_iter().enumerate() {
            let mut board = Board::mesh_t([1.0; 3]);
            board.adds(25, 25, 0);
            slice(&mut board, name, length);
            let empty_list = name == 3 && change == 5;
            board.refuses_all(if empty_list { 2 } else { 1 }, 0);
        }
    }
}

/// N nodes of no bytes but zeros, and E triangles.
fn crowded(n: usize, e: usize) -> Board {
    let mut board = Board::mesh_t([0.0; 3]);
    for (bytes, width) in [
        (&mut board.x, 4),
        (&mut board.y, 4),
        (&mut board.kind, 1),
        (&mut board.h, 8),
        (&mut board.state, 48),
    ] {
        bytes.resize(width * n, 0);
    }
    board.tri.resize(6 * e, 0);
    board
}

#[test]
fn row_2_by_bytes() {
    for (n, e) in [
        (0, 1),
        (2, 1),
        (4_097, 1),
        (3, 0),
        (3, 8_193),
        (65_536, 9_000),
    ] {
        crowded(n, e).refuses_all(2, 0);
    }
    // y of another length, with both large.
    let mut board = crowded(5_000, 1);
    board.y.truncate(4 * 4_998);
    board.refuses_all(1, 0);
    let mut board = crowded(5_000, 1);
    board.y.pop();
    board.refuses_all(1, 0);
}

/// As many nodes and triangles as row 2 lets through: the third corner of mesh T
/// is laid again and again.
#[test]
fn the_most_nodes_and_triangles() {
    let mut lent = Lent::mesh_t();
    lent.x.resize(4_096, 0);
    lent.y.resize(4_096, 100);
    lent.h.resize(4_096, 8.0);
    lent.kind.resize(4_096, 0);
    lent.state = vec![0.5; 6 * 4_096];
    lent.state[4 * 4_096..].fill(0.0);
    lent.tri = (0..8_192).flat_map(|t| [0, 1, 2 + t % 4_094]).collect();
    let mut board = Board::of(&lent);
    board.finds(25, 25, 0);
    board.adds(25, 25, 0);
    accepted(board.update(1), 0);
    board.has(0, 1, 0.5, 1);
    lent.tri.extend([0, 1, 2]);
    Board::of(&lent).refuses_all(2, 0);
}

/// Rows 3 to 10, as every call on a run asks them.
#[test]
fn rows_3_to_10() {
    let refuses = |change: fn(&mut Lent), number, place| {
        let mut lent = Lent::mesh_t();
        change(&mut lent);
        Board::of(&lent).refuses_all(number, place);
    };
    refuses(|lent| lent.tri[1] = 3, 3, 0);
    refuses(|lent| lent.tri.extend([0, 1, 0x0100]), 3, 1);
    refuses(|lent| lent.x[1] = 100_001, 4, 0);
    refuses(|lent| lent.tri.swap(1, 2), 5, 0);
    refuses(
        |lent| {
            lent.x.push(1);
            lent.y.push(1);
            lent.h.push(8.0);
            lent.kind.push(0);
            lent.state.extend([0.0; 6]);
        },
        7,
        3,
    );
    refuses(|lent| lent.h[2] = 0.5, 8, 2);
    refuses(|lent| lent.kind[1] = 3, 8, 1);
    refuses(|lent| lent.p.dt = 0.0, 9, 0);
    refuses(|lent| lent.p.f = f64::NAN, 9, 3);
    for (run, beyond) in [
        (0, 31.0),
        (1, -7.95),
        (2, 21.0),
        (3, f64::NAN),
        (4, 0.2),
        (5, -0.2),
    ] {
        let mut lent = Lent::mesh_t();
        lent.state[3 * run + 1] = beyond;
        Board::of(&lent).refuses_all(10, 1);
    }
}

/// A refused update leaves the record, and the next one goes on from it.
#[test]
fn a_refused_update_between_two() {
    let mut board = Board::mesh_t([0.0; 3]);
    board.adds(25, 25, 0);
    board.hands_over([1.0; 3], 1);
    board.rise([2.0, 2.0, 30.5]);
    refused(board.update(2), 10, 2);
    board.has(0, 1, 1.0, 1);
    board.hands_over([1.5; 3], 3);
    board.has(0, 1, 1.5, 3);
}

/// The setting of advection does not cross.
#[test]
fn advection_plays_no_part() {
    let mut board = Board::mesh_t([1.0, 2.0, 4.0]);
    board.p.advection = true;
    board.adds(25, 25, 0);
    board.stands_at(0, 2.0);
}
