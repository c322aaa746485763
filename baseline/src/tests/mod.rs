//! Tests by the document's sections, on runs lent by [`Lent`].

mod examples;
mod forcings;
mod gauges;
mod generate;
mod grids;
mod lists;
mod mesh;
mod printing;
mod saves;
mod script;
mod spellings;
mod step;

use crate::printing::{H, KIND, P, TRI, X, Y};
use crate::step::step;
use crate::{load, open, save, Answer, Clock, Parameters};

/// What a lent number that no call may touch is filled with: a NaN's pattern
/// that no operation gives.
const FILL: u64 = 0x7FF8_DEAD_BEEF_0001;

/// All that is lent for a run, each slice of any length.
#[derive(Clone)]
struct Lent {
    x: Vec<i32>,
    y: Vec<i32>,
    tri: Vec<u16>,
    h: Vec<f64>,
    kind: Vec<u8>,
    p: Parameters,
    state: Vec<f64>,
    next: Vec<f64>,
    work: Vec<f64>,
    sums: Vec<u64>,
    forcing: Vec<f64>,
    clock: Clock,
}

impl Lent {
    /// Mesh T, cold, with work room and next state that are filled.
    fn mesh_t() -> Lent {
        Lent {
            x: X.to_vec(),
            y: Y.to_vec(),
            tri: TRI.to_vec(),
            h: H.to_vec(),
            kind: KIND.to_vec(),
            p: P,
            state: vec![0.0; 18],
            next: vec![f64::from_bits(FILL); 18],
            work: vec![f64::from_bits(FILL); 15],
            sums: vec![FILL; 3],
            forcing: vec![0.0; 7],
            clock: Clock::COLD,
        }
    }

    /// A square of four nodes and two triangles, 0 1 2 and 0 2 3.
    fn square() -> Lent {
        Lent {
            x: vec![0, 100, 100, 0],
            y: vec![0, 0, 100, 100],
            tri: vec![0, 1, 2, 0, 2, 3],
            h: vec![8.0; 4],
            kind: vec![0; 4],
            state: vec![0.0; 24],
            next: vec![f64::from_bits(FILL); 24],
            work: vec![f64::from_bits(FILL); 20],
            sums: vec![FILL; 4],
            forcing: vec![0.0; 9],
            ..Lent::mesh_t()
        }
    }

    /// Sets a forcing with one wind for all nodes.
    fn force(&mut self, elevation: f64, wx: f64, wy: f64) {
        let n = self.x.len();
        self.forcing = [vec![elevation], vec![wx; n], vec![wy; n]].concat();
    }

    fn open(&mut self) -> (Answer, Clock) {
        let (x, y, tri) = (&self.x, &self.y, &self.tri);
        open(&mut self.state, x, y, tri, &self.h, &self.kind, self.p)
    }

    fn step(&mut self) -> (Answer, Clock) {
        step(
            &mut self.next,
            &mut self.work,
            &mut self.sums,
            &self.state,
            &self.forcing,
            &self.x,
            &self.y,
            &self.tri,
            &self.h,
            &self.kind,
            self.p,
            self.clock,
        )
    }

    fn save(&self, text: &mut [u8]) -> Answer {
        let (x, y, tri, h) = (&self.x, &self.y, &self.tri, &self.h);
        let (p, clock) = (self.p, self.clock);
        save(text, &self.state, x, y, tri, h, &self.kind, p, clock)
    }

    fn load(&mut self, text: &[u8]) -> (Answer, Clock) {
        let (x, y, tri, h) = (&self.x, &self.y, &self.tri, &self.h);
        let (p, clock) = (self.p, self.clock);
        load(&mut self.state, text, x, y, tri, h, &self.kind, p, clock)
    }

    /// The patterns of every float slice, and the sums: what a refusal is to leave
    /// as found.
    fn patterns(&self) -> Vec<u64> {
        let mut patterns = bits(&self.state);
        patterns.extend(bits(&self.forcing));
        patterns.extend(bits(&self.next));
        patterns.extend(bits(&self.work));
        patterns.extend(&self.sums);
        patterns
    }

    /// Opens, and expects this refusal with the cold clock and all as found.
    fn open_refused(mut self, number: u32, place: usize) {
        self.state.fill(f64::from_bits(FILL));
        self.clock = busy_clock();
        let found = self.patterns();
        let (answer, clock) = self.open();
        refused(answer, number, place);
        assert_eq!(clock, Clock::COLD);
        assert_eq!(self.patterns(), found);
    }

    /// Steps, and expects this refusal, not 13, with all as found.
    fn step_refused(mut self, number: u32, place: usize) {
        let (found, before) = (self.patterns(), self.clock);
        let (answer, clock) = self.step();
        refused(answer, number, place);
        assert_eq!(clock, before);
        assert_eq!(self.patterns(), found);
    }

    /// Steps, and expects 13 with this node and value, work room all zero and
    /// the rest as found.
    fn step_13(mut self, node: usize, value: f64) {
        let (state, next, before) = (bits(&self.state), bits(&self.next), self.clock);
        let (answer, clock) = self.step();
        assert_eq!((answer.number, answer.place), (13, node));
        assert_eq!(answer.value.to_bits(), value.to_bits(), "{}", answer.value);
        assert_eq!(clock, before);
        assert_eq!(bits(&self.state), state);
        assert_eq!(bits(&self.next), next);
        self.work_room_is_zero();
    }

    /// Steps, expects it accepted, and moves the run on to the next state.
    fn step_accepted(&mut self) {
        let (found, before) = (bits(&self.state), self.clock);
        let (answer, clock) = self.step();
        accepted(answer, 0);
        assert_eq!(bits(&self.state), found);
        assert_eq!(clock.step, before.step + 1);
        let n = self.x.len();
        assert_eq!(bits(&self.next[4 * n..]), bits(&self.forcing[1..]));
        self.work_room_is_zero();
        self.state.copy_from_slice(&self.next);
        self.clock = clock;
    }

    fn work_room_is_zero(&self) {
        assert!(bits(&self.work).iter().all(|&pattern| pattern == 0));
        assert!(self.sums.iter().all(|&sum| sum == 0));
    }
}

/// A clock that no cold start has.
fn busy_clock() -> Clock {
    Clock { step: 7 }
}

fn bits(numbers: &[f64]) -> Vec<u64> {
    numbers.iter().map(|number| number.to_bits()).collect()
}

fn accepted(answer: Answer, place: usize) {
    refused(answer, 0, place);
}

/// Expects a number and a place, with the value +0.
fn refused(answer: Answer, number: u32, place: usize) {
    assert_eq!((answer.number, answer.place), (number, place));
    assert_eq!(answer.value.to_bits(), 0);
}

/// The values outside a range by one bit on either side, and far outside it.
fn outside(low: f64, high: f64) -> [f64; 5] {
    let (below, above) = (low.next_down(), high.next_up());
    [below, above, f64::NAN, f64::INFINITY, f64::NEG_INFINITY]
}

/// One line of these frame bytes, with the check byte that makes them sum to 0
/// modulo 256 and the line feed.
fn line(frame: &[u8]) -> Vec<u8> {
    let sum: u32 = frame.iter().map(|&byte| u32::from(byte)).sum();
    let check = (256 - sum % 256) % 256;
    let mut text: String = frame.iter().map(|byte| format!("{byte:02X}")).collect();
    text += &format!("{check:02X}\n");
    text.into_bytes()
}

/// A line of floats.
fn line_with(kind: u8, sequence: u16, numbers: &[f64]) -> Vec<u8> {
    let mut frame = vec![kind];
    frame.extend(sequence.to_be_bytes());
    for number in numbers {
        frame.extend(number.to_bits().to_be_bytes());
    }
    line(&frame)
}

/// A forcing line of kind 10.
fn forcing_line(sequence: u16, numbers: [f64; 3]) -> Vec<u8> {
    line_with(0x10, sequence, &numbers)
}

/// The lines of kinds 14 and 15 of a forcing.
fn forcing_lines(forcing: &[f64]) -> Vec<Vec<u8>> {
    let n = forcing.len() / 2;
    let mut lines = vec![line_with(0x14, 0, &forcing[..1])];
    for node in 0..n {
        let wind = [forcing[1 + node], forcing[1 + n + node]];
        lines.push(line_with(0x15, node as u16 + 1, &wind));
    }
    lines
}
