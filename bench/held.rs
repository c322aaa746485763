//! What one program holds of a run while it is measured.

use crate::hex;
use crate::run::{Answer, Clock, Grid, Mesh, Program, Rooms, Stepped};
use crate::world::Log;

pub struct Held<'a> {
    pub program: &'a dyn Program,
    pub state: Vec<f64>,
    pub text: Vec<u8>,
    pub clock: Clock,
    pub grid: Grid,
    pub forcing: Vec<f64>,
    next: Vec<f64>,
    /// the first 5N serve a single step, all 11N a list
    work: Vec<f64>,
    sums: Vec<u64>,
}

impl<'a> Held<'a> {
    pub fn new(program: &'a dyn Program, mesh: &Mesh) -> Held<'a> {
        let n = mesh.nodes();
        Held {
            program,
            state: vec![0.0; 6 * n],
            text: vec![0; hex::save(n)],
            clock: Clock::COLD,
            grid: Grid::of([n, n, n, mesh.tri.len()]),
            forcing: vec![0.0; 1 + 2 * n],
            next: vec![0.0; 6 * n],
            work: vec![0.0; 11 * n],
            sums: vec![0; n],
        }
    }

    pub fn open(&mut self, mesh: &Mesh) {
        let (answer, clock) = self.program.open(mesh, &mut self.state);
        self.clock = clock;
        self.accepted(answer);
    }

    /// The cold start, without the tests of a mesh.
    pub fn restart(&mut self) {
        self.state.fill(0.0);
        self.clock = Clock::COLD;
    }

    /// So many steps by a log; the next state becomes the present one.
    pub fn steps(&mut self, mesh: &Mesh, log: &Log, count: usize) {
        for _ in 0..count {
            self.step_by(mesh, log.at(self.clock.step));
        }
    }

    fn step_by(&mut self, mesh: &Mesh, forcing: &[f64]) {
        let (answer, clock) = self.step(mesh, forcing);
        self.accepted(answer);
        self.clock = clock;
        std::mem::swap(&mut self.state, &mut self.next);
    }

    /// One call, whatever it answers.
    pub fn step(&mut self, mesh: &Mesh, forcing: &[f64]) -> (Answer, Clock) {
        let rooms = Rooms { next: &mut self.next, work: &mut self.work[..5 * mesh.nodes()], sums: &mut self.sums };
        self.program.step(mesh, rooms, &self.state, self.clock, forcing)
    }

    /// A list by single calls.
    pub fn step_each(&mut self, mesh: &Mesh, forcings: &[f64]) {
        for forcing in forcings.chunks_exact(self.forcing.len()) {
            self.step_by(mesh, forcing);
        }
    }

    /// A whole list in one call; the next state becomes the present one.
    pub fn step_all(&mut self, mesh: &Mesh, forcings: &[f64]) {
        let rooms = Rooms { next: &mut self.next, work: &mut self.work, sums: &mut self.sums };
        let Stepped { answer, clock, accepted } = self.program.step_all(mesh, rooms, &self.state, self.clock, forcings);
        self.accepted(answer);
        assert_eq!(accepted as usize, forcings.len() / self.forcing.len(), "{}: another count", self.program.name());
        self.clock = clock;
        std::mem::swap(&mut self.state, &mut self.next);
    }

    pub fn save(&mut self, mesh: &Mesh) {
        let answer = self.program.save(mesh, &mut self.text, &self.state, self.clock);
        self.accepted(answer);
    }

    pub fn load(&mut self, mesh: &Mesh) {
        let (answer, clock) = self.program.load(mesh, &mut self.state, &self.text, self.clock);
        self.accepted(answer);
        self.clock = clock;
    }

    pub fn read_forcing(&mut self, text: &[u8]) {
        let answer = self.program.read_forcing(&mut self.forcing, text, 0);
        self.accepted(answer);
    }

    pub fn read_grid(&mut self, text: &[u8]) {
        let answer = self.read(text);
        self.accepted(answer);
    }

    /// One reading of a grid text, whatever it answers.
    pub fn read(&mut self, text: &[u8]) -> Answer {
        self.program.read_grid(self.grid.rooms(), text)
    }

    fn accepted(&self, answer: Answer) {
        assert_eq!(answer.number, 0, "{} refused: {answer:?}", self.program.name());
    }

    /// The bits of the state, of the forcing read last, and the clock, for comparing.
    pub fn bits(&self) -> Vec<u64> {
        let numbers = self.state.iter().chain(&self.forcing).map(|v| v.to_bits());
        numbers.chain([self.clock.step.into()]).collect()
    }
}
