//! The product, through include/surge.h. Nothing checks these declarations against the header; that the three programs give the same bits does.

use crate::run::{Answer, Clock, GridRooms, Mesh, Program, Rooms, Stepped};

#[link(name = "capi", kind = "static")]
#[rustfmt::skip]
extern "C" {
    fn surge_open(
        state: *mut f64, state_length: usize,
        place: *mut usize, value: *mut f64,
        step: *mut u32,
        x: *const i32, x_length: usize,
        y: *const i32, y_length: usize,
        tri: *const u16, tri_length: usize,
        h: *const f64, h_length: usize,
        kind: *const u8, kind_length: usize,
        dt: f64, tau: f64, k: f64, f: f64, advection: u8,
    ) -> u32;
    fn surge_step(
        next: *mut f64, next_length: usize,
        work: *mut f64, work_length: usize,
        sums: *mut u64, sums_length: usize,
        place: *mut usize, value: *mut f64,
        step: *mut u32,
        state: *const f64, state_length: usize,
        forcing: *const f64, forcing_length: usize,
        x: *const i32, x_length: usize,
        y: *const i32, y_length: usize,
        tri: *const u16, tri_length: usize,
        h: *const f64, h_length: usize,
        kind: *const u8, kind_length: usize,
        dt: f64, tau: f64, k: f64, f: f64, advection: u8,
    ) -> u32;
    fn surge_step_all(
        next: *mut f64, next_length: usize,
        work: *mut f64, work_length: usize,
        sums: *mut u64, sums_length: usize,
        place: *mut usize, value: *mut f64,
        step: *mut u32, accepted: *mut u32,
        state: *const f64, state_length: usize,
        forcings: *const f64, forcings_length: usize,
        x: *const i32, x_length: usize,
        y: *const i32, y_length: usize,
        tri: *const u16, tri_length: usize,
        h: *const f64, h_length: usize,
        kind: *const u8, kind_length: usize,
        dt: f64, tau: f64, k: f64, f: f64, advection: u8,
    ) -> u32;
    fn surge_save(
        text: *mut u8, text_length: usize,
        place: *mut usize, value: *mut f64,
        state: *const f64, state_length: usize,
        x: *const i32, x_length: usize,
        y: *const i32, y_length: usize,
        tri: *const u16, tri_length: usize,
        h: *const f64, h_length: usize,
        kind: *const u8, kind_length: usize,
        dt: f64, tau: f64, k: f64, f: f64, advection: u8,
        step: u32,
    ) -> u32;
    fn surge_load(
        state: *mut f64, state_length: usize,
        place: *mut usize, value: *mut f64,
        step: *mut u32,
        text: *const u8, text_length: usize,
        x: *const i32, x_length: usize,
        y: *const i32, y_length: usize,
        tri: *const u16, tri_length: usize,
        h: *const f64, h_length: usize,
        kind: *const u8, kind_length: usize,
        dt: f64, tau: f64, k: f64, f: f64, advection: u8,
    ) -> u32;
    fn surge_read_forcing(
        forcing: *mut f64, forcing_length: usize,
        place: *mut usize, value: *mut f64,
        text: *const u8, text_length: usize,
        expected: u32,
    ) -> u32;
    fn surge_read_grid(
        x: *mut i32, x_length: usize,
        y: *mut i32, y_length: usize,
        h: *mut f64, h_length: usize,
        tri: *mut u16, tri_length: usize,
        place: *mut usize, value: *mut f64,
        text: *const u8, text_length: usize,
    ) -> u32;
}

pub struct Product;

/// What every call writes besides its slices.
pub struct Reply {
    pub place: usize,
    pub value: f64,
    clock: Clock,
}

impl Reply {
    pub fn before(clock: Clock) -> Reply {
        Reply { place: 0, value: 0.0, clock }
    }

    pub fn answer(&self, number: u32) -> Answer {
        Answer { number, place: self.place, value: self.value }
    }
}

// Safety of every call here: each pointer comes from a slice or a reference, with its length, and what is written is borrowed `mut`, so that it
// overlaps nothing else; the header asks for no more.
#[rustfmt::skip]
impl Program for Product {
    fn name(&self) -> &'static str {
        "product"
    }

    fn open(&self, m: &Mesh, state: &mut [f64]) -> (Answer, Clock) {
        let mut r = Reply::before(Clock::COLD);
        let number = unsafe {
            surge_open(
                state.as_mut_ptr(), state.len(),
                &mut r.place, &mut r.value,
                &mut r.clock.step,
                m.x.as_ptr(), m.x.len(),
                m.y.as_ptr(), m.y.len(),
                m.tri.as_ptr(), m.tri.len(),
                m.h.as_ptr(), m.h.len(),
                m.kind.as_ptr(), m.kind.len(),
                m.p.dt, m.p.tau, m.p.k, m.p.f, m.p.advection.into(),
            )
        };
        (r.answer(number), r.clock)
    }

    fn step(&self, m: &Mesh, rooms: Rooms, state: &[f64], clock: Clock, forcing: &[f64]) -> (Answer, Clock) {
        let mut r = Reply::before(clock);
        let number = unsafe {
            surge_step(
                rooms.next.as_mut_ptr(), rooms.next.len(),
                rooms.work.as_mut_ptr(), rooms.work.len(),
                rooms.sums.as_mut_ptr(), rooms.sums.len(),
                &mut r.place, &mut r.value,
                &mut r.clock.step,
                state.as_ptr(), state.len(),
                forcing.as_ptr(), forcing.len(),
                m.x.as_ptr(), m.x.len(),
                m.y.as_ptr(), m.y.len(),
                m.tri.as_ptr(), m.tri.len(),
                m.h.as_ptr(), m.h.len(),
                m.kind.as_ptr(), m.kind.len(),
                m.p.dt, m.p.tau, m.p.k, m.p.f, m.p.advection.into(),
            )
        };
        (r.answer(number), r.clock)
    }

    fn step_all(&self, m: &Mesh, rooms: Rooms, state: &[f64], clock: Clock, forcings: &[f64]) -> Stepped {
        // a count that the call does not write shows
        let (mut r, mut accepted) = (Reply::before(clock), u32::MAX);
        let number = unsafe {
            surge_step_all(
                rooms.next.as_mut_ptr(), rooms.next.len(),
                rooms.work.as_mut_ptr(), rooms.work.len(),
                rooms.sums.as_mut_ptr(), rooms.sums.len(),
                &mut r.place, &mut r.value,
                &mut r.clock.step, &mut accepted,
                state.as_ptr(), state.len(),
                forcings.as_ptr(), forcings.len(),
                m.x.as_ptr(), m.x.len(),
                m.y.as_ptr(), m.y.len(),
                m.tri.as_ptr(), m.tri.len(),
                m.h.as_ptr(), m.h.len(),
                m.kind.as_ptr(), m.kind.len(),
                m.p.dt, m.p.tau, m.p.k, m.p.f, m.p.advection.into(),
            )
        };
        Stepped { answer: r.answer(number), clock: r.clock, accepted }
    }

    fn save(&self, m: &Mesh, text: &mut [u8], state: &[f64], clock: Clock) -> Answer {
        let mut r = Reply::before(clock);
        let number = unsafe {
            surge_save(
                text.as_mut_ptr(), text.len(),
                &mut r.place, &mut r.value,
                state.as_ptr(), state.len(),
                m.x.as_ptr(), m.x.len(),
                m.y.as_ptr(), m.y.len(),
                m.tri.as_ptr(), m.tri.len(),
                m.h.as_ptr(), m.h.len(),
                m.kind.as_ptr(), m.kind.len(),
                m.p.dt, m.p.tau, m.p.k, m.p.f, m.p.advection.into(),
                clock.step,
            )
        };
        r.answer(number)
    }

    fn load(&self, m: &Mesh, state: &mut [f64], text: &[u8], clock: Clock) -> (Answer, Clock) {
        let mut r = Reply::before(clock);
        let number = unsafe {
            surge_load(
                state.as_mut_ptr(), state.len(),
                &mut r.place, &mut r.value,
                &mut r.clock.step,
                text.as_ptr(), text.len(),
                m.x.as_ptr(), m.x.len(),
                m.y.as_ptr(), m.y.len(),
                m.tri.as_ptr(), m.tri.len(),
                m.h.as_ptr(), m.h.len(),
                m.kind.as_ptr(), m.kind.len(),
                m.p.dt, m.p.tau, m.p.k, m.p.f, m.p.advection.into(),
            )
        };
        (r.answer(number), r.clock)
    }

    fn read_forcing(&self, forcing: &mut [f64], text: &[u8], expected: u32) -> Answer {
        let mut r = Reply::before(Clock::COLD);
        let number = unsafe {
            surge_read_forcing(
                forcing.as_mut_ptr(), forcing.len(),
                &mut r.place, &mut r.value,
                text.as_ptr(), text.len(),
                expected,
            )
        };
        r.answer(number)
    }

    fn read_grid(&self, rooms: GridRooms, text: &[u8]) -> Answer {
        let mut r = Reply::before(Clock::COLD);
        let number = unsafe {
            surge_read_grid(
                rooms.x.as_mut_ptr(), rooms.x.len(),
                rooms.y.as_mut_ptr(), rooms.y.len(),
                rooms.h.as_mut_ptr(), rooms.h.len(),
                rooms.tri.as_mut_ptr(), rooms.tri.len(),
                &mut r.place, &mut r.value,
                text.as_ptr(), text.len(),
            )
        };
        r.answer(number)
    }
}
