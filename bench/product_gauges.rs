//! The product's gauges, through include/gauges.h, as `product` has the other calls.

use crate::gauges::{Gauges, Highest, Lent, Point};
use crate::product::{Product, Reply};
use crate::run::{Answer, Clock};

#[link(name = "gauges", kind = "static")]
#[rustfmt::skip]
extern "C" {
    fn gauge_add(
        record: *mut u8, record_length: usize,
        gauge: *mut u32,
        place: *mut usize, value: *mut f64,
        state: *const u8, state_length: usize,
        x: *const u8, x_length: usize,
        y: *const u8, y_length: usize,
        tri: *const u8, tri_length: usize,
        h: *const u8, h_length: usize,
        kind: *const u8, kind_length: usize,
        dt: f64, tau: f64, k: f64, f: f64,
        px: i32, py: i32,
    ) -> u32;
    fn gauge_elevation(
        elevation: *mut f64,
        place: *mut usize, value: *mut f64,
        record: *const u8, record_length: usize,
        state: *const u8, state_length: usize,
        x: *const u8, x_length: usize,
        y: *const u8, y_length: usize,
        tri: *const u8, tri_length: usize,
        h: *const u8, h_length: usize,
        kind: *const u8, kind_length: usize,
        dt: f64, tau: f64, k: f64, f: f64,
        gauge: u32,
    ) -> u32;
    fn gauge_update(
        record: *mut u8, record_length: usize,
        place: *mut usize, value: *mut f64,
        state: *const u8, state_length: usize,
        x: *const u8, x_length: usize,
        y: *const u8, y_length: usize,
        tri: *const u8, tri_length: usize,
        h: *const u8, h_length: usize,
        kind: *const u8, kind_length: usize,
        dt: f64, tau: f64, k: f64, f: f64,
        step: u32,
    ) -> u32;
    fn gauge_peak(
        seen: *mut u8, peak: *mut f64, step: *mut u32,
        place: *mut usize, value: *mut f64,
        record: *const u8, record_length: usize,
        gauge: u32,
    ) -> u32;
}

// Safety of every call here: as in `product`. What is found is full of sevens before, so that one that a call does not write shows.
#[rustfmt::skip]
impl Gauges for Product {
    fn add(&self, record: &mut [u8], m: Lent, [px, py]: Point) -> (Answer, u32) {
        let (mut r, mut gauge) = (Reply::before(Clock::COLD), 7);
        let number = unsafe {
            gauge_add(
                record.as_mut_ptr(), record.len(),
                &mut gauge,
                &mut r.place, &mut r.value,
                m.state.as_ptr(), m.state.len(),
                m.x.as_ptr(), m.x.len(),
                m.y.as_ptr(), m.y.len(),
                m.tri.as_ptr(), m.tri.len(),
                m.h.as_ptr(), m.h.len(),
                m.kind.as_ptr(), m.kind.len(),
                m.p.dt, m.p.tau, m.p.k, m.p.f,
                px, py,
            )
        };
        (r.answer(number), gauge)
    }

    fn elevation(&self, record: &[u8], m: Lent, gauge: u32) -> (Answer, f64) {
        let (mut r, mut elevation) = (Reply::before(Clock::COLD), 7.0);
        let number = unsafe {
            gauge_elevation(
                &mut elevation,
                &mut r.place, &mut r.value,
                record.as_ptr(), record.len(),
                m.state.as_ptr(), m.state.len(),
                m.x.as_ptr(), m.x.len(),
                m.y.as_ptr(), m.y.len(),
                m.tri.as_ptr(), m.tri.len(),
                m.h.as_ptr(), m.h.len(),
                m.kind.as_ptr(), m.kind.len(),
                m.p.dt, m.p.tau, m.p.k, m.p.f,
                gauge,
            )
        };
        (r.answer(number), elevation)
    }

    fn update(&self, record: &mut [u8], m: Lent, step: u32) -> Answer {
        let mut r = Reply::before(Clock::COLD);
        let number = unsafe {
            gauge_update(
                record.as_mut_ptr(), record.len(),
                &mut r.place, &mut r.value,
                m.state.as_ptr(), m.state.len(),
                m.x.as_ptr(), m.x.len(),
                m.y.as_ptr(), m.y.len(),
                m.tri.as_ptr(), m.tri.len(),
                m.h.as_ptr(), m.h.len(),
                m.kind.as_ptr(), m.kind.len(),
                m.p.dt, m.p.tau, m.p.k, m.p.f,
                step,
            )
        };
        r.answer(number)
    }

    fn peak(&self, record: &[u8], gauge: u32) -> (Answer, Highest) {
        let (mut r, mut found) = (Reply::before(Clock::COLD), Highest { seen: 7, peak: 7.0, step: 7 });
        let number = unsafe {
            gauge_peak(
                &mut found.seen, &mut found.peak, &mut found.step,
                &mut r.place, &mut r.value,
                record.as_ptr(), record.len(),
                gauge,
            )
        };
        (r.answer(number), found)
    }
}
