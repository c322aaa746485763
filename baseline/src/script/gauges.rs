//! The commands of request #106: `pack`, and the five calls of `gauge`.

use super::{made_word, Call, Script};
use crate::gauges::{gauge_add, gauge_elevation, gauge_locate, gauge_peak, gauge_update};
use crate::gauges::{Crossed, Point};
use crate::records::Answer;
use std::mem::take;

/// The five calls on gauges.
#[derive(Clone, Copy, Debug, PartialEq, Eq, PartialOrd, Ord)]
pub(crate) enum Gauge {
    Locate,
    Add,
    Elevation,
    Update,
    Peak,
}

impl Gauge {
    /// Every call on gauges.
    pub const ALL: [Gauge; 5] = [
        Gauge::Locate,
        Gauge::Add,
        Gauge::Elevation,
        Gauge::Update,
        Gauge::Peak,
    ];

    /// The call that the word after `gauge` names.
    pub fn of(word: &[u8]) -> Option<Gauge> {
        Gauge::ALL.into_iter().find(|gauge| {
            let (_, second) = gauge.name().split_at("gauge ".len());
            second.as_bytes() == word
        })
    }

    /// The command that makes the call, and the first words of what it prints.
    pub fn name(self) -> &'static str {
        match self {
            Gauge::Locate => "gauge locate",
            Gauge::Add => "gauge add",
            Gauge::Elevation => "gauge elevation",
            Gauge::Update => "gauge update",
            Gauge::Peak => "gauge peak",
        }
    }
}

/// The bytes of a slice's elements, one after the other.
fn packed<T: Copy, const WIDTH: usize>(elements: &[T], bytes: fn(T) -> [u8; WIDTH]) -> Vec<u8> {
    elements.iter().copied().flat_map(bytes).collect()
}

impl Script {
    /// `pack`: the "bytes of x, y, tri, h, kind and state, big-endian, each float
    /// by its own pattern".
    pub(super) fn pack(&mut self) {
        self.xbytes.0 = packed(&self.x.0, i32::to_be_bytes);
        self.ybytes.0 = packed(&self.y.0, i32::to_be_bytes);
        self.tribytes.0 = packed(&self.tri.0, u16::to_be_bytes);
        self.hbytes.0 = packed(&self.h.0, f64::to_be_bytes);
        self.kindbytes.0 = self.kind.0.clone();
        self.statebytes.0 = packed(&self.state.0, f64::to_be_bytes);
    }

    /// The byte slices and the parameters that a call on gauges is lent.
    pub fn crossed(&self) -> Crossed<'_> {
        Crossed {
            state: &self.statebytes.0,
            x: &self.xbytes.0,
            y: &self.ybytes.0,
            tri: &self.tribytes.0,
            h: &self.hbytes.0,
            kind: &self.kindbytes.0,
            p: self.p,
        }
    }

    /// Makes a call on gauges; "prints `gauge NAME NUMBER PLACE VALUE`" and, on a
    /// line of its own, what it found.
    pub(super) fn gauge(&mut self, gauge: Gauge, point: Point, number: u32) -> Answer {
        let mut record = take(&mut self.record.0);
        self.record_lent = record.clone();
        let (answer, found) = self.gauge_call(gauge, &mut record, point, number);
        self.record.0 = record;
        self.print_answer(Call::Gauge(gauge), answer);
        if let Some(found) = found {
            self.print(format_args!("found {found}"));
        }
        answer
    }

    /// The answer of a call, and the words of what it found.
    fn gauge_call(
        &self,
        gauge: Gauge,
        record: &mut [u8],
        point: Point,
        number: u32,
    ) -> (Answer, Option<String>) {
        let crossed = self.crossed();
        match gauge {
            Gauge::Locate => {
                let (answer, triangle) = gauge_locate(crossed, point);
                (answer, Some(triangle.to_string()))
            }
            Gauge::Add => {
                let (answer, given_out) = gauge_add(record, crossed, point);
                (answer, Some(given_out.to_string()))
            }
            Gauge::Elevation => {
                let (answer, elevation) = gauge_elevation(record, crossed, number);
                (answer, Some(made_word(elevation)))
            }
            Gauge::Update => (gauge_update(record, crossed, self.clock.step), None),
            Gauge::Peak => {
                let (answer, highest) = gauge_peak(record, number);
                let peak = made_word(highest.peak);
                let found = format!("{} {peak} {}", highest.seen, highest.step);
                (answer, Some(found))
            }
        }
    }
}
