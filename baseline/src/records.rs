//! What goes into the calls and comes back beside the slices: an answer, the
//! clock, the parameters; and when a number is in its range.

/// "Each answer has number, place and value; the value is +0 except at 13, the
/// place 0 where none is given. An accepted call has number 0 and place 0, but
/// a save's place is the bytes it wrote."
#[derive(Clone, Copy, Debug, PartialEq)]
pub struct Answer {
    /// 0 when accepted, else the row of the refusal table.
    pub number: u32,
    /// The triangle, node, parameter, line or byte count the row gives.
    pub place: usize,
    /// At row 13 the offending value, else +0.
    pub value: f64,
}

impl Answer {
    pub(crate) fn accepted(place: usize) -> Answer {
        Answer::refused(0, place)
    }

    pub(crate) fn refused(number: u32, place: usize) -> Answer {
        let value = 0.0;
        Answer {
            number,
            place,
            value,
        }
    }
}

/// "The clock holds the step number (32-bit unsigned)"; "the clock goes in and
/// the advanced clock comes back." By request #105 "The held wind moves from the
/// clock to the state".
#[derive(Clone, Copy, Debug, PartialEq)]
pub struct Clock {
    /// The step number.
    pub step: u32,
}

impl Clock {
    /// "A cold start is all +0, step 0."
    pub(crate) const COLD: Clock = Clock { step: 0 };

    /// "the clock gains one step". Row 11 has been tested, so that the sum does
    /// not wrap.
    pub(crate) fn advanced(self) -> Clock {
        Clock {
            step: self.step.wrapping_add(1),
        }
    }
}

/// The parameters of a run: four numbers, in the order of row 9's places, and a
/// setting that row 9 does not speak of.
#[derive(Clone, Copy, Debug, PartialEq)]
pub struct Parameters {
    /// The time step.
    pub dt: f64,
    /// "constant tau (the report's tau-zero)".
    pub tau: f64,
    /// "linear bottom friction K".
    pub k: f64,
    /// "Coriolis f".
    pub f: f64,
    /// Request #103: "the advective terms of 1.19 and 2.13 under an on/off
    /// parameter".
    pub advection: bool,
}

/// "A range holds only if both comparisons are true, so a NaN is outside."
pub(crate) fn within(value: f64, low: f64, high: f64) -> bool {
    (low..=high).contains(&value)
}

/// Whether a value is not "beyond" a limit "in size".
pub(crate) fn in_size(value: f64, limit: f64) -> bool {
    within(value, -limit, limit)
}
