//! The commands of request #107: `queue`, and the call `stepall`.

use super::{Call, Script};
use crate::lists::step_all;
use crate::records::{Answer, Clock};

/// The rooms of a call on a list as they were lent: an accepted step writes over
/// them, and coverage is to know what.
#[derive(Default)]
pub(crate) struct LentToList {
    pub next: Vec<f64>,
    pub work: Vec<f64>,
    pub sums: Vec<u64>,
}

impl LentToList {
    fn of(next: &[f64], work: &[f64], sums: &[u64]) -> LentToList {
        LentToList {
            next: next.to_vec(),
            work: work.to_vec(),
            sums: sums.to_vec(),
        }
    }
}

impl Script {
    /// `queue COUNT`: "the elements of `forcing` go to the end of `forcings`, COUNT
    /// times".
    pub(super) fn queue(&mut self, count: usize) -> Option<()> {
        let more = self.forcing.0.len().checked_mul(count)?;
        // A count that no memory has room for is no count of a slice.
        self.forcings.0.try_reserve(more).ok()?;
        let numbers = self.forcing.0.iter().cycle().take(more);
        self.forcings.0.extend(numbers);
        Some(())
    }

    /// "`stepall NUMBER PLACE VALUE`, `clock STEP`, likewise, and `accepted COUNT`".
    pub(super) fn step_through(&mut self) -> (Answer, u32) {
        let (answer, clock, accepted) = self.step_all();
        self.hand_back_clock(Call::StepAll, answer, clock);
        self.print(format_args!("accepted {accepted}"));
        (answer, accepted)
    }

    fn step_all(&mut self) -> (Answer, Clock, u32) {
        let (next, work, sums) = (&mut self.next.0, &mut self.work.0, &mut self.sums.0);
        let (x, y, tri) = (&self.x.0, &self.y.0, &self.tri.0);
        let (state, forcings) = (&self.state.0, &self.forcings.0);
        let (h, kind, p, clock) = (&self.h.0, &self.kind.0, self.p, self.clock);
        self.lent_to_list = LentToList::of(next, work, sums);
        step_all(
            next, work, sums, state, forcings, x, y, tri, h, kind, p, clock,
        )
    }
}
