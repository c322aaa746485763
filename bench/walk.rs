//! How the two plain programs go through a list of forcings, in the rooms that the product is lent and in no others.

use crate::fixed::{Fixed, Shapes};
use crate::run::{runs, Answer, Clock, Forcing, Made, Rooms, State, Stepped};

/// The present state and the rooms of the next one, which change places after every step: no state is copied, and a refused step leaves the present
/// one whole. The earlier elevations are the present ones of the step before, and the winds stand in the list.
struct Turn<'a> {
    earlier: &'a mut [f64],
    /// z, U and V
    now: [&'a mut [f64]; 3],
    new: [&'a mut [f64]; 3],
}

impl Turn<'_> {
    /// The present state under these winds, and the rooms of z', U' and V'.
    fn rooms<'a>(&'a mut self, [wx, wy]: [&'a [f64]; 2]) -> (State<'a>, [&'a mut [f64]; 3]) {
        let [z, u, v] = &self.now;
        (State { earlier: self.earlier, z, u, v, wx, wy }, self.new.each_mut().map(|run| &mut **run))
    }

    /// What was made becomes the present state.
    fn on(&mut self) {
        std::mem::swap(&mut self.now, &mut self.new);
        std::mem::swap(&mut self.earlier, &mut self.new[0]);
    }
}

/// Steps up to the end of the list or to the first refusal. The next slice gets the state that was reached, unless the first forcing was refused. The
/// first step writes where a single one does; only after it are the rooms that a list adds written. KEEPS says that the later ones find there what
/// no step changes, and do not form it as a single one does.
#[inline(always)]
pub fn through<S: Shapes, const KEEPS: bool>(
    fixed: Fixed<S>,
    Rooms { next, work, sums }: Rooms,
    state: State,
    clock: Clock,
    forcings: &[f64],
    first: impl FnOnce(&Fixed<S>, Clock, State, Forcing, Made) -> Result<(), Answer>,
    later: impl Fn(&Fixed<S, KEEPS>, Clock, State, Forcing, Made) -> Result<(), Answer>,
) -> Stepped {
    let n = state.z.len();
    let mut forcings = forcings.chunks_exact(1 + 2 * n).map(|numbers| Forcing::of(numbers, n));
    let Some(forcing) = forcings.next() else {
        state.write(next);
        return Stepped { answer: Answer::accepted(0), clock, accepted: 0 };
    };
    let (single, added) = work.split_at_mut(5 * n);
    if let Err(answer) = first(&fixed, clock, state, forcing, Made::of(single, sums)) {
        return Stepped { answer, clock, accepted: 0 };
    }
    let Made { new, carried, sums } = Made::of(single, sums);
    let (before, weights) = added.split_at_mut(4 * n);
    let fixed = fixed.later(sums, weights.as_chunks_mut().0);
    let [earlier, free @ ..] = runs::<4>(before);
    earlier.copy_from_slice(state.z);
    let mut turn = Turn { earlier, now: new, new: free };
    let (mut answer, mut reached, mut winds) = (Answer::accepted(0), clock.advanced(), [forcing.wx, forcing.wy]);
    for forcing in forcings {
        let (state, new) = turn.rooms(winds);
        if let Err(refusal) = later(&fixed, reached, state, forcing, Made { new, carried, sums }) {
            answer = refusal;
            break;
        }
        turn.on();
        winds = [forcing.wx, forcing.wy];
        reached = reached.advanced();
    }
    turn.rooms(winds).0.write(next);
    Stepped { answer, clock: reached, accepted: reached.step - clock.step }
}
