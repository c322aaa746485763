//! NaNs of every pattern among what is lent, so that a refusal which changes
//! one is seen. Each is taken out again by [`Pen::mend`].

use super::pen::Pen;
use super::values::nan;

/// Puts NaNs into some of what the calls on a run are lent: often into the rooms
/// of a step, less often where a row of the refusal table would meet them before
/// the rows that the script means to break.
pub(crate) fn anywhere(pen: &mut Pen) {
    let slices = [
        ("next", 2),
        ("work", 2),
        ("forcing", 3),
        ("state", 4),
        ("h", 8),
    ];
    for (name, times) in slices {
        if pen.dice.one_in(times) {
            in_slice(pen, name);
        }
    }
}

/// Puts NaNs into a slice of floats, at one to three places.
pub(crate) fn in_slice(pen: &mut Pen, name: &str) {
    let length = pen.length(name);
    for _ in 0..1 + pen.dice.below(3) {
        let (at, new) = (pen.dice.below(length), nan(&mut pen.dice));
        pen.change_float(name, at, new);
    }
}
