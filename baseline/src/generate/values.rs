//! Floats: inside a range, at its limits, one bit beyond them, and far out.

use super::dice::Dice;

/// A range of the refusal table, with both limits inside.
#[derive(Clone, Copy)]
pub(crate) struct Range {
    pub low: f64,
    pub high: f64,
}

/// A range that is as wide below zero as above.
pub(crate) const fn in_size(limit: f64) -> Range {
    Range {
        low: -limit,
        high: limit,
    }
}

/// Row 8: "h not 1..12,000".
pub(crate) const DEPTH: Range = Range {
    low: 1.0,
    high: 12_000.0,
};

/// Row 9: "dt not 0.125..60, tau not 0..1, K not 0..1, f not -0.001..0.001".
pub(crate) const PARAMETERS: [Range; 4] = [
    Range {
        low: 0.125,
        high: 60.0,
    },
    UNIT,
    UNIT,
    in_size(0.001),
];

const UNIT: Range = Range {
    low: 0.0,
    high: 1.0,
};

/// Rows 10, 12 and 13: an elevation.
pub(crate) const ELEVATION: Range = in_size(30.0);

/// Rows 10 and 13: a velocity.
pub(crate) const VELOCITY: Range = in_size(20.0);

/// Rows 10 and 12: a wind.
pub(crate) const WIND: Range = in_size(0.1);

/// Rows 10 and 13: a water column is not below this.
pub(crate) const COLUMN: f64 = 0.1;

/// The runs of the state, by their order.
pub(crate) const RUNS: [Range; 6] = [ELEVATION, ELEVATION, VELOCITY, VELOCITY, WIND, WIND];

/// The word of a float, with a NaN's own payload.
pub(crate) fn word(value: f64) -> String {
    format!("{:016X}", value.to_bits())
}

/// NaNs, quiet and signalling, of either sign: the first and the last of each,
/// and one between. The first quiet ones are those that processors make.
const NANS: [u64; 10] = [
    0x7FF8_0000_0000_0000,
    0xFFF8_0000_0000_0000,
    0x7FF8_DEAD_BEEF_0001,
    0x7FFF_FFFF_FFFF_FFFF,
    0xFFFF_FFFF_FFFF_FFFF,
    0x7FF0_0000_0000_0001,
    0xFFF0_0000_0000_0001,
    0x7FF4_DEAD_BEEF_0001,
    0x7FF7_FFFF_FFFF_FFFF,
    0xFFF7_FFFF_FFFF_FFFF,
];

/// A NaN of one of these patterns, or of any.
pub(crate) fn nan(dice: &mut Dice) -> f64 {
    let any = dice.bits() | f64::INFINITY.to_bits() | 1;
    let known = dice.one_of(&NANS);
    f64::from_bits(dice.one_of(&[known, any]))
}

/// Any pattern at all: what a lent room may hold.
pub(crate) fn anything(dice: &mut Dice) -> f64 {
    match dice.below(4) {
        0 => nan(dice),
        1 => dice.one_of(&[-0.0, f64::INFINITY, f64::NEG_INFINITY, f64::MAX]),
        _ => f64::from_bits(dice.bits()),
    }
}

/// A value that the range does not hold: one bit beyond, far out, or a NaN.
pub(crate) fn beyond(dice: &mut Dice, range: Range) -> f64 {
    match dice.below(5) {
        0 => range.low.next_down(),
        1 => range.high.next_up(),
        2 => dice.one_of(&[f64::NEG_INFINITY, f64::MIN, range.low - 1.0]),
        3 => dice.one_of(&[f64::INFINITY, f64::MAX, range.high + 1.0]),
        _ => nan(dice),
    }
}

/// A value that the range holds and that stands at its edge: a limit, one bit
/// within it, a zero of either sign, or a subnormal.
pub(crate) fn at_edge(dice: &mut Dice, range: Range) -> f64 {
    let edges = [
        range.low,
        range.high,
        range.low.next_up(),
        range.high.next_down(),
        -0.0,
        f64::from_bits(1),
        -f64::from_bits(1),
        f64::MIN_POSITIVE.next_down(),
    ];
    let edge = dice.one_of(&edges);
    if (range.low..=range.high).contains(&edge) {
        edge
    } else {
        range.low
    }
}

/// A value that the range holds, even over its length. Each operation is
/// rounded as IEEE 754 says, so that every machine draws the same bits.
pub(crate) fn inside(dice: &mut Dice, range: Range) -> f64 {
    let share = (dice.bits() >> 11) as f64 / (1u64 << 53) as f64;
    let value = range.low + (range.high - range.low) * share;
    value.clamp(range.low, range.high)
}

/// A value that the range holds, now and then at its edge.
pub(crate) fn legal(dice: &mut Dice, range: Range) -> f64 {
    if dice.one_in(6) {
        at_edge(dice, range)
    } else {
        inside(dice, range)
    }
}

/// A value for a test of the range: beyond it, or at its edge.
pub(crate) fn tested(dice: &mut Dice, range: Range) -> f64 {
    if dice.one_in(4) {
        at_edge(dice, range)
    } else {
        beyond(dice, range)
    }
}

/// The lowest z that leaves enough water over a depth: h+z, rounded, is at
/// least 0.1, and is below it with z one bit lower.
pub(crate) fn lowest_elevation(h: f64) -> f64 {
    let mut z = COLUMN - h;
    while h + z < COLUMN {
        z = z.next_up();
    }
    while h + z.next_down() >= COLUMN {
        z = z.next_down();
    }
    z
}
