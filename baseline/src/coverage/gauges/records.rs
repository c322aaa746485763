//! Records: what row 43 refused, which numbers were not given out, and what an
//! accepted call wrote.

use super::ON_A_RECORD;
use crate::coverage::wanted::{of, Reached};
use crate::gauges::{gauge_elevation, gauges, Row, MOST, RECORD, ROW};
use crate::script::gauges::Gauge;
use crate::script::{Call, Called, Script};

/// The rows of a record, each with the bytes that it has.
fn rows(record: &[u8]) -> Vec<&[u8]> {
    record
        .get(1..)
        .map_or(Vec::new(), |rows| rows.chunks(ROW).collect())
}

/// Lengths, and counts above 64, that row 43 refuses.
const LENGTHS: [&str; 4] = [
    "empty",
    "one byte short",
    "one byte over",
    "of another length",
];
const COUNTS: [&str; 3] = ["count 65", "count 255", "count between"];

/// A count above 64 and a seen above 1.
const BOTH: &str = "a count and a seen";

/// A seen above 1: which, where, and whether another is behind it.
const SEEN: [&str; 3] = ["seen 2", "seen 255", "seen between"];
const WHERE: [&str; 4] = [
    "in row 0",
    "in a row below the count",
    "in a row past the count",
    "in row 63",
];
const TWO: &str = "seen above 1 in two rows";

/// 43.
pub(crate) fn refused(script: &Script) -> Vec<String> {
    let record = &script.record_lent;
    let one = |name: &str| vec![String::from(name)];
    let Some(&count) = record.first() else {
        return one(LENGTHS[0]);
    };
    if record.len() != RECORD {
        return one(match record.len() {
            length if length + 1 == RECORD => LENGTHS[1],
            length if length == RECORD + 1 => LENGTHS[2],
            _ => LENGTHS[3],
        });
    }
    let seen: Vec<(usize, u8)> = rows(record).iter().map(|row| row[8]).enumerate().collect();
    let above: Vec<_> = seen.into_iter().filter(|(_, seen)| *seen > 1).collect();
    if usize::from(count) > MOST {
        let mut met = one(match count {
            65 => COUNTS[0],
            255 => COUNTS[1],
            _ => COUNTS[2],
        });
        met.extend((!above.is_empty()).then(|| String::from(BOTH)));
        return met;
    }
    let Some(&(row, seen)) = above.first() else {
        return Vec::new();
    };
    let mut met = one(match seen {
        2 => SEEN[0],
        255 => SEEN[1],
        _ => SEEN[2],
    });
    let below = row < usize::from(count);
    let place = [row == 0, below, !below, row + 1 == MOST];
    let named = WHERE.into_iter().zip(place).filter(|(_, met)| *met);
    met.extend(named.map(|(name, _)| String::from(name)));
    met.extend((above.len() > 1).then(|| String::from(TWO)));
    met
}

/// Numbers that were not given out.
const NUMBERS: [&str; 7] = [
    "the count",
    "one above the count",
    "0 of none",
    "the first of 8 bits more",
    "the first of 16 bits more",
    "4,294,967,295",
    "64 of 64",
];

/// 42: the sort of number.
pub(crate) fn not_given_out(script: &Script, number: u32) -> String {
    let count = u32::from(script.record_lent[0]);
    let at = match number {
        0 => 2,
        64 if count == 64 => 6,
        _ if number == count => 0,
        _ if number == count + 1 => 1,
        u32::MAX => 5,
        256.. if number & 0xFFFF < count => 4,
        256.. if number & 0xFF < count => 3,
        _ => return String::from("any other"),
    };
    String::from(NUMBERS[at])
}

/// Which gauge an add gave out.
const GIVEN_OUT: [&str; 3] = ["gauge 0", "a gauge between", "gauge 63"];

/// An add to a row that was not all zero, by the field that is written anew.
const OVER: [&str; 4] = [
    "over another point",
    "over a seen of 1",
    "over another peak",
    "over another step",
];

/// An add of a point that a gauge has already.
const AGAIN: &str = "a point again";

/// What is said of an accepted add.
pub(crate) fn added(script: &Script) -> Vec<String> {
    let gauge = usize::from(script.record_lent[0]);
    let mut met = vec![String::from(match gauge {
        0 => GIVEN_OUT[0],
        63 => GIVEN_OUT[2],
        _ => GIVEN_OUT[1],
    })];
    let (before, after) = (rows(&script.record_lent), rows(&script.record.0));
    let fields = [0..8, 8..9, 9..17, 17..21];
    for (field, name) in fields.into_iter().zip(OVER) {
        let over = before[gauge][field.clone()] != after[gauge][field.clone()];
        let zero = before[gauge][field].iter().all(|&byte| byte == 0);
        met.extend((over && !zero).then(|| String::from(name)));
    }
    let point = &after[gauge][..8];
    let again = after[..gauge].iter().any(|row| &row[..8] == point);
    met.extend(again.then(|| String::from(AGAIN)));
    met
}

/// What an update did to a gauge.
const DONE: [&str; 13] = [
    "the first of a gauge",
    "the first below what the row had",
    "higher than the peak",
    "one bit higher than the peak",
    "lower than the peak",
    "equal to the peak",
    "+0 beside -0",
    "-0 beside +0",
    "a NaN replaced",
    "an equal one at another step",
    "a later step kept",
    "-0 as a peak",
    "-0 as the first",
];

/// How many gauges were updated.
const GAUGES: [(usize, &str); 4] = [
    (0, "no gauge"),
    (1, "one gauge"),
    (63, "63 gauges"),
    (64, "64 gauges"),
];

/// Steps at the ends of 32 bits.
const STEPS: [&str; 2] = ["step 0", "step 4,294,967,295"];

/// An update that replaced some peaks and kept others, and one past whose count
/// the record held something.
const SOME: &str = "some replaced and some kept";
const PAST: &str = "something past the count";

/// What an elevation did to a row at a step, by the names of [`DONE`].
fn done(row: &Row, elevation: f64, step: u32) -> [bool; 13] {
    let highest = row.highest;
    let (seen, peak) = (highest.seen == 1, highest.peak);
    let [new, old] = [elevation, peak].map(f64::to_bits);
    let (plus, minus) = (0.0_f64.to_bits(), (-0.0_f64).to_bits());
    let equal = seen && elevation == peak;
    let kept = seen && elevation <= peak;
    [
        !seen,
        !seen && elevation < peak,
        seen && elevation > peak,
        seen && elevation == peak.next_up() && peak != 0.0,
        seen && elevation < peak,
        equal && new == old,
        seen && (new, old) == (plus, minus),
        seen && (new, old) == (minus, plus),
        seen && peak.is_nan(),
        equal && step != highest.step,
        kept && highest.step > step,
        seen && !kept && new == minus,
        !seen && new == minus,
    ]
}

/// What is said of an accepted update.
pub(crate) fn updated(script: &Script, called: Called) -> Vec<String> {
    let (record, step) = (&script.record_lent, called.clock.step);
    let rows_given_out = gauges(record).unwrap_or_default();
    let mut met = Vec::new();
    for (gauge, row) in rows_given_out.iter().enumerate() {
        let (_, elevation) = gauge_elevation(record, script.crossed(), gauge as u32);
        let names = DONE.into_iter().zip(done(row, elevation, step));
        met.extend(names.filter(|(_, met)| *met).map(|(name, _)| name));
    }
    let count = rows_given_out.len();
    let counted = GAUGES.into_iter().filter(|(gauges, _)| *gauges == count);
    met.extend(counted.map(|(_, name)| name));
    let ends = STEPS.into_iter().zip([step == 0, step == u32::MAX]);
    met.extend(ends.filter(|(_, met)| *met).map(|(name, _)| name));
    let changed = rows(record).into_iter().zip(rows(&script.record.0));
    let replaced = changed.filter(|(before, after)| before != after).count();
    if (1..count).contains(&replaced) {
        met.push(SOME);
    }
    if record[1 + ROW * count..].iter().any(|&byte| byte != 0) {
        met.push(PAST);
    }
    met.into_iter().map(String::from).collect()
}

/// What a gauge that is asked for has.
const ASKED: [&str; 5] = [
    "a gauge not seen",
    "a gauge not seen with a peak",
    "a gauge seen",
    "a NaN",
    "-0",
];

/// What is said of an accepted question for a peak.
pub(crate) fn asked(script: &Script, number: u32) -> Vec<String> {
    let rows = gauges(&script.record_lent).unwrap_or_default();
    let Some(row) = rows.get(number as usize) else {
        return Vec::new();
    };
    let (seen, peak) = (row.highest.seen == 1, row.highest.peak);
    let [bits, minus] = [peak, -0.0].map(f64::to_bits);
    let is = [
        !seen,
        !seen && bits != 0,
        seen,
        peak.is_nan(),
        bits == minus,
    ];
    let names = ASKED.into_iter().zip(is).filter(|(_, met)| *met);
    names.map(|(name, _)| String::from(name)).collect()
}

/// All that must be reached.
pub(crate) fn all_conditions() -> Vec<Reached> {
    let mut all = Vec::new();
    for gauge in ON_A_RECORD {
        let call = Call::Gauge(gauge);
        for names in [&LENGTHS[..], &COUNTS, &SEEN, &WHERE, &[BOTH, TWO]] {
            all.extend(of(call, 43, names));
        }
    }
    for gauge in [Gauge::Elevation, Gauge::Peak] {
        all.extend(of(Call::Gauge(gauge), 42, &NUMBERS));
    }
    let add = Call::Gauge(Gauge::Add);
    for names in [&GIVEN_OUT[..], &OVER, &[AGAIN]] {
        all.extend(of(add, 0, names));
    }
    let update = Call::Gauge(Gauge::Update);
    for names in [&DONE[..], &GAUGES.map(|(_, name)| name), &STEPS] {
        all.extend(of(update, 0, names));
    }
    all.extend(of(update, 0, &[SOME, PAST]));
    all.extend(of(Call::Gauge(Gauge::Peak), 0, &ASKED));
    all
}
