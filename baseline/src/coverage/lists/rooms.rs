//! What a call on a list left of its rooms: zeros and the state after the accepted
//! steps, or what was found.

use super::super::nans::{all_kept_in, kept_in};
use super::super::wanted::{each, of, Reached};
use super::{AT_ONCE, STOPPING};
use crate::script::lists::LentToList;
use crate::script::{Call, Called, Script};
use crate::step::WORK_RUNS;

/// The parts of the work room: a single step's, and "the 6N added last".
const PARTS: [&str; 2] = ["the 5N", "the added 6N"];

/// What is said of a room that was written: it held something else.
const ZEROED: &str = "zeroed";
const SUMS: &str = "the sums";
const NEXT: &str = "a NaN in next is written over";

/// What is said of sums that are not zero and stay.
const SUMS_KEPT: &str = "the sums are kept";

/// An empty list "copies the state": a zero with its sign.
const MINUS_ZERO: &str = "-0 is copied";

/// When the rooms were looked at.
const WHEN: [&str; 2] = ["at the first:", "after a step:"];

/// The two parts of the work room as it was lent.
fn parts<'a>(lent: &'a LentToList, script: &Script) -> [&'a [f64]; 2] {
    let (first, added) = lent.work.split_at(WORK_RUNS * script.x.0.len());
    [first, added]
}

fn holds_something(numbers: &[f64]) -> bool {
    numbers.iter().any(|number| number.to_bits() != 0)
}

/// What is said of the rooms after a call.
pub(super) fn left(script: &Script, called: Called) -> Vec<String> {
    let (lent, number) = (&script.lent_to_list, called.answer.number);
    let sums_held = lent.sums.iter().any(|&sum| sum != 0);
    if AT_ONCE.contains(&number) || number == 14 {
        return Vec::from_iter(sums_held.then(|| String::from(SUMS_KEPT)));
    }
    let named = |when: usize, name: &str| format!("{} {name}", WHEN[when]);
    let mut met = Vec::new();
    let [first, added] = parts(lent, script);
    let zeroed = match (called.accepted, number) {
        (1.., _) => [true, true],
        (_, 13) => [true, false],
        _ => [false, false],
    };
    let when = usize::from(called.accepted > 0);
    for ((name, part), zeroed) in PARTS.into_iter().zip([first, added]).zip(zeroed) {
        if zeroed && holds_something(part) {
            met.push(named(when, &format!("{name} {ZEROED}")));
        } else if !zeroed {
            met.extend(kept_in(name, part).iter().map(|name| named(when, name)));
        }
    }
    met.extend(sums(sums_held, zeroed[0]).map(|name| named(when, &name)));
    met.extend(next(script, called).iter().map(|name| named(when, name)));
    let list = kept_in("forcings", &script.forcings.0);
    met.extend(list.iter().map(|name| named(when, name)));
    met
}

fn sums(held: bool, zeroed: bool) -> Option<String> {
    held.then(|| match zeroed {
        true => format!("{SUMS} {ZEROED}"),
        false => String::from(SUMS_KEPT),
    })
}

/// What is said of the next state.
fn next(script: &Script, called: Called) -> Vec<String> {
    let lent = &script.lent_to_list.next;
    if called.accepted == 0 && called.answer.number != 0 {
        return kept_in("next", lent);
    }
    let mut met = Vec::new();
    if lent.iter().any(|number| number.is_nan()) {
        met.push(String::from(NEXT));
    }
    let minus_zero = (-0.0_f64).to_bits();
    let copied = called.accepted == 0;
    if copied && script.next.0.iter().any(|z| z.to_bits() == minus_zero) {
        met.push(String::from(MINUS_ZERO));
    }
    met
}

/// All that must be reached.
pub(super) fn all_conditions() -> Vec<Reached> {
    let call = Call::StepAll;
    let [first, later] = WHEN;
    let mut all = Vec::new();
    for row in AT_ONCE.into_iter().chain([14]) {
        all.extend(of(call, row, &[SUMS_KEPT]));
    }
    let written = PARTS.map(|part| format!("{part} {ZEROED}"));
    let [first_zeroed, added_zeroed] = written.each_ref().map(String::as_str);
    let sums_zeroed = format!("{SUMS} {ZEROED}");
    for row in [0, 11, 12, 13] {
        let written = [first_zeroed, added_zeroed, &sums_zeroed, NEXT];
        all.extend(each(call, row, &[later], &written));
    }
    let kept = |when: &str, names: &[&str]| -> Vec<String> {
        names.iter().map(|name| format!("{when} {name}")).collect()
    };
    for (row, names) in [
        (0, &PARTS[..]),
        (11, &["next", "forcings", PARTS[0], PARTS[1]]),
        (12, &["next", "forcings", PARTS[0], PARTS[1]]),
        (13, &["next", "forcings", PARTS[1]]),
    ] {
        let names = kept(first, names);
        let names: Vec<&str> = names.iter().map(String::as_str).collect();
        all.extend(all_kept_in(call, row, &names));
    }
    for row in STOPPING {
        let names = kept(later, &["forcings"]);
        all.extend(all_kept_in(call, row, &[names[0].as_str()]));
    }
    all.extend(each(call, 0, &[first], &[SUMS_KEPT, NEXT, MINUS_ZERO]));
    for row in [11, 12] {
        all.extend(each(call, row, &[first], &[SUMS_KEPT]));
    }
    all.extend(each(call, 13, &[first], &[first_zeroed, &sums_zeroed]));
    all
}
