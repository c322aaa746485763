//! What came before a call on a list and after it: openings, loads, saves, single
//! steps, other lists; and the same forcings by single calls.

use super::super::advection::patterns;
use super::super::wanted::{each, of, Reached};
use super::width;
use crate::records::{Clock, Parameters};
use crate::script::{Call, Called, Script};

/// What gave the state that a call is lent.
const ON_FROM: [&str; 5] = [
    "an opening",
    "a load",
    "a single step",
    "a list",
    "a list that was stopped",
];

/// Where the lists begin among these.
const LISTS: usize = 3;

/// What is said of a call whose state was given so.
const ON: &str = "on from";

/// Steps one after another: where they began, by what, and what they came to.
#[derive(Clone, Debug, PartialEq)]
struct Chain {
    state: Vec<u64>,
    clock: Clock,
    settings: [u64; 5],
    /// The forcings of the accepted steps.
    forcings: Vec<u64>,
    end: Vec<u64>,
    /// The row that refused the step after them, else 0.
    stopped_by: u32,
}

impl Chain {
    /// A chain without a step.
    fn at(script: &Script, clock: Clock) -> Chain {
        let state = patterns(&script.state.0);
        Chain {
            end: state.clone(),
            state,
            clock,
            settings: settings(script.p),
            forcings: Vec::new(),
            stopped_by: 0,
        }
    }

    /// The chain of a call on a list.
    fn of_list(script: &Script, called: Called) -> Chain {
        let mut chain = Chain::at(script, called.clock);
        let accepted = called.accepted as usize;
        if accepted > 0 {
            chain.end = patterns(&script.next.0);
        }
        let forcings = &script.forcings.0[..accepted * width(script)];
        chain.forcings = patterns(forcings);
        chain.stopped_by = called.answer.number;
        chain
    }

    /// Whether a single call goes on from here.
    fn goes_on(&self, script: &Script) -> bool {
        self.stopped_by == 0
            && self.end == patterns(&script.state.0)
            && self.settings == settings(script.p)
    }

    /// Goes on by a single call.
    fn add(&mut self, script: &Script, called: Called) {
        self.stopped_by = called.answer.number;
        if called.answer.number == 0 {
            self.forcings.extend(patterns(&script.forcing.0));
            self.end = patterns(&script.next.0);
        }
    }
}

fn settings(p: Parameters) -> [u64; 5] {
    let [dt, tau, k, f] = [p.dt, p.tau, p.k, p.f].map(f64::to_bits);
    [dt, tau, k, f, u64::from(p.advection)]
}

/// The calls that came before.
#[derive(Default)]
pub(crate) struct Beside {
    /// Which call gave a state last, by its place in [`ON_FROM`], and the state.
    given: Option<(usize, Vec<u64>)>,
    /// The latest single calls, each on from the one before.
    single: Option<Chain>,
    list: Option<Chain>,
}

/// What is said of a call on a list that came to what single calls before it did, and
/// of the single call by which the same holds the other way round.
const SAME: [&str; 2] = ["as single calls before it", "as a list before it"];

impl Beside {
    /// Follows a call. What is said of it by what came before.
    pub fn follow(&mut self, script: &Script, called: Called) -> Vec<String> {
        let mut met = self.on_from(script, called);
        let answer = called.answer.number;
        match called.call {
            Call::Step => {
                let goes_on = |chain: &Chain| chain.goes_on(script);
                let mut chain = match self.single.take().filter(goes_on) {
                    Some(chain) => chain,
                    None => Chain::at(script, called.clock),
                };
                chain.add(script, called);
                if self.list.as_ref() == Some(&chain) {
                    met.push(String::from(SAME[1]));
                }
                self.single = Some(chain);
            }
            Call::StepAll if matches!(answer, 0 | 11..=13) => {
                let chain = Chain::of_list(script, called);
                if self.single.as_ref() == Some(&chain) {
                    met.push(String::from(SAME[0]));
                }
                self.list = Some(chain);
            }
            _ => (),
        }
        self.give(script, called);
        met
    }

    /// What gave the state of this call, where it is one on a list or comes after one.
    fn on_from(&self, script: &Script, called: Called) -> Vec<String> {
        let refused = called.answer.number != 0 && called.accepted == 0;
        let (Some((which, state)), false) = (&self.given, refused) else {
            return Vec::new();
        };
        let of_a_list = called.call == Call::StepAll || *which >= LISTS;
        let same = of_a_list && *state == patterns(&script.state.0);
        Vec::from_iter(same.then(|| format!("{ON} {}", ON_FROM[*which])))
    }

    /// Keeps the state that a call gave.
    fn give(&mut self, script: &Script, called: Called) {
        let (which, state) = match (called.call, called.answer.number) {
            (Call::Open, 0) => (0, &script.state.0),
            (Call::Load, 0) => (1, &script.state.0),
            (Call::Step, 0) => (2, &script.next.0),
            (Call::StepAll, 0) if called.accepted > 0 => (3, &script.next.0),
            (Call::StepAll, _) if called.accepted > 0 => (4, &script.next.0),
            _ => return,
        };
        self.given = Some((which, patterns(state)));
    }
}

/// All that must be reached.
pub(super) fn all_conditions() -> Vec<Reached> {
    let mut all = each(Call::StepAll, 0, &[ON], &ON_FROM);
    for call in [Call::Step, Call::Save, Call::Load] {
        all.extend(each(call, 0, &[ON], &ON_FROM[LISTS..]));
    }
    for number in [0, 11, 12, 13] {
        all.extend(of(Call::StepAll, number, &SAME[..1]));
        all.extend(of(Call::Step, number, &SAME[1..]));
    }
    all
}
