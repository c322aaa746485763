//! What generated scripts reach: how many of them get each number of the
//! refusal table from each call, at each condition of its row, and which NaNs a
//! refusal left as found.

mod advection;
mod conditions;
mod forcings;
mod friction;
mod gauges;
mod grids;
mod layouts;
mod lists;
mod names;
pub(crate) mod nans;
mod spellings;
mod texts;
mod wanted;
mod winds;

use crate::generate::{generate, Family};
use crate::script::gauges::Gauge;
use crate::script::{run_watched, Call, Called, Script};
use conditions::conditions;
use std::collections::{BTreeMap, BTreeSet};
use wanted::{all_conditions, Reached};

/// Every number that a call other than those on gauges can answer.
const NUMBERS: [u32; 25] = [
    0, 1, 2, 3, 4, 5, 6, 7, 8, 9, 10, 11, 12, 13, 14, 20, 21, 22, 23, 24, 25, 30, 31, 32, 33,
];

/// The numbers of request #106.
const GAUGE_NUMBERS: [u32; 4] = [40, 41, 42, 43];

/// The row whose places are told apart.
const PLACED: u32 = 9;

/// What steps meet three times in a row, and what is said of the third.
const IN_A_ROW: [(&str, &str); 2] = [
    (friction::TELLS, friction::TELLS_ON),
    (advection::TELLS, advection::TELLS_ON),
];

/// How many scripts reached each thing.
struct Counts<T>(BTreeMap<T, usize>);

impl<T> Default for Counts<T> {
    fn default() -> Counts<T> {
        Counts(BTreeMap::new())
    }
}

impl<T: Ord> Counts<T> {
    /// Counts a script for each thing that it reached.
    fn add(&mut self, reached: BTreeSet<T>) {
        for thing in reached {
            *self.0.entry(thing).or_default() += 1;
        }
    }

    fn of(&self, thing: &T) -> usize {
        self.0.get(thing).copied().unwrap_or(0)
    }
}

/// What one script reached.
#[derive(Default)]
struct Trail {
    numbers: BTreeSet<(Call, u32)>,
    places: BTreeSet<(Call, u32, usize)>,
    conditions: BTreeSet<Reached>,
    calls: usize,
    /// Whether the mesh is one that was read from a grid text.
    mesh_read: bool,
    /// In how many steps in a row each of [`IN_A_ROW`] was met.
    in_a_row: [usize; 2],
    crossing: advection::Crossing,
    latest: spellings::Latest,
    loaded: texts::Loaded,
    mixed: forcings::Mixed,
    followed: gauges::Followed,
    beside: lists::Beside,
}

impl Trail {
    fn watch(&mut self, script: &Script, called: Called) {
        let (call, number) = (called.call, called.answer.number);
        self.calls += 1;
        self.numbers.insert((call, number));
        if number == PLACED {
            self.places.insert((call, number, called.answer.place));
        }
        let mut met = self.followed.follow(called);
        if let Call::Gauge(gauge) = call {
            met.extend(gauges::conditions(script, called, gauge));
        } else {
            met.extend(self.of_a_run(script, called));
        }
        for condition in met {
            self.conditions.insert((call, number, condition));
        }
    }

    /// What is said of a call that is not on gauges.
    fn of_a_run(&mut self, script: &Script, called: Called) -> Vec<String> {
        let (call, number) = (called.call, called.answer.number);
        let mut met = conditions(script, called);
        met.extend(nans::kept(script, called));
        met.extend(spellings::conditions(script, called));
        met.extend(self.latest.follow(script, called));
        met.extend(self.beside.follow(script, called));
        if number == 0 {
            met.extend(self.crossing.follow(script, called));
            met.extend(self.loaded.follow(script, called));
            met.extend(self.mixed.follow(script, called));
        }
        if call == Call::Step {
            met.extend(self.thirds(&met));
        }
        if call == Call::StepAll {
            met.extend(lists::of_any(script, called));
        }
        if call == Call::Grid {
            self.mesh_read = number == 0;
        } else if self.mesh_read {
            met.push(String::from(grids::ON_READ));
        }
        met
    }

    /// What is said of the third step in a row that meets the same.
    fn thirds(&mut self, met: &[String]) -> Vec<String> {
        let mut thirds = Vec::new();
        for (count, (name, third)) in self.in_a_row.iter_mut().zip(IN_A_ROW) {
            let again = met.iter().any(|condition| condition == name);
            *count = if again { *count + 1 } else { 0 };
            if *count == 3 {
                thirds.push(String::from(third));
            }
        }
        thirds
    }
}

/// The pairs of rows that were broken at once, a row with itself among them, by
/// what the script echoed.
fn pairs(printed: &[u8]) -> BTreeSet<(u32, u32)> {
    let mut pairs = BTreeSet::new();
    for line in String::from_utf8_lossy(printed).lines() {
        let Some(words) = line.strip_prefix("echo rows ") else {
            continue;
        };
        let rows: Vec<u32> = words.split(' ').flat_map(str::parse).collect();
        for (at, &one) in rows.iter().enumerate() {
            let others = rows[at + 1..].iter();
            pairs.extend(others.map(|&other| (one.min(other), one.max(other))));
        }
    }
    pairs
}

/// The counts over all scripts.
#[derive(Default)]
struct Coverage {
    wanted: Vec<Reached>,
    /// Whether the scripts are of gauges, whose calls and numbers the table then
    /// has.
    of_gauges: bool,
    scripts: usize,
    bad_lines: usize,
    calls: usize,
    numbers: Counts<(Call, u32)>,
    places: Counts<(Call, u32, usize)>,
    conditions: Counts<Reached>,
    pairs: Counts<(u32, u32)>,
}

impl Coverage {
    /// Runs a script and counts it.
    fn add(&mut self, script: &[u8]) {
        let mut trail = Trail::default();
        let printed = run_watched(script, |script, called| trail.watch(script, called));
        self.scripts += 1;
        self.bad_lines += usize::from(printed.bad_line.is_some());
        self.calls += trail.calls;
        self.numbers.add(trail.numbers);
        self.places.add(trail.places);
        self.conditions.add(trail.conditions);
        self.pairs.add(pairs(&printed.text));
    }

    /// The conditions that no script reached.
    fn missed(&self) -> Vec<&Reached> {
        let wanted = self.wanted.iter();
        wanted
            .filter(|condition| self.conditions.of(condition) == 0)
            .collect()
    }

    fn text(&self) -> String {
        let mut text = format!(
            "scripts {}, with a bad line {}, calls {}\n\n{}\n",
            self.scripts,
            self.bad_lines,
            self.calls,
            self.numbers_table()
        );
        for ((call, number, place), scripts) in &self.places.0 {
            let name = call.name();
            text += &format!("{name} {number} at place {place}: {scripts}\n");
        }
        text += "\n";
        for ((call, number, condition), scripts) in &self.conditions.0 {
            let name = call.name();
            text += &format!("{name} {number}, {condition}: {scripts}\n");
        }
        text + &self.ending()
    }

    /// A row for each number, a column for each call.
    fn numbers_table(&self) -> String {
        let (mut calls, mut numbers) = (Call::ALL.to_vec(), NUMBERS.to_vec());
        if self.of_gauges {
            calls.extend(Gauge::ALL.map(Call::Gauge));
            numbers.extend(GAUGE_NUMBERS);
        }
        let width = |call: Call| call.name().len().max(4) + 3;
        let mut table = String::from("number");
        for &call in &calls {
            table += &format!("{:>1$}", call.name(), width(call));
        }
        table += "\n";
        for number in numbers {
            table += &format!("{number:>6}");
            for &call in &calls {
                let scripts = match self.numbers.of(&(call, number)) {
                    0 => String::from("-"),
                    scripts => scripts.to_string(),
                };
                table += &format!("{scripts:>0$}", width(call));
            }
            table += "\n";
        }
        table
    }

    fn ending(&self) -> String {
        let (all, missed) = (self.wanted.len(), self.missed());
        let mut text = format!("\npairs of rows broken at once: {}\n", self.pairs.0.len());
        text += &format!("conditions reached: {} of {all}\n", all - missed.len());
        for (call, number, condition) in missed {
            text += &format!("missed: {} {number}, {condition}\n", call.name());
        }
        text
    }
}

/// Runs scripts of a family and a seed and tells what they reached; and whether
/// they reached everything, with no bad line.
pub fn coverage(family: Family, seed: u64, first: u64, count: u64) -> (String, bool) {
    let mut coverage = Coverage {
        wanted: all_conditions(family),
        of_gauges: family == Family::Gauges,
        ..Coverage::default()
    };
    for index in first..first.saturating_add(count) {
        coverage.add(&generate(family, seed, index));
    }
    let whole = coverage.missed().is_empty() && coverage.bad_lines == 0;
    (coverage.text(), whole)
}
