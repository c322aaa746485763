//! The pen that writes a script. Every line is run as it is written, so that
//! the next one can be chosen by what the script then holds.

use super::dice::Dice;
use super::values::{anything, word};
use super::worlds::World;
use crate::frames::two_digits;
use crate::lists::LIST_WORK_RUNS;
use crate::mesh::STATE_RUNS;
use crate::records::{Answer, Clock, Parameters};
use crate::script::{Call, Script};
use crate::step::WORK_RUNS;
use std::fmt::Display;

/// Slices up to this length are printed, longer ones as a digest.
const PRINTED: usize = 18;

/// Forcings up to this length are set number by number, of longer ones the
/// numbers that are not the last one.
const SET: usize = 601;

/// The slices that a call is lent beside the mesh.
fn rooms_of(call: Call) -> &'static [&'static str] {
    match call {
        Call::Open => &["state"],
        Call::Step => &["state", "next", "work", "sums", "forcing"],
        Call::StepAll => &["state", "next", "work", "sums", "forcings"],
        Call::Save | Call::Load => &["state", "text"],
        Call::Read => &["forcing", "lines"],
        Call::Grid | Call::Gauge(_) => &[],
    }
}

/// The slices of the mesh.
const MESH: [&str; 5] = ["x", "y", "tri", "h", "kind"];

/// A script under way.
pub(crate) struct Pen {
    pub dice: Dice,
    pub script: Script,
    written: Vec<u8>,
    /// The lines that undo the faults under way, the latest last.
    undo: Vec<String>,
}

impl Pen {
    pub fn new(dice: Dice) -> Pen {
        Pen {
            dice,
            script: Script::new(),
            written: Vec::new(),
            undo: Vec::new(),
        }
    }

    /// The script that was written.
    pub fn into_text(self) -> Vec<u8> {
        self.written
    }

    /// Writes a line and runs it; the answer where it is a call.
    pub fn say(&mut self, line: impl Into<String>) -> Option<Answer> {
        let mut line = line.into().into_bytes();
        line.push(b'\n');
        self.written.extend(&line);
        let done = self.script.line(&line);
        // What the script prints is for those who run it.
        self.script.printed.clear();
        match done {
            Ok(called) => called.map(|called| called.answer),
            // A bad line stays in the text, where a run of it shows.
            Err(_) => None,
        }
    }

    /// Writes a list of words after some first words.
    pub fn say_list(&mut self, first: &str, words: impl IntoIterator<Item = impl Display>) {
        let mut line = first.to_string();
        for word in words {
            line += &format!(" {word}");
        }
        self.say(line);
    }

    /// Makes a call on a run and looks at the slices that it was lent, after a
    /// refusal at those of the mesh too. The answer.
    pub fn call(&mut self, call: Call) -> Answer {
        let answer = self.call_unseen(call);
        if answer.number == 0 {
            self.look_at(rooms_of(call));
        }
        answer
    }

    /// Makes a call on a run and looks at what a refusal left. The answer.
    pub fn call_unseen(&mut self, call: Call) -> Answer {
        let answer = self.say(call.name()).unwrap_or(Answer::accepted(0));
        if answer.number != 0 {
            self.look_at(rooms_of(call));
            self.look_at(&MESH);
        }
        answer
    }

    /// Reads a forcing from the lines that the script holds, and looks at them and
    /// at the room. The answer.
    pub fn read(&mut self, expected: u32) -> Answer {
        let answer = self.say(format!("read {expected}"));
        self.look_at(rooms_of(Call::Read));
        answer.unwrap_or(Answer::accepted(0))
    }

    fn look_at(&mut self, names: &[&str]) {
        for name in names {
            self.look(name);
        }
    }

    /// Prints a slice, or its digest where it is long.
    pub fn look(&mut self, name: &str) {
        let length = self.length(name);
        let command = if length <= PRINTED { "print" } else { "digest" };
        self.say(format!("{command} {name}"));
    }

    /// The length of a slice.
    pub fn length(&mut self, name: &str) -> usize {
        let slice = self.script.slice(name.as_bytes());
        slice.map_or(0, |slice| slice.length())
    }

    /// N, "the length of the x slice".
    pub fn nodes(&self) -> usize {
        self.script.x.0.len()
    }

    /// E, "a third of the triangle list's length".
    pub fn triangles(&self) -> usize {
        self.script.tri.0.len() / 3
    }

    /// Any node.
    pub fn any_node(&mut self) -> usize {
        let nodes = self.nodes();
        self.dice.below(nodes)
    }

    /// Sets the mesh, and rooms of its size that hold anything.
    pub fn set_world(&mut self, world: &World) {
        self.say_list("set x", world.points.iter().map(|point| point[0]));
        self.say_list("set y", world.points.iter().map(|point| point[1]));
        self.say_list("set tri", world.triangles.iter().flatten());
        self.say_list("set h", world.h.iter().copied().map(word));
        self.say_list("set kind", &world.kind);
        self.rooms();
    }

    /// Rooms for a mesh: state, next state, work room, sums and forcing, each
    /// filled with something that a call is seen to write over.
    pub fn rooms(&mut self) {
        self.fill_runs("state", STATE_RUNS);
        self.work_rooms();
        self.forcing_room();
    }

    /// A room for the mesh's forcings, filled with anything.
    pub fn forcing_room(&mut self) {
        let length = 1 + 2 * self.nodes();
        self.fill("forcing", length);
    }

    /// The rooms that a step is lent beside the state, filled anew: after an
    /// accepted step they are "all zero", and a refusal that zeroes them would
    /// not be seen.
    pub fn work_rooms(&mut self) {
        self.rooms_beside(WORK_RUNS);
    }

    /// The same for a list of forcings, whose work room is larger.
    pub fn list_rooms(&mut self) {
        self.rooms_beside(LIST_WORK_RUNS);
    }

    fn rooms_beside(&mut self, work_runs: usize) {
        self.fill_runs("next", STATE_RUNS);
        self.fill_runs("work", work_runs);
        let filling = self.dice.bits();
        self.say(format!("fill sums {} {filling}", self.nodes()));
    }

    fn fill_runs(&mut self, name: &str, runs: usize) {
        let length = runs * self.nodes();
        self.fill(name, length);
    }

    /// A slice of floats of this length, filled with anything.
    pub fn fill(&mut self, name: &str, length: usize) {
        let filling = word(anything(&mut self.dice));
        self.say(format!("fill {name} {length} {filling}"));
    }

    pub fn set_parameters(&mut self, p: Parameters) {
        let byte = self.byte_of(p.advection);
        self.say(parameters_line(p, byte));
    }

    /// The byte of a setting: 1 most often where it is on.
    fn byte_of(&mut self, advection: bool) -> u8 {
        let any = 1 + self.dice.below(255) as u8;
        let on = self.dice.one_of(&[1, 1, 1, 1, 1, 2, 128, 255, any]);
        if advection {
            on
        } else {
            0
        }
    }

    pub fn set_clock(&mut self, clock: Clock) {
        self.say(clock_line(clock));
    }

    pub fn set_forcing(&mut self, forcing: &[f64]) {
        let Some((last, others)) = forcing.split_last() else {
            return;
        };
        if forcing.len() <= SET {
            self.say_list("set forcing", forcing.iter().copied().map(word));
            return;
        }
        self.say(format!("fill forcing {} {}", forcing.len(), word(*last)));
        for (at, &number) in others.iter().enumerate() {
            if number.to_bits() != last.to_bits() {
                self.say(format!("put forcing {at} {}", word(number)));
            }
        }
    }

    /// Makes the text, the lines or the record these bytes, the shorter way: by a command for
    /// each byte that differs, or by all bytes from the first of them on.
    pub fn become_bytes(&mut self, name: &str, bytes: &[u8]) {
        let held = match name {
            "text" => self.script.text.0.clone(),
            "lines" => self.script.lines.0.clone(),
            _ => self.script.record.0.clone(),
        };
        let pairs = || bytes.iter().zip(&held);
        let same = pairs().take_while(|(new, old)| new == old).count();
        let differing = pairs().filter(|(new, old)| new != old).count();
        let command = format!("put {name} {} 00", bytes.len()).len();
        let by_puts = differing * command <= 3 * (bytes.len() - same);
        if held.len() == bytes.len() && by_puts {
            for (at, (&new, old)) in bytes.iter().zip(held).enumerate() {
                if new != old {
                    self.say(format!("put {name} {at} {}", byte_word(new)));
                }
            }
            return;
        }
        if same < held.len() {
            self.say(format!("keep {name} {same}"));
        }
        if same < bytes.len() {
            let words = bytes[same..].iter().copied().map(byte_word);
            self.say_list(&format!("add {name}"), words);
        }
    }

    /// Makes a change that [`Pen::mend`] undoes.
    pub fn change(&mut self, line: impl Into<String>, undo: String) {
        self.undo.push(undo);
        self.say(line);
    }

    /// Changes one element of a slice.
    pub fn change_element(&mut self, name: &str, at: usize, new: impl Display, old: impl Display) {
        let (line, undo) = (
            format!("put {name} {at} {new}"),
            format!("put {name} {at} {old}"),
        );
        self.change(line, undo);
    }

    /// Adds elements to the end of a slice.
    pub fn lengthen(&mut self, name: &str, words: &str) {
        let length = self.length(name);
        self.change(
            format!("add {name} {words}"),
            format!("keep {name} {length}"),
        );
    }

    /// Changes a slice as a whole.
    pub fn change_slice(&mut self, name: &str, line: String) {
        let undo = self.as_set(name);
        self.change(line, undo);
    }

    /// Changes the parameters.
    pub fn change_parameters(&mut self, p: Parameters) {
        let byte = self.byte_of(p.advection);
        let undo = parameters_line(self.script.p, self.script.advection);
        self.change(parameters_line(p, byte), undo);
    }

    /// Changes the clock.
    pub fn change_clock(&mut self, clock: Clock) {
        self.change(clock_line(clock), clock_line(self.script.clock));
    }

    /// Changes one number of a slice of floats, where it has such an element.
    pub fn change_float(&mut self, name: &str, at: usize, new: f64) {
        let floats = match name {
            "h" => &self.script.h.0,
            "state" => &self.script.state.0,
            "next" => &self.script.next.0,
            "work" => &self.script.work.0,
            "forcings" => &self.script.forcings.0,
            _ => &self.script.forcing.0,
        };
        if let Some(&old) = floats.get(at) {
            self.change_element(name, at, word(new), word(old));
        }
    }

    /// Undoes every change, the latest first.
    pub fn mend(&mut self) {
        while let Some(line) = self.undo.pop() {
            self.say(line);
        }
    }

    /// The words of a slice's elements.
    pub fn words(&mut self, name: &str) -> Vec<String> {
        let mut words = Vec::new();
        if let Some(slice) = self.script.slice(name.as_bytes()) {
            slice.each_word(&mut |word| words.push(String::from_utf8_lossy(word).into_owned()));
        }
        words
    }

    /// A `set` command that makes the slice what it now is.
    fn as_set(&mut self, name: &str) -> String {
        let mut words = self.words(name);
        words.insert(0, format!("set {name}"));
        words.join(" ")
    }
}

fn parameters_line(p: Parameters, byte: u8) -> String {
    let words = [p.dt, p.tau, p.k, p.f].map(word);
    format!("parameters {} {byte}", words.join(" "))
}

fn clock_line(clock: Clock) -> String {
    format!("clock {}", clock.step)
}

/// The word of a byte.
pub(crate) fn byte_word(byte: u8) -> String {
    two_digits(byte).map(char::from).iter().collect()
}
