//! Scripts: "a text that lends slices of any lengths and contents, makes calls,
//! and prints what they hand back". Comments in quotation marks are sentences
//! of `docs/SCRIPT.md`.

pub(crate) mod gauges;
pub(crate) mod lists;
pub(crate) mod slices;

use crate::forcings::read_forcing;
use crate::frames::pattern;
use crate::gauges::Point;
use crate::grids::read_grid;
use crate::mesh::open;
use crate::records::{Answer, Clock, Parameters};
use crate::saves::{load, save};
use crate::step::step;
use gauges::Gauge;
use lists::LentToList;
use slices::{Byte, Decimal, Float, Form, Held, Slice, Words};
use std::io::Write;
use std::mem::swap;

/// What a script printed.
pub struct Printed {
    /// The bytes for standard output.
    pub text: Vec<u8>,
    /// The line that ended the script before its end, from 1.
    pub bad_line: Option<usize>,
}

/// The calls.
#[derive(Clone, Copy, Debug, PartialEq, Eq, PartialOrd, Ord)]
pub(crate) enum Call {
    Open,
    Step,
    Save,
    Load,
    Read,
    Grid,
    StepAll,
    Gauge(Gauge),
}

impl Call {
    /// Every call but those on gauges.
    pub const ALL: [Call; 7] = [
        Call::Open,
        Call::Step,
        Call::Save,
        Call::Load,
        Call::Read,
        Call::Grid,
        Call::StepAll,
    ];

    /// The call that a command of one word makes.
    fn of(command: &[u8]) -> Option<Call> {
        Call::ALL
            .into_iter()
            .find(|call| call.name().as_bytes() == command)
    }

    /// The command that makes the call, and the first word of what it prints.
    pub fn name(self) -> &'static str {
        match self {
            Call::Open => "open",
            Call::Step => "step",
            Call::Save => "save",
            Call::Load => "load",
            Call::Read => "read",
            Call::Grid => "grid",
            Call::StepAll => "stepall",
            Call::Gauge(gauge) => gauge.name(),
        }
    }
}

/// A call that was made, and its answer.
#[derive(Clone, Copy)]
pub(crate) struct Called {
    pub call: Call,
    pub answer: Answer,
    /// The sequence number that a `read` expected, else 0.
    pub expected: u32,
    /// The clock that went in.
    pub clock: Clock,
    /// The count of steps that a `stepall` accepted, else 0.
    pub accepted: u32,
    /// The point of a `gauge locate` or a `gauge add`, else (0, 0).
    pub point: Point,
    /// The number that a `gauge elevation` or a `gauge peak` asks for, else 0.
    pub gauge: u32,
}

/// "A line that is none of the commands below, or has a word that is not of its
/// form".
pub(crate) struct BadLine;

/// "What a script holds", and what it has printed.
pub(crate) struct Script {
    pub x: Held<Decimal<i32>>,
    pub y: Held<Decimal<i32>>,
    pub tri: Held<Decimal<u16>>,
    pub h: Held<Float>,
    pub kind: Held<Decimal<u8>>,
    pub state: Held<Float>,
    pub next: Held<Float>,
    pub work: Held<Float>,
    pub sums: Held<Decimal<u64>>,
    pub forcing: Held<Float>,
    pub forcings: Held<Float>,
    pub text: Held<Byte>,
    pub lines: Held<Byte>,
    pub record: Held<Byte>,
    /// The record as the latest call on gauges was lent it.
    pub record_lent: Vec<u8>,
    /// What the latest call on a list was lent and may have written over.
    pub lent_to_list: LentToList,
    pub xbytes: Held<Byte>,
    pub ybytes: Held<Byte>,
    pub tribytes: Held<Byte>,
    pub hbytes: Held<Byte>,
    pub kindbytes: Held<Byte>,
    pub statebytes: Held<Byte>,
    pub p: Parameters,
    /// The word of the parameters' setting.
    pub advection: u8,
    pub clock: Clock,
    pub printed: Vec<u8>,
}

/// Runs a script from its first line to its end or its first bad line.
pub fn run(script: &[u8]) -> Printed {
    run_watched(script, |_, _| ())
}

/// Runs a script, and shows what it holds after each call.
pub(crate) fn run_watched(text: &[u8], mut watch: impl FnMut(&Script, Called)) -> Printed {
    let mut script = Script::new();
    let mut bad_line = None;
    for (at, line) in text.split_inclusive(|&byte| byte == b'\n').enumerate() {
        match script.line(line) {
            Ok(Some(called)) => watch(&script, called),
            Ok(None) => (),
            Err(BadLine) => {
                // "`bad line N`, N from 1, is printed".
                script.print(format_args!("bad line {}", at + 1));
                bad_line = Some(at + 1);
                break;
            }
        }
    }
    Printed {
        text: script.printed,
        bad_line,
    }
}

impl Script {
    /// Every slice "empty", "and the parameters and the clock, all zero at the
    /// start (every float +0)".
    pub fn new() -> Script {
        Script {
            x: Held::empty(),
            y: Held::empty(),
            tri: Held::empty(),
            h: Held::empty(),
            kind: Held::empty(),
            state: Held::empty(),
            next: Held::empty(),
            work: Held::empty(),
            sums: Held::empty(),
            forcing: Held::empty(),
            forcings: Held::empty(),
            text: Held::empty(),
            lines: Held::empty(),
            record: Held::empty(),
            record_lent: Vec::new(),
            lent_to_list: LentToList::default(),
            xbytes: Held::empty(),
            ybytes: Held::empty(),
            tribytes: Held::empty(),
            hbytes: Held::empty(),
            kindbytes: Held::empty(),
            statebytes: Held::empty(),
            p: Parameters {
                dt: 0.0,
                tau: 0.0,
                k: 0.0,
                f: 0.0,
                advection: false,
            },
            advection: 0,
            clock: Clock::COLD,
            printed: Vec::new(),
        }
    }

    /// Does what a line says: "One command a line", "ended by a line feed". "A
    /// line that is empty or begins with `#` is passed over."
    pub fn line(&mut self, line: &[u8]) -> Result<Option<Called>, BadLine> {
        if line == b"\n" || line.starts_with(b"#") {
            return Ok(None);
        }
        let command = line.strip_suffix(b"\n").ok_or(BadLine)?;
        self.command(command).ok_or(BadLine)
    }

    /// `None` for a bad line, else the call where the command was one.
    fn command(&mut self, line: &[u8]) -> Option<Option<Called>> {
        let mut words = Words::of(line);
        let command = words.next()?;
        let call = match command {
            b"gauge" => Some(Call::Gauge(Gauge::of(words.next()?)?)),
            _ => Call::of(command),
        };
        if let Some(call) = call {
            return self.call(call, words).map(Some);
        }
        match command {
            b"echo" => self.echo(line, words)?,
            b"print" => self.print_slice(words)?,
            b"digest" => self.print_digest(words)?,
            setting => self.setting(setting, words)?,
        }
        Some(None)
    }

    /// "Setting".
    fn setting(&mut self, command: &[u8], mut words: Words) -> Option<()> {
        match command {
            b"parameters" => (self.p, self.advection) = read_parameters(&mut words)?,
            b"clock" => self.clock.step = words.read::<Decimal<u32>>()?,
            b"swap" => swap(&mut self.state, &mut self.next),
            b"queue" => self.queue(words.place()?)?,
            b"pack" => self.pack(),
            of_slice => {
                let slice = self.slice(words.next()?)?;
                return slice_setting(slice, of_slice, words);
            }
        }
        words.end()
    }

    /// The slice of a name.
    pub fn slice(&mut self, name: &[u8]) -> Option<&mut dyn Slice> {
        Some(match name {
            b"x" => &mut self.x,
            b"y" => &mut self.y,
            b"tri" => &mut self.tri,
            b"h" => &mut self.h,
            b"kind" => &mut self.kind,
            b"state" => &mut self.state,
            b"next" => &mut self.next,
            b"work" => &mut self.work,
            b"sums" => &mut self.sums,
            b"forcing" => &mut self.forcing,
            b"forcings" => &mut self.forcings,
            b"text" => &mut self.text,
            b"lines" => &mut self.lines,
            b"record" => &mut self.record,
            b"xbytes" => &mut self.xbytes,
            b"ybytes" => &mut self.ybytes,
            b"tribytes" => &mut self.tribytes,
            b"hbytes" => &mut self.hbytes,
            b"kindbytes" => &mut self.kindbytes,
            b"statebytes" => &mut self.statebytes,
            _ => return None,
        })
    }

    /// "Each call lends the slices of its name in the table, and prints one
    /// line, two or three." "EXPECTED is a 32-bit unsigned number", "PX and PY are 32-bit
    /// signed numbers, G is a 32-bit unsigned one".
    fn call(&mut self, call: Call, mut words: Words) -> Option<Called> {
        let (mut expected, mut point, mut gauge) = (0, [0; 2], 0);
        match call {
            Call::Read => expected = words.read::<Decimal<u32>>()?,
            Call::Gauge(Gauge::Locate | Gauge::Add) => {
                point = [words.read::<Decimal<i32>>()?, words.read::<Decimal<i32>>()?];
            }
            Call::Gauge(Gauge::Elevation | Gauge::Peak) => {
                gauge = words.read::<Decimal<u32>>()?;
            }
            _ => (),
        }
        words.end()?;
        let mut called = Called {
            call,
            answer: Answer::accepted(0),
            expected,
            clock: self.clock,
            accepted: 0,
            point,
            gauge,
        };
        (called.answer, called.accepted) = self.make(called);
        Some(called)
    }

    /// Makes a call and prints what comes back: the answer, and the count of steps
    /// that a `stepall` accepted.
    fn make(&mut self, called: Called) -> (Answer, u32) {
        let call = called.call;
        let answer = match call {
            Call::Open => {
                let (answer, clock) = self.open();
                self.hand_back_clock(call, answer, clock)
            }
            Call::Step => {
                let (answer, clock) = self.step();
                self.hand_back_clock(call, answer, clock)
            }
            Call::Load => {
                let (answer, clock) = self.load();
                self.hand_back_clock(call, answer, clock)
            }
            Call::Save => {
                let answer = self.save();
                self.print_answer(call, answer)
            }
            Call::Read => {
                let answer = self.read(called.expected);
                self.print_answer(call, answer)
            }
            Call::Grid => {
                let answer = self.grid();
                self.print_answer(call, answer)
            }
            Call::StepAll => return self.step_through(),
            Call::Gauge(of_five) => self.gauge(of_five, called.point, called.gauge),
        };
        (answer, 0)
    }

    /// "the clock handed back is the script's clock from then on".
    fn hand_back_clock(&mut self, call: Call, answer: Answer, clock: Clock) -> Answer {
        self.clock = clock;
        self.print_answer(call, answer);
        self.print(format_args!("clock {}", clock.step));
        answer
    }

    fn open(&mut self) -> (Answer, Clock) {
        let (x, y, tri) = (&self.x.0, &self.y.0, &self.tri.0);
        let (h, kind) = (&self.h.0, &self.kind.0);
        open(&mut self.state.0, x, y, tri, h, kind, self.p)
    }

    fn step(&mut self) -> (Answer, Clock) {
        let (next, work, sums) = (&mut self.next.0, &mut self.work.0, &mut self.sums.0);
        let (x, y, tri) = (&self.x.0, &self.y.0, &self.tri.0);
        let (state, forcing) = (&self.state.0, &self.forcing.0);
        let (h, kind, p, clock) = (&self.h.0, &self.kind.0, self.p, self.clock);
        step(
            next, work, sums, state, forcing, x, y, tri, h, kind, p, clock,
        )
    }

    fn save(&mut self) -> Answer {
        let (x, y, tri) = (&self.x.0, &self.y.0, &self.tri.0);
        let (state, h, kind) = (&self.state.0, &self.h.0, &self.kind.0);
        let text = &mut self.text.0;
        save(text, state, x, y, tri, h, kind, self.p, self.clock)
    }

    fn load(&mut self) -> (Answer, Clock) {
        let (x, y, tri) = (&self.x.0, &self.y.0, &self.tri.0);
        let (text, h, kind) = (&self.text.0, &self.h.0, &self.kind.0);
        let state = &mut self.state.0;
        load(state, text, x, y, tri, h, kind, self.p, self.clock)
    }

    /// "each NaN in it is then `7FF8000000000000`", which it is by the reading.
    fn read(&mut self, expected: u32) -> Answer {
        read_forcing(&mut self.forcing.0, &self.lines.0, expected)
    }

    fn grid(&mut self) -> Answer {
        let (x, y) = (&mut self.x.0, &mut self.y.0);
        let (h, tri) = (&mut self.h.0, &mut self.tri.0);
        read_grid(x, y, h, tri, &self.text.0)
    }

    /// Prints `NAME NUMBER PLACE VALUE`.
    fn print_answer(&mut self, call: Call, answer: Answer) -> Answer {
        let value = made_word(answer.value);
        let (name, number, place) = (call.name(), answer.number, answer.place);
        self.print(format_args!("{name} {number} {place} {value}"));
        answer
    }

    /// "the slice as a `set` command that would make it".
    fn print_slice(&mut self, mut words: Words) -> Option<()> {
        let name = words.next()?;
        words.end()?;
        let mut line = [b"set ", name].concat();
        self.slice(name)?.each_word(&mut |word| {
            line.push(b' ');
            line.extend(word);
        });
        line.push(b'\n');
        self.printed.extend(line);
        Some(())
    }

    /// "D is 16 hexadecimal digits, the 64-bit FNV-1a hash of the elements'
    /// words as `print` writes them, each followed by a line feed".
    fn print_digest(&mut self, mut words: Words) -> Option<()> {
        let name = words.next()?;
        words.end()?;
        let slice = self.slice(name)?;
        let mut hash = Fnv1a::new();
        slice.each_word(&mut |word| {
            hash.add(word);
            hash.add(b"\n");
        });
        let (count, Fnv1a(digest)) = (slice.length(), hash);
        let name = String::from_utf8_lossy(name);
        self.print(format_args!("digest {name} {count} {digest:016X}"));
        Some(())
    }

    /// Prints the line itself, whose words may be of any bytes.
    fn echo(&mut self, line: &[u8], mut words: Words) -> Option<()> {
        if words.any(<[u8]>::is_empty) {
            return None;
        }
        self.printed.extend(line);
        self.printed.push(b'\n');
        Some(())
    }

    fn print(&mut self, line: std::fmt::Arguments) {
        // Writing to a vector does not fail.
        let _ = writeln!(self.printed, "{line}");
    }
}

/// A setting of one slice, by the words after its name.
fn slice_setting(slice: &mut dyn Slice, command: &[u8], mut words: Words) -> Option<()> {
    match command {
        b"set" => {
            slice.keep(0);
            return slice.add(words);
        }
        b"add" => return slice.add(words),
        b"fill" => slice.fill(words.place()?, words.next()?)?,
        b"put" => slice.put(words.place()?, words.next()?)?,
        b"keep" => slice.keep(words.place()?),
        _ => return None,
    }
    words.end()
}

/// The word of a float that a call made: "there every NaN is printed as
/// `7FF8000000000000`".
fn made_word(value: f64) -> String {
    let mut word = Vec::new();
    Float::write(f64::from_bits(pattern(value)), &mut word);
    String::from_utf8_lossy(&word).into_owned()
}

/// `parameters DT TAU K F ADVECTION`: "four floats, and an 8-bit unsigned number:
/// 0 is advection off, every other number on".
fn read_parameters(words: &mut Words) -> Option<(Parameters, u8)> {
    let [dt, tau, k, f] = [
        words.read::<Float>()?,
        words.read::<Float>()?,
        words.read::<Float>()?,
        words.read::<Float>()?,
    ];
    let byte = words.read::<Decimal<u8>>()?;
    let p = Parameters {
        dt,
        tau,
        k,
        f,
        advection: byte != 0,
    };
    Some((p, byte))
}

/// The 64-bit FNV-1a hash: each byte is joined by exclusive or before the
/// product with the prime.
struct Fnv1a(u64);

impl Fnv1a {
    fn new() -> Fnv1a {
        Fnv1a(0xCBF2_9CE4_8422_2325)
    }

    fn add(&mut self, bytes: &[u8]) {
        for &byte in bytes {
            self.0 = (self.0 ^ u64::from(byte)).wrapping_mul(0x0000_0100_0000_01B3);
        }
    }
}
