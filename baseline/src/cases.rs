//! Inputs on which the printing program is tried: each is a name and its bytes,
//! made anew on every run, so that the long ones need not be stored. What the
//! program must print for them is [`print`](crate::printing::print)'s to say.

mod nodes;

use crate::frames::{Kind, Line, FORCING, HEAD};
use crate::printing::Run;
use std::ops::Range;

/// An input of the printing program.
pub struct Case {
    /// The name of its files.
    pub name: String,
    /// What stands on standard input.
    pub input: Vec<u8>,
}

/// The fields of a line of kind 10, by name.
const FIELDS: [&str; 3] = ["elevation", "wx", "wy"];

/// The limits of row 12 for them.
const LIMITS: [f64; 3] = [30.0, 0.1, 0.1];

const CALM: [f64; 3] = [0.0; 3];

/// A fresh breeze: accepted, and no field is zero.
const BREEZE: [f64; 3] = [0.25, 0.015625, -0.0078125];

/// How many lines of kind 10 there are: sequences 0 to 65,535.
const ALL: u32 = 65_536;

/// The digits of such a line's sequence and check byte.
const SEQUENCE: Range<usize> = 2..6;
const CHECK: Range<usize> = 54..56;

/// The digits of such a line before its check byte.
const BEFORE_CHECK: Range<usize> = 0..54;

/// A line of patterns, with the right check byte.
fn frame(kind: Kind, sequence: u32, patterns: &[u64]) -> Vec<u8> {
    let begun = Line::begin(kind, sequence as u16);
    let line = patterns.iter().copied().fold(begun, Line::eight_bytes);
    line.end().as_bytes().to_vec()
}

/// The line of kind 10 of a sequence number and three numbers.
fn line(sequence: u32, numbers: [f64; 3]) -> Vec<u8> {
    frame(FORCING, sequence, &numbers.map(f64::to_bits))
}

/// So many lines of sequence 0 on, all with these numbers.
fn lines(count: u32, numbers: [f64; 3]) -> Vec<u8> {
    (0..count)
        .flat_map(|sequence| line(sequence, numbers))
        .collect()
}

/// A line with one of its characters changed.
fn spoiled(mut line: Vec<u8>, place: usize, byte: u8) -> Vec<u8> {
    line[place] = byte;
    line
}

/// A line with some of its digits in lower case.
fn lowered(mut line: Vec<u8>, places: Range<usize>) -> Vec<u8> {
    line[places].make_ascii_lowercase();
    line
}

/// Lines with their letters in both cases: one in lower case, one in upper case
/// and so on.
fn mixed(mut lines: Vec<u8>) -> Vec<u8> {
    let letters = lines.iter_mut().filter(|byte| byte.is_ascii_alphabetic());
    for letter in letters.step_by(2) {
        letter.make_ascii_lowercase();
    }
    lines
}

/// A line with the lowest bit of one of its characters turned, or with a 0 where that
/// is no digit: another digit.
fn turned(mut line: Vec<u8>, place: usize) -> Vec<u8> {
    line[place] ^= 1;
    if !line[place].is_ascii_hexdigit() {
        line[place] = b'0';
    }
    line
}

/// Three numbers of which one is given and the others are a breeze's.
fn with(field: usize, number: f64) -> [f64; 3] {
    let mut numbers = BREEZE;
    numbers[field] = number;
    numbers
}

/// The least number above a positive limit.
fn beyond(limit: f64) -> f64 {
    f64::from_bits(limit.to_bits() + 1)
}

/// All cases, in the order in which they are tried.
pub fn cases() -> Vec<Case> {
    let mut cases = Cases(Vec::new());
    cases.accepted();
    cases.spellings();
    cases.row_12();
    cases.row_13();
    cases.rows_20_to_22();
    cases.refused_in_lower_case();
    cases.order();
    cases.past_the_last();
    cases.nodes();
    cases.0
}

struct Cases(Vec<Case>);

impl Cases {
    fn add(&mut self, name: &str, input: Vec<u8>) {
        let name = name.to_string();
        self.0.push(Case { name, input });
    }

    /// A line as the first of the input, and as its fourth; one more follows, which
    /// is not to be read where the line is a bad one.
    fn first_and_later(&mut self, name: &str, any: impl Fn(u32) -> Vec<u8>) {
        for (which, before) in [("first", 0), ("later", 3)] {
            let mut input = lines(before, BREEZE);
            input.extend(any(before));
            input.extend(line(before + 1, CALM));
            self.add(&format!("{name}_{which}"), input);
        }
    }

    /// A bad line as the fourth alone.
    fn bad_later(&mut self, name: &str, bad: impl Fn(u32) -> Vec<u8>) {
        let input = [lines(3, BREEZE), bad(3), line(4, CALM)].concat();
        self.add(name, input);
    }

    fn accepted(&mut self) {
        self.add("empty", Vec::new());
        self.add(
            "example13",
            [line(0, [0.0, 1.0 / 64.0, 0.0]), line(1, CALM)].concat(),
        );
        self.add("one_line", line(0, BREEZE));
        for (field, name) in FIELDS.iter().enumerate() {
            let zero = [lines(2, BREEZE), line(2, with(field, -0.0))].concat();
            self.add(&format!("minus_zero_{name}"), zero);
            for (sign, side) in [(1.0, "high"), (-1.0, "low")] {
                self.add(
                    &format!("limit_{name}_{side}"),
                    [line(0, with(field, sign * LIMITS[field])), line(1, CALM)].concat(),
                );
            }
        }
        self.add("all_minus_zero", lines(3, [-0.0; 3]));
        self.add(
            "smallest_numbers",
            lines(3, [5e-324, -5e-324, f64::MIN_POSITIVE]),
        );
        self.add("long_log", long_log(2_000));
        self.add("all_lines", long_log(ALL));
    }

    /// "Their new server writes a to f. A digit now means the same in either case":
    /// each of these inputs prints what it prints in upper case. All six letters
    /// stand in the logs, from line 10 on in the sequence too.
    fn spellings(&mut self) {
        self.first_and_later("lower_case", |s| line(s, BREEZE).to_ascii_lowercase());
        let log = long_log(48);
        self.add("lower_case_log", log.to_ascii_lowercase());
        self.add("mixed_case_log", mixed(log.clone()));
        let each = |change: fn(Vec<u8>) -> Vec<u8>| -> Vec<u8> {
            let lines = log.chunks(57).map(<[u8]>::to_vec);
            lines.flat_map(change).collect()
        };
        self.add("lower_case_check_alone", each(|l| lowered(l, CHECK)));
        self.add("lower_case_sequence_alone", each(|l| lowered(l, SEQUENCE)));
        self.add("upper_case_check_alone", each(|l| lowered(l, BEFORE_CHECK)));
        // up to sequences 0A0A to 0A0F, with letters in both bytes
        let log = long_log(2_576);
        self.add("lower_case_long_log", log.to_ascii_lowercase());
        self.add("mixed_case_long_log", mixed(log));
    }

    fn row_12(&mut self) {
        for (field, name) in FIELDS.iter().enumerate() {
            let limit = LIMITS[field];
            self.first_and_later(&format!("row12_{name}_above"), |s| {
                line(s, with(field, beyond(limit)))
            });
            for (what, number) in [
                ("below", -beyond(limit)),
                ("infinity", f64::INFINITY),
                ("minus_infinity", f64::NEG_INFINITY),
                ("nan", f64::NAN),
            ] {
                self.bad_later(&format!("row12_{name}_{what}"), |s| {
                    line(s, with(field, number))
                });
            }
            // a NaN whose sign and fraction are not those of the one that is written
            let mut patterns = BREEZE.map(f64::to_bits);
            patterns[field] = 0xFFF0_0000_0000_0001;
            self.add(
                &format!("row12_{name}_other_nan"),
                frame(FORCING, 0, &patterns),
            );
        }
    }

    /// Wind along the flow pumps the water of the triangle to and fro until a
    /// speed leaves its range. It takes hundreds of lines.
    fn row_13(&mut self) {
        for (name, east) in [("east", true), ("north", false)] {
            let lines = (0..).zip(pumped(east));
            let input: Vec<u8> = lines
                .flat_map(|(sequence, [wx, wy])| line(sequence, [0.0, wx, wy]))
                .collect();
            let accepted = input.len() - 57;
            self.add(
                &format!("row13_{name}_last_accepted"),
                input[..accepted].to_vec(),
            );
            self.add(
                &format!("row13_{name}_then_more"),
                [&input[..], b"no line\n"].concat(),
            );
            self.add(&format!("row13_{name}"), input);
        }
    }

    fn rows_20_to_22(&mut self) {
        let text = |change: fn(Vec<u8>) -> Vec<u8>| move |s: u32| change(line(s, BREEZE));
        self.first_and_later("row20_too_long", text(|l| [b"0", &l[..]].concat()));
        self.bad_later("row20_two_more", text(|l| [b"00", &l[..]].concat()));
        self.first_and_later("row20_too_short", text(|l| l[1..].to_vec()));
        self.bad_later("row20_two_less", text(|l| l[2..].to_vec()));
        self.first_and_later("row20_return", text(|l| [&l[..56], b"\r\n"].concat()));
        self.bad_later("row20_return_only", text(|l| spoiled(l, 56, b'\r')));
        self.bad_later("row20_joined", text(|l| l[..56].to_vec()));
        self.bad_later("row20_blank_line", text(|l| [b"\n", &l[..]].concat()));
        self.bad_later("row20_cut_in_two", text(|l| spoiled(l, 28, b'\n')));
        self.bad_later("row20_space", text(|l| spoiled(l, 0, b' ')));
        self.bad_later("row20_zero_byte", text(|l| spoiled(l, 55, 0)));
        self.bad_later("row20_high_byte", text(|l| spoiled(l, 10, 0xB1)));
        for (name, byte) in [("slash", b'/'), ("colon", b':'), ("at", b'@'), ("g", b'G')] {
            self.bad_later(&format!("row20_{name}"), |s| {
                spoiled(line(s, BREEZE), 7, byte)
            });
        }
        let whole = lines(3, BREEZE);
        self.add("row20_no_line_feed", whole[..170].to_vec());
        self.add("row20_part_at_the_end", whole[..130].to_vec());
        self.add("row20_one_byte", b"1".to_vec());
        self.add("row20_one_line_feed", b"\n".to_vec());
        self.add("row20_line_feed_after", [&whole[..], b"\n"].concat());
        self.add("row20_no_line_feed_at_all", vec![b'0'; 57 * 3]);
        self.add("row20_57_zeros", vec![b'0'; 57]);
        self.add("row20_57_line_feeds", vec![b'\n'; 57]);
        self.first_and_later("row21_check", text(|l| turned(l, 55)));
        self.bad_later("row21_digit", text(|l| turned(l, 9)));
        // a head of edition 1 is as long, but is measured as kind 14
        self.first_and_later("row20_head", |s| frame(HEAD, s, &BREEZE.map(f64::to_bits)));
        self.first_and_later("row22_next", |s| line(s + 1, BREEZE));
        self.bad_later("row22_far", |s| line(s + 256, BREEZE));
        self.add("row22_again", [line(0, BREEZE), line(0, BREEZE)].concat());
        self.add(
            "row22_starts_at_one",
            [line(1, BREEZE), line(2, BREEZE)].concat(),
        );
    }

    /// Lines in lower case, each refused by the row that refuses it in upper case;
    /// and the characters next to the digits, which are none.
    fn refused_in_lower_case(&mut self) {
        let lower = |s: u32, numbers: [f64; 3]| line(s, numbers).to_ascii_lowercase();
        for (name, place) in [
            ("kind", 0),
            ("sequence", 4),
            ("elevation", 9),
            ("wx", 37),
            ("wy", 38),
            ("check", 55),
        ] {
            self.bad_later(&format!("row20_lower_case_g_{name}"), |s| {
                spoiled(lower(s, BREEZE), place, b'g')
            });
        }
        for (name, byte) in [("backtick", b'`'), ("at", b'@'), ("capital_g", b'G')] {
            self.bad_later(&format!("row20_lower_case_{name}"), |s| {
                spoiled(lower(s, BREEZE), 7, byte)
            });
        }
        self.bad_later("row20_backtick", |s| spoiled(line(s, BREEZE), 7, b'`'));
        self.first_and_later("row21_lower_case", |s| turned(lower(s, BREEZE), 54));
        self.bad_later("row21_lower_case_check_alone", |s| {
            lowered(turned(line(s, BREEZE), 9), CHECK)
        });
        self.first_and_later("row22_lower_case", |s| lower(s + 0xABCD, BREEZE));
        self.first_and_later("row12_lower_case", |s| {
            lower(s, with(2, -beyond(LIMITS[2])))
        });
    }

    /// Lines that two rows refuse: the first in the order 20, 21, 22, 12 answers.
    fn order(&mut self) {
        self.bad_later("order_20_21", |s| spoiled(line(s, BREEZE), 55, b'g'));
        self.bad_later("order_21_22", |s| spoiled(line(s + 1, BREEZE), 9, b'F'));
        self.bad_later("order_22_12", |s| line(s + 1, [31.0, 1.0, 1.0]));
        self.bad_later("order_12", |s| line(s, [31.0, 1.0, 1.0]));
    }

    /// "line 65,536 gets 22 unless 20 or 21 comes first".
    fn past_the_last(&mut self) {
        let all = long_log(ALL);
        let more = line(0, CALM);
        let by_node = nodes::forcing(nodes::GUSTS);
        for (name, last) in [
            ("22_sequence_0", more.clone()),
            ("22_sequence_65535", line(ALL - 1, CALM)),
            ("21", turned(more.clone(), 55)),
            ("20", spoiled(more.clone(), 20, b'x')),
            ("20_short", more[..56].to_vec()),
            // kinds 14 and 15 have no last forcing, and are forcings taken
            ("nodes", by_node.clone()),
            (
                "22_after_nodes",
                [&by_node[..], &line(ALL + 1, CALM)].concat(),
            ),
        ] {
            self.add(&format!("past_the_last_{name}"), [&all[..], &last].concat());
        }
    }
}

/// A log of small forcings, no two alike, that is accepted to its end.
fn long_log(count: u32) -> Vec<u8> {
    let mut state: u64 = 0x2545_F491_4F6C_DD1D;
    let mut number = |size: f64| {
        state ^= state << 13;
        state ^= state >> 7;
        state ^= state << 17;
        size * ((state >> 11) as f64 / (1u64 << 52) as f64 - 1.0)
    };
    (0..count)
        .flat_map(|sequence| {
            let numbers = [number(1.0), number(0.01), number(0.01)];
            line(sequence, numbers)
        })
        .collect()
}

/// Wind of 0.1 along the flow, eastward or northward: the winds of each forcing up
/// to and with the one that is refused.
fn pumped(east: bool) -> Vec<[f64; 2]> {
    let mut winds = Vec::new();
    let Ok(mut run) = Run::open() else {
        return winds;
    };
    for _ in 0..ALL {
        let (first, second) = if east { (6, 9) } else { (9, 6) };
        let along = 0.1_f64.copysign(run.state[first]);
        let across = 0.0_f64.copysign(run.state[second]);
        let [wx, wy] = if east {
            [along, across]
        } else {
            [across, along]
        };
        winds.push([wx, wy]);
        if run.step(&[0.0, wx, wx, wx, wy, wy, wy]).is_err() {
            break;
        }
    }
    winds
}
