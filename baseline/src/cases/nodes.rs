//! Inputs of kinds 14 and 15, alone and among lines of kind 10.

use super::{beyond, line, lowered, mixed, pumped, spoiled, turned, Cases};
use super::{frame, long_log, BREEZE, CALM};
use crate::frames::{Kind, ELEVATION, FORCING, HEAD_2, NODE, WIND};
use crate::printing::{print, Forcing};

/// A fresh breeze at each node, no two numbers alike.
pub(super) const GUSTS: Forcing = [
    0.25,
    0.015625,
    -0.0078125,
    0.03125,
    -0.001953125,
    0.0625,
    -0.015625,
];

const STILL: Forcing = [0.0; 7];

/// The numbers of a forcing by name, with the limits of row 12 for them.
const NUMBERS: [(&str, f64); 7] = [
    ("elevation", 30.0),
    ("wx_of_node_0", 0.1),
    ("wx_of_node_1", 0.1),
    ("wx_of_node_2", 0.1),
    ("wy_of_node_0", 0.1),
    ("wy_of_node_1", 0.1),
    ("wy_of_node_2", 0.1),
];

/// The four lines of a forcing.
type Lines = [Vec<u8>; 4];

fn lines_of(patterns: [u64; 7]) -> Lines {
    let [elevation, winds @ ..] = patterns;
    let node = |node: usize| {
        let wind = [winds[node], winds[3 + node]];
        frame(WIND, 1 + node as u32, &wind)
    };
    [frame(ELEVATION, 0, &[elevation]), node(0), node(1), node(2)]
}

fn gusts() -> Lines {
    lines_of(GUSTS.map(f64::to_bits))
}

/// A forcing of kinds 14 and 15.
pub(super) fn forcing(numbers: Forcing) -> Vec<u8> {
    lines_of(numbers.map(f64::to_bits)).concat()
}

/// The gusts with one number changed.
fn with(number: usize, value: f64) -> Forcing {
    let mut numbers = GUSTS;
    numbers[number] = value;
    numbers
}

/// The gusts with one of their lines changed.
fn with_line(at: usize, change: impl Fn(&[u8]) -> Vec<u8>) -> Vec<u8> {
    let mut lines = gusts();
    lines[at] = change(&lines[at]);
    lines.concat()
}

/// A line of the gusts of another kind or sequence, with the right check byte.
fn other_beginning(at: usize, kind: Kind, sequence: u32) -> Vec<u8> {
    let [elevation, winds @ ..] = GUSTS.map(f64::to_bits);
    match at {
        0 => frame(kind, sequence, &[elevation]),
        _ => frame(kind, sequence, &[winds[at - 1], winds[2 + at]]),
    }
}

/// The gusts with these sequences.
fn counted(sequences: [u32; 4]) -> Vec<u8> {
    let line = |at: usize| {
        let kind = if at == 0 { ELEVATION } else { WIND };
        other_beginning(at, kind, sequences[at])
    };
    (0..4).flat_map(line).collect()
}

/// A log of small forcings by node, no two alike, that is accepted to its end: the
/// numbers of a long log of kind 10 with other winds at nodes 1 and 2.
fn log(count: u32) -> Vec<u8> {
    let numbers = numbers_of(&long_log(3 * count));
    let (forcings, _) = numbers.as_chunks::<9>();
    let each = forcings.iter().flat_map(|n| {
        let [z, wx0, wy0, _, wx1, wy1, _, wx2, wy2] = *n;
        forcing([z, wx0, wx1, wx2, wy0, wy1, wy2])
    });
    each.collect()
}

/// The numbers of a log of kind 10.
fn numbers_of(log: &[u8]) -> Vec<f64> {
    let (lines, _) = log.as_chunks::<57>();
    let field = |line: &[u8; 57], at: usize| {
        let digits = std::str::from_utf8(&line[6 + 16 * at..22 + 16 * at]).unwrap_or("");
        f64::from_bits(u64::from_str_radix(digits, 16).unwrap_or(0))
    };
    let each = lines
        .iter()
        .flat_map(|line| [0, 1, 2].map(|at| field(line, at)));
    each.collect()
}

/// A log in which both forms follow each other, two of kind 10 and then one by
/// node, and so on.
fn mixed_log(count: u32) -> Vec<u8> {
    let (uniform, by_node) = (long_log(count), log(count));
    let each = (0..count as usize).flat_map(|at| match at % 3 {
        2 => by_node[148 * at..148 * (at + 1)].to_vec(),
        _ => uniform[57 * at..57 * (at + 1)].to_vec(),
    });
    each.collect()
}

impl Cases {
    pub(super) fn nodes(&mut self) {
        self.accepted_by_node();
        self.mixed_logs();
        self.row_12_by_node();
        self.row_13_by_node();
        self.row_20_by_node();
        self.rows_21_and_22_by_node();
        self.cut_by_node();
        self.order_by_node();
        self.refused_among_kind_10();
    }

    /// A forcing as the first of the input, and as its fourth; one more follows.
    fn nodes_first_and_later(&mut self, name: &str, any: &[u8]) {
        for (which, before) in [("first", 0), ("later", 3)] {
            let input = [&forcing(GUSTS).repeat(before), any, &forcing(STILL)].concat();
            self.add(&format!("{name}_{which}"), input);
        }
    }

    /// An input that ends in some bytes, alone and after three forcings.
    fn nodes_at_the_end(&mut self, name: &str, end: &[u8]) {
        self.add(&format!("{name}_first"), end.to_vec());
        let input = [&forcing(GUSTS).repeat(3), end].concat();
        self.add(&format!("{name}_later"), input);
    }

    fn accepted_by_node(&mut self) {
        self.add("nodes_one", forcing(GUSTS));
        let wind = 1.0 / 64.0;
        let first = forcing([0.0, wind, wind, wind, 0.0, 0.0, 0.0]);
        self.add("nodes_example13", [first, forcing(STILL)].concat());
        for (number, (name, limit)) in NUMBERS.into_iter().enumerate() {
            let zero = [forcing(GUSTS), forcing(with(number, -0.0))].concat();
            self.add(&format!("nodes_minus_zero_{name}"), zero);
            for (sign, side) in [(1.0, "high"), (-1.0, "low")] {
                let at_limit = forcing(with(number, sign * limit));
                self.add(
                    &format!("nodes_limit_{name}_{side}"),
                    [at_limit, forcing(STILL)].concat(),
                );
            }
        }
        self.add("nodes_all_minus_zero", forcing([-0.0; 7]).repeat(3));
        let tiny = [
            5e-324,
            -5e-324,
            f64::MIN_POSITIVE,
            5e-324,
            -5e-324,
            0.0,
            -0.0,
        ];
        self.add("nodes_smallest_numbers", forcing(tiny).repeat(3));
        self.add("nodes_log", log(24));
        self.add("nodes_long_log", log(2_000));
        self.add("nodes_lower_case_log", log(24).to_ascii_lowercase());
        self.add("nodes_mixed_case_log", mixed(log(24)));
    }

    /// "The expected sequence of a kind 10 line is the number of forcings taken
    /// before it, whatever their kind".
    fn mixed_logs(&mut self) {
        self.add(
            "mixed_kind_10_first",
            [line(0, BREEZE), forcing(GUSTS)].concat(),
        );
        self.add(
            "mixed_kind_10_last",
            [forcing(GUSTS).repeat(2), line(2, BREEZE)].concat(),
        );
        self.add("mixed_log", mixed_log(30));
        self.add("mixed_long_log", mixed_log(1_500));
        self.add("mixed_lower_case_log", mixed_log(30).to_ascii_lowercase());
        self.add("mixed_mixed_case_log", mixed(mixed_log(30)));
    }

    /// "for a refused step the program's P is its first line".
    fn row_12_by_node(&mut self) {
        for (number, (name, limit)) in NUMBERS.into_iter().enumerate() {
            for (what, value) in [("above", beyond(limit)), ("below", -beyond(limit))] {
                let name = format!("row12_nodes_{name}_{what}");
                self.nodes_first_and_later(&name, &forcing(with(number, value)));
            }
            for (what, value) in [("nan", f64::NAN), ("infinity", f64::INFINITY)] {
                let input = [forcing(GUSTS), forcing(with(number, value))].concat();
                self.add(&format!("row12_nodes_{name}_{what}"), input);
            }
        }
        let mut patterns = GUSTS.map(f64::to_bits);
        patterns[5] = 0xFFF0_0000_0000_0001;
        self.add("row12_nodes_other_nan", lines_of(patterns).concat());
        let lower = forcing(with(6, -beyond(0.1))).to_ascii_lowercase();
        self.nodes_first_and_later("row12_nodes_lower_case", &lower);
    }

    /// The pumped runs, each wind at all three nodes.
    fn row_13_by_node(&mut self) {
        for (name, east) in [("east", true), ("north", false)] {
            let winds = pumped(east).into_iter();
            let input: Vec<u8> = winds
                .flat_map(|[wx, wy]| forcing([0.0, wx, wx, wx, wy, wy, wy]))
                .collect();
            let accepted = &input[..input.len() - 148];
            self.add(
                &format!("row13_nodes_{name}_last_accepted"),
                accepted.to_vec(),
            );
            self.add(&format!("row13_nodes_{name}"), input);
        }
    }

    /// Each of the four lines in each way of row 20.
    fn row_20_by_node(&mut self) {
        type Change = fn(&[u8]) -> Vec<u8>;
        let changes: [(&str, Change); 8] = [
            ("too_long", |l| [b"0", l].concat()),
            ("too_short", |l| l[1..].to_vec()),
            ("two_less", |l| l[2..].to_vec()),
            ("return", |l| [&l[..l.len() - 1], b"\r\n"].concat()),
            ("joined", |l| l[..l.len() - 1].to_vec()),
            ("blank_line", |l| [b"\n", l].concat()),
            ("cut_in_two", |l| spoiled(l.to_vec(), 12, b'\n')),
            ("g", |l| spoiled(l.to_vec(), 7, b'g')),
        ];
        for (what, change) in changes {
            for at in 0..4 {
                let name = format!("row20_nodes_line_{at}_{what}");
                self.nodes_first_and_later(&name, &with_line(at, change));
            }
        }
        // Where another line of kind 15 comes to stand it is as long as the one due.
        for (at, row) in [(0, 20), (1, 22), (2, 22), (3, 20)] {
            let name = format!("row{row}_nodes_line_{at}_left_out");
            self.nodes_first_and_later(&name, &with_line(at, |_| Vec::new()));
        }
        let kind_10 = |_: &[u8]| line(0, BREEZE);
        for at in 1..4 {
            let name = format!("row20_nodes_line_{at}_of_kind_10");
            self.nodes_first_and_later(&name, &with_line(at, kind_10));
        }
        let as_kind_10 = with_line(0, |_| other_beginning(0, FORCING, 0));
        self.nodes_first_and_later("row20_nodes_line_0_as_kind_10", &as_kind_10);
        let more = frame(WIND, 4, &[0, 0]);
        self.nodes_first_and_later("row20_nodes_extra_line", &[gusts().concat(), more].concat());
    }

    fn rows_21_and_22_by_node(&mut self) {
        for at in 0..4 {
            let check = with_line(at, |l| turned(l.to_vec(), l.len() - 2));
            self.nodes_first_and_later(&format!("row21_nodes_line_{at}_check"), &check);
            let digit = with_line(at, |l| turned(l.to_vec(), 9));
            self.nodes_first_and_later(&format!("row21_nodes_line_{at}_digit"), &digit);
            let (right, other) = if at == 0 {
                (ELEVATION, WIND)
            } else {
                (WIND, ELEVATION)
            };
            let kind = with_line(at, |_| other_beginning(at, other, at as u32));
            self.nodes_first_and_later(&format!("row22_nodes_line_{at}_kind"), &kind);
            let next = with_line(at, |_| other_beginning(at, right, at as u32 + 1));
            self.nodes_first_and_later(&format!("row22_nodes_line_{at}_next"), &next);
            let far = with_line(at, |_| other_beginning(at, right, at as u32 + 256));
            self.nodes_first_and_later(&format!("row22_nodes_line_{at}_far"), &far);
        }
        for (name, sequences) in [
            ("from_one", [1, 2, 3, 4]),
            ("winds_from_zero", [0, 0, 1, 2]),
            ("all_zero", [0; 4]),
            ("by_forcings", [3, 3, 3, 3]),
            ("by_lines", [12, 13, 14, 15]),
        ] {
            let name = format!("row22_nodes_{name}");
            self.nodes_first_and_later(&name, &counted(sequences));
        }
        let head = with_line(0, |_| other_beginning(0, HEAD_2, 0));
        self.nodes_first_and_later("row22_nodes_line_0_of_kind_04", &head);
        // the head of our own save is as long as a line of kind 14
        self.nodes_at_the_end("row22_nodes_a_save", &print(b""));
        let node = frame(NODE, 1, &[0; 4]);
        self.nodes_at_the_end("row20_nodes_a_line_of_kind_02", &node);
    }

    /// "An input that ends inside a forcing is 20 at the line that is missing or cut,
    /// unless an earlier line of that forcing is refused first."
    fn cut_by_node(&mut self) {
        let lines = gusts();
        for at in 0..4 {
            let (before, cut) = (lines[..at].concat(), &lines[at]);
            if at > 0 {
                self.nodes_at_the_end(&format!("row20_nodes_line_{at}_missing"), &before);
            }
            for (what, kept) in [
                ("no_line_feed", cut.len() - 1),
                ("half", cut.len() / 2),
                ("one_byte", 1),
                ("two_bytes", 2),
            ] {
                let end = [&before[..], &cut[..kept]].concat();
                self.nodes_at_the_end(&format!("row20_nodes_line_{at}_{what}"), &end);
            }
        }
        for (row, line) in [
            (20, spoiled(lines[1].clone(), 20, b'G')),
            (21, turned(lines[1].clone(), 39)),
            (22, other_beginning(1, WIND, 2)),
        ] {
            let name = format!("row{row}_nodes_line_1_before_a");
            let missing = [&lines[0][..], &line].concat();
            self.nodes_at_the_end(&format!("{name}_missing_line"), &missing);
            let cut = [&missing[..], &lines[2][..30]].concat();
            self.nodes_at_the_end(&format!("{name}_cut_line"), &cut);
        }
        for end in ["\n", "0", "1", "10", "14", "100"] {
            let name = end.replace('\n', "feed");
            let input = [gusts().concat(), end.into()].concat();
            self.add(&format!("row20_nodes_then_{name}"), input);
        }
    }

    /// Forcings that two rows refuse.
    fn order_by_node(&mut self) {
        let wild = lines_of([31.0, 1.0, 1.0, 1.0, 1.0, 1.0, 1.0].map(f64::to_bits));
        self.nodes_first_and_later("order_nodes_12", &wild.concat());
        let [z, w0, w1, w2] = wild;
        let last = turned(w2.clone(), 20);
        let read_first = [&z[..], &w0, &w1, &last].concat();
        self.nodes_first_and_later("order_nodes_21_12", &read_first);
        let two = with_line(2, |l| spoiled(turned(l.to_vec(), 9), 38, b'x'));
        self.nodes_first_and_later("order_nodes_20_21", &two);
        let two = with_line(3, |_| turned(other_beginning(3, WIND, 9), 9));
        self.nodes_first_and_later("order_nodes_21_22", &two);
        let mut lines = gusts();
        lines[1] = other_beginning(1, ELEVATION, 1);
        lines[2] = turned(lines[2].clone(), 38);
        lines[3] = spoiled(lines[3].clone(), 9, b' ');
        self.nodes_first_and_later("order_nodes_22_21_20", &lines.concat());
        lines.reverse();
        self.nodes_first_and_later("order_nodes_reversed", &lines.concat());
        let lower = with_line(3, |l| lowered(turned(l.to_vec(), 9), 38..40));
        self.nodes_first_and_later("order_nodes_lower_case", &lower);
    }

    /// Lines of kind 10 after forcings by node, and the other way round.
    fn refused_among_kind_10(&mut self) {
        let before = [line(0, BREEZE), forcing(GUSTS).repeat(2)].concat();
        for (name, sequence) in [("by_lines", 9), ("by_their_own", 1), ("one_less", 2)] {
            let input = [&before[..], &line(sequence, BREEZE), &line(4, CALM)].concat();
            self.add(&format!("row22_mixed_{name}"), input);
        }
        let right = line(3, BREEZE);
        for (name, bad) in [
            (
                "row20_mixed_kind_10_digit",
                spoiled(right.clone(), 30, b'z'),
            ),
            ("row20_mixed_kind_10_cut", right[..40].to_vec()),
            ("row21_mixed_kind_10", turned(right.clone(), 55)),
            ("row12_mixed_kind_10", line(3, [0.0, 0.0, beyond(0.1)])),
            ("row12_mixed_nodes", forcing(with(3, beyond(0.1)))),
            ("row21_mixed_nodes", with_line(2, |l| turned(l.to_vec(), 9))),
            ("row20_mixed_nodes_cut", gusts().concat()[..100].to_vec()),
        ] {
            self.add(name, [&before[..], &bad].concat());
        }
    }
}
