//! That the tested program reads grid texts as the product does: both are given the same texts, right and wrong, and must answer alike and leave the
//! same rooms behind.

use crate::product::Product;
use crate::run::{Answer, Grid, Program};
use crate::{AS_SET, TESTED};

/// Lines that a line feed parts, what stands after the last of them, and the rooms' lengths.
struct Given {
    lines: Vec<Vec<u8>>,
    end: &'static [u8],
    lengths: [usize; 4],
}

impl Given {
    /// A square of two triangles.
    fn sound() -> Given {
        let lines = ["Square", "2 4", "1 0 0 8.000", "2 1000 0 8.125", "3 1000 1000 9.5", "4 0 1000 10", "1 3 1 2 3", "2 3 1 3 4"];
        Given { lines: lines.map(|line| line.into()).into(), end: b"\n", lengths: [4, 4, 4, 6] }
    }

    fn line(&mut self, at: usize, becomes: impl AsRef<[u8]>) {
        self.lines[at] = becomes.as_ref().to_vec();
    }

    fn text(&self) -> Vec<u8> {
        [&self.lines.join(&b'\n'), self.end].concat()
    }

    /// What a program answers and leaves of rooms that were full of sevens.
    fn outcome(&self, program: &dyn Program) -> (Answer, Vec<u64>) {
        let mut grid = Grid::of(self.lengths);
        grid.x.fill(7);
        grid.y.fill(7);
        grid.h.fill(7.0);
        grid.tri.fill(7);
        let answer = program.read_grid(grid.rooms(), &self.text());
        (answer, grid.bits())
    }
}

/// The row and the place that must come out, and what is done to the sound text.
type Case = (u32, usize, fn(&mut Given));

/// Texts that look odd and are right.
const RIGHT: &[Case] = &[
    (0, 0, |_| {}),
    (0, 0, |g| g.end = b""),
    (0, 0, |g| g.end = b"  \n0 3 = boundaries\n\xFF"),
    (0, 0, |g| g.line(0, "")),
    (0, 0, |g| g.line(0, b"1 2\t\r\x00\xFF")),
    (0, 0, |g| g.line(1, "   002    0004  ")),
    (0, 0, |g| g.line(2, format!("{:0>400} {:0>30} -{:0>30} 000000008.7", 1, 5, 5))),
    (0, 0, |g| g.line(2, format!("{:<200}", "1 0 0 8"))),
    (0, 0, |g| g.line(3, "2 -2147483648 2147483647 999999999.999")),
    (0, 0, |g| g.line(3, "2 -0 -000 -0.000")),
    (0, 0, |g| g.line(4, "3 -1 1 -999999999.999")),
    (0, 0, |g| g.line(4, "3 12345678 -12345678 0.07")),
    (0, 0, |g| g.line(7, format!("2 {:0>30} 65536 {:0>40} 001", 3, 65_536))),
    (0, 0, |g| {
        g.line(1, format!("{:0>50} 0", ""));
        g.lines.truncate(2);
        g.lengths = [0; 4];
    }),
];

/// At least one fault for each cause that a row names, and the rows' order within a line.
const FAULTS: &[Case] = &[
    (30, 0, |g| {
        g.lines.clear();
        g.end = b"";
    }),
    (30, 1, |g| g.lines.truncate(1)),
    (30, 2, |g| g.lines.truncate(2)),
    (30, 5, |g| g.lines.truncate(5)),
    (30, 7, |g| g.lines.truncate(7)),
    (30, 7, |g| g.line(7, "")),
    (30, 3, |g| g.line(3, "   ")),
    (30, 1, |g| g.line(1, "2")),
    (30, 1, |g| g.line(1, "2 4 0")),
    (30, 1, |g| g.line(1, "2 -4")),
    (30, 1, |g| g.line(1, "2 +4")),
    (30, 1, |g| g.line(1, "2 4\r")),
    (30, 1, |g| g.line(1, "2\t4")),
    (30, 3, |g| g.line(3, "2 1000 0")),
    (30, 3, |g| g.line(3, "2 1000 0 8.125 1")),
    (30, 3, |g| g.line(3, "-2 1000 0 8")),
    (30, 3, |g| g.line(3, "2 1000.0 0 8")),
    (30, 3, |g| g.line(3, "2 1000 - 8")),
    (30, 3, |g| g.line(3, "2 --1000 0 8")),
    (30, 3, |g| g.line(3, "2 1000 - 1 8")),
    (30, 3, |g| g.line(3, "2 1e3 0 8")),
    (30, 3, |g| g.line(3, b"2 1000 0\xA0 8")),
    (30, 3, |g| g.line(3, "2 1000 0 8.")),
    (30, 3, |g| g.line(3, "2 1000 0 .8")),
    (30, 3, |g| g.line(3, "2 1000 0 -.8")),
    (30, 3, |g| g.line(3, "2 1000 0 8.1.2")),
    (30, 3, |g| g.line(3, "2 1000 0 8,1")),
    (30, 3, |g| g.line(3, "9 2147483648 0 8.12345x")),
    (30, 3, |g| g.line(3, format!("{:<200}x", "2 1000 0 8"))),
    (30, 6, |g| g.line(6, "1 3 1 2")),
    (30, 6, |g| g.line(6, "1 3 1 2 3 4")),
    (30, 6, |g| g.line(6, "1 4 1 2 3")),
    (30, 6, |g| g.line(6, "1 3 1 2 -3")),
    (30, 6, |g| g.line(6, "9 2 0 2 3")),
    (31, 2, |g| g.line(2, "0 0 0 8")),
    (31, 3, |g| g.line(3, "1 1000 0 8")),
    (31, 3, |g| g.line(3, "18446744073709551618 1000 0 8")),
    (31, 3, |g| g.line(3, "3 2147483648 0 8.1234")),
    (31, 7, |g| g.line(7, "3 3 0 1 2")),
    (31, 7, |g| g.line(7, "4294967298 3 1 3 4")),
    (32, 3, |g| g.line(3, "2 2147483648 0 8")),
    (32, 3, |g| g.line(3, "2 0 -2147483649 8")),
    (32, 3, |g| g.line(3, "2 0 18446744073709551616 8")),
    (32, 3, |g| g.line(3, "2 0 -340282366920938463463374607431768211456 8")),
    (32, 3, |g| g.line(3, "2 0 0 8.0000")),
    (32, 3, |g| g.line(3, "2 0 0 1234567890")),
    (32, 3, |g| g.line(3, "2 0 0 -0000000008.5")),
    (32, 7, |g| g.line(7, "2 3 0 3 4")),
    (32, 7, |g| g.line(7, "2 3 1 65537 4")),
    (32, 7, |g| g.line(7, "2 3 1 3 18446744073709551617")),
    (33, 1, |g| g.line(1, "4 2")),
    (33, 1, |g| g.line(1, "2 18446744073709551620")),
    (33, 1, |g| g.line(1, "18446744073709551618 4")),
    (33, 1, |g| {
        g.line(1, "6148914691236517207 4");
        g.lengths[3] = 5;
    }),
    (33, 1, |g| g.lengths[0] = 5),
    (33, 1, |g| g.lengths[1] = 3),
    (33, 1, |g| g.lengths[2] = 0),
    (33, 1, |g| g.lengths[3] = 7),
];

/// Stops where the two differ. Says how many faults and how many right texts were tried.
pub fn readings() -> (usize, usize) {
    for (at, &(row, place, change)) in RIGHT.iter().chain(FAULTS).enumerate() {
        let mut given = Given::sound();
        change(&mut given);
        let (answer, grid) = given.outcome(&Product);
        assert!((answer.number, answer.place) == (row, place), "grid {at}: the product gives {answer:?}, not {row} at {place}");
        for program in [TESTED, AS_SET] {
            let (tested, left) = given.outcome(&program);
            let alike = (tested.number, tested.place, tested.value.to_bits()) == (row, place, answer.value.to_bits());
            assert!(alike && left == grid, "grid {at}: product {answer:?}, tested {tested:?}");
        }
    }
    (FAULTS.len(), RIGHT.len())
}
