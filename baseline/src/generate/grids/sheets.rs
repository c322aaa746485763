//! Grid texts by their fields: a mesh written down in one of its spellings.

use super::numbers::{any_coordinate, any_corner, any_depth, depth, signed, whole};
use crate::generate::dice::Dice;
use crate::generate::worlds::World;

/// A mesh as a grid text has it.
pub(crate) struct Grid {
    /// x, y and the thousandths of the depth.
    pub nodes: Vec<[i64; 3]>,
    /// Node numbers from 1.
    pub triangles: Vec<[i64; 3]>,
    /// The nodes' kinds, which no text has.
    pub kind: Vec<u8>,
}

impl Grid {
    /// A few nodes and triangles of any legal numbers, seldom none.
    pub fn any(dice: &mut Dice) -> Grid {
        let count = dice.one_of(&[0, 1, 2, 3, 3, 3, 4, 5]);
        let triangles = dice.one_of(&[0, 1, 1, 2, 2, 3, 5]);
        let mut grid = Grid {
            nodes: Vec::new(),
            triangles: Vec::new(),
            kind: (0..count).map(|_| dice.below(3) as u8).collect(),
        };
        for _ in 0..count {
            let [x, y] = [(); 2].map(|()| any_coordinate(dice));
            grid.nodes.push([x, y, any_depth(dice)]);
        }
        for _ in 0..triangles {
            let corners = [(); 3].map(|()| any_corner(dice, count));
            grid.triangles.push(corners);
        }
        grid
    }

    /// The mesh of a world, each depth cut to its thousandths.
    pub fn of(world: &World) -> Grid {
        let node = |(&[x, y], h): (&[i64; 2], &f64)| [x, y, (h * 1000.0) as i64];
        let corners = |triangle: &[usize; 3]| triangle.map(|node| node as i64 + 1);
        Grid {
            nodes: world.points.iter().zip(&world.h).map(node).collect(),
            triangles: world.triangles.iter().map(corners).collect(),
            kind: world.kind.clone(),
        }
    }

    /// Breaks one of rows 6 to 8, which are asked when the mesh is opened: a
    /// triangle laid twice, a node in none, a depth not "1..12,000" or just
    /// within that.
    pub fn break_row(&mut self, dice: &mut Dice) {
        match dice.below(3) {
            0 => self.triangles.extend_from_within(..1),
            1 => {
                self.nodes.push([0, 0, 8_000]);
                self.kind.push(0);
            }
            _ => {
                let at = dice.below(self.nodes.len());
                let limits = [1_000, 999, 12_000_000, 12_000_001, 0, -8_000];
                self.nodes[at][2] = dice.one_of(&limits);
            }
        }
    }
}

/// The kinds of lines after the title.
#[derive(Clone, Copy, PartialEq)]
pub(crate) enum Kind {
    Counts,
    Node,
    Triangle,
}

/// A grid text by its fields, and the lengths of the rooms x, y, h and tri that
/// it is read into.
#[derive(Clone)]
pub(crate) struct Sheet {
    title: Vec<u8>,
    /// The line of E and N, the node lines, the triangle lines.
    pub lines: Vec<Vec<Vec<u8>>>,
    pub nodes: usize,
    pub triangles: usize,
    pub rooms: [usize; 4],
    /// What follows the last line, its line feed too.
    end: Vec<u8>,
    /// Whether there are more spaces than there must be.
    spaced: bool,
}

impl Sheet {
    /// A mesh in any spelling.
    pub fn of(dice: &mut Dice, grid: &Grid) -> Sheet {
        let (nodes, triangles) = (grid.nodes.len(), grid.triangles.len());
        let counts = [triangles, nodes].map(|count| whole(dice, count as i128));
        let mut lines = vec![fields(counts)];
        for (at, &[x, y, h]) in grid.nodes.iter().enumerate() {
            let number = whole(dice, at as i128 + 1);
            let [x, y] = [x, y].map(|coordinate| signed(dice, i128::from(coordinate)));
            lines.push(fields([number, x, y, depth(dice, h)]));
        }
        for (at, &[c1, c2, c3]) in grid.triangles.iter().enumerate() {
            let numbers = [at as i64 + 1, 3, c1, c2, c3];
            lines.push(fields(
                numbers.map(|number| whole(dice, i128::from(number))),
            ));
        }
        let sheet = Sheet::plain(dice, lines, nodes, triangles);
        Sheet {
            spaced: dice.one_in(2),
            ..sheet
        }
    }

    /// A sheet of these lines after any title, with rooms to match and single
    /// spaces.
    fn plain(dice: &mut Dice, lines: Vec<Vec<Vec<u8>>>, nodes: usize, triangles: usize) -> Sheet {
        Sheet {
            title: title(dice),
            lines,
            nodes,
            triangles,
            rooms: [nodes, nodes, nodes, 3 * triangles],
            end: end(dice),
            spaced: false,
        }
    }

    /// More node lines or triangle lines than 16 bits count, and none of the
    /// other kind; in as few bytes as they need.
    pub fn many(dice: &mut Dice, kind: Kind) -> Sheet {
        let more = 65_536 + dice.below(3);
        let (nodes, triangles) = match kind {
            Kind::Triangle => (0, more),
            _ => (more, 0),
        };
        let digits = [(); 3].map(|()| dice.between(1, 9).to_string());
        let line = |number: usize| {
            let [d1, d2, d3] = digits.clone();
            match kind {
                Kind::Triangle => fields([number.to_string(), String::from("3"), d1, d2, d3]),
                _ => fields([number.to_string(), d1, d2, d3]),
            }
        };
        let mut lines = vec![fields([triangles.to_string(), nodes.to_string()])];
        lines.extend((1..=more).map(line));
        Sheet::plain(dice, lines, nodes, triangles)
    }

    /// The kind of a line.
    pub fn kind(&self, line: usize) -> Kind {
        match line {
            0 => Kind::Counts,
            _ if line <= self.nodes => Kind::Node,
            _ => Kind::Triangle,
        }
    }

    /// The number that is due on a line.
    pub fn due(&self, line: usize) -> usize {
        match self.kind(line) {
            Kind::Triangle => line - self.nodes,
            _ => line,
        }
    }

    /// The bytes of the text.
    pub fn text(&self, dice: &mut Dice) -> Vec<u8> {
        let mut text = self.title.clone();
        for line in &self.lines {
            text.push(b'\n');
            for (at, field) in line.iter().enumerate() {
                let least = usize::from(at != 0);
                self.space(dice, &mut text, least);
                text.extend(field);
            }
            self.space(dice, &mut text, 0);
        }
        text.extend(&self.end);
        text
    }

    /// Some spaces, at least so many.
    fn space(&self, dice: &mut Dice, text: &mut Vec<u8>, least: usize) {
        let more = match self.spaced {
            true => dice.one_of(&[0, 0, 0, 1, 2, 5]),
            false => 0,
        };
        text.extend(vec![b' '; least + more]);
    }
}

/// The fields of a line as bytes, which a fault may make any bytes.
fn fields<const COUNT: usize>(words: [String; COUNT]) -> Vec<Vec<u8>> {
    words.map(String::into_bytes).to_vec()
}

/// A title of any bytes but a line feed.
fn title(dice: &mut Dice) -> Vec<u8> {
    let known = [
        &b""[..],
        b"",
        b"harbour",
        b"1 3",
        b"  ",
        b"grid\r",
        b"\0",
        b"\t\xFF",
    ];
    let known = dice.one_of(&known).to_vec();
    let mut any: Vec<u8> = (0..dice.below(24)).map(|_| dice.bits() as u8).collect();
    any.retain(|&byte| byte != b'\n');
    match dice.below(3) {
        0 => any,
        _ => known,
    }
}

/// What may follow the last line: nothing, its line feed, or any more bytes.
fn end(dice: &mut Dice) -> Vec<u8> {
    let ends = [
        &b""[..],
        b"\n",
        b"\n\n",
        b"\n0 = Number of open boundaries\n0\n",
        b"\n1 3 1 2 3\n",
        b"\n 7 3 1 2 3",
        b"\n\r\n",
        b"\n-",
    ];
    let mut any = vec![b'\n'];
    any.extend((0..dice.below(12)).map(|_| dice.bits() as u8));
    match dice.below(12) {
        0..4 => Vec::new(),
        4..7 => b"\n".to_vec(),
        7..10 => dice.one_of(&ends).to_vec(),
        _ => any,
    }
}
