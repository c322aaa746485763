//! Request #101 of document 02, "Meshes in the grid format our modellers send":
//! lines, fields, numbers, and the reading of one text. Comments in quotation
//! marks are its own sentences.

use crate::records::Answer;

/// "depth with more than three decimals or nine whole digits".
const DECIMALS: usize = 3;
const WHOLE_DIGITS: usize = 9;

/// What a text gives, before any of it goes into the rooms.
#[derive(Default)]
struct Grid {
    x: Vec<i32>,
    y: Vec<i32>,
    h: Vec<f64>,
    tri: Vec<u16>,
}

/// The lengths of the rooms lent: those of x, y and h, and that of the corners.
struct Rooms {
    nodes: [usize; 3],
    corners: usize,
}

/// Reads a grid text into the rooms lent for it: 30 to 33, "line from 0 as
/// place". Kinds "are lent beside it": they take no part here.
///
/// "A refused reading leaves the lent rooms untouched."
pub fn read_grid(
    x: &mut [i32],
    y: &mut [i32],
    h: &mut [f64],
    tri: &mut [u16],
    text: &[u8],
) -> Answer {
    let rooms = Rooms {
        nodes: [x.len(), y.len(), h.len()],
        corners: tri.len(),
    };
    match read(text, &rooms) {
        Ok(grid) => {
            // 33 has been tested, so that each has its room's length.
            x.copy_from_slice(&grid.x);
            y.copy_from_slice(&grid.y);
            h.copy_from_slice(&grid.h);
            tri.copy_from_slice(&grid.tri);
            Answer::accepted(0)
        }
        Err(refusal) => refusal,
    }
}

/// "a title line, a line with E and N, node lines (number, x, y, depth),
/// triangle lines (number, 3, three node numbers from 1)". "What follows the
/// triangles isn't read."
fn read(text: &[u8], rooms: &Rooms) -> Result<Grid, Answer> {
    let mut lines = Lines {
        rest: text,
        line: 0,
    };
    lines.next(|_| Ok(()))?;
    let (e, n) = lines.next(|line| counts(line, rooms))?;
    let mut grid = Grid::default();
    // "numbers run 1 upwards in order".
    for number in 1..=n {
        let (x, y, h) = lines.next(|line| node(line, number))?;
        grid.x.push(x);
        grid.y.push(y);
        grid.h.push(h);
    }
    for number in 1..=e {
        grid.tri.extend(lines.next(|line| triangle(line, number))?);
    }
    Ok(grid)
}

/// The lines of a text not yet gone through, and the number of the next.
struct Lines<'a> {
    rest: &'a [u8],
    line: usize,
}

impl<'a> Lines<'a> {
    /// Reads the next line, or refuses it at its number. Where nothing is left
    /// there is no line: 30, "a missing line".
    fn next<T>(&mut self, read: impl FnOnce(&'a [u8]) -> Result<T, u32>) -> Result<T, Answer> {
        let line = self.take().ok_or(30);
        let read = line.and_then(read);
        let read = read.map_err(|number| Answer::refused(number, self.line))?;
        self.line += 1;
        Ok(read)
    }

    /// "a line ends at a line feed or the text's end".
    fn take(&mut self) -> Option<&'a [u8]> {
        let line = self.rest.split_inclusive(|&byte| byte == b'\n').next()?;
        self.rest = &self.rest[line.len()..];
        Some(line.strip_suffix(b"\n").unwrap_or(line))
    }
}

/// "fields are separated by spaces, which may also lead or trail".
pub(crate) fn fields_of(line: &[u8]) -> Vec<&[u8]> {
    let runs = line.split(|&byte| byte == b' ');
    runs.filter(|run| !run.is_empty()).collect()
}

/// The fields of a line that is to have so many. 30: a "missing or extra
/// field".
fn fields<const COUNT: usize>(line: &[u8]) -> Result<[&[u8]; COUNT], u32> {
    fields_of(line).try_into().map_err(|_| 30u32)
}

/// "Numbers are digits". One that is beyond every length, coordinate and corner
/// is held at the largest `i128`, which is beyond them as well. 30: "a
/// malformed" field.
pub(crate) fn whole(field: &[u8]) -> Result<i128, u32> {
    if field.is_empty() || !field.iter().all(u8::is_ascii_digit) {
        return Err(30);
    }
    Ok(field.iter().fold(0, with_digit))
}

/// The number that has one digit more.
fn with_digit(number: i128, digit: &u8) -> i128 {
    let digit = i128::from(digit - b'0');
    number.saturating_mul(10).saturating_add(digit)
}

/// A field's minus, where it has one, and what follows it: "digits, after an
/// optional minus in x, y and depth".
pub(crate) fn unsigned(field: &[u8]) -> (bool, &[u8]) {
    match field.strip_prefix(b"-") {
        Some(digits) => (true, digits),
        None => (false, field),
    }
}

/// A whole number with its sign; -0 is 0.
pub(crate) fn signed(field: &[u8]) -> Result<i128, u32> {
    let (below_zero, digits) = unsigned(field);
    let size = whole(digits)?;
    Ok(if below_zero { -size } else { size })
}

/// A depth as it is written.
pub(crate) struct Depth<'a> {
    pub below_zero: bool,
    /// The digits before the point, and those after it: none without a point.
    pub whole: &'a [u8],
    pub decimals: &'a [u8],
}

impl Depth<'_> {
    /// "depth's point, if any, has digits on both sides".
    pub fn read(field: &[u8]) -> Result<Depth<'_>, u32> {
        let (below_zero, size) = unsigned(field);
        let (digits, decimals) = match size.iter().position(|&byte| byte == b'.') {
            Some(point) => {
                whole(&size[point + 1..])?;
                (&size[..point], &size[point + 1..])
            }
            None => (size, &size[..0]),
        };
        whole(digits)?;
        Ok(Depth {
            below_zero,
            whole: digits,
            decimals,
        })
    }

    /// Whether there are as few digits, as written, as there may be.
    pub fn is_short(&self) -> bool {
        self.decimals.len() <= DECIMALS && self.whole.len() <= WHOLE_DIGITS
    }

    /// A whole number with its sign, so that -0.000 is 0: the decimals with
    /// zeros after them. Below 10^12 in size where the depth is short.
    pub fn thousandths(&self) -> i128 {
        let digits = self.whole.iter().chain(self.decimals);
        let zeros = b"000".iter().skip(self.decimals.len());
        let size = digits.chain(zeros).fold(0, with_digit);
        if self.below_zero {
            -size
        } else {
            size
        }
    }

    /// "depth has at most three decimals and is its thousandths divided by
    /// 1000": the thousandths become a float without loss.
    fn metres(&self) -> Result<f64, u32> {
        if !self.is_short() {
            return Err(32);
        }
        Ok(self.thousandths() as f64 / 1000.0)
    }
}

/// 30, "then on the second line 33 when a room lent hasn't the length its N and
/// E give". E and N.
fn counts(line: &[u8], rooms: &Rooms) -> Result<(usize, usize), u32> {
    let [e, n] = fields(line)?;
    let (e, n) = (whole(e)?, whole(n)?);
    let is = |length: usize, due: i128| usize::try_from(due) == Ok(length);
    let fits = rooms.nodes.iter().all(|&length| is(length, n));
    if !fits || !is(rooms.corners, e.saturating_mul(3)) {
        return Err(33);
    }
    Ok((rooms.corners / 3, rooms.nodes[0]))
}

/// "31 for a number out of order".
fn in_order(number: i128, due: usize) -> Result<(), u32> {
    if usize::try_from(number) == Ok(due) {
        Ok(())
    } else {
        Err(31)
    }
}

/// A node line: 30 for any of its fields, 31, 32.
fn node(line: &[u8], due: usize) -> Result<(i32, i32, f64), u32> {
    let [number, x, y, depth] = fields(line)?;
    let (number, x, y) = (whole(number)?, signed(x)?, signed(y)?);
    let depth = Depth::read(depth)?;
    in_order(number, due)?;
    Ok((coordinate(x)?, coordinate(y)?, depth.metres()?))
}

/// "32 for a coordinate beyond 32 bits signed".
fn coordinate(number: i128) -> Result<i32, u32> {
    i32::try_from(number).map_err(|_| 32)
}

/// A triangle line: 30 for any of its fields, 31, 32.
fn triangle(line: &[u8], due: usize) -> Result<[u16; 3], u32> {
    let [number, three, c1, c2, c3] = fields(line)?;
    let (number, three) = (whole(number)?, whole(three)?);
    let (c1, c2, c3) = (whole(c1)?, whole(c2)?, whole(c3)?);
    if three != 3 {
        return Err(30);
    }
    in_order(number, due)?;
    Ok([corner(c1)?, corner(c2)?, corner(c3)?])
}

/// "a corner number outside 1 to 65,536". The room has node numbers from 0.
fn corner(number: i128) -> Result<u16, u32> {
    u16::try_from(number - 1).map_err(|_| 32)
}
