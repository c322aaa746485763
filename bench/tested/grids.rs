//! Grid texts, with rows 30 to 33. Fields are short, and of nearly the same length from line to line, so that a processor foresees a branch at their
//! end: this was faster than to find the end by arithmetic on eight bytes at once.

use crate::run::{Answer, Grid, GridRooms};

/// The bytes that a line is looked for in first: more than modellers' lines have.
const WINDOW: usize = 128;

/// Every line is read once: the values wait in rooms of their own until the last line has passed.
pub fn read(rooms: GridRooms, text: &[u8]) -> Result<(), Answer> {
    let lengths = rooms.lengths();
    let body = head(lengths, text)?;
    let mut waiting = Grid::of(lengths);
    fill(body, waiting.rooms())?;
    rooms.x.copy_from_slice(&waiting.x);
    rooms.y.copy_from_slice(&waiting.y);
    rooms.h.copy_from_slice(&waiting.h);
    rooms.tri.copy_from_slice(&waiting.tri);
    Ok(())
}

/// As the product must, which allocates nothing: every line is asked before the first is taken. It is measured to tell that cost from the language's.
pub fn read_twice(rooms: GridRooms, text: &[u8]) -> Result<(), Answer> {
    let [n, _, _, corners] = rooms.lengths();
    let body = head(rooms.lengths(), text)?;
    lines(body, n, corners / 3, |_, _| {}, |_, _| {})?;
    fill(body, rooms)
}

/// The title and the counts; the lengths are those of x, y, h and the triangles.
fn head(lengths: [usize; 4], text: &[u8]) -> Result<Cursor<&[u8]>, Answer> {
    if text.is_empty() {
        return Err(Answer::refused(30, 0));
    }
    let title = text.iter().position(|&byte| byte == b'\n').unwrap_or(text.len());
    let mut cursor = Cursor { bytes: text, at: title + 1 };
    let (e, n) = cursor.counts().ok_or(Answer::refused(30, 1))?;
    let due = [Some(n), Some(n), Some(n), e.checked_mul(3)];
    if lengths.map(|length| Some(length as u64)) != due {
        return Err(Answer::refused(33, 1));
    }
    Ok(cursor)
}

fn fill(body: Cursor<&[u8]>, rooms: GridRooms) -> Result<(), Answer> {
    let n = rooms.x.len();
    // one length for all, so that one test of a node number serves the three
    let (x, y, h) = (rooms.x, &mut rooms.y[..n], &mut rooms.h[..n]);
    let (triples, _) = rooms.tri.as_chunks_mut::<3>();
    let node = |i: usize, node: Node| {
        x[i] = node.x;
        y[i] = node.y;
        h[i] = node.depth;
    };
    lines(body, n, triples.len(), node, |t, Corners(corners)| triples[t] = corners)
}

/// The node lines and the triangle lines; the values of each are handed on.
#[inline(always)]
fn lines(
    mut cursor: Cursor<&[u8]>,
    n: usize,
    e: usize,
    mut node: impl FnMut(usize, Node),
    mut triangle: impl FnMut(usize, Corners),
) -> Result<(), Answer> {
    for i in 0..n {
        node(i, cursor.line(i, 2 + i)?);
    }
    for t in 0..e {
        triangle(t, cursor.line(t, 2 + n + t)?);
    }
    Ok(())
}

/// The values of a line that begins with its number.
trait Values: Sized {
    /// The number, and the values unless 32 refuses one. `None` where a field is malformed, missing or extra, here and in every function of a cursor.
    fn read<T: AsRef<[u8]>>(cursor: &mut Cursor<T>) -> Option<(u64, Option<Self>)>;
}

struct Node {
    x: i32,
    y: i32,
    depth: f64,
}

impl Values for Node {
    #[inline(always)]
    fn read<T: AsRef<[u8]>>(cursor: &mut Cursor<T>) -> Option<(u64, Option<Node>)> {
        let number = cursor.number()?;
        let fields = (cursor.coordinate()?, cursor.coordinate()?, cursor.depth()?);
        cursor.feed()?;
        match fields {
            (Some(x), Some(y), Some(depth)) => Some((number, Some(Node { x, y, depth }))),
            _ => Some((number, None)),
        }
    }
}

/// From 0, as a mesh has them.
struct Corners([u16; 3]);

impl Values for Corners {
    #[inline(always)]
    fn read<T: AsRef<[u8]>>(cursor: &mut Cursor<T>) -> Option<(u64, Option<Corners>)> {
        let number = cursor.number()?;
        if cursor.number()? != 3 {
            return None;
        }
        let below = [cursor.number()?, cursor.number()?, cursor.number()?].map(|corner| corner.wrapping_sub(1));
        cursor.feed()?;
        let fit = below.iter().all(|&corner| corner <= u64::from(u16::MAX));
        Some((number, fit.then_some(Corners(below.map(|corner| corner as u16)))))
    }
}

/// Where bytes are read. Past their end stand line feeds: a line ends there, and one that is missing is refused as an empty one is.
#[derive(Clone, Copy)]
struct Cursor<T> {
    bytes: T,
    at: usize,
}

impl Cursor<&[u8]> {
    /// A line whose number, from 0, and whose place are known: its values, or 30, 31 or 32.
    #[inline(always)]
    fn line<V: Values>(&mut self, due: usize, place: usize) -> Result<V, Answer> {
        let fields = self.near().or_else(|| {
            let (fields, after) = self.far();
            *self = after;
            fields
        });
        let (number, values) = fields.ok_or(Answer::refused(30, place))?;
        if number != due as u64 + 1 {
            return Err(Answer::refused(31, place));
        }
        values.ok_or(Answer::refused(32, place))
    }

    /// A line that ends within a window. Its length is known when this is compiled, which spares tests of the place.
    #[inline(always)]
    fn near<V: Values>(&mut self) -> Option<(u64, Option<V>)> {
        let bytes: &[u8; WINDOW] = self.bytes.get(self.at..)?.first_chunk()?;
        let mut window = Cursor { bytes, at: 0 };
        let fields = V::read(&mut window)?;
        // past the window, its end was taken for the line's
        if window.at > WINDOW {
            return None;
        }
        self.at += window.at;
        Some(fields)
    }

    /// A line of any length, and the cursor after it: lent to this, the cursor would not stay in registers while lines are near.
    #[cold]
    #[inline(never)]
    fn far<V: Values>(mut self) -> (Option<(u64, Option<V>)>, Self) {
        (V::read(&mut self), self)
    }
}

impl<T: AsRef<[u8]>> Cursor<T> {
    fn counts(&mut self) -> Option<(u64, u64)> {
        let counts = (self.number()?, self.number()?);
        self.feed()?;
        Some(counts)
    }

    #[inline(always)]
    fn number(&mut self) -> Option<u64> {
        self.spaces();
        let (_, number) = self.digits()?;
        self.ended()?;
        Some(number)
    }

    /// Unless it is beyond 32 bits signed.
    #[inline(always)]
    fn coordinate(&mut self) -> Option<Option<i32>> {
        self.spaces();
        let minus = self.minus();
        let (_, size) = self.digits()?;
        self.ended()?;
        let fits = size <= i32::MAX as u64 + u64::from(minus);
        let value = if minus { (size as i32).wrapping_neg() } else { size as i32 };
        Some(fits.then_some(value))
    }

    /// Unless it has too many digits.
    #[inline(always)]
    fn depth(&mut self) -> Option<Option<f64>> {
        self.spaces();
        let minus = self.minus();
        let (places, whole) = self.digits()?;
        let (mut decimals, mut part) = (0, 0);
        if self.byte() == b'.' {
            self.at += 1;
            (decimals, part) = self.digits()?;
        }
        self.ended()?;
        if places > 9 || decimals > 3 {
            return Some(None);
        }
        let size = (whole * 1_000 + part * [1_000, 100, 10, 1][decimals]) as i64;
        let thousandths = if minus { -size } else { size };
        Some(Some(thousandths as f64 / 1_000.0))
    }

    #[inline(always)]
    fn byte(&self) -> u8 {
        self.bytes.as_ref().get(self.at).copied().unwrap_or(b'\n')
    }

    /// The bytes that are taken between two tests of the place and two branches back.
    #[inline(always)]
    fn eight(&self) -> Option<&[u8; 8]> {
        self.bytes.as_ref().get(self.at..self.at + 8)?.first_chunk()
    }

    #[inline(always)]
    fn spaces(&mut self) {
        while let Some(eight) = self.eight() {
            for (count, &byte) in eight.iter().enumerate() {
                if byte != b' ' {
                    return self.at += count;
                }
            }
            self.at += 8;
        }
        while self.byte() == b' ' {
            self.at += 1;
        }
    }

    #[inline(always)]
    fn minus(&mut self) -> bool {
        let minus = self.byte() == b'-';
        self.at += usize::from(minus);
        minus
    }

    /// One digit or more: how many, and their number, at most 2^64-1.
    #[inline(always)]
    fn digits(&mut self) -> Option<(usize, u64)> {
        if let Some(eight) = self.eight() {
            let mut number = 0;
            for (count, byte) in eight.iter().enumerate() {
                let digit = byte.wrapping_sub(b'0');
                if digit > 9 {
                    self.at += count;
                    return (count > 0).then_some((count, number));
                }
                number = number * 10 + u64::from(digit);
            }
        }
        let (count, number) = long(self.bytes.as_ref().get(self.at..).unwrap_or(&[]));
        self.at += count;
        (count > 0).then_some((count, number))
    }

    /// A field ends before a space or at the line's end.
    #[inline(always)]
    fn ended(&self) -> Option<()> {
        matches!(self.byte(), b' ' | b'\n').then_some(())
    }

    #[inline(always)]
    fn feed(&mut self) -> Option<()> {
        self.spaces();
        let feed = self.byte() == b'\n';
        self.at += 1;
        feed.then_some(())
    }
}

/// The digits that bytes begin with, however many: their count and their number.
#[cold]
#[inline(never)]
fn long(bytes: &[u8]) -> (usize, u64) {
    let digits = bytes.iter().take_while(|byte| byte.is_ascii_digit());
    // where a number is too large, the largest is refused by the same test
    digits.fold((0, 0u64), |(count, number), digit| (count + 1, number.saturating_mul(10).saturating_add(u64::from(digit - b'0'))))
}
