//! The bare reading of a grid text: nothing is tested, and every value goes straight into its room. Numbers that count lines are passed over.

use crate::run::GridRooms;

/// Where a text is read that is trusted: one that the product accepts, with a line feed after its last triangle line.
struct Trusted<'a> {
    text: &'a [u8],
    at: usize,
}

impl Trusted<'_> {
    #[inline(always)]
    fn byte(&self, ahead: usize) -> u8 {
        debug_assert!(self.at + ahead < self.text.len());
        // Safety: every way through a line stops at its feed at the latest, and only a line that is there is begun.
        unsafe { *self.text.get_unchecked(self.at + ahead) }
    }

    /// Goes on to the first byte that is taken for an end: eight bytes between two branches back.
    #[inline(always)]
    fn until(&mut self, mut end: impl FnMut(u8) -> bool) {
        loop {
            for ahead in 0..8 {
                if end(self.byte(ahead)) {
                    self.at += ahead;
                    return;
                }
            }
            self.at += 8;
        }
    }

    #[inline(always)]
    fn next_line(&mut self) {
        self.until(|byte| byte == b'\n');
        self.at += 1;
    }

    #[inline(always)]
    fn spaces(&mut self) {
        self.until(|byte| byte != b' ');
    }

    #[inline(always)]
    fn pass(&mut self) {
        self.spaces();
        self.until(|byte| byte <= b' ');
    }

    /// The digits from here on, after a number that they lengthen.
    #[inline(always)]
    fn digits(&mut self, mut number: i64) -> i64 {
        self.until(|byte| {
            let end = byte < b'0';
            if !end {
                number = number * 10 + i64::from(byte & 15);
            }
            end
        });
        number
    }

    #[inline(always)]
    fn corner(&mut self) -> u16 {
        self.spaces();
        (self.digits(0) - 1) as u16
    }

    /// Passes over the spaces and a minus: -1 where there is one, and else 1.
    #[inline(always)]
    fn sign(&mut self) -> i64 {
        self.spaces();
        let minus = self.byte(0) == b'-';
        self.at += usize::from(minus);
        1 - 2 * i64::from(minus)
    }

    #[inline(always)]
    fn coordinate(&mut self) -> i32 {
        let sign = self.sign();
        (sign * self.digits(0)) as i32
    }

    #[inline(always)]
    fn depth(&mut self) -> f64 {
        let sign = self.sign();
        let mut thousandths = self.digits(0);
        let mut decimals = 0;
        if self.byte(0) == b'.' {
            self.at += 1;
            let from = self.at;
            thousandths = self.digits(thousandths);
            decimals = self.at - from;
        }
        (sign * thousandths * [1_000, 100, 10, 1][decimals & 3]) as f64 / 1_000.0
    }
}

pub fn read(rooms: GridRooms, text: &[u8]) {
    let mut trusted = Trusted { text, at: 0 };
    trusted.next_line();
    trusted.next_line();
    for ((x, y), h) in rooms.x.iter_mut().zip(rooms.y).zip(rooms.h) {
        trusted.pass();
        *x = trusted.coordinate();
        *y = trusted.coordinate();
        *h = trusted.depth();
        trusted.next_line();
    }
    for corners in rooms.tri.as_chunks_mut::<3>().0 {
        trusted.pass();
        trusted.pass();
        *corners = [trusted.corner(), trusted.corner(), trusted.corner()];
        trusted.next_line();
    }
}
