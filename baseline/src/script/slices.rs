//! The slices a script holds, and how their elements are written as words.

use crate::frames::{byte_of, two_digits};
use std::fmt::Display;
use std::io::Write;
use std::marker::PhantomData;
use std::slice::Split;

/// How the elements of a slice are read from words and written as words.
pub(crate) trait Form {
    /// An element.
    type Element: Copy;

    /// The element that a word stands for, where it is of this form.
    fn read(word: &[u8]) -> Option<Self::Element>;

    /// Writes the word of an element.
    fn write(element: Self::Element, room: &mut Vec<u8>);
}

/// "A whole number is written in decimal, with a leading `-` where it is below
/// zero."
pub(crate) struct Decimal<T>(PhantomData<T>);

impl<T: Copy + Display + TryFrom<i128>> Form for Decimal<T> {
    type Element = T;

    fn read(word: &[u8]) -> Option<T> {
        whole(word).and_then(|number| T::try_from(number).ok())
    }

    fn write(element: T, room: &mut Vec<u8>) {
        // Writing to a vector does not fail.
        let _ = write!(room, "{element}");
    }
}

/// A whole number of any size: one that no slice's element or place comes near
/// is held at the largest.
fn whole(word: &[u8]) -> Option<i128> {
    let (below_zero, digits) = match word.strip_prefix(b"-") {
        Some(digits) => (true, digits),
        None => (false, word),
    };
    let mut size: i128 = 0;
    for &byte in digits {
        let digit = byte.wrapping_sub(b'0');
        if digit > 9 {
            return None;
        }
        size = size.saturating_mul(10).saturating_add(i128::from(digit));
    }
    // "where it is below zero": 0 has no sign.
    if digits.is_empty() || (below_zero && size == 0) {
        return None;
    }
    Some(if below_zero { -size } else { size })
}

/// The byte that two digits stand for, "upper case": those that it is written
/// as. Either case is for forcing lines and loads, not for the words of a script.
fn upper_case(pair: [u8; 2]) -> Option<u8> {
    byte_of(pair).filter(|&byte| two_digits(byte) == pair)
}

/// "A float is written as the 16 hexadecimal digits of its binary64 pattern,
/// upper case".
pub(crate) struct Float;

impl Form for Float {
    type Element = f64;

    fn read(word: &[u8]) -> Option<f64> {
        let (pairs, rest) = word.as_chunks::<2>();
        if pairs.len() != 8 || !rest.is_empty() {
            return None;
        }
        let mut bits = 0;
        for &pair in pairs {
            bits = (bits << 8) | u64::from(upper_case(pair)?);
        }
        Some(f64::from_bits(bits))
    }

    /// "its own pattern": a NaN's too.
    fn write(element: f64, room: &mut Vec<u8>) {
        for byte in element.to_bits().to_be_bytes() {
            room.extend(two_digits(byte));
        }
    }
}

/// "A byte is written as two hexadecimal digits, upper case."
pub(crate) struct Byte;

impl Form for Byte {
    type Element = u8;

    fn read(word: &[u8]) -> Option<u8> {
        upper_case(<[u8; 2]>::try_from(word).ok()?)
    }

    fn write(element: u8, room: &mut Vec<u8>) {
        room.extend(two_digits(element));
    }
}

/// The words of a line: "words separated by one space". A second space makes an
/// empty word, which is of no form.
pub(crate) struct Words<'a>(Split<'a, u8, fn(&u8) -> bool>);

impl<'a> Words<'a> {
    pub fn of(line: &'a [u8]) -> Words<'a> {
        Words(line.split(|&byte| byte == b' '))
    }

    /// The next word, of this form.
    pub fn read<F: Form>(&mut self) -> Option<F::Element> {
        F::read(self.next()?)
    }

    /// The next word, a count or a place. One that is larger than any length is
    /// larger than every slice.
    pub fn place(&mut self) -> Option<usize> {
        let number = u128::try_from(whole(self.next()?)?).ok()?;
        Some(usize::try_from(number).unwrap_or(usize::MAX))
    }

    /// That no word is left.
    pub fn end(&mut self) -> Option<()> {
        match self.next() {
            Some(_) => None,
            None => Some(()),
        }
    }
}

impl<'a> Iterator for Words<'a> {
    type Item = &'a [u8];

    fn next(&mut self) -> Option<&'a [u8]> {
        self.0.next()
    }
}

/// A slice with its form.
pub(crate) struct Held<F: Form>(pub Vec<F::Element>);

impl<F: Form> Held<F> {
    /// "at the start": "empty".
    pub fn empty() -> Held<F> {
        Held(Vec::new())
    }
}

/// What the commands of a script do to a slice, whatever its form. `None` where
/// a word is not of its form.
pub(crate) trait Slice {
    fn length(&self) -> usize;

    /// "the slice keeps its first COUNT elements, or all where it has fewer".
    fn keep(&mut self, count: usize);

    /// "the elements go to the end of the slice".
    fn add(&mut self, words: Words) -> Option<()>;

    /// "the slice NAME has COUNT elements, each V".
    fn fill(&mut self, count: usize, word: &[u8]) -> Option<()>;

    /// "element AT of the slice, from 0, becomes V; nothing happens where there
    /// is no such element".
    fn put(&mut self, at: usize, word: &[u8]) -> Option<()>;

    /// Hands over "the elements' words as `print` writes them".
    fn each_word(&self, take: &mut dyn FnMut(&[u8]));
}

impl<F: Form> Slice for Held<F> {
    fn length(&self) -> usize {
        self.0.len()
    }

    fn keep(&mut self, count: usize) {
        self.0.truncate(count);
    }

    fn add(&mut self, words: Words) -> Option<()> {
        for word in words {
            self.0.push(F::read(word)?);
        }
        Some(())
    }

    fn fill(&mut self, count: usize, word: &[u8]) -> Option<()> {
        let element = F::read(word)?;
        self.0.clear();
        // A count that no memory has room for is no count of a slice.
        self.0.try_reserve(count).ok()?;
        self.0.resize(count, element);
        Some(())
    }

    fn put(&mut self, at: usize, word: &[u8]) -> Option<()> {
        let element = F::read(word)?;
        if let Some(place) = self.0.get_mut(at) {
            *place = element;
        }
        Some(())
    }

    fn each_word(&self, take: &mut dyn FnMut(&[u8])) {
        let mut word = Vec::new();
        for &element in &self.0 {
            word.clear();
            F::write(element, &mut word);
            take(&word);
        }
    }
}
