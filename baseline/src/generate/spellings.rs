//! Request #104, "A digit now means the same in either case": the spellings of
//! forcing lines and of texts to be loaded. Each is made by commands that scripts
//! have for any bytes.

use super::dice::Dice;
use super::pen::Pen;
use crate::saves::Edition;

/// Texts up to this length, of runs of about a hundred nodes, are spelled anew as
/// a whole.
const SHORT: usize = 8_192;

/// The places of a text's letters, in either case.
fn letters_of(text: &[u8]) -> Vec<usize> {
    let is_letter = |&at: &usize| matches!(text[at], b'A'..=b'F' | b'a'..=b'f');
    (0..text.len()).filter(is_letter).collect()
}

/// Whether a place of a text is in the last two before a line feed.
fn in_check_byte(text: &[u8], at: usize) -> bool {
    let after = text.get(at + 1..).unwrap_or(&[]);
    after.iter().take(2).any(|&byte| byte == b'\n')
}

/// A line or a text with its letters spelled anew: all as we write them, all in
/// lower case, one otherwise than the others, those of the check bytes otherwise
/// than the others, or, most often, each by itself. What is no digit stays.
pub(crate) fn spelled(dice: &mut Dice, text: &[u8]) -> Vec<u8> {
    let letters = letters_of(text);
    let one = letters.get(dice.below(letters.len())).copied();
    let (manner, lower) = (dice.below(10), dice.one_in(2));
    let mut spelled = text.to_vec();
    for at in letters {
        let in_lower_case = match manner {
            0 => false,
            1 => true,
            2 => lower == (Some(at) == one),
            3 => lower == in_check_byte(text, at),
            _ => dice.one_in(2),
        };
        if in_lower_case {
            spelled[at].make_ascii_lowercase();
        } else {
            spelled[at].make_ascii_uppercase();
        }
    }
    spelled
}

/// A long text with one to three of its letters in lower case, at times only those
/// in the first byte of a sequence, which 2,559 nodes and more have.
fn sprinkled(dice: &mut Dice, text: &[u8]) -> Vec<u8> {
    let mut letters = letters_of(text);
    // Where the node lines begin, and how long they are.
    let (from, length) = match Edition::of(text) {
        Edition::One => (57, 73),
        Edition::Two => (25 + 89, 105),
    };
    if dice.one_in(2) {
        letters.retain(|at| matches!(at.checked_sub(from).map(|at| at % length), Some(2 | 3)));
    }
    let mut text = text.to_vec();
    for _ in 0..1 + dice.below(3) {
        if let Some(&at) = letters.get(dice.below(letters.len())) {
            text[at].make_ascii_lowercase();
        }
    }
    text
}

/// Spells the text that the script holds anew.
pub(crate) fn respell(pen: &mut Pen) {
    let text = &pen.script.text.0;
    let text = if text.len() <= SHORT {
        spelled(&mut pen.dice, text)
    } else {
        sprinkled(&mut pen.dice, text)
    };
    pen.become_bytes("text", &text);
}
