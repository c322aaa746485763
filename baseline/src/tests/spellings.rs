//! Request #104, "Lower-case lines from the weather office": "A digit now means
//! the same in either case, in forcing lines and in loads. We still write upper
//! case."

use super::forcings::{line_accepted, line_refused};
use super::saves::{busy_t, editions, load_refused, text_of};
use super::*;
use crate::frames::byte_of;
use crate::generate::dice::Dice;
use crate::read_forcing;

const LETTERS: &[u8; 6] = b"ABCDEF";

/// A forcing line in which every digit but the kind's is a letter.
const ALL_LETTERS: &[u8; 57] = b"10ABCDABCDEFABCDEFABCDFEDCBAFEDCBAFEDCCAFEBABEDEADBEFCAB\n";

/// The places of the letters among some digits.
fn letters_of(digits: &[u8]) -> Vec<usize> {
    let is_letter = |&at: &usize| digits[at].is_ascii_alphabetic();
    (0..digits.len()).filter(is_letter).collect()
}

/// Some digits with those of these places in lower case.
fn lowered(digits: &[u8], places: &[usize]) -> Vec<u8> {
    let mut digits = digits.to_vec();
    for &place in places {
        digits[place].make_ascii_lowercase();
    }
    digits
}

/// Spellings of upper-case digits: each letter alone in lower case, each alone
/// in upper case, all in lower case, and many of both.
fn spellings(digits: &[u8]) -> Vec<Vec<u8>> {
    let (letters, mut dice) = (letters_of(digits), Dice::of(104, 0));
    let mut all = vec![digits.to_ascii_lowercase()];
    for &letter in &letters {
        all.push(lowered(digits, &[letter]));
        let mut others = letters.clone();
        others.retain(|&other| other != letter);
        all.push(lowered(digits, &others));
    }
    for _ in 0..200 {
        let mut some = letters.clone();
        some.retain(|_| dice.one_in(2));
        all.push(lowered(digits, &some));
    }
    all
}

/// A line with another digit at one place, the check byte as it was.
fn with_digit(line: &[u8], place: usize, digit: u8) -> Vec<u8> {
    let mut line = line.to_vec();
    line[place] = digit;
    line
}

/// The frame with another digit at one place, as a line with its check byte.
fn line_with_digit(frame: &[u8], place: usize, digit: u8) -> Vec<u8> {
    let digits = with_digit(&line(frame), place, digit);
    let byte = byte_of([digits[place & !1], digits[place | 1]]).unwrap();
    let mut frame = frame.to_vec();
    frame[place / 2] = byte;
    line(&frame)
}

#[test]
fn twenty_two_bytes_are_digits_and_no_other() {
    for byte in 0..=255_u8 {
        let worth = match byte {
            b'0'..=b'9' => Some(byte - b'0'),
            b'a' | b'A' => Some(10),
            b'b' | b'B' => Some(11),
            b'c' | b'C' => Some(12),
            b'd' | b'D' => Some(13),
            b'e' | b'E' => Some(14),
            b'f' | b'F' => Some(15),
            _ => None,
        };
        assert_eq!(byte_of([b'0', byte]), worth);
        assert_eq!(byte_of([byte, b'0']), worth.map(|worth| 16 * worth));
        assert_eq!(byte_of([byte, byte]), worth.map(|worth| 17 * worth));
    }
    assert_eq!(byte_of(*b"aB"), Some(0xAB));
    assert_eq!(byte_of(*b"Fe"), Some(0xFE));
}

/// What forcing lines give: the answer's number and place, and the room.
fn reading(lines: &[u8]) -> (u32, usize, Vec<u64>) {
    let mut room = [f64::from_bits(FILL); 7];
    let answer = read_forcing(&mut room, lines, 0xABCD);
    refused(answer, answer.number, answer.place);
    (answer.number, answer.place, bits(&room))
}

/// Kinds 14 and 15, with many letters in each number.
#[test]
fn a_forcing_by_node_in_every_spelling() {
    let numbers = [
        0xABCD_EFAB_CDEF_ABCD,
        0xFEDC_BAFE_DCBA_FEDC,
        0x3FBA_BEDE_ADBE_EFCA,
        0xBFAD_CAFE_BABE_DEAD,
        0x0BAD_CAFE_BABE_DEAD,
        0x3FCC_CCCC_CCCC_CCCD,
        0xBEEF_FEED_FACE_CAFE,
    ];
    let text = forcing_lines(&numbers.map(f64::from_bits)).concat();
    let upper = reading(&text);
    assert_eq!(upper, (0, 0, numbers.to_vec()));
    for spelling in spellings(&text) {
        assert_eq!(reading(&spelling), upper);
    }
    let mut numbers = Vec::new();
    for place in (0..text.len()).filter(|&place| text[place] != b'\n') {
        for &letter in LETTERS {
            let changed = with_digit(&text, place, letter);
            let upper = reading(&changed);
            assert_eq!(reading(&lowered(&changed, &[place])), upper);
            numbers.push(upper.0);
        }
    }
    numbers.sort_unstable();
    numbers.dedup();
    assert_eq!(numbers, [0, 21]);
}

#[test]
fn a_forcing_line_in_every_spelling() {
    let upper = line_accepted(ALL_LETTERS, 0xABCD);
    assert_eq!(
        upper,
        [
            0xABCD_EFAB_CDEF_ABCD,
            0xFEDC_BAFE_DCBA_FEDC,
            0xCAFE_BABE_DEAD_BEFC
        ]
    );
    assert_eq!(letters_of(ALL_LETTERS).len(), 54);
    for spelling in spellings(ALL_LETTERS) {
        assert_eq!(line_accepted(&spelling, 0xABCD), upper);
    }
}

/// In every place of a line, the kind's too, a lower-case letter gives what the
/// upper-case one gives, whether the check byte is right or not.
#[test]
fn each_digit_of_a_forcing_line_by_itself() {
    let frame: Vec<u8> = (0..27)
        .map(|at| byte_of([ALL_LETTERS[2 * at], ALL_LETTERS[2 * at + 1]]).unwrap())
        .collect();
    let mut numbers = Vec::new();
    for place in 0..56 {
        for &letter in LETTERS {
            let mut lines = vec![with_digit(ALL_LETTERS, place, letter)];
            if place < 54 {
                lines.push(line_with_digit(&frame, place, letter));
            }
            for line in lines {
                let upper = reading(&line);
                assert_eq!(reading(&lowered(&line, &[place])), upper);
                numbers.push(upper.0);
            }
        }
    }
    numbers.sort_unstable();
    numbers.dedup();
    // A line of another kind is measured as kind 14, and is too long.
    assert_eq!(numbers, [0, 20, 21, 22]);
}

#[test]
fn rows_20_to_22_of_a_lower_case_forcing_line() {
    let lower = ALL_LETTERS.to_ascii_lowercase();
    for place in 0..56 {
        for byte in *b"gG`@/:" {
            line_refused(&with_digit(&lower, place, byte), 0xABCD, 20);
        }
    }
    for check in (0..=255).filter(|&check| check != 0xAB) {
        let mut line = lower.clone();
        line[54..56].copy_from_slice(format!("{check:02x}").as_bytes());
        line_refused(&line, 0xABCD, 21);
    }
    for other in [0, 0xABCC, 0xABCE, 0xCDAB, 0x1_ABCD] {
        line_refused(&lower, other, 22);
    }
    for kind in [0x0A, 0xA0, 0x1A, 0xFF] {
        let text = line_with(kind, 0, &[0.0]).to_ascii_lowercase();
        line_refused(&text, 0, 22);
    }
}

/// What a load on T gives: answer, clock and state.
fn loading(text: &[u8]) -> (u32, usize, u32, Vec<u64>) {
    let mut lent = busy_t();
    lent.state.fill(f64::from_bits(FILL));
    lent.clock = busy_clock();
    let (answer, clock) = lent.load(text);
    let (number, place) = (answer.number, answer.place);
    refused(answer, number, place);
    (number, place, clock.step, bits(&lent.state))
}

/// In every place of every line of a text, as in a forcing line.
#[test]
fn each_digit_of_a_load_by_itself() {
    for (save, rows) in editions()
        .into_iter()
        .zip([&[0, 10, 20, 21, 22, 23][..], &[0, 10, 21, 22, 23, 25]])
    {
        let mut numbers = Vec::new();
        for number in 0..=save.end() {
            let (frame, from) = (save.frame_of(number), save.lines[number]);
            for place in 0..2 * frame.len() + 2 {
                for &letter in LETTERS {
                    let mut texts = vec![with_digit(&save.text, from + place, letter)];
                    if place < 2 * frame.len() {
                        let other = line_with_digit(&frame, place, letter);
                        texts.push(save.with_line(number, &other));
                    }
                    for text in texts {
                        let upper = loading(&text);
                        assert_eq!(loading(&lowered(&text, &[from + place])), upper);
                        numbers.push(upper.0);
                    }
                }
            }
        }
        numbers.sort_unstable();
        numbers.dedup();
        // A head of edition 1 with another kind is measured as edition 2's.
        assert_eq!(numbers, rows);
    }
}

/// "A save has many readable spellings and one written form."
#[test]
fn a_save_in_every_spelling_is_written_as_before() {
    let lent = busy_t();
    let text = text_of(&lent);
    assert!(!text.iter().any(u8::is_ascii_lowercase));
    let upper = loading(&text);
    assert_eq!((upper.0, upper.1), (0, 0));
    for spelling in spellings(&text) {
        assert_ne!(spelling, text);
        assert_eq!(loading(&spelling), upper);
        let mut other = busy_t();
        other.state.fill(0.0);
        let (answer, clock) = other.load(&spelling);
        accepted(answer, 0);
        other.clock = clock;
        assert_eq!(text_of(&other), text);
    }
}

#[test]
fn an_edition_1_save_in_every_spelling_gives_the_same() {
    let [one, _] = editions();
    let upper = loading(&one.text);
    assert_eq!((upper.0, upper.1), (0, 0));
    for spelling in spellings(&one.text) {
        assert_eq!(loading(&spelling), upper);
    }
}

#[test]
fn a_run_goes_on_from_any_spelling_with_the_same_bits() {
    let mut through = Lent::square();
    through.kind = vec![0, 1, 2, 0];
    through.force(0.1, 0.03, 0.0);
    through.forcing[3] = -0.07;
    through.step_accepted();
    for spelling in spellings(&text_of(&through)) {
        let mut restarted = Lent::square();
        restarted.kind = vec![0, 1, 2, 0];
        let (answer, clock) = restarted.load(&spelling);
        accepted(answer, 0);
        restarted.clock = clock;
        restarted.forcing = through.forcing.clone();
        restarted.step_accepted();
        let mut once_more = through.clone();
        once_more.step_accepted();
        assert_eq!(bits(&restarted.state), bits(&once_more.state));
        assert_eq!(text_of(&restarted), text_of(&once_more));
    }
}

#[test]
fn rows_20_to_23_of_a_lower_case_load() {
    for save in editions() {
        let text = save.text.to_ascii_lowercase();
        for number in 0..=save.end() {
            let (place, after) = (save.lines[number], save.lines[number + 1]);
            for byte in *b"gG`@/:" {
                load_refused(&with_digit(&text, place + 3, byte), 20, number);
            }
            let check = after - 2;
            for digit in b"0123456789abcdef" {
                if *digit != text[check] {
                    load_refused(&with_digit(&text, check, *digit), 21, number);
                }
            }
            // Another kind in the head would be measured as edition 2's.
            for (place, byte) in [(0, 0xFA), (1, 0xAB), (2, 0xEC)] {
                if (number, place) != (0, 0) {
                    let other = save.with_bytes(number, place, &[byte]);
                    load_refused(&other.to_ascii_lowercase(), 22, number);
                }
            }
        }
        for (number, place) in [(0, 3), (0, 4), (0, 5), (0, 6), (save.end(), 4)] {
            let other = save.with_bytes(number, place, &[0xAF]);
            load_refused(&other.to_ascii_lowercase(), 23, number);
        }
    }
}

#[test]
fn rows_25_and_10_of_a_lower_case_load() {
    let [one, two] = editions();
    let beyond = [0.1, 30.0, 20.0].map(|limit: f64| limit.next_up().to_bits().to_be_bytes());
    for (save, number, at, beyond, row, place) in [
        (&one, 0, 11, beyond[0], 10, 0),
        (&one, 3, 27, beyond[2], 10, 2),
        (&two, 1, 3, beyond[1], 25, 1),
        (&two, 1, 35, beyond[1], 25, 1),
        (&two, 2, 3, beyond[1], 10, 0),
        (&two, 3, 11, beyond[1], 10, 1),
        (&two, 4, 27, beyond[2], 10, 2),
        (&two, 4, 35, beyond[0], 10, 2),
        (&two, 3, 43, beyond[0], 10, 1),
    ] {
        let text = save.with_bytes(number, at, &beyond).to_ascii_lowercase();
        load_refused(&text, row, place);
    }
}
