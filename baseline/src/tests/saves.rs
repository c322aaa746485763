//! Saves and loads: layout, round trip, rows 10 and 20 to 25, in both editions.

use super::examples::{cold_save, cold_save_1};
use super::*;
use crate::saves::{edition_1, save_length};

/// T in mid-run, with -0, subnormals and limits in the state.
pub fn busy_t() -> Lent {
    let mut lent = Lent::mesh_t();
    let tiny = f64::from_bits(1);
    lent.state = vec![
        -0.0, 1.5, -30.0, // earlier z
        0.0, -7.5, 30.0, // z
        -20.0, tiny, -0.0, // U
        -tiny, 20.0, 0.1, // V
        -0.0, 0.1, -tiny, // Wx
        0.03125, -0.0, -0.1, // Wy
    ];
    lent.p.k = 0.01;
    lent.p.f = -0.0;
    lent.clock.step = 0xDEAD_BEEF;
    lent
}

/// The save of a run that is accepted.
pub fn text_of(lent: &Lent) -> Vec<u8> {
    let mut text = vec![0; save_length(lent.x.len())];
    accepted(lent.save(&mut text), text.len());
    text
}

/// The one wind of an edition 1 text.
const WIND: [f64; 2] = [-0.0, 0.0625];

/// The edition 1 save of a run, with one wind.
fn older_text_of(lent: &Lent) -> Vec<u8> {
    edition_1(&lent.state, lent.tri.len() / 3, lent.clock, WIND)
}

/// A save of [`busy_t`], in one edition.
#[derive(Clone)]
pub struct Save {
    pub text: Vec<u8>,
    /// Where its lines begin, and its length.
    pub lines: Vec<usize>,
    /// The line of its first node.
    first: usize,
    /// The values of a node's line.
    values: usize,
}

/// Both editions.
pub fn editions() -> [Save; 2] {
    let lent = busy_t();
    let one = Save {
        text: older_text_of(&lent),
        lines: vec![0, 57, 130, 203, 276, 289],
        first: 1,
        values: 4,
    };
    let two = Save {
        text: text_of(&lent),
        lines: vec![0, 25, 114, 219, 324, 429, 442],
        first: 2,
        values: 6,
    };
    [one, two]
}

impl Save {
    /// The line in which a byte stands, or that would follow the last.
    fn line_at(&self, place: usize) -> usize {
        self.lines.iter().filter(|&&begin| begin <= place).count() - 1
    }

    /// The number of its last line.
    pub fn end(&self) -> usize {
        self.lines.len() - 2
    }

    /// The save with one line replaced.
    pub fn with_line(&self, number: usize, line: &[u8]) -> Vec<u8> {
        let (before, after) = (self.lines[number], self.lines[number + 1]);
        [&self.text[..before], line, &self.text[after..]].concat()
    }

    /// The frame bytes of a line, without the check byte.
    pub fn frame_of(&self, number: usize) -> Vec<u8> {
        let line = &self.text[self.lines[number]..self.lines[number + 1] - 3];
        let digits = std::str::from_utf8(line).unwrap();
        let byte = |at: usize| u8::from_str_radix(&digits[at..at + 2], 16).unwrap();
        (0..line.len()).step_by(2).map(byte).collect()
    }

    /// The save with some frame bytes of a line replaced, and its check byte right.
    pub fn with_bytes(&self, number: usize, at: usize, bytes: &[u8]) -> Vec<u8> {
        let mut frame = self.frame_of(number);
        frame[at..at + bytes.len()].copy_from_slice(bytes);
        self.with_line(number, &line(&frame))
    }
}

/// The run that the text is of, with a state and a clock that are not.
fn other_t() -> Lent {
    let mut lent = busy_t();
    lent.state.fill(f64::from_bits(FILL));
    lent.clock = busy_clock();
    lent
}

/// Loads on T, and expects this refusal with state and clock as found.
pub fn load_refused(text: &[u8], number: u32, place: usize) {
    refused_on(other_t(), text, number, place);
}

fn refused_on(mut lent: Lent, text: &[u8], number: u32, place: usize) {
    let (found, before) = (lent.patterns(), lent.clock);
    let (answer, clock) = lent.load(text);
    refused(answer, number, place);
    assert_eq!(clock, before);
    assert_eq!(lent.patterns(), found);
}

/// Saves, and expects this refusal with text, state and rooms as found.
fn save_refused(lent: &Lent, room: usize, number: u32, place: usize) {
    let mut text = vec![b'?'; room];
    let found = lent.patterns();
    refused(lent.save(&mut text), number, place);
    assert_eq!(text, vec![b'?'; room]);
    assert_eq!(lent.patterns(), found);
}

#[test]
fn layout_field_by_field() {
    let mut lent = Lent::mesh_t();
    lent.state = (1..13).map(f64::from).map(|i| i / 16.0).collect();
    lent.state.extend((1..7).map(|i| f64::from(i) / -64.0));
    lent.clock = busy_clock();
    lent.p = Parameters {
        dt: 2.5,
        tau: 0.125,
        k: -0.0,
        f: -0.0001,
        advection: true,
    };
    let mut expected = line(&[4, 0, 0, 0, 3, 0, 1, 0, 0, 0, 7]);
    let numbers = [2.5, 0.125, -0.0, -0.0001, f64::from_bits(10_000)];
    expected.extend(line_with(5, 1, &numbers));
    for node in 0..3 {
        let numbers: Vec<f64> = (0..6).map(|run| lent.state[3 * run + node]).collect();
        expected.extend(line_with(6, node as u16 + 2, &numbers));
    }
    expected.extend(line(&[3, 0, 5, 0, 3]));
    assert_eq!(text_of(&lent), expected);
}

#[test]
fn layout_of_edition_1_field_by_field() {
    let lent = busy_t();
    let mut expected = line(
        &[
            &[1, 0, 0, 0, 3, 0, 1, 0xDE, 0xAD, 0xBE, 0xEF][..],
            &WIND[0].to_bits().to_be_bytes(),
            &WIND[1].to_bits().to_be_bytes(),
        ]
        .concat(),
    );
    for node in 0..3 {
        let numbers: Vec<f64> = (0..4).map(|run| lent.state[3 * run + node]).collect();
        expected.extend(line_with(2, node as u16 + 1, &numbers));
    }
    expected.extend(line(&[3, 0, 4, 0, 3]));
    assert_eq!(older_text_of(&lent), expected);
    let cold = Lent::mesh_t();
    assert_eq!(
        edition_1(&cold.state, 1, cold.clock, [0.0; 2]),
        cold_save_1()
    );
}

/// "the sum of all D in 8 bytes", each triangle's once: not a node's sum S.
#[test]
fn the_sum_of_all_areas() {
    let t = text_of(&Lent::mesh_t());
    assert_eq!(&t[25 + 70..25 + 89], b"000000000000271094\n");
    let mut lent = Lent::square();
    assert_eq!(&text_of(&lent)[25 + 70..25 + 86], b"0000000000004E20");
    (lent.x, lent.y) = (vec![0, 100, 100, 0], vec![0, 0, 100, 200]);
    assert_eq!(&text_of(&lent)[25 + 70..25 + 86], b"0000000000007530");
}

#[test]
fn round_trip_to_the_last_bit() {
    let lent = busy_t();
    let text = text_of(&lent);
    let mut other = other_t();
    let (answer, clock) = other.load(&text);
    accepted(answer, 0);
    assert_eq!(clock, lent.clock);
    assert_eq!(bits(&other.state), bits(&lent.state));
    other.clock = clock;
    assert_eq!(text_of(&other), text);
}

/// "an edition 1 load gives every node the head's wind".
#[test]
fn an_edition_1_text_gives_every_node_the_wind_of_its_head() {
    let lent = busy_t();
    let mut other = other_t();
    let (answer, clock) = other.load(&older_text_of(&lent));
    accepted(answer, 0);
    assert_eq!(clock, lent.clock);
    assert_eq!(bits(&other.state[..12]), bits(&lent.state[..12]));
    assert_eq!(bits(&other.state[12..15]), bits(&[WIND[0]; 3]));
    assert_eq!(bits(&other.state[15..]), bits(&[WIND[1]; 3]));
    other.clock = clock;
    assert!(text_of(&other).starts_with(b"0400"));
}

/// A strip of the most nodes.
fn most_nodes() -> Lent {
    let mut lent = Lent::mesh_t();
    let n = 4_096_u16;
    lent.x = (0..n).map(|i| i32::from(i / 2)).collect();
    lent.y = (0..n).map(|i| i32::from(i % 2)).collect();
    let corners = |i: u16| [i, i + 1 + (i + 1) % 2, i + 1 + i % 2];
    lent.tri = (0..n - 2).flat_map(corners).collect();
    lent.h = vec![8.0; 4_096];
    lent.kind = vec![0; 4_096];
    lent.state = (0..4 * n).map(|i| f64::from(i) / -65_536.0).collect();
    let winds = (0..2 * n).map(|i| f64::from(i) / 131_072.0);
    lent.state.extend(winds);
    lent
}

#[test]
fn round_trip_of_the_most_nodes() {
    let mut lent = most_nodes();
    let text = text_of(&lent);
    assert_eq!(text.len(), 430_207);
    assert_eq!(&text[..14], b"04000010000FFE");
    assert_eq!(&text[430_194..], b"0310021000DB\n");
    let found = bits(&lent.state);
    lent.state.fill(f64::NAN);
    accepted(lent.load(&text).0, 0);
    assert_eq!(bits(&lent.state), found);
    let older = older_text_of(&lent);
    assert_eq!(older.len(), 299_078);
    assert_eq!(&older[299_065..], b"0310011000DC\n");
    lent.state.fill(f64::NAN);
    accepted(lent.load(&older).0, 0);
    assert_eq!(bits(&lent.state[..16_384]), found[..16_384]);
    assert_eq!(bits(&lent.state[20_480..]), bits(&[WIND[1]; 4_096]));
}

#[test]
fn a_restart_goes_on_with_the_same_bits() {
    let mut through = Lent::square();
    through.kind = vec![0, 1, 2, 0];
    through.p.f = 0.0001;
    through.p.k = 0.01;
    let mut restarted = through.clone();
    for number in 0..20 {
        let wind = f64::from(number % 7) / 100.0;
        through.force(wind, wind, -wind / 3.0);
        through.forcing[2] = -wind / 7.0;
        restarted.forcing = through.forcing.clone();
        through.step_accepted();
        restarted.step_accepted();
        let text = text_of(&restarted);
        let mut fresh = restarted.clone();
        fresh.state.fill(f64::NAN);
        fresh.clock = Clock::COLD;
        let (answer, clock) = fresh.load(&text);
        accepted(answer, 0);
        fresh.clock = clock;
        restarted = fresh;
        assert_eq!(bits(&restarted.state), bits(&through.state));
        assert_eq!(restarted.clock, through.clock);
    }
}

/// Saves and loads do not know the setting of advection, nor depths and kinds.
#[test]
fn a_text_saved_under_one_setting_loads_under_the_other() {
    for advection in [false, true] {
        let mut lent = busy_t();
        lent.p.advection = advection;
        let text = text_of(&lent);
        assert_eq!(text, text_of(&busy_t()));
        let mut other = other_t();
        other.p.advection = !advection;
        other.h.fill(9.0);
        other.kind.fill(2);
        let (answer, clock) = other.load(&text);
        accepted(answer, 0);
        assert_eq!(clock, lent.clock);
        assert_eq!(bits(&other.state), bits(&lent.state));
    }
}

#[test]
fn text_room_past_a_save_keeps_its_bytes() {
    let mut text = [b'?'; 453];
    accepted(busy_t().save(&mut text), 442);
    assert_eq!(text[..442], text_of(&busy_t()));
    assert_eq!(text[442..], [b'?'; 11]);
}

#[test]
fn save_row_24() {
    for room in [0, 1, 289, 441] {
        save_refused(&busy_t(), room, 24, 442);
    }
    save_refused(&Lent::square(), 546, 24, 547);
}

#[test]
fn save_row_10_before_24() {
    for room in [0, 442] {
        for (run, limit) in [(1, 30.0), (3, 20.0), (4, 0.1), (5, 0.1)] {
            for value in outside(-limit, limit) {
                let mut lent = busy_t();
                lent.state[3 * run + 1] = value;
                save_refused(&lent, room, 10, 1);
                lent.p.dt = f64::NAN;
                save_refused(&lent, room, 9, 0);
            }
        }
    }
}

#[test]
fn load_row_20_at_every_length() {
    for save in editions() {
        // A text of less than two bytes is of edition 2, and its line 0 short as well.
        for length in 0..save.text.len() {
            load_refused(&save.text[..length], 20, save.line_at(length));
        }
        for more in ["\n", "0", "0300040003F6\n", "0300050003F5\n"] {
            let text = [&save.text[..], more.as_bytes()].concat();
            load_refused(&text, 20, save.end() + 1);
        }
    }
}

#[test]
fn load_row_20_wrong_digit_or_line_feed() {
    for save in editions() {
        for place in 0..save.text.len() {
            let number = save.line_at(place);
            for byte in [b'g', b'G', b'`', b' ', b'/', b':', b'@', 0, 255] {
                let mut spoiled = save.text.clone();
                spoiled[place] = byte;
                load_refused(&spoiled, 20, number);
            }
            let mut shorter = save.text.clone();
            shorter.remove(place);
            load_refused(&shorter, 20, number);
        }
    }
}

/// "An old build refuses a head 04 with 20, by its length", and so does this one
/// for a head that begins as the other edition's.
#[test]
fn load_row_20_head_of_the_other_edition() {
    let [one, two] = editions();
    for (save, kind) in [(&one, b"04"), (&two, b"01")] {
        let mut text = save.text.clone();
        text[..2].copy_from_slice(kind);
        load_refused(&text, 20, 0);
        let mut frame = save.frame_of(0);
        frame[0] = kind[1] - b'0';
        load_refused(&save.with_line(0, &line(&frame)), 20, 0);
    }
    load_refused(&[&one.text[..57], &two.text[25..]].concat(), 20, 1);
    load_refused(&[&two.text[..25], &one.text[57..]].concat(), 20, 1);
}

#[test]
fn load_row_20_line_of_another_kind() {
    for save in editions() {
        let (node, end) = (save.first, save.end());
        load_refused(&save.with_line(0, &line(&save.frame_of(node))), 20, 0);
        load_refused(&save.with_line(node, &line(&save.frame_of(end))), 20, node);
        load_refused(&save.with_line(end, &line(&save.frame_of(0))), 20, end);
    }
    let square = text_of(&Lent::square());
    let start = [&square[..25], &text_of(&busy_t())[25..]].concat();
    load_refused(&start, 23, 0);
}

#[test]
fn load_row_21_every_changed_digit() {
    for save in editions() {
        // A first digit pair that is no longer 01 or 04 may change the edition.
        for place in (2..save.text.len()).filter(|&place| save.text[place] != b'\n') {
            for digit in b"0123456789ABCDEF" {
                let mut changed = save.text.clone();
                changed[place] = *digit;
                if changed != save.text {
                    load_refused(&changed, 21, save.line_at(place));
                }
            }
        }
    }
}

#[test]
fn load_row_22_kind_or_sequence() {
    for save in editions() {
        for number in 0..=save.end() {
            for place in 0..3 {
                let mut frame = save.frame_of(number);
                frame[place] ^= 0x10;
                // A head of another kind is measured as edition 2's.
                let row = if (number, place, frame.len()) == (0, 0, 27) {
                    20
                } else {
                    22
                };
                load_refused(&save.with_line(number, &line(&frame)), row, number);
            }
        }
        let lines: Vec<&[u8]> = save
            .lines
            .windows(2)
            .map(|w| &save.text[w[0]..w[1]])
            .collect();
        let mut swapped = lines.clone();
        swapped.swap(save.first, save.first + 1);
        load_refused(&swapped.concat(), 22, save.first);
    }
}

#[test]
fn load_row_23_counts() {
    for save in editions() {
        for (number, place) in [(0, 3), (0, 4), (0, 5), (0, 6)] {
            let byte = save.frame_of(number)[place] ^ 1;
            load_refused(&save.with_bytes(number, place, &[byte]), 23, number);
        }
        for place in [3, 4] {
            let byte = save.frame_of(save.end())[place] ^ 1;
            let text = save.with_bytes(save.end(), place, &[byte]);
            load_refused(&text, 23, save.end());
        }
    }
}

/// "25 when a field of line 05 differs in any bit from the run's, after 23, line as
/// place".
#[test]
fn load_row_25_every_bit() {
    let [one, two] = editions();
    for place in 3..43 {
        for bit in 0..8 {
            let byte = two.frame_of(1)[place] ^ (1 << bit);
            load_refused(&two.with_bytes(1, place, &[byte]), 25, 1);
        }
    }
    let other: [fn(&mut Parameters); 5] = [
        |p| p.dt = p.dt.next_up(),
        |p| p.tau = -0.0,
        |p| p.k = p.k.next_down(),
        |p| p.f = 0.0,
        |p| p.f = -5e-324,
    ];
    for change in other {
        let mut lent = other_t();
        change(&mut lent.p);
        refused_on(lent.clone(), &two.text, 25, 1);
        // "Edition 1 has no line 05, so 25 is never asked of it."
        accepted(lent.load(&one.text).0, 0);
    }
    let mut lent = other_t();
    lent.x[1] = 101;
    refused_on(lent, &two.text, 25, 1);
}

#[test]
fn load_row_25_zeros_of_either_sign() {
    for [text_k, run_k] in [[0.0, -0.0], [-0.0, 0.0], [0.0, 0.0], [-0.0, -0.0]] {
        let mut lent = busy_t();
        lent.p.k = text_k;
        let text = text_of(&lent);
        lent.p.k = run_k;
        if text_k.to_bits() == run_k.to_bits() {
            accepted(lent.load(&text).0, 0);
        } else {
            refused_on(lent, &text, 25, 1);
        }
    }
}

#[test]
fn load_goes_line_by_line() {
    for save in editions() {
        let (end, node) = (save.end(), save.lines[save.first]);
        let mut text = save.text.clone();
        text.push(b'\n');
        load_refused(&text, 20, end + 1);
        text[save.lines[end]] = b'g';
        load_refused(&text, 20, end);
        text[node + 8] ^= 1;
        load_refused(&text, 21, save.first);
        if save.first == 2 {
            let byte = save.frame_of(1)[20] ^ 1;
            let other = save.with_bytes(1, 20, &[byte]);
            text[25..114].copy_from_slice(&other[25..114]);
            load_refused(&text, 25, 1);
            let other = Save {
                text: other,
                ..save.clone()
            }
            .with_bytes(1, 2, &[9]);
            text[25..114].copy_from_slice(&other[25..114]);
            load_refused(&text, 22, 1);
        }
        let mut head = save.frame_of(0);
        head[4] = 9;
        text.splice(..save.lines[1], line(&head));
        load_refused(&text, 23, 0);
        head[1] = 9;
        text.splice(..save.lines[1], line(&head));
        load_refused(&text, 22, 0);
    }
}

#[test]
fn load_row_10_over_the_loaded_values() {
    let limits = [30.0, 30.0, 20.0, 20.0, 0.1, 0.1];
    for save in editions() {
        for (value, limit) in limits.into_iter().enumerate().take(save.values) {
            for (node, beyond) in (0..3).flat_map(|n| outside(-limit, limit).map(|b| (n, b))) {
                let bytes = beyond.to_bits().to_be_bytes();
                let text = save.with_bytes(save.first + node, 3 + 8 * value, &bytes);
                load_refused(&text, 10, node);
            }
        }
        let low = (-7.9_f64).to_bits().to_be_bytes();
        load_refused(&save.with_bytes(save.first + 2, 11, &low), 10, 2);
    }
}

/// "12 keeps only the forcing": a head's wind beyond 0.1 is every node's, so that it
/// is a 10 at node 0, after all lines.
#[test]
fn an_edition_1_wind_beyond_is_a_10_at_node_0() {
    let [one, _] = editions();
    for value in outside(-0.1, 0.1) {
        for at in [11, 19] {
            let mut text = one.with_bytes(0, at, &value.to_bits().to_be_bytes());
            load_refused(&text, 10, 0);
            text.push(b'0');
            load_refused(&text, 20, 5);
        }
    }
    for value in [-0.1, 0.1] {
        let text = one.with_bytes(0, 11, &f64::to_bits(value).to_be_bytes());
        accepted(other_t().load(&text).0, 0);
    }
}

#[test]
fn load_takes_any_step_number_and_no_look_at_the_state() {
    let mut lent = Lent::mesh_t();
    lent.clock.step = u32::MAX;
    for text in [
        text_of(&lent),
        edition_1(&lent.state, 1, lent.clock, [0.0; 2]),
    ] {
        let mut other = Lent::mesh_t();
        other.state.fill(f64::NAN);
        other.clock.step = 5;
        let (answer, clock) = other.load(&text);
        accepted(answer, 0);
        assert_eq!(clock.step, u32::MAX);
        assert_eq!(bits(&other.state), [0; 18]);
    }
}

#[test]
fn load_rows_1_to_9_before_the_lines() {
    let mut lent = Lent::mesh_t();
    lent.p.tau = -1.0;
    refused(lent.load(b"").0, 9, 1);
    lent.h[1] = 0.0;
    refused(lent.load(b"").0, 8, 1);
    lent.state.pop();
    refused(lent.load(b"").0, 1, 0);
    refused(Lent::square().load(&cold_save()).0, 23, 0);
    refused(Lent::square().load(&cold_save_1()).0, 23, 0);
}
