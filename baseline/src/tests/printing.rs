//! The printing program.

use super::examples::cold_save;
use super::*;
use crate::print;

/// What is printed for these lines, as text.
fn printed(lines: &[Vec<u8>]) -> String {
    String::from_utf8(print(&lines.concat())).unwrap()
}

/// Forcing lines of sequence 0 on, all with these numbers.
fn lines(count: u32, numbers: [f64; 3]) -> Vec<Vec<u8>> {
    (0..count)
        .map(|sequence| forcing_line(sequence as u16, numbers))
        .collect()
}

#[test]
fn empty_input_prints_six_lines() {
    let text = print(b"");
    assert_eq!(text.len(), 442);
    assert_eq!(text, cold_save());
    let text = String::from_utf8(text).unwrap();
    let digits: Vec<_> = text.lines().map(str::len).collect();
    assert_eq!(digits, [24, 88, 104, 104, 104, 12]);
}

#[test]
fn steps_and_one_save() {
    let forcings = [[0.0, 1.0 / 64.0, 0.0], [0.0; 3], [3.0, -0.1, 0.1]];
    let mut lent = Lent::mesh_t();
    let mut input = Vec::new();
    for (sequence, forcing) in forcings.into_iter().enumerate() {
        input.extend(forcing_line(sequence as u16, forcing));
        let [elevation, wx, wy] = forcing;
        lent.force(elevation, wx, wy);
        lent.step_accepted();
        let mut text = [0; 442];
        accepted(lent.save(&mut text), 442);
        assert_eq!(print(&input), text);
    }
}

/// A forcing for T, no two numbers alike.
const GUSTS: [f64; 7] = [0.25, 0.01, -0.02, 0.03, -0.04, 0.05, -0.06];

/// So many forcings of kinds 14 and 15.
fn by_node(count: usize) -> Vec<u8> {
    forcing_lines(&GUSTS).concat().repeat(count)
}

#[test]
fn steps_by_forcings_of_kinds_14_and_15_and_10() {
    let mut lent = Lent::mesh_t();
    let mut input = Vec::new();
    for number in 0..9_u16 {
        if number % 2 == 0 {
            lent.forcing = GUSTS.map(|gust| gust / f64::from(number + 1)).to_vec();
            input.extend(forcing_lines(&lent.forcing).concat());
        } else {
            lent.force(0.5, -0.01, 0.02);
            // the number of forcings before it, not of lines
            input.extend(forcing_line(number, [0.5, -0.01, 0.02]));
        }
        lent.step_accepted();
        let mut text = [0; 442];
        accepted(lent.save(&mut text), 442);
        assert_eq!(print(&input), text);
    }
}

/// P "counted over all lines: of a refused reading the line it names".
#[test]
fn a_refused_line_of_kinds_14_and_15() {
    for before in [0, 1, 3] {
        for at in 0..4 {
            let place = 4 * before + at;
            for (row, change) in [(20, b'x'), (21, b'1')] {
                let mut lines = forcing_lines(&GUSTS);
                lines[at][10] = if lines[at][10] == change {
                    b'2'
                } else {
                    change
                };
                let input = [by_node(before), lines.concat(), by_node(1)].concat();
                assert_eq!(
                    print(&input),
                    format!("refused {row} at {place}\n").as_bytes()
                );
            }
            let mut lines = forcing_lines(&GUSTS);
            lines[at] = if at == 0 {
                line_with(0x14, 1, &[0.0])
            } else {
                line_with(0x15, 0, &[0.0; 2])
            };
            let input = [by_node(before), lines.concat()].concat();
            assert_eq!(print(&input), format!("refused 22 at {place}\n").as_bytes());
        }
    }
}

/// "for a refused step the program's P is its first line".
#[test]
fn a_refused_step_by_node() {
    for before in [0, 1, 3] {
        for at in 0..7 {
            let mut forcing = GUSTS;
            forcing[at] = f64::NAN;
            let input = [
                by_node(before),
                forcing_lines(&forcing).concat(),
                by_node(1),
            ]
            .concat();
            let expected = format!("refused 12 at {}\n", 4 * before);
            assert_eq!(print(&input), expected.as_bytes());
        }
    }
}

/// "An input that ends inside a forcing is 20 at the line that is missing or cut".
#[test]
fn an_input_that_ends_inside_a_forcing() {
    let text = forcing_lines(&GUSTS).concat();
    for before in [0, 2] {
        for kept in 1..text.len() {
            let at = if kept < 25 { 0 } else { 1 + (kept - 25) / 41 };
            let input = [&by_node(before)[..], &text[..kept]].concat();
            let expected = format!("refused 20 at {}\n", 4 * before + at);
            assert_eq!(print(&input), expected.as_bytes());
        }
    }
}

/// Lines cut at line feeds, as document 01's program had them, and put together
/// forcing by forcing: one where the first begins with `10`, else four.
fn printed_by_line_feeds(input: &[u8]) -> Vec<u8> {
    let mut lines = input.split_inclusive(|&byte| byte == b'\n');
    let (mut lent, mut line, mut taken) = (Lent::mesh_t(), 0, 0);
    while let Some(first) = lines.next() {
        let count = if first.starts_with(b"10") { 1 } else { 4 };
        let mut text = first.to_vec();
        for other in lines.by_ref().take(count - 1) {
            text.extend(other);
        }
        let answer = crate::read_forcing(&mut lent.forcing, &text, taken);
        if answer.number != 0 {
            return format!("refused {} at {}\n", answer.number, line + answer.place).into();
        }
        let (answer, clock) = lent.step();
        if answer.number != 0 {
            return format!("refused {} at {line}\n", answer.number).into();
        }
        lent.state.copy_from_slice(&lent.next);
        (lent.clock, line, taken) = (clock, line + count, taken + 1);
    }
    let mut text = vec![0; 442];
    accepted(lent.save(&mut text), 442);
    text
}

/// Whether lines are cut at line feeds or by the lengths that are due, all cases
/// print the same.
#[test]
fn line_feeds_and_due_lengths_cut_alike() {
    let mut cases = crate::cases();
    cases.retain(|case| case.input.len() < 500_000);
    assert!(cases.len() > 300);
    for case in cases {
        assert_eq!(
            print(&case.input),
            printed_by_line_feeds(&case.input),
            "{}",
            case.name
        );
    }
}

#[test]
fn a_refused_line() {
    let good = lines(3, [0.0; 3]);
    for place in 0..3 {
        let mut spoiled = good.clone();
        spoiled[place][30] = b'x';
        assert_eq!(printed(&spoiled), format!("refused 20 at {place}\n"));
        let mut spoiled = good.clone();
        spoiled[place][30] = b'1';
        assert_eq!(printed(&spoiled), format!("refused 21 at {place}\n"));
        let mut spoiled = good.clone();
        spoiled[place] = forcing_line(7, [0.0; 3]);
        assert_eq!(printed(&spoiled), format!("refused 22 at {place}\n"));
    }
}

#[test]
fn a_line_without_its_line_feed_or_of_another_length() {
    let mut input = lines(2, [0.0; 3]);
    input[1].pop();
    assert_eq!(printed(&input), "refused 20 at 1\n");
    assert_eq!(print(b"\n"), b"refused 20 at 0\n");
    assert_eq!(print(b"0"), b"refused 20 at 0\n");
    let mut input = lines(2, [0.0; 3]);
    input.push(b"\n".to_vec());
    assert_eq!(printed(&input), "refused 20 at 2\n");
    input[0].remove(3);
    assert_eq!(printed(&input), "refused 20 at 0\n");
}

#[test]
fn a_refused_step() {
    for numbers in [[30.5, 0.0, 0.0], [0.0, 0.2, 0.0], [0.0, 0.0, f64::NAN]] {
        let mut input = lines(2, [0.0; 3]);
        input[1] = forcing_line(1, numbers);
        assert_eq!(printed(&input), "refused 12 at 1\n");
        input.push(b"?".to_vec());
        assert_eq!(printed(&input), "refused 12 at 1\n");
    }
}

/// Wind along the flow pumps the triangle until a value leaves its range.
#[test]
fn a_step_that_leaves_its_range() {
    let mut lent = Lent::mesh_t();
    let mut input = Vec::new();
    loop {
        let wx = 0.1_f64.copysign(lent.state[6]);
        lent.force(0.0, wx, 0.0);
        let place = input.len();
        assert!(place < 5_000);
        input.push(forcing_line(place as u16, [0.0, wx, 0.0]));
        if lent.step().0.number == 13 {
            assert_eq!(printed(&input), format!("refused 13 at {place}\n"));
            input.pop();
            let head = format!("04000000030001{place:08X}");
            assert!(printed(&input).starts_with(&head));
            break;
        }
        lent.step_accepted();
    }
}

#[test]
fn sequence_numbers_end_at_65_535() {
    let mut input = lines(65_536, [0.0; 3]);
    assert!(printed(&input).starts_with("0400000003000100010000"));
    for last in [forcing_line(0, [0.0; 3]), forcing_line(65_535, [0.0; 3])] {
        input.push(last);
        assert_eq!(printed(&input), "refused 22 at 65536\n");
        input[65_536][55] ^= 1;
        assert_eq!(printed(&input), "refused 21 at 65536\n");
        input[65_536][55] = b'g';
        assert_eq!(printed(&input), "refused 20 at 65536\n");
        input.pop();
    }
}

/// A case whose name begins with a row is refused by that row, or by none where
/// its name says so.
#[test]
fn cases_are_named_after_their_rows() {
    let cases = crate::cases();
    let mut names: Vec<_> = cases.iter().map(|case| case.name.clone()).collect();
    names.sort();
    names.dedup();
    assert_eq!(names.len(), cases.len());
    for case in cases.iter().filter(|case| case.input.len() < 1_000_000) {
        let text = String::from_utf8(print(&case.input)).unwrap();
        let row = case.name.get(3..5).filter(|_| case.name.starts_with("row"));
        match row {
            Some(row) if !case.name.ends_with("last_accepted") => {
                let refusal = format!("refused {row} at ");
                assert!(text.starts_with(&refusal), "{} {text}", case.name);
            }
            _ if case.name.starts_with("order") => assert!(text.starts_with("refused")),
            _ => assert_eq!(text.len(), 442, "{}", case.name),
        }
    }
}

/// The cases of request #104 print byte for byte what they print in upper case:
/// the save of an accepted log, or the refusal.
#[test]
fn cases_in_any_case_print_what_upper_case_prints() {
    let mut counts = [0; 2];
    let mut cases = crate::cases();
    cases.retain(|case| case.name.contains("_case"));
    for case in cases {
        let (text, mut upper) = (print(&case.input), case.input);
        assert!(upper.iter().any(u8::is_ascii_lowercase), "{}", case.name);
        upper.make_ascii_uppercase();
        assert_eq!(text, print(&upper), "{}", case.name);
        assert!(!text.starts_with(b"0") || !text.iter().any(u8::is_ascii_lowercase));
        counts[usize::from(text.starts_with(b"refused "))] += 1;
    }
    assert_eq!(counts, [13, 20]);
}

#[test]
fn a_log_in_lower_case_has_every_letter_in_every_field() {
    let cases = crate::cases();
    let case = cases.iter().find(|case| case.name == "lower_case_log");
    let input = &case.unwrap().input;
    for letter in b'a'..=b'f' {
        for (first, end) in [(2, 6), (6, 22), (22, 38), (38, 54), (54, 56)] {
            let mut lines = input.chunks(57);
            assert!(lines.any(|line| line[first..end].contains(&letter)));
        }
    }
}

/// "U' or V' beyond 20": pumped eastward it is U', northward V'.
#[test]
fn the_pumped_runs_leave_their_range_by_speed() {
    for (name, first) in [("row13_east", 6), ("row13_north", 9)] {
        let cases = crate::cases();
        let case = cases.iter().find(|case| case.name == name).unwrap();
        let mut lent = Lent::mesh_t();
        let mut last = None;
        for (place, line) in case.input.chunks(57).enumerate() {
            let answer = crate::read_forcing(&mut lent.forcing, line, place as u32);
            accepted(answer, 0);
            let (answer, _) = lent.step();
            if answer.number != 0 {
                last = Some((answer, place));
                break;
            }
            lent.step_accepted();
        }
        let (answer, place) = last.unwrap();
        assert_eq!((answer.number, place + 1), (13, case.input.len() / 57));
        assert!(answer.value.abs() > 20.0 && answer.value.abs() < 21.0);
        assert!((lent.state[first + answer.place] - answer.value).abs() < 1.0);
    }
}
