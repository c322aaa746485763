//! The reader of scripts: every command, and every kind of bad line.

use crate::script::run;

/// What a script prints that has no bad line.
fn prints(script: &str) -> String {
    let printed = run(script.as_bytes());
    assert_eq!(printed.bad_line, None, "{script}");
    String::from_utf8(printed.text).unwrap()
}

fn printed_as(script: &str, expected: &str) {
    assert_eq!(prints(script), expected, "{script}");
}

/// Expects this line to end a script of two lines that stands before it.
fn bad(line: &str) {
    let script = format!("set x 1\n\n{line}\necho not reached\n");
    let printed = run(script.as_bytes());
    assert_eq!(printed.bad_line, Some(3), "{line:?}");
    assert_eq!(printed.text, b"bad line 3\n", "{line:?}");
}

const ZERO: &str = "0000000000000000";
const ONE: &str = "3FF0000000000000";

/// Mesh T with rooms, 1/64 of wind to come.
const MESH_T: &str = "set x 0 100 0
set y 0 0 100
set tri 0 1 2
fill h 3 4020000000000000
fill kind 3 0
fill state 18 3FF0000000000000
fill next 18 3FF0000000000000
fill work 15 3FF0000000000000
fill sums 3 7
parameters 3FF0000000000000 0000000000000000 0000000000000000 0000000000000000 0
set forcing 0000000000000000 3F90000000000000 3F90000000000000 3F90000000000000
add forcing 0000000000000000 0000000000000000 0000000000000000
";

#[test]
fn nothing_prints_nothing() {
    printed_as("", "");
    printed_as("\n# any words, of  any form\n#\n\n", "");
}

#[test]
fn every_slice_is_empty_at_the_start() {
    for name in [
        "x",
        "y",
        "tri",
        "h",
        "kind",
        "state",
        "next",
        "work",
        "sums",
        "forcing",
        "forcings",
        "text",
        "lines",
        "record",
        "xbytes",
        "ybytes",
        "tribytes",
        "hbytes",
        "kindbytes",
        "statebytes",
    ] {
        printed_as(&format!("print {name}\n"), &format!("set {name}\n"));
    }
}

#[test]
fn elements_at_the_ends_of_their_forms() {
    for line in [
        "set x -2147483648 -1 0 2147483647",
        "set y 7 -2147483648",
        "set tri 0 65535",
        "set kind 0 3 255",
        "set sums 0 18446744073709551615",
        "set h 0000000000000000 8000000000000000 0000000000000001 FFEFFFFFFFFFFFFF",
        "set state 7FF0000000000000 FFF0000000000000",
        "set text 00 0A 7F FF",
        "set lines 30 0D",
        "set record 00 FF",
        "set xbytes 80 00 00 00",
        "set ybytes 7F",
        "set tribytes FF FF 00",
        "set hbytes 7F F0",
        "set kindbytes 02 FF",
        "set statebytes FF F7 01",
        "set forcing 8000000000000000 FFF7FFFFFFFFFFFF",
        "set forcings 7FF0000000000001 8000000000000000",
    ] {
        let name = line.split(' ').nth(1).unwrap();
        printed_as(&format!("{line}\nprint {name}\n"), &format!("{line}\n"));
    }
}

/// NaNs, quiet and signalling, of both signs.
const NANS: [&str; 6] = [
    "7FF8000000000000",
    "FFF8000000000000",
    "7FF8DEADBEEF0001",
    "FFFFFFFFFFFFFFFF",
    "7FF0000000000001",
    "FFF7FFFFFFFFFFFF",
];

#[test]
fn a_nan_that_is_held_keeps_its_pattern() {
    for nan in NANS {
        for name in ["h", "state", "next", "work", "forcing", "forcings"] {
            let set = format!("set {name} {nan} {ONE}\n");
            printed_as(&format!("{set}print {name}\n"), &set);
            let made = format!("fill {name} 2 {ONE}\nput {name} 0 {nan}\nprint {name}\n");
            printed_as(&made, &set);
        }
        let swapped = format!("set state {nan}\nswap\nprint next\n");
        printed_as(&swapped, &format!("set next {nan}\n"));
    }
}

#[test]
fn the_digests_of_two_nans_differ() {
    let mut digests: Vec<String> = NANS
        .iter()
        .map(|nan| prints(&format!("set work {nan}\ndigest work\n")))
        .collect();
    digests.sort_unstable();
    digests.dedup();
    assert_eq!(digests.len(), NANS.len());
}

/// State, next state, work room and forcing hold nothing but a NaN.
#[test]
fn rows_1_to_10_leave_each_nan_as_found() {
    let faults = [
        ("keep sums 2", 1),
        ("set tri", 2),
        ("put tri 2 3", 3),
        ("put x 1 100001", 4),
        ("put x 1 0", 5),
        ("put kind 0 3", 8),
        (
            "parameters 0000000000000000 0000000000000000 0000000000000000 0000000000000000 0",
            9,
        ),
        ("fill kind 3 0", 10),
    ];
    for nan in NANS {
        for (fault, row) in faults {
            let slices = [("state", 18), ("next", 18), ("work", 15), ("forcing", 7)];
            let rooms = slices.map(|(name, count)| format!("fill {name} {count} {nan}\n"));
            let looks = slices.map(|(name, _)| format!("print {name}\n"));
            let (rooms, looks) = (rooms.concat(), looks.concat());
            let clock = "clock 7\n";
            let printed = prints(&format!("{MESH_T}{rooms}{fault}\n{clock}step\n{looks}"));
            let filled = slices
                .map(|(name, count)| format!("set {name}{}\n", [" ", nan].concat().repeat(count)));
            let expected = format!("step {row} 0 {ZERO}\n{clock}{}", filled.concat());
            assert_eq!(printed, expected, "{fault}");
        }
    }
}

/// What is printed of a step with a NaN in each of its rooms, after a setting: the
/// answer, the clock, the next state and the work room.
fn stepped_with(nan: &str, setting: &str) -> Vec<String> {
    let rooms = format!("open\nfill next 18 {nan}\nput work 3 {nan}\n");
    let printed = prints(&format!(
        "{MESH_T}{rooms}{setting}\nstep\nprint next\nprint work\n"
    ));
    printed.lines().skip(2).map(String::from).collect()
}

#[test]
fn rows_11_to_13_leave_each_nan_as_found() {
    for nan in NANS {
        let next = format!("set next{}", [" ", nan].concat().repeat(18));
        let [before, after] = [[ONE; 3].join(" "), [ONE; 11].join(" ")];
        let found = format!("set work {before} {nan} {after}");
        for (step, answer) in [(4_294_967_295_u32, "step 11 0"), (5, "step 12 4")] {
            let clock = format!("clock {step}");
            let setting = format!("put forcing 6 {nan}\n{clock}");
            let expected = [
                format!("{answer} {ZERO}"),
                clock,
                next.clone(),
                found.clone(),
            ];
            assert_eq!(stepped_with(nan, &setting), expected);
        }
        let printed = stepped_with(nan, "put kind 1 1\nput forcing 0 C01F99999999999A");
        assert!(printed[0].starts_with("step 13 1 "));
        let zeros = format!("set work {}", [ZERO; 15].join(" "));
        assert_eq!(printed[2..], [next, zeros]);
    }
}

#[test]
fn a_refused_load_leaves_each_nan_as_found() {
    for nan in NANS {
        let clock = "clock 7\n";
        let filled = format!("set state{}\n", [" ", nan].concat().repeat(18));
        let script = format!("{MESH_T}{filled}{clock}load\nprint state\n");
        printed_as(&script, &format!("load 20 0 {ZERO}\n{clock}{filled}"));
    }
}

/// "each NaN in it is then `7FF8000000000000`" where a reading is accepted, and after
/// a refusal every bit is as found.
#[test]
fn a_nan_of_lines_is_held_as_one() {
    for nan in NANS {
        let number = f64::from_bits(u64::from_str_radix(nan, 16).unwrap());
        let lines = [
            super::forcing_line(7, [number, 1.0, number]),
            super::forcing_lines(&[number, 1.0, number]).concat(),
        ];
        let one = "7FF8000000000000";
        for lines in lines {
            let words: Vec<String> = lines.iter().map(|byte| format!("{byte:02X}")).collect();
            let room = format!("set forcing {nan} {nan} {nan}\n");
            let script = format!(
                "{room}set lines {}\nread 7\nprint forcing\n",
                words.join(" ")
            );
            let held = format!("set forcing {one} {ONE} {one}\n");
            printed_as(&script, &format!("read 0 0 {ZERO}\n{held}"));
            let refused = script.replace("read 7", "put lines 9 67\nread 7");
            printed_as(&refused, &format!("read 20 0 {ZERO}\n{room}"));
        }
    }
}

#[test]
fn set_replaces_and_set_alone_empties() {
    printed_as("set x 1 2\nset x 3\nprint x\n", "set x 3\n");
    printed_as("set x 1 2\nset x\nprint x\n", "set x\n");
}

#[test]
fn fill_and_its_counts() {
    printed_as("set x 9\nfill x 3 -4\nprint x\n", "set x -4 -4 -4\n");
    printed_as(
        "set text 00\nfill text 2 AB\nprint text\n",
        "set text AB AB\n",
    );
    printed_as("set x 9\nfill x 0 1\nprint x\n", "set x\n");
}

#[test]
fn put_where_there_is_an_element() {
    printed_as("set x 1 2 3\nput x 1 -9\nprint x\n", "set x 1 -9 3\n");
    for at in [
        "3",
        "18446744073709551616",
        "99999999999999999999999999999999999999999999",
    ] {
        let script = format!("set x 1 2 3\nput x {at} 9\nprint x\n");
        printed_as(&script, "set x 1 2 3\n");
    }
    printed_as("put x 0 9\nprint x\n", "set x\n");
}

#[test]
fn keep_the_first_elements() {
    printed_as("set x 1 2 3\nkeep x 2\nprint x\n", "set x 1 2\n");
    printed_as("set x 1 2 3\nkeep x 0\nprint x\n", "set x\n");
    for count in ["3", "4", "99999999999999999999999999999999999999999999"] {
        let script = format!("set x 1 2 3\nkeep x {count}\nprint x\n");
        printed_as(&script, "set x 1 2 3\n");
    }
}

#[test]
fn add_to_the_end() {
    printed_as("add x 1\nadd x\nadd x 2 3\nprint x\n", "set x 1 2 3\n");
}

#[test]
fn swap_changes_state_and_next() {
    let script = format!("set state {ONE}\nset next\nswap\nprint state\nprint next\n");
    printed_as(&script, &format!("set state\nset next {ONE}\n"));
}

#[test]
fn queue_adds_the_forcing_to_the_list() {
    let set = format!("set forcing {ONE} FFF7FFFFFFFFFFFF\n");
    let once = format!(" {ONE} FFF7FFFFFFFFFFFF");
    for count in 0..4 {
        let script = format!("{set}queue {count}\nprint forcings\nprint forcing\n");
        let list = format!("set forcings{}\n", once.repeat(count));
        printed_as(&script, &format!("{list}{set}"));
    }
    let again = format!("{set}queue 1\nset forcing {ZERO}\nqueue 2\nprint forcings\n");
    printed_as(&again, &format!("set forcings{once} {ZERO} {ZERO}\n"));
    // Nothing, any number of times, is nothing.
    let many = "9".repeat(44);
    printed_as(&format!("queue {many}\nprint forcings\n"), "set forcings\n");
    let script = format!("{set}queue {many}\n");
    assert_eq!(run(script.as_bytes()).bad_line, Some(2));
}

#[test]
fn digests_are_fnv_1a() {
    printed_as("digest x\n", "digest x 0 CBF29CE484222325\n");
    printed_as("set x 1 -2\ndigest x\n", "digest x 2 D346F6D5AA9F2015\n");
    printed_as(
        "set text 0A FF\ndigest text\n",
        "digest text 2 4B42D0EE19AF7302\n",
    );
    let script = "set h FFF0000000000001\ndigest h\n";
    printed_as(script, "digest h 1 E1876162E02C496E\n");
}

#[test]
fn echo_prints_its_words() {
    printed_as(
        "echo\necho a\necho set x 1\n",
        "echo\necho a\necho set x 1\n",
    );
    let printed = run(b"echo \xFF\xFE \r\n");
    assert_eq!(
        (printed.text, printed.bad_line),
        (b"echo \xFF\xFE \r\n".to_vec(), None)
    );
}

#[test]
fn the_calls_on_nothing() {
    printed_as("open\n", &format!("open 2 0 {ZERO}\nclock 0\n"));
    printed_as("step\n", &format!("step 1 0 {ZERO}\nclock 0\n"));
    let one = format!("set forcing {ONE}\n");
    printed_as(
        &format!("{one}step\n"),
        &format!("step 2 0 {ZERO}\nclock 0\n"),
    );
    let list = format!("stepall 2 0 {ZERO}\nclock 0\naccepted 0\n");
    printed_as("stepall\n", &list);
    printed_as("save\n", &format!("save 2 0 {ZERO}\n"));
    printed_as("load\n", &format!("load 2 0 {ZERO}\nclock 0\n"));
    for read in ["read 0\n", "read 4294967295\n"] {
        printed_as(read, &format!("read 1 0 {ZERO}\n"));
        let script = format!("{one}{read}print forcing\n");
        printed_as(&script, &format!("read 20 0 {ZERO}\n{one}"));
    }
}

#[test]
fn a_refused_step_hands_back_the_clock_and_open_the_cold_one() {
    let clock = "clock 4294967295\n";
    let script = format!("{clock}step\nload\nopen\nstep\n");
    let cold = "clock 0\n";
    let expected = format!(
        "step 1 0 {ZERO}\n{clock}load 2 0 {ZERO}\n{clock}open 2 0 {ZERO}\n{cold}step 1 0 {ZERO}\n{cold}"
    );
    printed_as(&script, &expected);
}

/// Example 13's first step, the save after it, and the way back.
#[test]
fn a_run_on_mesh_t() {
    let script = format!("{MESH_T}open\nprint state\nstep\nprint next\nprint work\nprint sums\n");
    let zeros = |count: usize| [ZERO].repeat(count).join(" ");
    let wind = ["3F90000000000000"; 3].join(" ");
    let u = ["3F50000000000000"; 3].join(" ");
    let expected = format!(
        "open 0 0 {ZERO}\nclock 0\nset state {}\nstep 0 0 {ZERO}\nclock 1\n\
         set next {} {u} {} {wind} {}\nset work {}\nset sums 0 0 0\n",
        zeros(18),
        zeros(6),
        zeros(3),
        zeros(3),
        zeros(15),
    );
    printed_as(&script, &expected);
    let on = format!("{script}swap\nfill text 443 2A\nsave\nkeep text 442\nswap\nclock 9\nload\n");
    let expected = format!("{expected}save 0 442 {ZERO}\nload 0 0 {ZERO}\nclock 1\n");
    printed_as(&on, &expected);
    let same = format!("{on}digest state\ndigest next\n");
    let printed = prints(&same);
    let digests: Vec<_> = printed.lines().rev().take(2).collect();
    assert_eq!(
        digests[1].replace("state", ""),
        digests[0].replace("next", "")
    );
}

#[test]
fn a_step_leaves_the_state_and_the_next_call_the_clock() {
    let script = format!("{MESH_T}open\nstep\nprint state\nstep\n");
    let printed = prints(&script);
    assert!(printed.contains(&format!("set state {}\n", [ZERO; 18].join(" "))));
    assert!(printed.ends_with("clock 2\n"));
}

/// "`stepall NUMBER PLACE VALUE`", "`clock STEP`" and "`accepted COUNT`"; "the clock
/// handed back is the script's clock from then on", and `swap` moves the next state.
#[test]
fn a_list_prints_three_lines() {
    let rooms = format!("open\nfill work 33 {ONE}\nclock 7\n");
    let strong = "put forcings 13 3FF0000000000000\n";
    let last = "clock 4294967294\n";
    for (change, answer, clock, count) in [
        ("", "0 0", 9, 2),
        ("keep forcings 0\n", "0 0", 7, 0),
        ("keep forcings 13\n", "1 0", 7, 0),
        ("keep work 15\n", "1 0", 7, 0),
        ("queue 4095\n", "14 0", 7, 0),
        (strong, "12 4", 8, 1),
        (last, "11 0", 4_294_967_295_u32, 1),
    ] {
        let script = format!("{MESH_T}{rooms}queue 2\n{change}stepall\nopen\n");
        let printed = prints(&script);
        let lines: Vec<&str> = printed.lines().skip(2).take(3).collect();
        let expected = [
            format!("stepall {answer} {ZERO}"),
            format!("clock {clock}"),
            format!("accepted {count}"),
        ];
        assert_eq!(lines, expected, "{change}");
    }
    let list = format!("{MESH_T}{rooms}queue 2\nstepall\nswap\nprint state\n");
    let singly = format!("{MESH_T}open\nclock 7\nstep\nswap\nstep\nswap\nprint state\n");
    let last_line = |script: &str| prints(script).lines().last().map(String::from);
    assert_eq!(last_line(&list), last_line(&singly));
}

#[test]
fn row_13_prints_its_value() {
    let script = format!("{MESH_T}put kind 1 1\nput forcing 0 C01F99999999999A\nopen\nstep\n");
    let printed = prints(&script);
    let answer = printed.lines().nth(2).unwrap();
    let column = f64::from_bits(0xC01F_9999_9999_999A) + 8.0;
    assert_eq!(answer, format!("step 13 1 {:016X}", column.to_bits()));
}

#[test]
fn lines_that_are_read_are_the_forcing_from_then_on() {
    let frame = "100007".to_string() + ZERO + "3F90000000000000" + ZERO;
    let lines = format!("set lines {}\n", bytes(&(frame + "1A\n")));
    let room = format!("fill forcing 7 {ONE}\n");
    let wind = ["3F90000000000000"; 3].join(" ");
    let forcing = format!("set forcing {ZERO} {wind} {ZERO} {ZERO} {ZERO}\n");
    let looks = "print forcing\nprint lines\n";
    printed_as(
        &format!("{room}{lines}read 7\n{looks}"),
        &format!("read 0 0 {ZERO}\n{forcing}{lines}"),
    );
    let stepped = |script: &str| prints(&format!("{MESH_T}{script}open\nstep\nprint next\n"));
    assert_eq!(
        stepped(&format!("{room}{lines}read 7\n")),
        format!("read 0 0 {ZERO}\n{}", stepped(""))
    );
    let found = format!("set forcing {}\n", [ONE; 7].join(" "));
    for expected in [8, 65_543] {
        let script = format!("{room}{lines}read {expected}\n{looks}");
        printed_as(&script, &format!("read 22 0 {ZERO}\n{found}{lines}"));
    }
}

/// The place of a refused reading is its line within the forcing.
#[test]
fn lines_of_a_forcing_by_node() {
    let numbers = [0.25, 0.01, 0.02, 0.03, -0.01, -0.02, -0.03];
    let text = super::forcing_lines(&numbers).concat();
    let text = String::from_utf8(text).unwrap();
    let lines = format!("fill forcing 7 {ONE}\nset lines {}\n", bytes(&text));
    let words = numbers.map(|number| format!("{:016X}", number.to_bits()));
    printed_as(
        &format!("{lines}read 4000000000\nprint forcing\n"),
        &format!("read 0 0 {ZERO}\nset forcing {}\n", words.join(" ")),
    );
    let last = text.len() - 1;
    for (change, answer) in [
        (format!("keep lines {last}"), "20 3"),
        (String::from("put lines 70 47"), "20 2"),
        (String::from("put lines 31 32"), "21 1"),
        (String::from("add lines 0A"), "20 4"),
        (format!("fill forcing 9 {ONE}"), "20 4"),
        (format!("fill forcing 5 {ONE}"), "20 3"),
        (format!("fill forcing 6 {ONE}"), "1 0"),
    ] {
        let script = format!("{lines}{change}\nread 0\n");
        printed_as(&script, &format!("read {answer} {ZERO}\n"));
    }
}

#[test]
fn what_was_printed_before_a_bad_line_stays() {
    let printed = run(b"echo a\n# b\nfrob\necho c\n");
    assert_eq!(printed.text, b"echo a\nbad line 3\n");
}

#[test]
fn lines_that_are_no_command() {
    for line in [
        " ",
        "frob",
        "SET x 1",
        "Open",
        " open",
        "open ",
        "open 1",
        "step 0",
        "stepall 1",
        "stepall ",
        "step all",
        "save text",
        "load text",
        "swap 1",
        "swap ",
        "set",
        "fill",
        "put",
        "keep",
        "add",
        "print",
        "digest",
        "print z",
        "print x y",
        "print x ",
        "digest z",
        "digest x 1",
        "set z 1",
        "set X 1",
        "echo  a",
        "echo ",
        "echo a ",
        "\t",
        " # no comment",
        "open\r",
        "clock",
        "read",
    ] {
        bad(line);
    }
}

#[test]
fn whole_numbers_that_are_none() {
    for word in [
        "",
        "-",
        "+1",
        "--1",
        "1.0",
        "0x1",
        "1e3",
        "A",
        "-0",
        "1-",
        "\u{661}",
        "2147483648",
        "-2147483649",
        "99999999999999999999999999999999999999999999",
        "1,000",
    ] {
        bad(&format!("set x {word}"));
        bad(&format!("add x 1 {word}"));
        bad(&format!("fill x 1 {word}"));
        bad(&format!("put x 0 {word}"));
    }
    bad("set x 1  2");
    bad("set x 1 2 ");
    bad("set tri 65536");
    bad("set tri -1");
    bad("set kind 256");
    bad("set sums -1");
    bad("set sums 18446744073709551616");
}

#[test]
fn counts_and_places_that_are_none() {
    for command in [
        "fill x - 1",
        "fill x -1 1",
        "fill x 1",
        "fill x 1 1 1",
        "fill x A 1",
    ] {
        bad(command);
    }
    for command in ["put x -1 1", "put x 0", "put x 0 1 2", "put x", "put x  1"] {
        bad(command);
    }
    for command in ["keep x", "keep x -1", "keep x 1 1", "keep x one", "keep x "] {
        bad(command);
    }
    for command in [
        "queue",
        "queue ",
        "queue -1",
        "queue 1 1",
        "queue x",
        "queue x 1",
    ] {
        bad(command);
    }
    bad("fill x 99999999999999999999999999999999999999999999 1");
}

#[test]
fn floats_and_bytes_that_are_none() {
    for word in [
        "",
        "0",
        "1.0",
        "3ff0000000000000",
        "3Ff0000000000000",
        "3FF000000000000f",
        "3FF000000000000",
        "3FF00000000000000",
        "3FF000000000000G",
        "-3FF000000000000",
        "NaN",
        "3FF000000000000\u{663}",
    ] {
        bad(&format!("set h {word}"));
        bad(&format!("fill work 2 {word}"));
        bad(&format!("put next 5 {word}"));
        bad(&format!("set forcing {ZERO} {word} {ZERO}"));
        bad(&format!("parameters {ZERO} {ZERO} {ZERO} {word} 0"));
    }
    for word in [
        "", "0", "a0", "0f", "Ff", "ff", "0g", "000", "G0", "-1", "255",
    ] {
        bad(&format!("set text {word}"));
        bad(&format!("put lines 0 {word}"));
    }
}

#[test]
fn too_few_and_too_many_words() {
    for words in [4, 6] {
        bad(&format!("parameters {}", [ZERO].repeat(words).join(" ")));
    }
    for step in ["-1", "4294967296", "x", ""] {
        bad(&format!("clock {step}"));
        bad(&format!("read {step}"));
    }
    bad("read 1 2");
    bad("clock 1 2");
    // as they were before request #105
    bad(&format!("clock 1 {ZERO} {ZERO}"));
    bad(&format!("forcing {ZERO} {ZERO} {ZERO}"));
    bad("set line 30");
}

/// "0 is advection off, every other number on".
#[test]
fn the_byte_of_advection() {
    let four = format!("parameters {ONE} {ZERO} {ZERO} {ZERO}");
    let moving = format!("{MESH_T}open\nput state 6 {ONE}\n");
    let stepped = |byte: &str| prints(&format!("{moving}{four} {byte}\nstep\nprint next\n"));
    assert_eq!(stepped("000"), stepped("0"));
    assert_ne!(stepped("1"), stepped("0"));
    for byte in ["2", "128", "254", "255", "001"] {
        assert_eq!(stepped(byte), stepped("1"), "{byte}");
    }
    for byte in ["", "256", "-1", "-0", "+1", "1.0", "on", ONE] {
        bad(&format!("{four} {byte}"));
    }
    bad(&four);
}

/// The bytes of a text as words.
fn bytes(text: &str) -> String {
    let words: Vec<String> = text.bytes().map(|byte| format!("{byte:02X}")).collect();
    words.join(" ")
}

#[test]
fn grid_fills_the_rooms_of_a_mesh() {
    let text = bytes("T\n1 3\n1 0 0 8\n2 100 0 8\n3 0 100 8\n1 3 1 2 3\n");
    let rooms = format!("fill x 3 7\nfill y 3 7\nfill h 3 {ONE}\nfill tri 3 7\nset text {text}\n");
    let prints = "print x\nprint y\nprint h\nprint tri\n";
    let eight = "4020000000000000";
    let read =
        format!("set x 0 100 0\nset y 0 0 100\nset h {eight} {eight} {eight}\nset tri 0 1 2\n");
    printed_as(
        &format!("{rooms}grid\n{prints}"),
        &format!("grid 0 0 {ZERO}\n{read}"),
    );
    // The rooms of a refusal are as found.
    let found = format!("set x 7 7 7\nset y 7 7 7\nset h {ONE} {ONE} {ONE}\nset tri 7 7 7\n");
    printed_as(
        &format!("{rooms}put text 36 34\ngrid\n{prints}"),
        &format!("grid 30 5 {ZERO}\n{found}"),
    );
    // The mesh is opened as any other.
    let opened = format!("{MESH_T}{rooms}grid\nopen\n");
    printed_as(
        &opened,
        &format!("grid 0 0 {ZERO}\nopen 0 0 {ZERO}\nclock 0\n"),
    );
    printed_as("grid\n", &format!("grid 30 0 {ZERO}\n"));
    bad("grid 1");
}

/// "big-endian, each float by its own pattern".
#[test]
fn pack_gives_the_bytes_of_the_mesh_and_the_state() {
    let prints = "print xbytes\nprint ybytes\nprint tribytes\nprint hbytes\nprint kindbytes\nprint statebytes\n";
    printed_as(
        &format!(
            "set x 258 -2\nset y -2147483648\nset tri 1 65534 515\nset h {ONE}\nset kind 0 255\n\
             set state 7FF0DEADBEEF0001 8000000000000000\npack\n{prints}"
        ),
        "set xbytes 00 00 01 02 FF FF FF FE\nset ybytes 80 00 00 00\n\
         set tribytes 00 01 FF FE 02 03\nset hbytes 3F F0 00 00 00 00 00 00\n\
         set kindbytes 00 FF\n\
         set statebytes 7F F0 DE AD BE EF 00 01 80 00 00 00 00 00 00 00\n",
    );
    // Nothing is packed again by itself.
    printed_as(
        "set x 1\npack\nset x 2\nprint xbytes\n",
        "set xbytes 00 00 00 01\n",
    );
    printed_as(
        "set xbytes 01\nset statebytes 02\npack\nprint xbytes\nprint statebytes\n",
        "set xbytes\nset statebytes\n",
    );
}

/// A gauge in the middle of mesh T, with z = 1 everywhere: w is 5000, 2500, 2500.
#[test]
fn the_calls_on_gauges() {
    let run = format!(
        "{MESH_T}fill state 18 {ZERO}\nput state 3 {ONE}\nput state 4 {ONE}\nput state 5 {ONE}\n"
    );
    let gauge = format!("{run}pack\nfill record 1345 00\nclock 7\n");
    for (call, printed) in [
        (
            "gauge locate 25 25\n",
            format!("gauge locate 0 0 {ZERO}\nfound 0\n"),
        ),
        (
            "gauge locate -1 25\n",
            format!("gauge locate 40 0 {ZERO}\nfound 0\n"),
        ),
        (
            "gauge elevation 0\n",
            format!("gauge elevation 42 0 {ZERO}\nfound {ZERO}\n"),
        ),
        (
            "gauge update\nclock 7\n",
            format!("gauge update 0 0 {ZERO}\n"),
        ),
        (
            "gauge peak 4294967295\n",
            format!("gauge peak 42 4294967295 {ZERO}\nfound 0 {ZERO} 0\n"),
        ),
        (
            "gauge add 25 25\ngauge add 0 0\ngauge add 2147483647 -2147483648\n",
            format!(
                "gauge add 0 0 {ZERO}\nfound 0\ngauge add 0 0 {ZERO}\nfound 1\n\
                 gauge add 40 2 {ZERO}\nfound 0\n"
            ),
        ),
        (
            "gauge add 25 25\ngauge elevation 0\ngauge update\ngauge peak 0\n",
            format!(
                "gauge add 0 0 {ZERO}\nfound 0\ngauge elevation 0 0 {ZERO}\nfound {ONE}\n\
                 gauge update 0 0 {ZERO}\ngauge peak 0 0 {ZERO}\nfound 1 {ONE} 7\n"
            ),
        ),
    ] {
        printed_as(&format!("{gauge}{call}"), &printed);
    }
}

/// "A VALUE, an ELEVATION, a PEAK": every NaN is the one NaN there, and keeps its
/// pattern in the record.
#[test]
fn a_nan_that_is_a_peak() {
    let row = "00 00 00 00 00 00 00 00 01 FF F0 DE AD BE EF 00 01 00 00 00 09";
    let script = format!(
        "set record 01 {row}\n{}gauge peak 0\nkeep record 22\nprint record\n",
        "add record 00\n".repeat(1_323)
    );
    printed_as(
        &script,
        &format!("gauge peak 0 0 {ZERO}\nfound 1 7FF8000000000000 9\nset record 01 {row}\n"),
    );
}

/// An accepted call and a refused one print the same lines, and the clock stays.
#[test]
fn calls_on_gauges_that_are_lent_nothing() {
    for (call, printed) in [
        (
            "gauge locate 0 0",
            format!("gauge locate 2 0 {ZERO}\nfound 0\n"),
        ),
        ("gauge add 0 0", format!("gauge add 2 0 {ZERO}\nfound 0\n")),
        (
            "gauge elevation 0",
            format!("gauge elevation 2 0 {ZERO}\nfound {ZERO}\n"),
        ),
        ("gauge update", format!("gauge update 2 0 {ZERO}\n")),
        (
            "gauge peak 0",
            format!("gauge peak 43 0 {ZERO}\nfound 0 {ZERO} 0\n"),
        ),
    ] {
        printed_as(&format!("{call}\n"), &printed);
    }
}

#[test]
fn calls_on_gauges_that_are_none() {
    for line in [
        "gauge",
        "gauge ",
        "gauge open",
        "gauge gauge locate 1 1",
        "gauge  update",
        "gauge update 1",
        "gauge update ",
        "gauge locate",
        "gauge locate 1",
        "gauge locate 1 2 3",
        "gauge locate 1  2",
        "gauge locate 2147483648 0",
        "gauge locate 0 -2147483649",
        "gauge add -0 1",
        "gauge add +1 1",
        "gauge add 1",
        "gauge elevation",
        "gauge elevation -1",
        "gauge elevation 4294967296",
        "gauge elevation 0 0",
        "gauge peak",
        "gauge peak 1 1",
        "gauge peak x",
        "gauge Peak 0",
        "locate 1 1",
        "peak 0",
        "pack 1",
        "pack ",
        "set bytes 00",
        "set xbytes 0",
        "set record 100",
        "put statebytes 0 ff",
    ] {
        bad(line);
    }
}

#[test]
fn a_last_line_without_a_line_feed_is_no_line() {
    let printed = run(b"set x 1\nprint x");
    assert_eq!(
        (printed.text, printed.bad_line),
        (b"bad line 2\n".to_vec(), Some(2))
    );
    printed_as("set x 1\n# no command", "");
}

#[test]
fn a_long_line() {
    let words = vec!["-2147483648"; 100_000].join(" ");
    printed_as(
        &format!("set y {words}\nprint y\n"),
        &format!("set y {words}\n"),
    );
}
