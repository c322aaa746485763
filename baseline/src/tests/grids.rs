//! The reading of a grid text, sentence by sentence.

use super::*;
use crate::read_grid;

/// Mesh T as a grid text.
const MESH_T: &[u8] = b"mesh T\n1 3\n1 0 0 8\n2 100 0 8\n3 0 100 8\n1 3 1 2 3\n";

/// Rooms that hold something, and what they hold after a reading.
#[derive(Clone, PartialEq, Debug)]
struct Rooms {
    x: Vec<i32>,
    y: Vec<i32>,
    h: Vec<u64>,
    tri: Vec<u16>,
}

impl Rooms {
    /// Rooms that N and E give.
    fn of(n: usize, e: usize) -> Rooms {
        Rooms::lengths([n, n, n, 3 * e])
    }

    fn lengths([x, y, h, tri]: [usize; 4]) -> Rooms {
        Rooms {
            x: vec![-7; x],
            y: vec![77; y],
            h: vec![FILL; h],
            tri: vec![777; tri],
        }
    }

    fn read(&mut self, text: &[u8]) -> Answer {
        let mut h: Vec<f64> = self.h.iter().copied().map(f64::from_bits).collect();
        let answer = read_grid(&mut self.x, &mut self.y, &mut h, &mut self.tri, text);
        self.h = bits(&h);
        answer
    }

    /// Expects a text accepted, and hands back what it filled the rooms with.
    fn accepts(mut self, text: impl AsRef<[u8]>) -> Rooms {
        accepted(self.read(text.as_ref()), 0);
        self
    }

    /// Expects a refusal with every room as found.
    fn refuses(mut self, text: impl AsRef<[u8]>, number: u32, line: usize) {
        let (text, found) = (text.as_ref(), self.clone());
        let answer = self.read(text);
        let shown = String::from_utf8_lossy(text);
        assert_eq!((answer.number, answer.place), (number, line), "{shown:?}");
        assert_eq!(answer.value.to_bits(), 0);
        assert_eq!(self, found);
    }
}

/// A text of one node and no triangle.
fn node(line: impl AsRef<[u8]>) -> Vec<u8> {
    [b"\n0 1\n", line.as_ref(), b"\n"].concat()
}

/// A text of one triangle and no node.
fn triangle(line: impl AsRef<[u8]>) -> Vec<u8> {
    [b"\n1 0\n", line.as_ref(), b"\n"].concat()
}

fn node_refused(line: impl AsRef<[u8]>, number: u32) {
    Rooms::of(1, 0).refuses(node(line), number, 2);
}

fn triangle_refused(line: impl AsRef<[u8]>, number: u32) {
    Rooms::of(0, 1).refuses(triangle(line), number, 2);
}

/// The pattern of the depth that is written so.
fn depth(field: &str) -> u64 {
    let rooms = Rooms::of(1, 0).accepts(node(format!("1 0 0 {field}")));
    rooms.h[0]
}

/// The corners of a triangle line.
fn corners(line: &str) -> Vec<u16> {
    Rooms::of(0, 1).accepts(triangle(line)).tri
}

/// x and y of a node line.
fn point(line: &str) -> [i32; 2] {
    let rooms = Rooms::of(1, 0).accepts(node(line));
    [rooms.x[0], rooms.y[0]]
}

#[test]
fn mesh_t_is_read() {
    let rooms = Rooms::of(3, 1).accepts(MESH_T);
    assert_eq!(rooms.x, X);
    assert_eq!(rooms.y, Y);
    assert_eq!(rooms.h, bits(&H));
    assert_eq!(rooms.tri, TRI);
}

/// "all before row 1": the mesh's rows are asked when it is opened.
#[test]
fn a_mesh_that_cannot_be_opened_is_read() {
    let text = b"flat\n1 3\n1 0 0 -8\n2 0 0 8\n3 0 0 8\n1 3 1 1 9\n";
    let rooms = Rooms::of(3, 1).accepts(text);
    assert_eq!(rooms.tri, [0, 0, 8]);
    assert_eq!(rooms.h[0], (-8.0_f64).to_bits());
}

/// "a line ends at a line feed or the text's end".
#[test]
fn the_last_line_may_have_no_line_feed() {
    let text = MESH_T.strip_suffix(b"\n").unwrap();
    assert_eq!(
        Rooms::of(3, 1).accepts(text),
        Rooms::of(3, 1).accepts(MESH_T)
    );
}

/// Where nothing is left there is no line, and a line feed at the end begins
/// none.
#[test]
fn row_30_a_missing_line() {
    Rooms::of(0, 0).refuses(b"", 30, 0);
    Rooms::of(3, 1).refuses(b"", 30, 0);
    for text in [&b"\n"[..], b"title", b"title\n", b"0 0"] {
        Rooms::of(0, 0).refuses(text, 30, 1);
    }
    let ends = MESH_T.iter().enumerate().filter(|(_, &byte)| byte == b'\n');
    for (line, (at, _)) in ends.enumerate().take(5) {
        Rooms::of(3, 1).refuses(&MESH_T[..at], 30, line + 1);
        Rooms::of(3, 1).refuses(&MESH_T[..=at], 30, line + 1);
    }
}

/// A text that is cut before the last of its fields is refused.
#[test]
fn a_text_cut_at_any_byte() {
    for length in 0..MESH_T.len() - 2 {
        let mut rooms = Rooms::of(3, 1);
        let answer = rooms.read(&MESH_T[..length]);
        assert!([30, 33].contains(&answer.number), "{length}");
        assert_eq!(rooms, Rooms::of(3, 1));
    }
}

/// The title is any bytes, and no field of it is looked at.
#[test]
fn any_title() {
    for byte in (0..=255).filter(|&byte| byte != b'\n') {
        let text = [&[byte, byte, b' '], &MESH_T[6..]].concat();
        Rooms::of(3, 1).accepts(text);
    }
    Rooms::of(3, 1).accepts(&MESH_T[6..]);
}

/// "fields are separated by spaces, which may also lead or trail".
#[test]
fn spaces_lead_trail_and_separate() {
    let text = b"\n  1   3 \n 1  0 0   8  \n2 100 0 8 \n   3 0 100 8\n  1 3  1  2 3     ";
    assert_eq!(
        Rooms::of(3, 1).accepts(text),
        Rooms::of(3, 1).accepts(MESH_T)
    );
}

/// Every byte but a space, a line feed and a digit makes a field malformed, at
/// any of its places.
#[test]
fn row_30_every_strange_byte() {
    let is_strange = |byte: &u8| !matches!(byte, b' ' | b'\n' | b'0'..=b'9');
    for byte in (0..=255).filter(is_strange) {
        for field in [[b'1', byte], [byte, b'1']] {
            let line =
                |before: &str, after: &str| [before.as_bytes(), &field, after.as_bytes()].concat();
            Rooms::of(1, 1).refuses(line("\n", " 1\n"), 30, 1);
            Rooms::of(1, 1).refuses(line("\n1 ", "\n"), 30, 1);
            node_refused(line("", " 0 0 0"), 30);
            triangle_refused(line("", " 3 1 1 1"), 30);
            triangle_refused(line("1 ", " 1 1 1"), 30);
            triangle_refused(line("1 3 1 ", " 1"), 30);
            if field != *b"-1" {
                node_refused(line("1 ", " 0 0"), 30);
                node_refused(line("1 0 ", " 0"), 30);
                node_refused(line("1 0 0 ", ""), 30);
            }
        }
    }
}

/// "a malformed, missing or extra field".
#[test]
fn row_30_another_count_of_fields() {
    for line in ["", " ", "1", "1 1 1", "1 1 \r", "1 1\t"] {
        Rooms::of(1, 1).refuses(format!("\n{line}\n1 0 0 0\n1 3 1 1 1"), 30, 1);
    }
    for line in [
        "",
        "  ",
        "1",
        "1 0",
        "1 0 0",
        "1 0 0 0 0",
        "1 0 0 0 -",
        "1 - 0 0 0",
    ] {
        node_refused(line, 30);
    }
    for line in [
        "",
        "1",
        "1 3",
        "1 3 1 1",
        "1 1 1 1",
        "1 3 1 1 1 1",
        "1 3 1 1 1 x",
    ] {
        triangle_refused(line, 30);
    }
}

/// "Numbers are digits": a number of any length has its whole value.
#[test]
fn leading_zeros_change_nothing() {
    let zeros = "0".repeat(400);
    let text = format!(
        "\n{zeros}1 {zeros}1\n{zeros}1 -{zeros}5 {zeros}7 000000001.5\n\
         {zeros}1 {zeros}3 {zeros}1 007 {zeros}65536\n"
    );
    let rooms = Rooms::of(1, 1).accepts(text);
    assert_eq!((rooms.x[0], rooms.y[0]), (-5, 7));
    assert_eq!(rooms.h[0], 1.5_f64.to_bits());
    assert_eq!(rooms.tri, [0, 6, 65_535]);
}

/// Numbers that are others in 8, 16, 32, 64 or 128 bits, or in any few.
fn beyond_bits(number: u64) -> Vec<String> {
    let powers = [8, 16, 32, 64].map(|bits| (1_u128 << bits) + u128::from(number));
    let mut all: Vec<String> = powers.iter().map(u128::to_string).collect();
    // 2^128 with the number added.
    all.push(format!(
        "34028236692093846346337460743176821145{}",
        6 + number
    ));
    all.push(format!("1{}{number}", "0".repeat(300)));
    all
}

#[test]
fn no_number_wraps() {
    for number in beyond_bits(1) {
        Rooms::of(1, 1).refuses(format!("\n{number} 1\n1 0 0 0\n1 3 1 1 1"), 33, 1);
        Rooms::of(1, 1).refuses(format!("\n1 {number}\n1 0 0 0\n1 3 1 1 1"), 33, 1);
        node_refused(format!("{number} 0 0 0"), 31);
        triangle_refused(format!("{number} 3 1 1 1"), 31);
        if number != "257" {
            triangle_refused(format!("1 3 1 1 {number}"), 32);
        }
    }
    for number in beyond_bits(3) {
        triangle_refused(format!("1 {number} 1 1 1"), 30);
    }
    for number in &beyond_bits(0)[2..] {
        node_refused(format!("1 {number} 0 0"), 32);
        node_refused(format!("1 0 -{number} 0"), 32);
    }
}

/// "after an optional minus in x, y and depth".
#[test]
fn a_minus_stands_directly_before_the_digits() {
    assert_eq!(point("1 -5 -0 0"), [-5, 0]);
    assert_eq!(point("1 -000 -007 0"), [0, -7]);
    for number in ["-", "--1", "1-", "1-1", "+1", "-+1", "\u{2212}1"] {
        node_refused(format!("1 {number} 0 0"), 30);
        node_refused(format!("1 0 {number} 0"), 30);
        node_refused(format!("1 0 0 {number}"), 30);
    }
    node_refused("1 - 1 0 0", 30);
    node_refused("1 - 1 0", 30);
    for counts in ["-1 1", "1 -1", "-0 0", "0 -0"] {
        Rooms::of(0, 0).refuses(format!("\n{counts}\n"), 30, 1);
    }
    node_refused("-1 0 0 0", 30);
    for line in ["-1 3 1 1 1", "1 -3 1 1 1", "1 3 -1 1 1", "1 3 1 1 -0"] {
        triangle_refused(line, 30);
    }
}

#[test]
fn coordinates_at_the_ends_of_32_bits() {
    assert_eq!(point("1 -2147483648 2147483647 0"), [i32::MIN, i32::MAX]);
    assert_eq!(point("1 2147483647 -2147483648 0"), [i32::MAX, i32::MIN]);
    for number in ["2147483648", "-2147483649", "4294967296", "-4294967296"] {
        node_refused(format!("1 {number} 0 0"), 32);
        node_refused(format!("1 0 {number} 0"), 32);
    }
    node_refused("1 0.0 0 0", 30);
    node_refused("1 0 1. 0", 30);
}

/// "depth has at most three decimals and is its thousandths divided by 1000".
#[test]
fn depths_with_0_to_3_decimals() {
    let same = [("8", 8.0), ("8.0", 8.0), ("8.00", 8.0), ("8.000", 8.0)];
    let parts = [
        ("0.5", 0.5),
        ("0.25", 0.25),
        ("0.125", 0.125),
        ("-1.5", -1.5),
    ];
    for (field, metres) in same.into_iter().chain(parts) {
        assert_eq!(depth(field), f64::to_bits(metres), "{field}");
    }
    for thousandths in [1_i32, 7, 10, 100, 1_001, 999_999, 123_457] {
        let field = format!("{}.{:03}", thousandths / 1000, thousandths % 1000);
        let metres = f64::from(thousandths) / 1000.0;
        assert_eq!(depth(&field), metres.to_bits());
        assert_eq!(depth(&format!("-{field}")), (-metres).to_bits());
    }
}

/// One rounding: the quotient is the float that is nearest to the decimal.
#[test]
fn a_depth_is_the_nearest_float() {
    let limits = [
        "999999999.999",
        "-999999999.999",
        "999999999",
        "000000001.001",
    ];
    for field in ["0.1", "0.3", "2.675", "1.005", "8.001", "123456789.123"] {
        assert_eq!(depth(field), field.parse::<f64>().unwrap().to_bits());
    }
    for field in limits {
        assert_eq!(depth(field), field.parse::<f64>().unwrap().to_bits());
    }
}

/// The thousandths are a whole number, and there is one 0.
#[test]
fn a_depth_of_minus_zero_is_zero() {
    for field in [
        "0",
        "-0",
        "-0.0",
        "-0.00",
        "-0.000",
        "0.000",
        "-000000000.000",
    ] {
        assert_eq!(depth(field), 0, "{field}");
    }
}

/// "depth's point, if any, has digits on both sides".
#[test]
fn row_30_a_point_without_digits() {
    for field in [
        ".", ".5", "5.", "-.5", "-5.", "-.", "1.2.3", "1..2", "1.-2", "1.+2", "1,5",
    ] {
        node_refused(format!("1 0 0 {field}"), 30);
    }
    node_refused("1 0 0 5. 5", 30);
    node_refused("1 0 0 1e3", 30);
}

/// "a depth with more than three decimals or nine whole digits", as written.
#[test]
fn row_32_a_depth_of_too_many_digits() {
    for field in [
        "0.0001",
        "0.0000",
        "1.1230",
        "1000000000",
        "0000000001",
        "-1234567890.5",
    ] {
        node_refused(format!("1 0 0 {field}"), 32);
    }
    node_refused(format!("1 0 0 {}", "0".repeat(400)), 32);
    node_refused(format!("1 0 0 0.{}", "0".repeat(400)), 32);
    // Malformed however long.
    node_refused("1 0 0 1000000000.", 30);
    node_refused("1 0 0 0.0001.", 30);
}

#[test]
fn row_33_every_other_length() {
    let text = b"\n1 3\n1 0 0 8\n2 100 0 8\n3 0 100 8\n1 3 1 2 3\n";
    for room in 0..4 {
        for length in [0, 1, 2, 4, 5, 6, 9] {
            let mut lengths = [3; 4];
            lengths[room] = length;
            Rooms::lengths(lengths).refuses(text, 33, 1);
        }
    }
    Rooms::of(1, 3).refuses(text, 33, 1);
    Rooms::of(0, 0).refuses(text, 33, 1);
    Rooms::lengths([3; 4]).accepts(text);
}

/// E of which three times is, in 64 bits, what the room has.
#[test]
fn row_33_three_times_e_does_not_wrap() {
    for (e, corners) in [
        ("6148914691236517206", 2),
        ("12297829382473034411", 1),
        ("18446744073709551616", 0),
        ("18446744073709551617", 3),
        ("6148914691236517205", 0),
    ] {
        let rooms = Rooms::lengths([0, 0, 0, corners]);
        rooms.refuses(format!("\n{e} 0\n1 3 1 1 1\n"), 33, 1);
    }
    for corners in [1, 2, 4, 5] {
        Rooms::lengths([0, 0, 0, corners]).refuses("\n1 0\n1 3 1 1 1\n", 33, 1);
    }
}

#[test]
fn e_and_n_may_be_0() {
    Rooms::of(0, 0).accepts("\n0 0");
    Rooms::of(0, 0).accepts("title\n00 000\nmore");
    Rooms::of(2, 0).accepts("\n0 2\n1 0 0 0\n2 0 0 0");
    assert_eq!(corners("1 3 1 2 65536"), [0, 1, 65_535]);
}

/// "31 for a number out of order": "numbers run 1 upwards in order".
#[test]
fn row_31_every_other_number() {
    for number in [0, 2, 10, 11] {
        node_refused(format!("{number} 0 0 0"), 31);
        triangle_refused(format!("{number} 3 1 1 1"), 31);
    }
    for number in [0, 1, 3] {
        let nodes = format!("\n0 2\n1 0 0 0\n{number} 0 0 0");
        Rooms::of(2, 0).refuses(nodes, 31, 3);
        let triangles = format!("\n2 0\n1 3 1 1 1\n{number} 3 1 1 1");
        Rooms::of(0, 2).refuses(triangles, 31, 3);
    }
    // The triangles begin at 1 again.
    Rooms::of(1, 1).refuses("\n1 1\n1 0 0 0\n2 3 1 1 1", 31, 3);
}

/// "triangle lines (number, 3, three node numbers from 1)".
#[test]
fn row_30_a_second_field_that_is_not_3() {
    assert_eq!(corners("1 003 1 1 1"), [0; 3]);
    for three in ["0", "2", "4", "33", "3.0", "-3", "+3", "3x", "3\t"] {
        triangle_refused(format!("1 {three} 1 1 1"), 30);
    }
}

#[test]
fn row_32_a_corner_outside_1_to_65_536() {
    assert_eq!(corners("1 3 65536 1 2"), [65_535, 0, 1]);
    for corner in ["0", "000", "65537", "131072", "4294967297"] {
        triangle_refused(format!("1 3 {corner} 1 1"), 32);
        triangle_refused(format!("1 3 1 {corner} 1"), 32);
        triangle_refused(format!("1 3 1 1 {corner}"), 32);
    }
}

/// "line by line": on each 30, then 33 on the second, 31, 32.
#[test]
fn order_on_a_line() {
    Rooms::of(1, 1).refuses("\n9 x\n", 30, 1);
    Rooms::of(1, 1).refuses("\nx 9\n", 30, 1);
    Rooms::of(1, 1).refuses("\n9 9 9\n", 30, 1);
    node_refused("2 x 0 0", 30);
    node_refused("2 9999999999 0 x", 30);
    node_refused("2 9999999999 0 0.0000", 31);
    node_refused("1 9999999999 0 5.", 30);
    triangle_refused("2 4 1 1 1", 30);
    triangle_refused("2 3 0 1 x", 30);
    triangle_refused("2 3 0 1 1", 31);
    triangle_refused("1 4 0 1 1", 30);
}

/// The first line that refuses decides, whatever the later ones have.
#[test]
fn order_of_the_lines() {
    Rooms::of(2, 1).refuses("\n1 9\nx", 33, 1);
    let lines = ["1 0 0 0.0000", "2 0 0 0", "x 0 0 0"];
    for (at, number) in [(0, 32), (1, 31), (2, 30)] {
        let text = format!("\n1 2\n{}\nx\nx\n", lines[at]);
        Rooms::of(2, 1).refuses(text, number, 2);
    }
    // A node that is refused comes before a triangle that is missing.
    Rooms::of(1, 1).refuses("\n1 1\n1 0 0 0.0000\n", 32, 2);
    Rooms::of(1, 1).refuses("\n1 1\n1 0 0 0\n", 30, 3);
}

/// "What follows the triangles isn't read."
#[test]
fn what_follows_is_not_read() {
    let read = Rooms::of(3, 1).accepts(MESH_T);
    for more in [&b"\n"[..], b"2 3 1 2 3\n", b"\0\xFF", b"x\n\n\n", b" "] {
        let text = [MESH_T, more].concat();
        assert_eq!(Rooms::of(3, 1).accepts(text), read);
    }
    // On the last line itself it is a field.
    let text = MESH_T.strip_suffix(b"\n").unwrap();
    Rooms::of(3, 1).refuses([text, b" 4\n"].concat(), 30, 5);
    Rooms::of(3, 1).refuses([text, b"\r\n"].concat(), 30, 5);
}

/// "A refused reading leaves the lent rooms untouched", though all lines but
/// the last are right.
#[test]
fn a_refusal_on_the_last_line_leaves_all_as_found() {
    let before = &MESH_T[..MESH_T.len() - 10];
    for (line, number) in [
        ("", 30),
        ("1 3 1 2", 30),
        ("2 3 1 2 3", 31),
        ("1 3 1 2 0", 32),
    ] {
        Rooms::of(3, 1).refuses([before, line.as_bytes()].concat(), number, 5);
    }
}

/// A place is counted beyond 16 bits.
#[test]
fn many_lines() {
    let count = 65_537;
    let nodes: String = (1..=count).map(|i| format!("{i} {i} -{i} 0\n")).collect();
    let text = format!("\n1 {count}\n{nodes}1 3 65536 1 2\n");
    let rooms = Rooms::of(count, 1).accepts(&text);
    assert_eq!((rooms.x[count - 1], rooms.y[count - 1]), (65_537, -65_537));
    let text = text.replace("3 65536", "3 65537");
    Rooms::of(count, 1).refuses(&text, 32, count + 2);
}
