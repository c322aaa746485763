//! "Examples", 1 to 13, with what requests #104 and #105 make of them.

use super::*;
use crate::mesh::Mesh;

/// The save that the printing program writes for empty input: dt is 1, tau, K and f
/// are 0, and the sum of all D is 10,000, 2710 in hexadecimal.
pub fn cold_save() -> Vec<u8> {
    let node = |ends: [&str; 2]| format!("{}{}{}\n", ends[0], "0".repeat(96), ends[1]);
    let mut text = format!("04000000030001{}F8\n", "0".repeat(8));
    text += "0500013FF0000000000000";
    text += &format!("{}000000000000271094\n", "0".repeat(48));
    text += &node(["060002", "F8"]);
    text += &node(["060003", "F7"]);
    text += &node(["060004", "F6"]);
    text += "0300050003F5\n";
    text.into_bytes()
}

/// The save that document 01 shows, edition 1's, with as many zeros as the frame
/// rules decide.
pub fn cold_save_1() -> Vec<u8> {
    let node = |ends: [&str; 2]| format!("{}{}{}\n", ends[0], "0".repeat(64), ends[1]);
    let mut text = format!("01000000030001{}FB\n", "0".repeat(40));
    text += &node(["020001", "FD"]);
    text += &node(["020002", "FC"]);
    text += &node(["020003", "FB"]);
    text += "0300040003F6\n";
    text.into_bytes()
}

#[test]
fn example_1_geometry_of_t() {
    let mesh = Mesh::lent(&X, &Y, &TRI, &H, &KIND, P);
    let triangles: Vec<_> = mesh.triangles().collect();
    assert_eq!(triangles.len(), 1);
    assert_eq!(triangles[0].a, [-100, 0, 100]);
    assert_eq!(triangles[0].b, [-100, 100, 0]);
    assert_eq!(triangles[0].twice_area(), 10_000);
}

#[test]
fn example_2_clockwise() {
    let mut lent = Lent::mesh_t();
    lent.tri = vec![0, 2, 1];
    lent.open_refused(5, 0);
}

#[test]
fn example_3_flat() {
    let mut lent = Lent::mesh_t();
    lent.tri = vec![0, 1, 1];
    lent.open_refused(5, 0);
}

#[test]
fn example_4_node_number_3() {
    let mut lent = Lent::mesh_t();
    lent.tri = vec![0, 1, 3];
    lent.open_refused(3, 0);
}

#[test]
fn example_5_corner_at_100_000() {
    let mut lent = Lent::mesh_t();
    lent.x[1] = 100_000;
    accepted(lent.open().0, 0);
    lent.x[1] = 100_001;
    lent.open_refused(4, 0);
}

#[test]
fn example_6_same_triangle_twice() {
    let mut lent = Lent::mesh_t();
    lent.tri = vec![0, 1, 2, 0, 1, 2];
    lent.open_refused(6, 1);
}

#[test]
fn example_7_node_in_no_triangle() {
    let mut lent = Lent::square();
    lent.tri = vec![0, 1, 2];
    lent.open_refused(7, 3);
}

#[test]
fn example_8_check_byte_of_the_head() {
    let mut text = cold_save_1();
    accepted(Lent::mesh_t().load(&text).0, 0);
    assert_eq!(&text[54..57], b"FB\n");
    text[55] = b'A';
    refused(Lent::mesh_t().load(&text).0, 21, 0);
    let mut text = cold_save();
    accepted(Lent::mesh_t().load(&text).0, 0);
    assert_eq!(&text[22..25], b"F8\n");
    text[23] = b'7';
    refused(Lent::mesh_t().load(&text).0, 21, 0);
}

/// "01's example 9 becomes an accepted case": it gives what `FB` gives.
#[test]
fn example_9_lower_case() {
    let mut text = cold_save_1();
    assert_eq!(&text[54..57], b"FB\n");
    text[54..56].copy_from_slice(b"fb");
    for text in [text, cold_save_1(), cold_save()] {
        let mut lent = Lent::mesh_t();
        lent.state.fill(f64::from_bits(FILL));
        lent.clock = busy_clock();
        let (answer, clock) = lent.load(&text);
        accepted(answer, 0);
        assert_eq!(clock, Clock::COLD);
        assert_eq!(bits(&lent.state), [0; 18]);
    }
}

/// In edition 1: in edition 2 the end line of N = 3 has sequence 5, and 4 is the
/// wrong one.
#[test]
fn example_10_sequence_of_the_end() {
    let mut text = cold_save_1();
    text.truncate(276);
    text.extend(b"0300050003F5\n");
    refused(Lent::mesh_t().load(&text).0, 22, 4);
    let mut text = cold_save();
    assert!(text.ends_with(b"0300050003F5\n"));
    text.truncate(429);
    text.extend(b"0300040003F6\n");
    refused(Lent::mesh_t().load(&text).0, 22, 5);
}

#[test]
fn example_11_last_step() {
    let mut lent = Lent::mesh_t();
    lent.clock.step = 4_294_967_294;
    lent.step_accepted();
    assert_eq!(lent.clock.step, 4_294_967_295);
    lent.step_refused(11, 0);
}

#[test]
fn example_12_save_length() {
    let mut text = [0; 442];
    accepted(Lent::mesh_t().save(&mut text), 442);
    assert_eq!(text.to_vec(), cold_save());
    refused(Lent::mesh_t().save(&mut text[..441]), 24, 442);
}

fn near(numbers: &[f64], expected: [f64; 3]) {
    for (number, value) in numbers.iter().zip(expected) {
        assert!((number - value).abs() <= 1e-12, "{number} {value}");
    }
}

#[test]
fn example_13_two_steps() {
    let mut lent = Lent::mesh_t();
    lent.force(0.0, 1.0 / 64.0, 0.0);
    lent.step_accepted();
    near(&lent.state[0..3], [0.0; 3]);
    near(&lent.state[3..6], [0.0; 3]);
    near(&lent.state[6..9], [1.0 / 1024.0; 3]);
    near(&lent.state[9..12], [0.0; 3]);
    lent.force(0.0, 0.0, 0.0);
    lent.step_accepted();
    near(&lent.state[0..3], [0.0; 3]);
    near(&lent.state[3..6], [-0.00046875, 0.00046875, 0.0]);
    near(&lent.state[6..9], [0.001907140625; 3]);
    near(&lent.state[9..12], [-0.0000229921875; 3]);
    assert_eq!(lent.clock.step, 2);
}

#[test]
fn example_13_as_text() {
    let mut lent = Lent::mesh_t();
    let mut expected = String::new();
    for wx in [1.0 / 64.0, 0.0] {
        lent.force(0.0, wx, 0.0);
        lent.step_accepted();
        for pattern in bits(&lent.state) {
            expected += &format!("{pattern:016x}\n");
        }
    }
    expected += "2\n";
    assert_eq!(expected.lines().count(), 37);
    assert_eq!(crate::example_13(), Ok(expected));
}
