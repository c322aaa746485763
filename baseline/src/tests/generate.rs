//! The generator: the same text for the same seed, scripts without a bad line,
//! and the parts it is made of.

use crate::coverage::nans::sort_of;
use crate::generate::dice::Dice;
use crate::generate::spellings::spelled;
use crate::generate::values::{lowest_elevation, nan, COLUMN};
use crate::generate::worlds::{full_grid, world, Manner, World};
use crate::generate::{generate, Family};
use crate::script::run;
use crate::{coverage, open, printing::P};

#[test]
fn splitmix64_draws_its_known_numbers() {
    let mut dice = Dice(0);
    let known = [
        0xE220_A839_7B1D_CDAF,
        0x6E78_9E6A_A1B9_65F4,
        0x06C4_5D18_8009_454F,
    ];
    assert_eq!([(); 3].map(|()| dice.bits()), known);
}

#[test]
fn draws_stay_in_their_range() {
    let mut dice = Dice::of(1, 2);
    for _ in 0..1_000 {
        assert!(dice.below(7) < 7);
        assert!((-3..=3).contains(&dice.between(-3, 3)));
    }
    assert_eq!(dice.below(0), 0);
    assert_eq!(dice.between(5, 5), 5);
}

const FAMILIES: [Family; 4] = [Family::Runs, Family::Grids, Family::Gauges, Family::Lists];

#[test]
fn same_seed_same_text() {
    for family in FAMILIES {
        let script = |seed, index| generate(family, seed, index);
        for index in 0..20 {
            assert_eq!(script(7, index), script(7, index));
        }
        assert_ne!(script(7, 0), script(7, 1));
        assert_ne!(script(7, 0), script(8, 0));
    }
    assert_ne!(generate(Family::Runs, 7, 0), generate(Family::Grids, 7, 0));
}

/// "the same on every machine": a digest of the first scripts of seed 1, which
/// changes only where the generator is changed.
#[test]
fn the_scripts_of_seed_1_are_these() {
    let digests = [
        "447AB699156D1CE8",
        "EB4F1D6A1156CA1D",
        "CF23609F76F2D2FA",
        "1433812E4BFB2832",
    ];
    for (family, digest) in FAMILIES.into_iter().zip(digests) {
        let mut hash = 0xCBF2_9CE4_8422_2325_u64;
        for byte in (0..100).flat_map(|index| generate(family, 1, index)) {
            hash = (hash ^ u64::from(byte)).wrapping_mul(0x0000_0100_0000_01B3);
        }
        assert_eq!(format!("{hash:016X}"), digest);
    }
}

#[test]
fn the_first_200_scripts_have_no_bad_line() {
    for family in FAMILIES {
        for index in 0..200 {
            let printed = run(&generate(family, 1, index));
            assert_eq!(printed.bad_line, None, "{family:?} {index}");
            assert!(!printed.text.is_empty(), "{family:?} {index}");
        }
    }
}

#[test]
fn about_half_of_the_scripts_begin_with_advection_on() {
    for family in FAMILIES {
        let mut counts = [0; 2];
        for index in 0..300 {
            let text = String::from_utf8(generate(family, 1, index)).unwrap();
            let first = text.lines().find(|line| line.starts_with("parameters "));
            if let Some(line) = first {
                counts[usize::from(!line.ends_with(" 0"))] += 1;
            }
        }
        let [off, on] = counts;
        assert!(3 * off > 2 * on && 3 * on > 2 * off, "{counts:?}");
    }
}

/// How many of some spellings of a text pass a test.
fn spellings(text: &[u8], test: impl Fn(&[u8]) -> bool) -> usize {
    let mut dice = Dice::of(7, 0);
    let all = (0..1_000).map(|_| spelled(&mut dice, text));
    all.filter(|spelling| {
        assert!(spelling.eq_ignore_ascii_case(text));
        test(spelling)
    })
    .count()
}

#[test]
fn most_spellings_are_of_both_cases() {
    let text = b"02000AABCDEFABCDEFABCDEF\n0300040003F6\n";
    let lower = |spelling: &[u8]| spelling.iter().filter(|b| b.is_ascii_lowercase()).count();
    let all = lower(&text.to_ascii_lowercase());
    for (count, least) in [(0, 80), (all, 80), (1, 20), (all - 1, 20)] {
        assert!(spellings(text, |spelling| lower(spelling) == count) > least);
    }
    let mixed = spellings(text, |spelling| (2..all - 1).contains(&lower(spelling)));
    assert!(mixed > 600);
    for (spelling, least) in [
        (&b"02000AABCDEFABCDEFABCDef\n0300040003f6\n"[..], 20),
        (b"02000aabcdefabcdefabcdEF\n0300040003F6\n", 20),
    ] {
        assert!(spellings(text, |other| other == spelling) > least);
    }
}

#[test]
fn what_is_no_digit_is_spelled_as_it_was() {
    for text in [&b"gGhHzZ`@/:[{\n\r \0\xFF"[..], b"", b"0123456789"] {
        assert_eq!(spellings(text, |spelling| spelling == text), 1_000);
    }
}

#[test]
fn the_lowest_elevation_is_one_bit_from_too_little_water() {
    for h in [
        1.0,
        1.0_f64.next_up(),
        1.5,
        8.0,
        29.9,
        30.0,
        30.05,
        12_000.0,
    ] {
        let z = lowest_elevation(h);
        assert!(h + z >= COLUMN && h + z.next_down() < COLUMN, "{h} {z}");
    }
}

#[test]
fn nans_of_every_sort_are_drawn() {
    let mut dice = Dice::of(6, 0);
    let nans: Vec<f64> = (0..200).map(|_| nan(&mut dice)).collect();
    assert!(nans.iter().all(|nan| nan.is_nan()));
    for sort in ["a quiet NaN", "a signalling NaN"] {
        for negative in [false, true] {
            let mut patterns: Vec<u64> = nans
                .iter()
                .filter(|nan| sort_of(**nan) == Some(sort) && nan.is_sign_negative() == negative)
                .map(|nan| nan.to_bits())
                .collect();
            patterns.sort_unstable();
            patterns.dedup();
            assert!(patterns.len() > 10, "{sort} {negative}");
        }
    }
}

#[test]
fn the_nan_that_is_made_anew_is_of_no_sort() {
    for bits in [0x7FF8_0000_0000_0000, 0x7FF0_0000_0000_0000, 0, 1] {
        assert_eq!(sort_of(f64::from_bits(bits)), None);
    }
    let quiet = [0xFFF8_0000_0000_0000, 0x7FF8_0000_0000_0001];
    assert!(quiet
        .iter()
        .all(|&bits| sort_of(f64::from_bits(bits)) == Some("a quiet NaN")));
    let signalling = [0x7FF0_0000_0000_0001, 0xFFF7_FFFF_FFFF_FFFF];
    assert!(signalling
        .iter()
        .all(|&bits| sort_of(f64::from_bits(bits)) == Some("a signalling NaN")));
}

/// The answer of opening a mesh.
fn opened(world: &World) -> u32 {
    let axis = |axis: usize| -> Vec<i32> {
        let of = |point: &[i64; 2]| i32::try_from(point[axis]).unwrap();
        world.points.iter().map(of).collect()
    };
    let node = |&node: &usize| u16::try_from(node).unwrap();
    let tri: Vec<u16> = world.triangles.iter().flatten().map(node).collect();
    let mut state = vec![1.0; 6 * world.points.len()];
    let (x, y) = (axis(0), axis(1));
    let (answer, _) = open(&mut state, &x, &y, &tri, &world.h, &world.kind, P);
    answer.number
}

#[test]
fn meshes_that_are_not_raw_can_be_opened() {
    for index in 0..300 {
        let mut dice = Dice::of(3, index);
        for manner in [Manner::Calm, Manner::Bold, Manner::Wild] {
            let nodes = dice.between(3, 60) as usize;
            assert_eq!(opened(&world(&mut dice, nodes, manner)), 0, "mesh {index}");
        }
    }
}

#[test]
fn meshes_with_overlapping_triangles_can_be_opened() {
    let mut added = 0;
    for index in 0..100 {
        let mut dice = Dice::of(9, index);
        let mut world = world(&mut dice, 8, Manner::Calm);
        let triangles = world.triangles.len();
        world.overlap(&mut dice, 40);
        assert_eq!(opened(&world), 0, "mesh {index}");
        added += world.triangles.len() - triangles;
    }
    assert!(added > 100);
}

#[test]
fn raw_meshes_are_refused_by_rows_4_to_7_and_no_other() {
    let numbers: Vec<u32> = (0..300)
        .map(|index| opened(&world(&mut Dice::of(4, index), 12, Manner::Raw)))
        .collect();
    assert!(numbers
        .iter()
        .all(|number| [0, 4, 5, 6, 7].contains(number)));
    assert!([0, 5].iter().all(|number| numbers.contains(number)));
}

#[test]
fn a_full_mesh_has_the_most_of_everything() {
    let mut dice = Dice::of(5, 0);
    let mut world = full_grid(&mut dice);
    world.crowd(&mut dice, 8_192);
    assert_eq!((world.points.len(), world.triangles.len()), (4_096, 8_192));
    assert_eq!(opened(&world), 0);
    world.crowd(&mut dice, 8_193);
    assert_eq!(opened(&world), 2);
}

#[test]
fn coverage_tells_what_was_reached_and_what_was_missed() {
    for family in FAMILIES {
        let (text, whole) = coverage(family, 1, 0, 20);
        assert!(text.starts_with("scripts 20, with a bad line 0, calls "));
        let calls = "\nnumber   open   step   save   load   read   grid   stepall";
        let gauges = family == Family::Gauges;
        assert_eq!(text.contains(&format!("{calls}\n")), !gauges);
        assert_eq!(text.contains(&format!("{calls}   gauge locate ")), gauges);
        assert!(text.contains("\nmissed: "));
        assert!(!whole);
    }
}

/// Those that the gate compares with the product.
#[test]
fn the_first_scripts_of_seed_1_reach_every_condition() {
    for (family, count) in FAMILIES.into_iter().zip([2_000, 1_000, 1_000, 1_000]) {
        let (text, whole) = coverage(family, 1, 0, count);
        assert!(whole, "{text}");
    }
}
