//! Request #107, "Many forcings in one call", sentence by sentence.

use super::*;
use crate::generate::dice::Dice;
use crate::generate::values::{legal, ELEVATION, WIND};
use crate::lists::row_14;
use crate::mesh::Lent as Length;
use crate::step_all;

/// All that is lent for a call on a list: what a single step is lent, but a work room
/// of 11N and the list.
#[derive(Clone)]
struct Many {
    lent: Lent,
    forcings: Vec<f64>,
}

/// Answer, clock and count.
type Outcome = (Answer, Clock, u32);

impl Many {
    /// A run with work room for a list, and this list.
    fn of(mut lent: Lent, forcings: Vec<f64>) -> Many {
        lent.work = vec![f64::from_bits(FILL); 11 * lent.x.len()];
        Many { lent, forcings }
    }

    /// Mesh T, cold, with these forcings.
    fn mesh_t(forcings: &[[f64; 7]]) -> Many {
        Many::of(Lent::mesh_t(), forcings.concat())
    }

    fn call(&mut self) -> Outcome {
        let lent = &mut self.lent;
        step_all(
            &mut lent.next,
            &mut lent.work,
            &mut lent.sums,
            &lent.state,
            &self.forcings,
            &lent.x,
            &lent.y,
            &lent.tri,
            &lent.h,
            &lent.kind,
            lent.p,
            lent.clock,
        )
    }

    /// The forcings one by one.
    fn each(&self) -> impl Iterator<Item = &[f64]> {
        self.forcings.chunks_exact(1 + 2 * self.lent.x.len())
    }

    /// The same by single calls, in the first 5N: what they answer last, the clock, the
    /// count of accepted steps, and the run, whose state is that after these.
    fn singly(&self) -> (Outcome, Lent) {
        let mut single = self.lent.clone();
        single.work.truncate(5 * single.x.len());
        let mut answer = Answer::accepted(0);
        let mut count = 0;
        for forcing in self.each() {
            single.forcing = forcing.to_vec();
            let clock;
            (answer, clock) = single.step();
            if answer.number != 0 {
                break;
            }
            count += 1;
            single.clock = clock;
            single.state = single.next.clone();
        }
        ((answer, single.clock, count), single)
    }

    /// Calls, and expects what single calls give: the outcome, the next slice, the sums
    /// and the 5N. The added 6N are zero once a step has been accepted, else as found.
    fn expect_single_calls(mut self) -> Many {
        let (expected, single) = self.singly();
        let found = self.lent.clone();
        let outcome = self.call();
        assert_eq!(outcome_bits(outcome), outcome_bits(expected));
        let (n, lent) = (self.lent.x.len(), &self.lent);
        assert_eq!(bits(&lent.state), bits(&found.state));
        assert_eq!(bits(&lent.next), bits(&single.next));
        assert_eq!(bits(&lent.work[..5 * n]), bits(&single.work));
        assert_eq!(lent.sums, single.sums);
        if outcome.2 == 0 {
            assert_eq!(bits(&lent.work[5 * n..]), bits(&found.work[5 * n..]));
        } else {
            assert_eq!(bits(&lent.next), bits(&single.state));
            lent.work_room_is_zero();
        }
        self
    }

    /// Calls, and expects this refusal before any step with all as found.
    fn refused_at_once(mut self, number: u32, place: usize) {
        let (found, before) = (self.lent.patterns(), self.lent.clock);
        let list = bits(&self.forcings);
        let (answer, clock, count) = self.call();
        refused(answer, number, place);
        assert_eq!((clock, count), (before, 0));
        assert_eq!(self.lent.patterns(), found);
        assert_eq!(bits(&self.forcings), list);
    }
}

fn outcome_bits((answer, clock, count): Outcome) -> (u32, usize, u64, u32, u32) {
    let value = answer.value.to_bits();
    (answer.number, answer.place, value, clock.step, count)
}

/// Calm, with a wind of its own at each node.
const CALM: [f64; 7] = [0.0, 0.015625, -0.03125, 0.0078125, 0.0625, 0.0, -0.015625];
const CALMER: [f64; 7] = [0.25, 0.0, 0.0625, -0.0, 0.03125, -0.0625, 0.0];

/// Refused by 12 at Wy' of node 1.
const STRONG: [f64; 7] = [0.0, 0.0, 0.0, 0.0, 0.0, 0.2, 0.0];

/// T with node 1 an open one.
fn open_t(forcings: &[[f64; 7]]) -> Many {
    let mut many = Many::mesh_t(forcings);
    many.lent.kind[1] = 1;
    many
}

/// Refused by 13 where a node is open: H' is below 0.1 over 8 m.
const LOW: [f64; 7] = [-7.95, 0.0, 0.0, 0.0, 0.0, 0.0, 0.0];

/// The six runs of a next state are those of single calls, to the last bit.
#[test]
fn the_result_equals_single_calls() {
    for count in 1..6 {
        let forcings: Vec<[f64; 7]> = (0..count).map(|at| [CALM, CALMER][at % 2]).collect();
        for advection in [false, true] {
            let mut many = open_t(&forcings);
            many.lent.p.advection = advection;
            many.lent.clock = busy_clock();
            let (outcome, single) = many.expect_single_calls().singly();
            assert_eq!(outcome.2 as usize, count);
            assert_eq!(single.clock.step as usize, 7 + count);
        }
    }
}

/// "Take a lent list of forcings, at most 4,096".
#[test]
fn as_many_as_4096_forcings() {
    let mut forcings = vec![CALM.map(|number| number / 64.0); 4_096];
    forcings[7] = CALMER;
    let many = Many::mesh_t(&forcings).expect_single_calls();
    assert_eq!(many.singly().0 .2, 4_096);
}

/// Any legal forcings on the square: most lists are stopped somewhere, and wherever
/// that is they are what single calls are.
#[test]
fn any_list_equals_single_calls() {
    let (mut dice, mut stopped) = (Dice::of(107, 0), [0; 14]);
    for _ in 0..300 {
        let mut lent = Lent::square();
        lent.kind = (0..4).map(|_| dice.below(3) as u8).collect();
        lent.p.advection = dice.one_in(2);
        lent.clock.step = u32::MAX - dice.below(20) as u32;
        let scale = dice.one_of(&[1.0, 32.0]);
        let mut forcings = Vec::new();
        for _ in 0..1 + dice.below(12) {
            forcings.push(legal(&mut dice, ELEVATION) / scale);
            forcings.extend((0..8).map(|_| legal(&mut dice, WIND)));
        }
        if dice.one_in(3) {
            let at = dice.below(forcings.len());
            forcings[at] = f64::NAN;
        }
        let many = Many::of(lent, forcings).expect_single_calls();
        let ((answer, ..), _) = many.singly();
        stopped[answer.number as usize] += 1;
    }
    let rows = [0, 11, 12, 13].map(|row: usize| stopped[row]);
    assert!(rows.iter().all(|&lists| lists > 5), "{rows:?}");
}

/// "it stops at the first refusal and gives the count of accepted steps, and the next
/// slice holds the state after these": 12 at each place of the list.
#[test]
fn row_12_at_each_forcing() {
    for at in 0..4 {
        let mut forcings = [CALM; 4];
        forcings[at] = STRONG;
        let mut many = open_t(&forcings).expect_single_calls();
        let (answer, clock, count) = many.call();
        refused(answer, 12, 3);
        assert_eq!((clock.step as usize, count as usize), (at, at));
    }
}

#[test]
fn row_13_at_each_forcing() {
    for at in 0..4 {
        let mut forcings = [[0.0; 7]; 4];
        forcings[at] = LOW;
        let mut many = open_t(&forcings).expect_single_calls();
        let (answer, clock, count) = many.call();
        assert_eq!((answer.number, answer.place), (13, 1));
        assert_eq!(answer.value.to_bits(), (8.0_f64 - 7.95).to_bits());
        assert_eq!((clock.step as usize, count as usize), (at, at));
    }
}

#[test]
fn row_11_at_each_forcing() {
    for left in 0..5 {
        let mut many = Many::mesh_t(&[CALM; 4]);
        many.lent.clock.step = u32::MAX - left;
        let mut many = many.expect_single_calls();
        let (answer, clock, count) = many.call();
        assert_eq!(count, left.min(4));
        refused(answer, if left < 4 { 11 } else { 0 }, 0);
        assert_eq!(clock.step, u32::MAX - left + count);
    }
}

/// Rows 11, 12 and 13 are asked forcing by forcing, so that an earlier forcing's 13
/// stands before a later one's 12, and 11 before the 12 of the same forcing.
#[test]
fn an_earlier_forcing_before_a_later_one() {
    for (forcings, number) in [
        ([CALM, LOW, STRONG], 13),
        ([CALM, STRONG, LOW], 12),
        ([LOW, STRONG, CALM], 13),
    ] {
        let mut many = open_t(&forcings).expect_single_calls();
        assert_eq!(many.call().0.number, number);
    }
    let mut many = open_t(&[CALM, STRONG]);
    many.lent.clock.step = u32::MAX - 1;
    let mut many = many.expect_single_calls();
    let (answer, _, count) = many.call();
    refused(answer, 11, 0);
    assert_eq!(count, 1);
}

/// "If the very first forcing is refused the next slice and the work room are as single
/// calls leave them, the added 6N untouched."
#[test]
fn a_first_forcing_that_is_refused() {
    Many::mesh_t(&[STRONG, CALM]).refused_at_once(12, 3);
    let mut last = Many::mesh_t(&[CALM, CALM]);
    last.lent.clock.step = u32::MAX;
    last.refused_at_once(11, 0);
    let mut low = open_t(&[LOW, CALM]);
    low.lent.clock = busy_clock();
    let next = bits(&low.lent.next);
    let (answer, clock, count) = low.call();
    assert_eq!((answer.number, answer.place), (13, 1));
    assert_eq!((clock, count), (busy_clock(), 0));
    assert_eq!(bits(&low.lent.next), next);
    let (of_a_step, added) = low.lent.work.split_at(15);
    assert_eq!(bits(of_a_step), [0; 15]);
    assert_eq!(bits(added), [FILL; 18]);
    assert_eq!(low.lent.sums, [0; 3]);
}

/// "Work room grows by 6N numbers, and all of it is zero once a step has been accepted",
/// whatever refuses a later one.
#[test]
fn the_work_room_after_an_accepted_step() {
    for last in [CALM, STRONG, LOW] {
        let mut many = open_t(&[CALM, last]);
        let (_, _, count) = many.call();
        assert!(count > 0);
        assert_eq!(many.lent.work.len(), 33);
        many.lent.work_room_is_zero();
    }
}

/// "An empty list that passes rows 1 to 10 is accepted, copies the state and leaves the
/// work room untouched."
#[test]
fn an_empty_list_copies_the_state() {
    for step in [0, 7, u32::MAX] {
        let mut many = Many::mesh_t(&[]);
        for (at, number) in many.lent.state.iter_mut().enumerate() {
            *number = if at % 3 == 0 {
                -0.0
            } else {
                at as f64 / 1024.0
            };
        }
        many.lent.clock.step = step;
        let (answer, clock, count) = many.call();
        accepted(answer, 0);
        assert_eq!((clock.step, count), (step, 0));
        assert_eq!(bits(&many.lent.next), bits(&many.lent.state));
        assert_eq!(bits(&many.lent.work), [FILL; 33]);
        assert_eq!(many.lent.sums, [FILL; 3]);
    }
}

/// Calls with the list as it is, and with none: "that passes rows 1 to 10".
fn refused_with_any_list(change: impl Fn(&mut Lent), number: u32, place: usize) {
    for forcings in [&[][..], &[CALM], &[STRONG, CALM]] {
        let mut many = open_t(forcings);
        change(&mut many.lent);
        many.refused_at_once(number, place);
    }
}

#[test]
fn rows_1_to_10_before_the_first_forcing() {
    refused_with_any_list(|lent| lent.y.truncate(2), 1, 0);
    refused_with_any_list(|lent| lent.tri.clear(), 2, 0);
    refused_with_any_list(|lent| lent.tri[2] = 3, 3, 0);
    refused_with_any_list(|lent| lent.x[1] = 100_001, 4, 0);
    refused_with_any_list(|lent| lent.x[1] = 0, 5, 0);
    refused_with_any_list(|lent| lent.kind[2] = 3, 8, 2);
    refused_with_any_list(|lent| lent.p.k = f64::NAN, 9, 2);
    refused_with_any_list(|lent| lent.state[17] = 0.2, 10, 2);
    let mut seven = Many::of(Lent::square(), Vec::new());
    seven.lent.tri.truncate(3);
    seven.refused_at_once(7, 3);
}

/// "Row 6 is tested only when a mesh is opened".
#[test]
fn row_6_is_not_asked() {
    let mut many = Many::mesh_t(&[CALM, CALMER]);
    many.lent.tri.extend([0, 1, 2]);
    let mut many = many.expect_single_calls();
    accepted(many.call().0, 0);
}

/// "A single step keeps its 5N of work room; the list call is lent 11N".
#[test]
fn row_1_of_each_room() {
    for length in [0, 15, 18, 32, 34] {
        refused_with_any_list(|lent| lent.work.resize(length, 1.0), 1, 0);
    }
    for length in [0, 12, 17, 19] {
        refused_with_any_list(|lent| lent.next.resize(length, 1.0), 1, 0);
        refused_with_any_list(|lent| lent.state.resize(length, 0.0), 1, 0);
    }
    for length in [0, 2, 4] {
        refused_with_any_list(|lent| lent.sums.resize(length, 1), 1, 0);
    }
    let mut single = Many::mesh_t(&[CALM]).lent;
    single.forcing = CALM.to_vec();
    single.step_refused(1, 0);
}

/// "then row 1, which also asks that the length is a multiple of 1+2N".
#[test]
fn row_1_of_uneven_lists() {
    for length in [1, 3, 6, 8, 13, 15, 28_671] {
        let list = vec![0.0; length];
        let mut many = Many::of(Lent::mesh_t(), list);
        many.clone().refused_at_once(1, 0);
        // before row 2, and before 11 of the forcings that are whole
        many.lent.clock.step = u32::MAX;
        many.lent.tri.clear();
        many.refused_at_once(1, 0);
    }
}

/// 14: "a list above 4,096 forcings of 1+2N numbers, before row 1, which covers uneven
/// lengths".
#[test]
fn row_14_before_row_1() {
    for length in [28_673, 28_675, 28_679, 28_680, 60_000] {
        let mut many = Many::of(Lent::mesh_t(), vec![f64::NAN; length]);
        many.clone().refused_at_once(14, 0);
        many.lent.work.truncate(15);
        many.clone().refused_at_once(14, 0);
        many.lent.y.clear();
        many.lent.tri.clear();
        many.lent.p.dt = f64::NAN;
        many.lent.clock.step = u32::MAX;
        many.refused_at_once(14, 0);
    }
    Many::of(Lent::mesh_t(), vec![0.0; 28_671]).refused_at_once(1, 0);
}

/// "N is the length of the x slice, as everywhere": 0 too.
#[test]
fn row_14_of_no_node() {
    let mut many = Many::of(Lent::mesh_t(), vec![0.0; 4_097]);
    many.lent.x.clear();
    many.clone().refused_at_once(14, 0);
    many.forcings.pop();
    many.clone().refused_at_once(1, 0);
    many.lent = Lent {
        x: Vec::new(),
        y: Vec::new(),
        tri: Vec::new(),
        h: Vec::new(),
        kind: Vec::new(),
        state: Vec::new(),
        next: Vec::new(),
        work: Vec::new(),
        sums: Vec::new(),
        ..many.lent
    };
    many.clone().refused_at_once(2, 0);
    many.forcings.push(0.0);
    many.refused_at_once(14, 0);
}

/// "asked first of all, without overflow for any lengths".
#[test]
fn row_14_of_any_lengths() {
    let is_above = |n: usize, length: usize| row_14(n, &Length::forcings(length)).is_err();
    for (n, most) in [(0, 4_096), (3, 28_672), (4_096, 33_558_528)] {
        assert!(!is_above(n, most));
        assert!(is_above(n, most + 1));
        assert!(is_above(n, usize::MAX));
    }
    // 4,096·(1+2N) is 2^64 + 4,096 at the first of these, and in 64 bits 4,096.
    for n in [1 << 51, usize::MAX / 2, usize::MAX] {
        assert!(!is_above(n, 4_097) && !is_above(n, usize::MAX));
    }
}

/// The list may be a part of what follows: the rest of a list goes on from the next
/// slice with the clock that came back.
#[test]
fn a_list_in_two_parts() {
    let forcings = [CALM, CALMER, CALM, CALM, CALMER];
    for cut in 0..=5 {
        let mut whole = open_t(&forcings);
        let (_, end, _) = whole.call();
        let mut first = open_t(&forcings[..cut]);
        let (answer, clock, count) = first.call();
        accepted(answer, 0);
        assert_eq!(count as usize, cut);
        let mut second = open_t(&forcings[cut..]);
        second.lent.state = first.lent.next.clone();
        second.lent.clock = clock;
        let (answer, clock, _) = second.call();
        accepted(answer, 0);
        assert_eq!(clock, end);
        assert_eq!(bits(&second.lent.next), bits(&whole.lent.next));
    }
}

/// NaNs of every sort in what is left as found keep every bit.
#[test]
fn each_nan_is_left_as_found() {
    for pattern in [FILL, 0xFFF0_0000_0000_0001, 0x7FF7_FFFF_FFFF_FFFF] {
        let nan = f64::from_bits(pattern);
        for forcings in [vec![STRONG, [nan; 7]], vec![[nan; 7]]] {
            let mut many = Many::mesh_t(&forcings);
            many.lent.next.fill(nan);
            many.lent.work.fill(nan);
            let place = if forcings.len() == 2 { 3 } else { 1 };
            many.refused_at_once(12, place);
        }
        let mut many = Many::mesh_t(&[[nan; 7]; 3]);
        many.lent.state.fill(nan);
        many.refused_at_once(10, 0);
    }
}
