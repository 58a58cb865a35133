//! Document 02's P13 on every checker: what to leave out, within a budget. Expected
//! numbers are worked out from the documents.

use crate::common::checkers;
use compare::case::{Ask, Case, Room};
use compare::checker::{Checker, Terms, refused};
use compare::generate;
use compare::names::*;
use compare::reference::leave_out::{FEW, set_of};
use compare::reference::{Catalogue, Fit, Judge, LeaveOut, Original};
use compare::run::{Readers, Stage};
use compare::sketch::*;
use compare::tally::Zeros;

/// What every checker writes for a sketch and a budget: the tries, the distance, the pairs.
fn assert_left(sketch: &Sketch, budget: u32, expected: (u32, u32, &[u32])) {
    let sketch = sketch.clone().finish();
    let (catalogue, fit) = (sketch.catalogue.image(), sketch.fit.image());
    let (tries, distance, pairs) = expected;
    let words = [&[tries, distance], pairs].concat();
    let expected: Vec<u8> = words.iter().flat_map(|it| it.to_le_bytes()).collect();
    for (name, checker) in checkers() {
        for more in [0, 5] {
            let mut out = vec![0xC3; expected.len() + more];
            let word = checker.leave_out(&catalogue, &fit, budget, &mut out);
            assert_eq!(word, expected.len() as u64, "{name}, within {budget}");
            assert_eq!(out[..expected.len()], expected, "{name}, within {budget}");
            assert!(out[expected.len()..].iter().all(|byte| *byte == 0xC3));
        }
    }
}

/// What every checker refuses, with a buffer of so many bytes.
fn assert_refused(sketch: &Sketch, budget: u32, room: usize, refusal: u8) {
    let sketch = sketch.clone().finish();
    let (catalogue, fit) = (sketch.catalogue.image(), sketch.fit.image());
    for (name, checker) in checkers() {
        let mut out = vec![0xC3; room];
        let word = checker.leave_out(&catalogue, &fit, budget, &mut out);
        assert_eq!(word, refused(refusal), "{name}");
        assert!(out.iter().all(|byte| *byte == 0xC3), "{name}");
    }
}

/// So many guns, each in a high slot of its own.
fn guns(count: u16) -> Sketch {
    let sketch = Sketch::hull().known(9, 60, CATEGORY_MODULE);
    (0..count).fold(sketch, |sketch, index| sketch.item(9, HIGH, index))
}

/// A gun that suffers no other of its type, and others.
fn star(others: u16) -> Sketch {
    let sketch = guns(1).with(MAX_TYPE_FITTED, 1.0);
    (1..=others).fold(sketch, |sketch, index| sketch.item(9, LOW, index))
}

/// "Tries first put back each pair in turn, from the first": the first two stay, and of
/// the sets of two the earliest is the one that was found so.
#[test]
fn the_first_pairs_of_a_rack_are_put_back() {
    let sketch = guns(4).ship(RACKS, 2.0);
    assert_left(&sketch, 0, (0, 2, &[0, 1, 2, 3]));
    assert_left(&sketch, 1, (1, 1, &[1, 2, 3]));
    for budget in [2, 3, 4, 5, 19] {
        assert_left(&sketch, budget, (budget, 0, &[2, 3]));
    }
    for budget in [20, 21, 65_551, 65_552, u32::MAX] {
        assert_left(&sketch, budget, (20, 0, &[2, 3]));
    }
}

/// Putting back leaves three; the set of number 1 is one pair.
#[test]
fn sets_by_number_may_be_smaller() {
    let sketch = star(3);
    assert_left(&sketch, 4, (4, 3, &[1, 2, 3]));
    assert_left(&sketch, 5, (5, 3, &[1, 2, 3]));
    assert_left(&sketch, 6, (6, 1, &[0]));
    assert_left(&sketch, 99, (20, 1, &[0]));
    // Two share a slot besides: of two sets of two the earlier has the lower number.
    let sketch = star(3).item(9, HIGH, 7).item(9, HIGH, 7);
    let sketch = sketch.nameless(RACKS);
    assert_left(&sketch, 6, (6, 5, &[1, 2, 3, 4, 5]));
    assert_left(&sketch, 6 + 18, (24, 2, &[0, 4]));
    assert_left(&sketch, u32::MAX, (70, 2, &[0, 4]));
}

/// With 16 pairs sets are taken by number, with 17 none.
#[test]
fn sets_are_taken_with_up_to_16_pairs() {
    let most: Vec<u32> = (1..16).collect();
    assert_left(&star(15), 16, (16, 15, &most));
    assert_left(&star(15), 65_551, (65_551, 1, &[0]));
    assert_left(&star(15), 65_552, (65_552, 1, &[0]));
    assert_left(&star(15), u32::MAX, (65_552, 1, &[0]));
    let most: Vec<u32> = (1..17).collect();
    assert_left(&star(16), 65_552, (17, 16, &most));
}

/// "With no pairs there is still one set by number, the empty one." "On a ship that is no
/// hull every set is good, and the tries are made."
#[test]
fn no_pairs_and_no_hull() {
    assert_left(&guns(0), 0, (0, 0, &[]));
    assert_left(&guns(0), 9, (1, 0, &[]));
    assert_left(&guns(0).unpaired(9, HIGH, 0), 9, (1, 0, &[]));
    let none = Sketch::of(30, 1, CATEGORY_MODULE).ship(RACKS, 0.0);
    let none = none.item(9, HIGH, 0).item(9, HIGH, 0);
    assert_left(&none, 0, (0, 2, &[0, 1]));
    assert_left(&none, 1, (1, 1, &[1]));
    assert_left(&none, 2, (2, 0, &[]));
    assert_left(&none, 99, (6, 0, &[]));
}

/// The sum is "over the racks whose name has an id"; hardpoints are not among them.
#[test]
fn racks_with_an_id_count() {
    let two = guns(3).item(9, LOW, 0).item(9, LOW, 1);
    let two = two.ship(RACKS, 1.0).ship(RACKS + 2, 1.0);
    assert_left(&two, 5, (5, 0, &[1, 2, 4]));
    assert_left(&two.clone().nameless(RACKS), 5, (5, 0, &[4]));
    assert_left(&two.clone().nameless(RACKS), 0, (0, 4, &[0, 1, 2, 3, 4]));
    assert_left(&two, 0, (0, 2, &[0, 1, 2, 3, 4]));
    let hardpoints = guns(3).mark(9, 7).ship(HARDPOINTS, 1.0);
    assert_left(&hardpoints, 99, (11, 0, &[]));
}

#[test]
fn refusals_in_their_order() {
    let sketch = guns(4).ship(RACKS, 2.0);
    for room in [0, 7, 8, 15] {
        assert_refused(&sketch, 9, room, 10);
    }
    assert_refused(&sketch, 0, 23, 10);
    assert_refused(&guns(0), 9, 7, 10);
    let mut broken = sketch;
    broken.fit.results[0].state = 4;
    assert_refused(&broken, 9, 0, 6);
    broken.catalogue.damage.cut = 1;
    assert_refused(&broken, 9, 99, 1);
}

/// What the reference counts of many pairs is what the original says of few.
#[test]
fn counting_agrees_with_the_original() {
    let (mut sets, mut bad) = (0, 0);
    for number in 0..1_500 {
        let case = generate::case(31, number);
        let Some(fit) = case.fits.first() else {
            continue;
        };
        let catalogue = Catalogue::decode(&case.catalogue.image());
        let (Ok(catalogue), Ok(fit)) = (catalogue, Fit::decode(&fit.image())) else {
            continue;
        };
        let judge = Judge::new(&catalogue, &fit);
        let every = 0..1u32 << judge.pairs.min(FEW);
        for set in every.map(|set| set.wrapping_mul(0x9E37_79B1) % (1 << judge.pairs.min(31))) {
            let off = set_of(set, judge.pairs.min(31));
            let off = [off, vec![false; judge.pairs - judge.pairs.min(31)]].concat();
            let is_good = judge.is_good(&off);
            assert_eq!(
                judge.is_good_by_count(&off),
                is_good,
                "case {number}, {off:?}"
            );
            sets += 1;
            bad += u32::from(!is_good);
        }
    }
    assert!(sets > 5_000 && bad > 1_000, "{sets} sets, {bad} bad");
}

/// A checker that answers as the reference does, but for one call.
#[derive(Clone, Copy)]
enum Slip {
    None,
    /// The last pair is taken off too.
    More,
    /// One pair less is.
    Less,
    /// With all tries as with those that put back.
    Greedy,
    /// The more tries, the more is taken off.
    Grows,
    /// It is twice as far off.
    Doubled,
    /// It is one pair less off, as if the racks were over by one more.
    Nearer,
}

impl Slip {
    /// What it makes of an answer to all tries that the budget allows.
    fn of(self, count: u64, out: &mut [u8]) -> u64 {
        let (head, set) = out.split_at_mut(8);
        let (_, distance) = head.split_at_mut(4);
        let mut far = u32::from_le_bytes(distance.try_into().expect("four bytes"));
        let mut new = count;
        match self {
            Slip::More => {
                set[count as usize - 8..][..4].copy_from_slice(&3u32.to_le_bytes());
                (far, new) = (far + 1, count + 4);
            }
            Slip::Less if count > 8 => (far, new) = (far - 1, count - 4),
            Slip::Doubled => far *= 2,
            Slip::Nearer => far = far.saturating_sub(1),
            _ => {}
        }
        distance.copy_from_slice(&far.to_le_bytes());
        new
    }
}

impl Checker for Slip {
    fn list(&self, catalogue: &[u8], fit: &[u8], terms: Terms, out: &mut [u8]) -> u64 {
        Original.list(catalogue, fit, terms, out)
    }

    fn skill(
        &self,
        catalogue: &[u8],
        fit: &[u8],
        result: u32,
        terms: Terms,
        out: &mut [u8],
    ) -> u64 {
        Original.skill(catalogue, fit, result, terms, out)
    }

    fn hall(&self, catalogue: &[u8], input: &[u8]) -> u64 {
        Original.hall(catalogue, input)
    }

    fn widen(&self, old: &[u8], out: &mut [u8]) -> u64 {
        Original.widen(old, out)
    }

    fn train(&self, catalogue: &[u8], fit: &[u8], result: u32, steps: u32, out: &mut [u8]) -> u64 {
        Original.train(catalogue, fit, result, steps, out)
    }

    fn trim(&self, catalogue: &[u8], fit: &[u8], out: &mut [u8]) -> u64 {
        Original.trim(catalogue, fit, out)
    }

    fn cause(&self, catalogue: &[u8], fit: &[u8], position: u32, out: &mut [u8]) -> u64 {
        Original.cause(catalogue, fit, position, out)
    }

    fn leave_out(&self, catalogue: &[u8], fit: &[u8], budget: u32, out: &mut [u8]) -> u64 {
        let own = |budget: u32, out: &mut [u8]| Original.leave_out(catalogue, fit, budget, out);
        let count = own(budget, out);
        let with_tries = |budget: u32, out: &mut [u8]| {
            let tries = [out[0], out[1], out[2], out[3]];
            let count = own(budget, out);
            out[..4].copy_from_slice(&tries);
            count
        };
        match self {
            Slip::Greedy if budget > 4 => with_tries(4, out),
            // With one try more the best of all sets is asked for.
            Slip::Grows if budget == 65_551 => with_tries(0, out),
            // Within fewer tries the last pair is off as it is.
            Slip::More if budget < 6 => count,
            slip => slip.of(count, out),
        }
    }
}

/// What is promised of the sets is reported where a checker breaks it.
#[test]
fn the_property_is_reported_by_itself() {
    let reported = |sketch: &Sketch, checker: Slip| {
        let case: Case = sketch.clone().case("what is promised", &[Ask::LeftOut]);
        let stage = Stage::new(&case);
        let held = stage.hold_for(Readers::All, &checker, &mut Zeros::default());
        held.err().map(|difference| difference.what)
    };
    for sketch in [guns(3).ship(RACKS, 1.0), star(3), guns(0)] {
        assert_eq!(reported(&sketch, Slip::None), None);
    }
    for (sketch, slip, expected) in [
        (star(3), Slip::More, "could be put back"),
        (star(3), Slip::Less, "there are named entries"),
        (star(3), Slip::Greedy, "1 pairs are enough"),
        (star(3), Slip::Grows, "tries take more pairs off"),
        (star(3), Slip::Doubled, "4 pairs are said to be 8 off"),
        (star(3), Slip::Nearer, "4 pairs are said to be 3 off"),
        (
            guns(3).ship(RACKS, 1.0),
            Slip::Doubled,
            "3 pairs are said to be 2 off, and the racks are over by 2",
        ),
    ] {
        let said = reported(&sketch, slip).expect("it is noticed");
        assert!(said.starts_with("of the checker's, "), "{said}");
        assert!(said.contains(expected), "{said}");
    }
}

/// Within a budget the calls go on where those of a smaller one end.
#[test]
fn a_budget_is_a_part_of_a_larger_one() {
    let sketch = star(5).finish();
    let catalogue = Catalogue::decode(&sketch.catalogue.image()).expect("a catalogue");
    let fit = Fit::decode(&sketch.fit.image()).expect("a fit");
    let all = LeaveOut::of(&Judge::new(&catalogue, &fit));
    let case = sketch.case("budgets", &[Ask::LeaveOut(7, Room::Exact)]);
    assert_eq!(case.asks.len(), 1);
    let sizes = (0..80).map(|budget| all.within(budget).numbers().len());
    assert!(sizes.rev().is_sorted());
}
