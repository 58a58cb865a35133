//! Document 02's P9 on every checker: the smallest part of a fit that shows an entry.
//! Expected numbers are worked out from the documents.

use crate::common::checkers;
use compare::case::{Ask, Case, Position, Room};
use compare::checker::{Checker, Terms, refused};
use compare::names::*;
use compare::reference::Original;
use compare::run::{Readers, Stage};
use compare::sketch::*;
use compare::tally::Zeros;

/// What every checker keeps for the entry at a position of a sketch's list.
fn assert_kept(sketch: &Sketch, position: u32, expected: &[u32]) {
    let sketch = sketch.clone().finish();
    let (catalogue, fit) = (sketch.catalogue.image(), sketch.fit.image());
    let expected: Vec<u8> = expected.iter().flat_map(|it| it.to_le_bytes()).collect();
    for (name, checker) in checkers() {
        for more in [0, 5] {
            let mut out = vec![0xC3; expected.len() + more];
            let word = checker.cause(&catalogue, &fit, position, &mut out);
            assert_eq!(word, expected.len() as u64, "{name}");
            assert_eq!(out[..expected.len()], expected, "{name}");
            assert!(out[expected.len()..].iter().all(|byte| *byte == 0xC3));
        }
    }
}

/// What every checker refuses, with a buffer of so many bytes.
fn assert_refused(sketch: &Sketch, position: u32, room: usize, refusal: u8) {
    let sketch = sketch.clone().finish();
    let (catalogue, fit) = (sketch.catalogue.image(), sketch.fit.image());
    for (name, checker) in checkers() {
        let mut out = vec![0xC3; room];
        let word = checker.cause(&catalogue, &fit, position, &mut out);
        assert_eq!(word, refused(refusal), "{name}");
        assert!(out.iter().all(|byte| *byte == 0xC3), "{name}");
    }
}

/// So many guns, each in a high slot of its own.
fn guns(count: u16) -> Sketch {
    let sketch = Sketch::hull().known(9, 60, CATEGORY_MODULE);
    (0..count).fold(sketch, |sketch, index| sketch.item(9, HIGH, index))
}

/// "From the last pair to the first, each is dropped where the entry stays without it."
#[test]
fn the_first_pairs_of_a_rack_are_kept() {
    assert_kept(&guns(4).ship(RACKS, 2.0), 0, &[0, 1, 2]);
    assert_kept(&guns(4).ship(RACKS, 0.0), 0, &[0]);
    let between = Sketch::hull().item(9, LOW, 0).item(9, HIGH, 0);
    let between = between.known(9, 60, CATEGORY_MODULE).item(9, LOW, 1);
    let between = between.item(9, HIGH, 1).item(9, HIGH, 2);
    assert_kept(&between.ship(RACKS, 1.0), 0, &[1, 3]);
}

/// "A ship load such as Cpu keeps no pair"; nor does what is no item's.
#[test]
fn an_entry_that_looks_at_no_pair_keeps_none() {
    let load = guns(3).ship(LOADS, 2.0).ship(LOADS + 1, 1.0);
    assert_kept(&load, 0, &[]);
    let mode = guns(1).mode(7).skill(8, 1);
    assert_kept(&mode, 0, &[]);
    assert_kept(&mode, 1, &[]);
    assert_kept(&Sketch::of(30, 1, CATEGORY_MODULE).item(9, HIGH, 0), 0, &[]);
}

/// "Still listed, about the same item after renumbering."
#[test]
fn the_pair_that_an_entry_is_about_is_kept() {
    let taken = guns(1).item(9, HIGH, 0).item(9, HIGH, 0);
    assert_kept(&taken, 0, &[0, 1]);
    assert_kept(&taken, 1, &[0, 1]);
    assert_kept(&taken, 2, &[0, 2]);
    let unknown = guns(2).item(77, HIGH, 2);
    assert_kept(&unknown, 0, &[2]);
    assert_kept(&unknown, 1, &[2]);
}

/// A pair that does not count for its own limit is kept beside those that do.
#[test]
fn a_pair_that_does_not_count_is_kept_too() {
    let sketch = Sketch::hull().known(9, 60, CATEGORY_MODULE);
    let sketch = (0..3).fold(sketch, |sketch, index| {
        sketch.item(9, HIGH, index).state(ACTIVE)
    });
    let sketch = sketch.item(9, HIGH, 3).state(ONLINE);
    assert_kept(&sketch.with(GROUP_LIMITS + 2, 1.0), 0, &[0, 1, 3]);
}

/// Dropped is from the last to the first, whatever that leaves.
#[test]
fn what_is_kept_need_not_be_the_fewest() {
    let sketch = Sketch::hull().known(80, 5, CATEGORY_DRONE).volume(1.0);
    let stacks = |kind: u8| {
        let sketch = sketch.clone();
        [1, 1, 2].into_iter().fold(sketch, |sketch, stack| {
            let sketch = sketch.item(80, kind, 0);
            sketch.quantity(stack).state(ACTIVE)
        })
    };
    let drones = stacks(DRONE_BAY).character(MAX_ACTIVE_DRONES, 1.0);
    assert_kept(&drones, 0, &[0, 1]);
    assert_kept(&stacks(CARGO).ship(CAPACITY, 1.0), 0, &[0, 1]);
}

/// "About the same item, with the same rule, sub and id": another's does not show it.
#[test]
fn the_same_entry_is_of_one_target_rule_and_sub() {
    let nested = guns(0).item(9, HIGH, 3).item(9, HIGH, 4);
    let nested = nested.item(9, HIGH, 4).item(9, HIGH, 3);
    assert_kept(&nested, 0, &[0, 3]);
    let charge = guns(0).known(40, 1, CATEGORY_CHARGE).item(40, HIGH, 3);
    let charge = charge.item(9, HIGH, 3);
    assert_kept(&charge, 0, &[0]);
    assert_kept(&charge, 1, &[0, 1]);
    let load = |sketch: Sketch| sketch.ship(LOADS, 2.0).ship(LOADS + 1, 1.0);
    assert_kept(&load(guns(3).ship(RACKS, 1.0)), 1, &[0, 1]);
    let hold = Sketch::hull().known(80, 5, CATEGORY_CHARGE).volume(1.0);
    let hold = hold.item(80, CARGO, 0).quantity(2).item(80, CARGO, 0);
    assert_kept(&load(hold.ship(CAPACITY, 1.0)), 1, &[0]);
}

/// 15 is asked of the fit: whatever the entry, and of no piece too.
#[test]
fn a_bad_volume_is_of_the_fit() {
    let bare = Sketch::hull().mode(7).skill(8, 1);
    let sketch = bare.known(10, 1, CATEGORY_CHARGE).volume(-1.0);
    let sketch = sketch.item(10, CARGO, 0).quantity(0);
    assert_refused(&sketch, 0, 99, 15);
    assert_refused(&sketch, 1, 99, 15);
    for position in [2, 256, 65_536] {
        assert_refused(&sketch, position, 99, 14);
    }
}

/// Quantities over 32 bits, and volumes whose sum is rounded.
#[test]
fn sums_are_not_cut() {
    let sketch = Sketch::hull().known(80, 5, CATEGORY_DRONE);
    let sketch = [u32::MAX, 9, u32::MAX, 3]
        .into_iter()
        .fold(sketch, |sketch, stack| {
            let sketch = sketch.item(80, DRONE_BAY, 0);
            sketch.quantity(stack).state(ACTIVE)
        });
    let most = f64::from(u32::MAX);
    assert_kept(
        &sketch.clone().character(MAX_ACTIVE_DRONES, most),
        0,
        &[0, 1],
    );
    assert_kept(&sketch.character(MAX_ACTIVE_DRONES, 2.0), 0, &[0]);

    let sketch = [(100, 16_777_216.0), (101, 1.0), (102, 1.0)].into_iter();
    let sketch = sketch.fold(
        Sketch::hull().ship(CAPACITY, 16_777_216.0),
        |sketch, (id, volume)| {
            let sketch = sketch.known(id, 450, CATEGORY_CHARGE).volume(volume);
            sketch.item(id, CARGO, 0)
        },
    );
    assert_kept(&sketch, 0, &[0, 1]);
}

/// "Refusal 14 meets a position beyond the list, 15 a Cargo pair's volume that is below
/// zero, infinite or NaN, in that order just before 10, which here counts four bytes a kept
/// pair."
#[test]
fn refusals_in_their_order() {
    let sketch = guns(4).ship(RACKS, 2.0);
    for room in [0, 4, 11] {
        assert_refused(&sketch, 0, room, 10);
    }
    for position in [1, 256, 65_536, u32::MAX] {
        assert_refused(&sketch, position, 0, 14);
    }
    for volume in [-1.0, f32::INFINITY, f32::NEG_INFINITY, f32::NAN] {
        let bad = sketch.clone().known(10, 1, CATEGORY_CHARGE).volume(volume);
        assert_kept(&bad.clone().unpaired(10, CARGO, 0), 0, &[0, 1, 2]);
        let bad = bad.item(10, CARGO, 0);
        assert_refused(&bad, 0, 0, 15);
        assert_refused(&bad, 1, 0, 14);
        let mut broken = bad;
        broken.fit.results[0].state = 4;
        assert_refused(&broken, 1, 0, 6);
        broken.catalogue.damage.cut = 1;
        assert_refused(&broken, 0, 99, 1);
    }
    for volume in [0.0, -0.0, f32::MAX] {
        let fine = sketch.clone().known(10, 1, CATEGORY_CHARGE).volume(volume);
        assert_kept(&fine.item(10, CARGO, 0), 0, &[0, 1, 2]);
    }
}

/// Positions count in the list that an officer gets.
#[test]
fn positions_are_of_an_officers_list() {
    let sketch = guns(3).ship(RACKS, 1.0).skill(-5, 1).skill(5, 1);
    for position in [0, 1] {
        assert_kept(&sketch, position, &[]);
    }
    assert_kept(&sketch, 2, &[0, 1]);
    assert_refused(&sketch, 3, 99, 14);
}

/// A checker that answers as the reference does, but for one call.
#[derive(Clone, Copy)]
enum Slip {
    None,
    /// One pair more is kept.
    More,
    /// One pair less.
    Less,
    /// A list of fewer items than three is empty.
    Lists,
}

impl Checker for Slip {
    fn list(&self, catalogue: &[u8], fit: &[u8], terms: Terms, out: &mut [u8]) -> u64 {
        match self {
            Slip::Lists if fit[4] < 3 => 0,
            _ => Original.list(catalogue, fit, terms, out),
        }
    }

    fn skill(
        &self,
        catalogue: &[u8],
        fit: &[u8],
        result: u32,
        terms: Terms,
        out: &mut [u8],
    ) -> u64 {
        Original.skill(catalogue, fit, result, terms, out)
    }

    fn hall(&self, catalogue: &[u8], input: &[u8]) -> u64 {
        Original.hall(catalogue, input)
    }

    fn widen(&self, old: &[u8], out: &mut [u8]) -> u64 {
        Original.widen(old, out)
    }

    fn train(&self, catalogue: &[u8], fit: &[u8], result: u32, steps: u32, out: &mut [u8]) -> u64 {
        Original.train(catalogue, fit, result, steps, out)
    }

    fn trim(&self, catalogue: &[u8], fit: &[u8], out: &mut [u8]) -> u64 {
        Original.trim(catalogue, fit, out)
    }

    fn leave_out(&self, catalogue: &[u8], fit: &[u8], budget: u32, out: &mut [u8]) -> u64 {
        Original.leave_out(catalogue, fit, budget, out)
    }

    fn cause(&self, catalogue: &[u8], fit: &[u8], position: u32, out: &mut [u8]) -> u64 {
        let count = Original.cause(catalogue, fit, position, out);
        match self {
            Slip::More => {
                let at = count as usize;
                out[at..at + 4].copy_from_slice(&3u32.to_le_bytes());
                count + 4
            }
            Slip::Less => count - 4,
            _ => count,
        }
    }
}

/// What is promised of the kept pairs is reported where a checker breaks it.
#[test]
fn the_property_is_reported_by_itself() {
    let sketch = guns(4).ship(RACKS, 1.0);
    let case = sketch.case("a rack", &[Ask::Cause(Position::Last, Room::Exact)]);
    let reported = |checker: Slip, asks: &[Ask]| {
        let case = Case {
            asks: asks.to_vec(),
            ..case.clone()
        };
        let stage = Stage::new(&case);
        let held = stage.hold_for(Readers::All, &checker, &mut Zeros::default());
        held.err().map(|difference| difference.what)
    };
    let promised = [Ask::Caused(Position::Last)];
    assert_eq!(reported(Slip::None, &promised), None);
    for (slip, expected) in [
        (Slip::More, "of the checker's, pairs [0, 1]"),
        (Slip::Less, "of the checker's, the kept pairs do not show"),
        (Slip::Lists, "of the checker's, the kept pairs do not show"),
    ] {
        let said = reported(slip, &promised).expect("it is noticed");
        assert!(said.starts_with(expected), "{said}");
    }
    assert_eq!(reported(Slip::Lists, &case.asks), None);
}
