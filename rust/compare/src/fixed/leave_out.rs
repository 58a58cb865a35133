//! What to take off, at its corners: each named rule alone, sets that putting back does
//! not find, sets of one size, budgets beside every number of tries, racks that count for
//! the distance, and what is no matter of it.

use super::Make;
use crate::case::{Ask, Case, Room};
use crate::names::*;
use crate::reference::leave_out::{FEW, tries};
use crate::sketch::*;

pub const CASES: &[Make] = &[
    // No pair, and no hull.
    || left("nothing", hull()),
    || left("nothing on a ship that is no hull", Sketch::of(30, 25, 7)),
    || {
        let sketch = guns(Sketch::of(30, 25, 7).ship(RACKS, 1.0), 2);
        left(
            "two guns too many on a ship that is no hull",
            gun(sketch, 1),
        )
    },
    || {
        let sketch = limit(gun(gun(Sketch::of(30, 25, 7), 0), 1), 3, 0.0);
        left("a limit on a ship that is no hull", sketch)
    },
    || {
        let sketch = (0..16).fold(Sketch::of(30, 25, 7), gun);
        left("16 pairs on a ship that is no hull", sketch)
    },
    || left("one item without a result", hull().unpaired(9, HIGH, 0)),
    || left("one result without an item", hull().result()),
    || left("one gun", gun(hull(), 0)),
    || left("one gun, of none", limit(gun(hull(), 0), 3, 0.0)),
    || left("two guns, all in order", guns(hull().ship(RACKS, 8.0), 2)),
    // Racks.
    || rack(HIGH),
    || rack(MEDIUM),
    || rack(LOW),
    || rack(RIG),
    || rack(SUBSYSTEM),
    || rack(SERVICE),
    || nameless(HIGH),
    || nameless(MEDIUM),
    || nameless(LOW),
    || nameless(RIG),
    || nameless(SUBSYSTEM),
    || nameless(SERVICE),
    || amount(0.0),
    || amount(0.9),
    || amount(1.5),
    || amount(2.0),
    || amount(-3.0),
    || amount(f64::NAN),
    || amount(f64::INFINITY),
    || amount(255.0),
    || amount(256.0),
    || amount(65_535.0),
    || amount(65_536.0),
    || amount(16_777_216.0),
    || amount(2_147_483_648.0),
    || amount(4_294_967_295.0),
    || amount(4_294_967_297.0),
    || left("no slots at all", guns(hull().name(RACKS), 3)),
    || {
        let structure = Sketch::of(30, 1657, CATEGORY_STRUCTURE);
        let sketch = structure.known(9, 60, CATEGORY_MODULE);
        left(
            "three guns on a structure",
            guns(sketch.ship(RACKS, 1.0), 3),
        )
    },
    || {
        let sketch = gun(hull().ship(RACKS, 1.0), 0);
        let sketch = gun(gun(sketch, 1).quantity(0), 2).quantity(0);
        left("three guns, two of quantity 0", sketch)
    },
    || {
        let sketch = guns(hull().ship(RACKS, 1.0).ship(RACKS + 2, 1.0), 3);
        let sketch = sketch.item(9, LOW, 0).item(9, LOW, 1);
        left("too many in two racks", sketch)
    },
    || {
        let sketch = guns(hull().ship(RACKS, 2.0).ship(RACKS + 2, 4.0), 3);
        left(
            "too many in one rack, room in another",
            sketch.item(9, LOW, 0),
        )
    },
    || {
        let sketch = guns(hull().ship(RACKS, 1.0).mark(9, 2), 2);
        left("guns that are marked for another rack", sketch)
    },
    || {
        let sketch = guns(hull().ship(RACKS, 2.0), 2);
        let sketch = sketch.unpaired(9, HIGH, 5).unpaired(9, HIGH, 6);
        left("more items than results", sketch)
    },
    || {
        let sketch = guns(hull().ship(RACKS, 1.0), 3).result().result();
        left("more results than items", sketch)
    },
    || {
        let sketch = guns(hull().ship(RACKS, 1.0), 3).unpaired(9, HIGH, 1);
        left("an item without a result in a taken slot", sketch)
    },
    // Slots and parts that are taken.
    || {
        let sketch = gun(gun(gun(hull(), 4), 4), 4);
        left("three in one slot", sketch.item(9, LOW, 4).item(9, HIGH, 5))
    },
    || {
        let sketch = gun(gun(hull(), 4), 5);
        left("two slots, each of two", gun(gun(sketch, 5), 4))
    },
    || {
        let kinds = [IMPLANT, BOOSTER, FIGHTER_TUBE, RIG, SERVICE, MEDIUM];
        left(
            "kinds of slots, two in each",
            kinds.into_iter().fold(hull(), two),
        )
    },
    || {
        let kinds = [DRONE_BAY, FIGHTER_BAY, CARGO];
        left("bays, two in each", kinds.into_iter().fold(hull(), two))
    },
    || parts(&[10.0, 11.0, 10.0, 10.0]),
    || parts(&[f64::NAN, 10.0, f64::NAN, 10.0, 10.5]),
    || parts(&[f64::NAN, f64::NAN]),
    || parts(&[0.0, 1.0, -0.0]),
    || parts(&[10.5, 10.0]),
    || {
        let sketch = part(subsystems(), 0, 10.0).item(9, HIGH, 0);
        let sketch = sketch.with(SUBSYSTEM_SLOT, 10.0).item(50, SUBSYSTEM, 7);
        left("the part of a gun, and none", part(sketch, 3, 11.0))
    },
    // Limits of a group and of a type.
    || limited(0, 0.0),
    || limited(0, 1.0),
    || limited(0, 2.0),
    || limited(1, 0.0),
    || limited(1, 1.0),
    || limited(2, 0.0),
    || limited(2, 1.0),
    || limited(3, 0.0),
    || limited(3, 1.0),
    || limited(3, 2.0),
    || limited(0, 1.6),
    || limited(3, 1.6),
    || limited(0, f64::NAN),
    || limited(3, -1.0),
    || limited(0, 256.0),
    || limited(1, 65_536.0),
    || limited(2, 4_294_967_296.0),
    || limited(3, 4_294_967_297.0),
    || uncounted(1, OFFLINE),
    || uncounted(2, ONLINE),
    || {
        let sketch = (0..5).fold(hull(), |sketch, index| limit(gun(sketch, index), 3, 0.0));
        left("five guns, of none", sketch)
    },
    // Sets that putting back does not find.
    || hub(2),
    || hub(3),
    || hub(5),
    || hub(6),
    || hub(7),
    || hub(12),
    || hub(15),
    || hub(16),
    || hub(17),
    || hub(40),
    || {
        let sketch = gun(gun(star(3), 7), 7);
        left("the first of two smallest sets by number", sketch)
    },
    steps,
    || {
        let sketch = (0..5).fold(star(3), |sketch, index| gun(sketch, 10 + index / 2));
        left("two slots beside a limit", sketch)
    },
    || {
        let sketch = limit(gun(gun(gun(hull(), 0), 1), 2), 3, 1.0);
        left("a limit on the last", sketch)
    },
    || crowd(6),
    || crowd(9),
    || crowd(15),
    || crowd(16),
    || crowd(17),
    || crowd(40),
    // What has to stay as it is.
    hardpoints,
    || {
        let sketch = guns(hull().ship(RACKS, 1.0).ship(0, 2.0).ship(1, 1.0), 2);
        left("CPU beside a rack", sketch)
    },
    || {
        let sketch = guns(hull().ship(RACKS, 1.0).mode(99).skill(8, 1), 2);
        left("a mode and a skill that are none", sketch)
    },
    || {
        let sketch = guns(hull().ship(RACKS, 1.0), 2).item(71, LOW, 0);
        left("a missing type", sketch)
    },
    || {
        let sketch = guns(hull().ship(RACKS, 1.0), 2).known(70, 450, CATEGORY_CHARGE);
        left("what is no module", sketch.item(70, LOW, 0))
    },
    || {
        let sketch = guns(hull().ship(RACKS, 1.0), 2);
        let sketch = sketch.known(70, 450, CATEGORY_STRUCTURE_MODULE);
        left("a structure's module on a ship", sketch.item(70, LOW, 0))
    },
    || {
        let sketch = guns(hull().ship(RACKS, 1.0), 2).known(70, 450, CATEGORY_CHARGE);
        let sketch = sketch.volume(f32::NAN).item(70, CARGO, 0);
        left("cargo of a volume of NaN", sketch)
    },
    || {
        let sketch = hull().known(80, 5, CATEGORY_DRONE).item(80, DRONE_BAY, 0);
        let sketch = sketch.quantity(u32::MAX).state(ACTIVE);
        let sketch = sketch.item(80, DRONE_BAY, 0).quantity(9).state(ACTIVE);
        let sketch = sketch.character(MAX_ACTIVE_DRONES, 5.0).ship(RACKS, 1.0);
        left("drones over 32 bits", guns(sketch, 2))
    },
    everything,
];

fn hull() -> Sketch {
    Sketch::hull()
        .known(9, 60, CATEGORY_MODULE)
        .known(8, 60, CATEGORY_MODULE)
}

fn gun(sketch: Sketch, index: u16) -> Sketch {
    sketch.item(9, HIGH, index)
}

fn guns(sketch: Sketch, count: u16) -> Sketch {
    (0..count).fold(sketch, gun)
}

/// Two in the same slot.
fn two(sketch: Sketch, kind: u8) -> Sketch {
    let index = if matches!(kind, DRONE_BAY | FIGHTER_BAY | CARGO) {
        0
    } else {
        3
    };
    sketch.item(9, kind, index).item(9, kind, index)
}

/// Gives the last pair a limit of its group, fitted, online or active, or of its type.
fn limit(sketch: Sketch, limit: usize, allowed: f64) -> Sketch {
    let names = [0, 1, 2].map(|limit| GROUP_LIMITS + limit);
    let name = names.get(limit).copied().unwrap_or(MAX_TYPE_FITTED);
    sketch.with(name, allowed)
}

/// The tries that find the smallest set by number, and those before: of a crowd of 9, of two
/// slots beside a limit, of crowds of 15 and 16. Of one against others it is the second
/// number.
const FOUND: [u32; 8] = [37, 38, 90, 91, 1_838, 1_839, 34_607, 34_608];

/// Asks with each budget up to one more than there are tries where the pairs are few, else
/// with those where something changes and those around one and two bytes; with all of them
/// in each buffer.
fn left(title: &str, sketch: Sketch) -> Case {
    let pairs = sketch.fit.items.len().min(sketch.fit.results.len());
    let (count, all) = (pairs as u32, tries(pairs));
    let most = [65_551, 65_552, 65_553, 1 << 24, 1 << 31, u32::MAX];
    let budgets: Vec<u32> = match pairs <= FEW {
        true => (0..=all + 1).chain(most).collect(),
        false => [0, 1, count - 1, count, count + 1, all - 1, all, all + 1]
            .into_iter()
            .chain([count + 2])
            .chain(FOUND)
            .chain([255, 256, 65_535, 65_536])
            .chain(most)
            .collect(),
    };
    let budgets = budgets.into_iter();
    let mut asks: Vec<Ask> = budgets.map(|b| Ask::LeaveOut(b, Room::Exact)).collect();
    asks.extend(ROOMS.map(|room| Ask::LeaveOut(u32::MAX, room)));
    asks.extend(ROOMS.map(|room| Ask::LeaveOut(count / 2, room)));
    asks.push(Ask::LeaveOut(count, Room::Longer(5)));
    asks.extend([3, 7, 8].map(|length| Ask::LeaveOut(9, Room::Of(length))));
    asks.push(Ask::LeftOut);
    sketch.case(&format!("what to leave out: {title}"), &asks)
}

/// Three in a rack that takes one.
fn rack(kind: u8) -> Case {
    let sketch = hull().ship(RACKS + usize::from(kind), 1.0);
    let sketch = (0..3).fold(sketch, |sketch, index| sketch.item(9, kind, index));
    left(&format!("three of kind {kind} in a rack of one"), sketch)
}

/// Two in a rack without an id, and two in another that takes one.
fn nameless(kind: u8) -> Case {
    let other = if kind == LOW { MEDIUM } else { LOW };
    let sketch = hull().ship(RACKS + usize::from(kind), 0.0);
    let sketch = sketch.ship(RACKS + usize::from(other), 1.0);
    let sketch = [kind, kind, other, other]
        .into_iter()
        .enumerate()
        .fold(sketch, |sketch, (index, kind)| {
            sketch.item(9, kind, index as u16)
        });
    left(
        &format!("the rack of kind {kind} without an id"),
        sketch.nameless(RACKS + usize::from(kind)),
    )
}

/// Three guns for an amount of slots.
fn amount(amount: f64) -> Case {
    let sketch = guns(hull().ship(RACKS, amount), 3);
    left(&format!("three guns for {amount:?} slots"), sketch)
}

fn subsystems() -> Sketch {
    hull().known(50, 90, CATEGORY_SUBSYSTEM)
}

fn part(sketch: Sketch, index: u16, part: f64) -> Sketch {
    let sketch = sketch.item(50, SUBSYSTEM, index);
    sketch.with(SUBSYSTEM_SLOT, part)
}

fn parts(values: &[f64]) -> Case {
    let values = (0..).zip(values);
    let sketch = values.clone().fold(subsystems(), |sketch, (index, value)| {
        part(sketch, index, *value)
    });
    let values: Vec<&f64> = values.map(|(_, value)| value).collect();
    left(&format!("parts {values:?}"), sketch)
}

/// Guns in every state, one of another type, with a limit on a middle one, and what counts
/// for none.
fn limited(number: usize, allowed: f64) -> Case {
    let sketch = gun(hull(), 0).state(ACTIVE);
    let sketch = limit(gun(sketch, 1).state(OVERLOAD), number, allowed);
    let sketch = gun(sketch, 2).state(ONLINE).item(8, LOW, 0).state(ACTIVE);
    let sketch = gun(sketch, 4);
    let sketch = sketch.item(9, CARGO, 0).state(ACTIVE).quantity(9);
    left(&format!("limit {number} of {allowed:?}"), sketch)
}

/// A limit of 1 on a pair that does not count itself, beside two that count.
fn uncounted(number: usize, state: u8) -> Case {
    let sketch = limit(gun(hull(), 0).state(state), number, 1.0);
    let sketch = gun(gun(sketch, 1).state(ACTIVE), 2).state(ACTIVE);
    let sketch = sketch
        .known(7, 61, CATEGORY_MODULE)
        .item(7, LOW, 0)
        .state(ACTIVE);
    left(
        &format!("limit {number} on a pair in state {state}"),
        sketch,
    )
}

/// A gun that suffers no other of its type, and others: it is put back first, so that all
/// the others have to go.
fn star(others: u16) -> Sketch {
    let sketch = limit(gun(hull(), 0), 3, 1.0);
    (1..=others).fold(sketch, |sketch, index| sketch.item(9, LOW, index))
}

fn hub(pairs: u16) -> Case {
    left(&format!("one against {}", pairs - 1), star(pairs - 1))
}

/// Of the sets by number that are smaller than what putting back leaves, the first is not
/// the smallest.
fn steps() -> Case {
    let sketch = limit(gun(hull(), 0).state(ACTIVE), 2, 1.0);
    let sketch = sketch
        .item(8, LOW, 1)
        .state(ACTIVE)
        .item(8, LOW, 2)
        .state(ACTIVE);
    let sketch = gun(gun(sketch, 3).state(ACTIVE), 4).state(ACTIVE);
    let sketch = limit(sketch.item(8, LOW, 5).state(OFFLINE), 3, 1.0);
    left("sets by number, each smaller than the last", sketch)
}

/// Every named rule at once.
fn crowd(pairs: u16) -> Case {
    let sketch = subsystems().ship(RACKS, 2.0).ship(RACKS + 2, 3.0);
    let sketch = (0..pairs).fold(sketch, |sketch, number| match number % 6 {
        0 => limit(gun(sketch, number % 8).state(ACTIVE), 3, 2.0),
        1 => sketch.item(8, LOW, number % 4).state(ONLINE),
        2 => part(sketch, number % 5, f64::from(number % 3)),
        3 => limit(sketch.item(8, LOW, number % 8).state(ACTIVE), 1, 3.0),
        4 => limit(gun(sketch, number % 7).state(OVERLOAD), 2, 1.0),
        _ => sketch.item(9, CARGO, 0).quantity(5),
    });
    left(&format!("{pairs} pairs, every rule"), sketch)
}

/// Three turrets and a launcher for one hardpoint each.
fn hardpoints() -> Case {
    let sketch = hull().ship(HARDPOINTS, 1.0).ship(HARDPOINTS + 1, 0.0);
    let sketch = guns(sketch.mark(9, 7).mark(8, 8), 3);
    left("hardpoints alone", sketch.item(8, HIGH, 5))
}

/// Entries of many rules at once.
fn everything() -> Case {
    let sketch = subsystems().skill(8, 1).mode(9).ship(0, 2.0).ship(1, 1.0);
    let sketch = sketch.ship(RACKS, 1.0).ship(HARDPOINTS, 0.0).mark(9, 7);
    let sketch = limit(gun(gun(sketch, 0), 0), 0, 1.0);
    let sketch = part(part(sketch, 0, 125.0), 1, 125.0).item(71, LOW, 0);
    left("entries of many rules", sketch.item(8, DRONE_BAY, 0))
}

#[cfg(test)]
mod tests {
    use super::*;
    use crate::reference::{Catalogue, Fit, Judge, LeaveOut};

    #[test]
    fn every_case_has_calls() {
        for make in CASES {
            assert!(!make().asks.is_empty());
        }
    }

    /// What every budget comes to for a case's fit.
    fn of(case: &Case) -> LeaveOut {
        let catalogue = Catalogue::decode(&case.catalogue.image()).expect("a catalogue");
        let fit = Fit::decode(&case.fits[0].image()).expect("a fit");
        LeaveOut::of(&Judge::new(&catalogue, &fit))
    }

    #[test]
    fn sets_by_number_are_smaller_in_steps() {
        let all = of(&steps());
        let by_number = all.found.iter().filter(|(tries, _)| *tries > 6);
        assert_eq!(by_number.count(), 2);
    }

    /// Where the best set is one by number, a budget ends with the try that finds it, and
    /// another just before.
    #[test]
    fn budgets_end_where_the_best_set_is_found() {
        let mut by_number = Vec::new();
        for make in CASES {
            let case = make();
            let all = of(&case);
            let (last, _) = all.found[all.found.len() - 1];
            if last as usize <= all.pairs {
                continue;
            }
            by_number.push(all.pairs);
            for budget in [last - 1, last] {
                let ask = Ask::LeaveOut(budget, Room::Exact);
                assert!(case.asks.contains(&ask), "{}: {budget}", case.title);
            }
        }
        for pairs in [9, 15, 16] {
            assert!(by_number.contains(&pairs), "{pairs} pairs");
        }
    }
}
