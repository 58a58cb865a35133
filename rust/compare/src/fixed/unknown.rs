//! Types that the catalogue lacks, and types that only look like them.

use super::Make;
use super::league::with;
use crate::case::{Ask, Case, Growth, Room};
use crate::model::{Fit, Item, Outcome};
use crate::names::*;
use crate::profile::BANNED;
use crate::sketch::*;

pub const CASES: &[Make] = &[
    || {
        Sketch::hull()
            .item(5, HIGH, 0)
            .list("a missing type fitted")
    },
    || Sketch::hull().item(5, CARGO, 0).list("one in the hold"),
    || everywhere(5).list("a missing type in every kind of slot"),
    || {
        let sketch = everywhere(5).known(6, 60, CATEGORY_MODULE);
        beside(sketch, 6).list("a missing type beside a present one in every kind of slot")
    },
    || {
        everywhere(5)
            .known(5, 0, 0)
            .list("a type of group 0 and category 0")
    },
    || everywhere(5).known(5, 0, 7).list("a type of group 0"),
    || everywhere(5).known(5, 60, 0).list("a type of category 0"),
    || {
        let sketch = everywhere(5).known(5, 0, 0).volume(2.0);
        sketch.list("a type of group 0 and category 0 with a volume")
    },
    || {
        let sketch = beside(everywhere(5), 6).known(6, 0, 0);
        sketch.list("missing beside group 0 and category 0")
    },
    || limited(false).list("group limits, two types missing"),
    || limited(true).list("group limits, missing and present of group 0"),
    || {
        Sketch::hull()
            .item(5, HIGH, 0)
            .item(5, HIGH, 1)
            .with(MAX_TYPE_FITTED, 1.0)
            .list("a limit on a missing type")
    },
    || several().list("several pairs of several missing types"),
    || {
        let present = several().known(-9, 60, CATEGORY_MODULE);
        present.list("missing and present in turn")
    },
    || {
        let sketch = Sketch::hull().known(6, 60, CATEGORY_MODULE);
        let sketch = sketch.item(5, HIGH, 0).item(6, HIGH, 1);
        sketch.list("a missing type in front of a present one")
    },
    || {
        let sketch = Sketch::hull().known(6, 60, CATEGORY_MODULE);
        let sketch = sketch.item(6, HIGH, 0).item(5, HIGH, 1);
        sketch.list("a missing type behind a present one")
    },
    || quantities().list("quantities of a missing type"),
    || states().list("a missing type in every state"),
    || ids().list("ids at both ends, all missing"),
    || {
        let mut sketch = ids();
        for id in [i32::MIN, -1, 0, i32::MAX] {
            sketch = sketch.known(id, 60, CATEGORY_MODULE);
        }
        sketch.list("ids at both ends, those at the ends present")
    },
    || {
        let mut sketch = ids();
        for id in [i32::MIN + 1, -2, 1, i32::MAX - 1] {
            sketch = sketch.known(id, 60, CATEGORY_MODULE);
        }
        sketch.list("ids at both ends, those beside them present")
    },
    || around_the_ends().list("around the first and the last type of the catalogue"),
    || {
        Sketch::hull()
            .item(SHIP, HIGH, 0)
            .item(SHIP - 1, HIGH, 1)
            .item(SHIP + 1, HIGH, 2)
            .list("around the only type of the catalogue")
    },
    || {
        let sketch = marked().known(5, 60, CATEGORY_MODULE);
        sketch.list("marks and base values under a present type")
    },
    || marked().list("marks and base values under a missing type"),
    || marked().skills("base values under a missing type, wanted", 2),
    || {
        let sketch = Sketch::hull().link(5, 77).base(6, VOLUME, 3.0);
        let sketch = sketch.item(5, CARGO, 0).item(6, CARGO, 0);
        sketch.list("a link or a base value makes no type")
    },
    || {
        Sketch::hull()
            .known(6, 60, CATEGORY_CHARGE)
            .volume(2.5)
            .ship(CAPACITY, 2.0)
            .item(5, CARGO, 0)
            .quantity(1_000)
            .item(6, CARGO, 0)
            .list("a missing type takes up nothing in the hold")
    },
    || {
        let sketch = Sketch::hull().ship(CAPACITY, -1.0);
        sketch.item(5, CARGO, 0).list("a missing type in no hold")
    },
    || {
        let sketch = Sketch::hull().item(6, HIGH, 0).known(6, 60, 7);
        sketch.unpaired(5, HIGH, 1).list("missing without a result")
    },
    || {
        let sketch = Sketch::hull().item(5, HIGH, 0);
        let sketch = sketch.unpaired(5, CARGO, 0).unpaired(6, HIGH, 1);
        sketch.list("missing with a result and without")
    },
    || {
        let sketch = Sketch::hull().item(5, CARGO, 0);
        sketch.result().result().list("more results than items")
    },
    || {
        let mut sketch = Sketch::hull().item(5, HIGH, 0);
        sketch.fit.ship_type = 588;
        sketch.list("the ship's type missing, and a pair's")
    },
    || {
        let sketch = Sketch::of(30, 25, CATEGORY_MODULE);
        sketch
            .item(5, HIGH, 0)
            .item(6, CARGO, 0)
            .list("no hull, and types missing")
    },
    || {
        let mut sketch = Sketch::hull().item(5, HIGH, 0).item(6, CARGO, 0);
        sketch.catalogue.types.clear();
        sketch.list("no types at all")
    },
    || {
        let mut sketch = Sketch::hull().item(5, HIGH, 0);
        sketch.fit.ship_type = 0;
        let sketch = sketch.known(0, 12, 0);
        sketch.list("a container of category 0 as ship, a type missing")
    },
    || Sketch::hull().mode(5).list("the mode missing"),
    || {
        let sketch = Sketch::hull().mode(5).item(5, CARGO, 0);
        sketch.list("the mode missing, and a pair of its type")
    },
    || {
        let sketch = Sketch::hull().known(3300, 255, CATEGORY_SKILL);
        let sketch = sketch.skill(3300, 5).skill(3301, 4).skill(-7, 1);
        sketch
            .item(3301, CARGO, 0)
            .list("a listed skill missing, and a pair of its type")
    },
    || {
        let sketch = Sketch::hull().mode(40).skill(41, 1).skill(42, 1);
        sketch
            .item(6, CARGO, 0)
            .known(6, 1, 8)
            .list("mode and skills missing, no pair's type")
    },
    || {
        with(
            fitted_and_loaded(),
            &[(0, BANNED)],
            0,
            "group 0 banned, types missing",
        )
    },
    || {
        with(
            fitted_and_loaded(),
            &[(0, 3)],
            2,
            "group 0 priced, types missing",
        )
    },
    || {
        with(
            fitted_and_loaded(),
            &[(0, 3)],
            3,
            "group 0 priced and allowed, types missing",
        )
    },
    || {
        with(
            fitted_and_loaded(),
            &[(60, 3)],
            0,
            "group 0 not listed, types missing",
        )
    },
    || {
        with(
            fitted_and_loaded(),
            &[],
            0,
            "a profile of no groups, types missing",
        )
    },
    || {
        let prices = [(0, BANNED), (60, BANNED), (61, 4)];
        with(of_all_three(), &prices, 3, "rules 24, 25 and 26")
    },
    || with(of_all_three(), &[(0, 9), (60, 1)], 9, "rules 25 and 26"),
    || {
        let sketch = of_all_three().known(5, 0, CATEGORY_MODULE);
        with(
            sketch,
            &[(0, BANNED)],
            0,
            "group 0 banned, one type of it there",
        )
    },
    || {
        let sketch = Sketch::of(30, 25, CATEGORY_MODULE).item(5, HIGH, 0);
        with(
            sketch,
            &[(0, BANNED)],
            0,
            "group 0 banned on no hull, a type missing",
        )
    },
    || hall(&[loaded(5, 1)]),
    || hall(&[loaded(9, 1)]),
    || hall(&[loaded(5, 0)]),
    || {
        hall(&[
            loaded(9, 1),
            loaded(5, 1),
            loaded(5, 0),
            loaded(9, 0),
            broken(),
            loaded(9, 1),
        ])
    },
    || hall(&vec![loaded(5, 1); 64]),
    || grown(several(), &[(5, CARGO), (900, DRONE_BAY), (6, HIGH)]),
    || grown(Sketch::hull(), &[(5, CARGO)]),
    || grown(Sketch::hull().item(5, CARGO, 0), &[(5, CARGO), (5, HIGH)]),
    || {
        let case = grown(fitted_and_loaded(), &[(6, HIGH), (5, CARGO)]);
        let league = with(Sketch::hull(), &[(0, 3)], 2, "").league;
        Case { league, ..case }
    },
    || {
        let widened = [Ask::Widen(Room::Exact), Ask::WidenedList];
        marked().case("a missing type under a widened catalogue", &widened)
    },
];

/// An item of a type in every kind of slot.
fn everywhere(type_id: i32) -> Sketch {
    let mut sketch = Sketch::hull();
    for kind in HIGH..=CARGO {
        sketch = sketch.item(type_id, kind, 0);
    }
    sketch
}

/// With another type in every kind of slot, in the next place.
fn beside(mut sketch: Sketch, type_id: i32) -> Sketch {
    for kind in HIGH..=CARGO {
        let index = match kind {
            FIGHTER_BAY | DRONE_BAY | CARGO => 0,
            _ => 1,
        };
        sketch = sketch.item(type_id, kind, index);
    }
    sketch
}

/// Two types of group 0, each with limits of one, one of them present or both
/// missing: a group is counted over all pairs alike.
fn limited(present: bool) -> Sketch {
    let sketch = match present {
        true => Sketch::hull().known(6, 0, CATEGORY_MODULE),
        false => Sketch::hull(),
    };
    let limits = |sketch: Sketch| {
        let sketch = sketch.with(GROUP_LIMITS, 1.0).with(GROUP_LIMITS + 1, 1.0);
        sketch.with(GROUP_LIMITS + 2, 1.0).state(ACTIVE)
    };
    let sketch = limits(sketch.item(5, HIGH, 0));
    limits(sketch.item(6, HIGH, 1))
}

/// Types in no order, some more than once.
fn several() -> Sketch {
    let mut sketch = Sketch::hull().known(7, 60, CATEGORY_MODULE);
    for (index, type_id) in [900, -9, 7, 5, 900, -9, 6].into_iter().enumerate() {
        sketch = sketch.item(type_id, LOW, index as u16);
    }
    sketch
}

fn quantities() -> Sketch {
    let mut sketch = Sketch::hull();
    for quantity in [0, 1, 2, 4_294_967_295] {
        sketch = sketch.item(5, CARGO, 0).quantity(quantity);
    }
    sketch
}

fn states() -> Sketch {
    let mut sketch = Sketch::hull();
    for state in OFFLINE..=OVERLOAD {
        sketch = sketch.item(5, RIG, state.into()).state(state);
    }
    sketch
}

fn ids() -> Sketch {
    let mut sketch = Sketch::hull();
    let ids = [i32::MAX, i32::MIN, 0, -1, i32::MIN + 1, i32::MAX - 1, 1, -2];
    for (index, id) in ids.into_iter().enumerate() {
        sketch = sketch.item(id, HIGH, index as u16);
    }
    sketch
}

/// Five types, with pairs of each and of what stands before and behind.
fn around_the_ends() -> Sketch {
    let mut sketch = Sketch::hull();
    let known = [-40, -20, 300, 9_000];
    for id in known {
        sketch = sketch.known(id, 60, CATEGORY_MODULE);
    }
    let asked = [-41, -40, -39, -20, -19, 299, 300, 301, 8_999, 9_000, 9_001];
    for (index, id) in asked.into_iter().enumerate() {
        sketch = sketch.item(id, MEDIUM, index as u16);
    }
    sketch
}

/// Type 5 has marks of a rack and of a hardpoint, and base values that demand
/// a skill, itself missing.
fn marked() -> Sketch {
    Sketch::hull()
        .mark(5, 2)
        .mark(5, 7)
        .base(5, REQUIRED, 5.0)
        .base(5, REQUIRED + 1, 3.0)
        .ship(HARDPOINTS, 0.0)
        .item(5, HIGH, 0)
        .with(REQUIRED, 5.0)
        .with(REQUIRED + 1, 2.0)
        .item(5, MEDIUM, 0)
}

/// A missing type fitted, and one in the hold and in a bay.
fn fitted_and_loaded() -> Sketch {
    Sketch::hull()
        .item(5, HIGH, 0)
        .item(6, CARGO, 0)
        .item(6, DRONE_BAY, 0)
}

/// A banned type, a priced one and a missing one, the last in front.
fn of_all_three() -> Sketch {
    Sketch::hull()
        .known(6, 60, CATEGORY_MODULE)
        .known(7, 61, CATEGORY_MODULE)
        .item(5, HIGH, 0)
        .item(6, HIGH, 1)
        .item(7, HIGH, 2)
        .item(8, CARGO, 0)
}

/// A hull with one item in its hold, with a result or without.
fn loaded(type_id: i32, results: usize) -> Fit {
    let item = Item {
        type_id,
        quantity: 1,
        kind: CARGO,
        ..Item::default()
    };
    Fit {
        items: vec![item],
        results: vec![Outcome::default(); results],
        ..Sketch::hull().fit
    }
}

/// The same, refused.
fn broken() -> Fit {
    Fit {
        mode_flag: 2,
        ..loaded(5, 1)
    }
}

/// The hall of fits, type 9 of which is known; and the first one's list.
fn hall(fits: &[Fit]) -> Case {
    let sketch = Sketch::hull().known(9, 1, CATEGORY_CHARGE);
    let asks = [Ask::Hall, Ask::List(Room::Exact), Ask::List(Room::OneShort)];
    Case {
        fits: fits.to_vec(),
        ..sketch.case("a hall with missing types in holds", &asks)
    }
}

/// The sketch, and what it grows by, in the next free places.
fn grown(sketch: Sketch, added: &[(i32, u8)]) -> Case {
    let items = added
        .iter()
        .enumerate()
        .map(|(number, (type_id, kind))| Item {
            type_id: *type_id,
            quantity: 1,
            kind: *kind,
            index: if *kind == HIGH { 10 + number as u16 } else { 0 },
            ..Item::default()
        });
    let growth = Growth {
        items: items.collect(),
        results: vec![Outcome::default(); added.len()],
        ..Growth::default()
    };
    let asks = [Ask::GrownList, Ask::List(Room::Exact)];
    Case {
        growth,
        ..sketch.case("a fit with missing types that grows by more", &asks)
    }
}
