//! Every rule's 24 bytes, as document 01 lays them out.

use crate::common::*;
use compare::names::*;
use compare::sketch::*;

#[test]
fn every_resource_has_its_number_in_the_enums_order() {
    // LOADS leaves out LaunchedDrones (5) and CargoBay (11).
    for (row, number) in [0, 1, 2, 3, 4, 6, 7, 8, 9, 10].into_iter().enumerate() {
        let sketch = Sketch::hull()
            .ship(LOADS + 2 * row, 7.5)
            .ship(LOADS + 2 * row + 1, 7.0);
        assert_list(sketch, &[resource(number, 7.5, 7.0)]);
    }
}

#[test]
fn launched_drones_are_those_at_active_or_above_in_the_bay() {
    let sketch = Sketch::hull()
        .known(9, 100, CATEGORY_DRONE)
        .character(MAX_ACTIVE_DRONES, 5.0)
        .item(9, DRONE_BAY, 0)
        .quantity(4)
        .state(ACTIVE)
        .item(9, DRONE_BAY, 0)
        .quantity(100)
        .state(ONLINE)
        .item(9, DRONE_BAY, 0)
        .quantity(2)
        .state(OVERLOAD);
    assert_list(sketch, &[resource(5, 6.0, 5.0)]);
}

#[test]
fn cargo_is_volume_times_quantity() {
    let sketch = Sketch::hull()
        .known(600, 1, CATEGORY_CHARGE)
        .volume(0.25)
        .known(601, 1, CATEGORY_CHARGE)
        .ship(CAPACITY, 1.0)
        .item(600, CARGO, 0)
        .quantity(6)
        .item(601, CARGO, 0)
        .quantity(900)
        .item(602, CARGO, 0)
        .quantity(900);
    assert_list(sketch, &[resource(11, 1.5, 1.0), unknown(2, 602)]);
}

#[test]
fn slots_carry_the_rack_and_both_counts() {
    for rack in 0..6u8 {
        let sketch = Sketch::hull()
            .known(5, 1, CATEGORY_MODULE)
            .ship(RACKS + usize::from(rack), 1.9)
            .item(5, rack, 0)
            .item(5, rack, 1);
        assert_list(sketch, &[entry(0, 2, rack, 0, [2, 1, 0, 0])]);
    }
    for hardpoint in 0..2u8 {
        let sketch = Sketch::hull()
            .known(5, 1, CATEGORY_MODULE)
            .mark(5, 7 + u32::from(hardpoint))
            .name(HARDPOINTS + usize::from(hardpoint))
            .item(5, HIGH, 0)
            .item(5, LOW, 0)
            .item(5, CARGO, 0);
        assert_list(sketch, &[entry(0, 2, 6 + hardpoint, 0, [2, 0, 0, 0])]);
    }
}

#[test]
fn wrong_slot_has_its_slot_in_sub_and_an_empty_payload() {
    for mark in 2..=6 {
        let sketch = Sketch::hull()
            .known(5, 1, CATEGORY_MODULE)
            .mark(5, mark)
            .item(5, HIGH, 0);
        assert_list(sketch, &[entry(1, 3, mark as u8 - 1, 0, [0; 4])]);
    }
}

#[test]
fn items_that_are_none_of_their_kind() {
    let placed = |kind: u8, category: i32| Sketch::hull().known(5, 1, category).item(5, kind, 0);
    assert_list(placed(HIGH, CATEGORY_DRONE), &[item(0, 4)]);
    assert_list(placed(DRONE_BAY, CATEGORY_MODULE), &[item(0, 5)]);
    assert_list(placed(FIGHTER_TUBE, CATEGORY_DRONE), &[item(0, 6)]);
    assert_list(placed(FIGHTER_BAY, CATEGORY_DRONE), &[item(0, 6)]);
    assert_list(placed(IMPLANT, CATEGORY_MODULE), &[item(0, 7)]);
    assert_list(placed(BOOSTER, CATEGORY_MODULE), &[item(0, 7)]);
    assert_list(placed(CARGO, CATEGORY_MODULE), &[]);
    assert_list(placed(SUBSYSTEM, CATEGORY_SUBSYSTEM), &[]);
}

#[test]
fn a_wrong_index_shows_the_right_one() {
    let numbered = |kind: u8, index: u16, name: usize, value: f64| {
        Sketch::hull()
            .known(5, 1, CATEGORY_IMPLANT)
            .item(5, kind, index)
            .with(name, value)
    };
    assert_list(
        numbered(IMPLANT, 6, IMPLANTNESS, 7.9),
        &[entry(1, 9, 0, 0, [7, 0, 0, 0])],
    );
    assert_list(
        numbered(BOOSTER, 1, BOOSTERNESS, 65_536.0),
        &[entry(1, 9, 0, 0, [65_535, 0, 0, 0])],
    );
    assert_list(numbered(BOOSTER, 300, BOOSTERNESS, 300.0), &[]);
    assert_list(numbered(IMPLANT, 0, IMPLANTNESS, f64::NAN), &[]);
}

#[test]
fn ship_restrictions_and_their_casts() {
    let restricted = |name: usize, value: f64| {
        Sketch::hull()
            .known(5, 1, CATEGORY_MODULE)
            .item(5, HIGH, 0)
            .with(name, value)
    };
    assert_list(restricted(SHIP_TYPES, 587.9), &[]);
    assert_list(restricted(SHIP_TYPES, 586.9), &[item(0, 13)]);
    assert_list(restricted(SHIP_GROUPS + 19, 25.0), &[]);
    assert_list(restricted(SHIP_GROUPS + 19, 26.0), &[item(0, 13)]);
}

#[test]
fn structure_items_on_ships_and_ship_items_on_structures() {
    let on_ship = Sketch::hull()
        .known(5, 1, CATEGORY_STRUCTURE_MODULE)
        .item(5, HIGH, 0);
    assert_list(on_ship, &[item(0, 15)]);
    let on_structure = Sketch::of(35_832, 1657, CATEGORY_STRUCTURE)
        .known(5, 1, CATEGORY_MODULE)
        .item(5, HIGH, 0);
    assert_list(on_structure, &[item(0, 16)]);
}

#[test]
fn group_limits_go_by_limit_and_then_by_pair() {
    let mut sketch = Sketch::hull().known(5, 8, CATEGORY_MODULE);
    for (index, state) in [ACTIVE, ONLINE, OFFLINE].into_iter().enumerate() {
        sketch = sketch
            .item(5, HIGH, index as u16)
            .state(state)
            .with(GROUP_LIMITS, 2.5)
            .with(GROUP_LIMITS + 1, 1.0)
            .with(GROUP_LIMITS + 2, 0.0);
    }
    let max_group = |limit: u8, index: u32, used: u32, allowed: u32| {
        entry(1, 17, limit, index, [8, used, allowed, 0])
    };
    assert_list(
        sketch,
        &[
            max_group(0, 0, 3, 2),
            max_group(0, 1, 3, 2),
            max_group(0, 2, 3, 2),
            max_group(1, 0, 2, 1),
            max_group(1, 1, 2, 1),
            max_group(1, 2, 2, 1),
            max_group(2, 0, 1, 0),
            max_group(2, 1, 1, 0),
            max_group(2, 2, 1, 0),
        ],
    );
}

#[test]
fn ids_stand_as_their_32_bits() {
    let sketch = Sketch::hull()
        .known(-5, -8, CATEGORY_MODULE)
        .skill(-1, 0)
        .item(-5, HIGH, 0)
        .with(GROUP_LIMITS, 0.0)
        .with(MAX_TYPE_FITTED, 0.0);
    assert_list(
        sketch,
        &[
            entry(0, 21, 0, 0, [0xFFFF_FFFF, 0, 0, 0]),
            entry(1, 17, 0, 0, [0xFFFF_FFF8, 1, 0, 0]),
            entry(1, 18, 0, 0, [0xFFFF_FFFB, 1, 0, 0]),
        ],
    );
}

#[test]
fn a_skill_entry_carries_id_required_and_trained() {
    let sketch = Sketch::hull()
        .skill(3300, 2)
        .item(5, CARGO, 0)
        .with(REQUIRED + 10, 3300.0)
        .with(REQUIRED + 11, 4.0);
    let expected = [entry(1, 11, 0, 0, [3300, 4, 2, 0])];
    assert_skills(sketch.clone(), 2, &expected);
    assert_skills(sketch.clone(), 0, &[]);
    assert_skills(sketch, 1, &[]);
}

#[test]
fn ship_and_character_skills_are_listed_on_the_ship() {
    let sketch = Sketch::hull()
        .ship(REQUIRED, 1.0)
        .ship(REQUIRED + 1, 1.0)
        .character(REQUIRED, 2.0)
        .character(REQUIRED + 1, 2.0)
        .result()
        .with(REQUIRED, 3.0)
        .with(REQUIRED + 1, 3.0);
    assert_skills(sketch.clone(), 0, &[entry(0, 11, 0, 0, [1, 1, 0, 0])]);
    assert_skills(sketch.clone(), 1, &[entry(0, 11, 0, 0, [2, 2, 0, 0])]);
    assert_skills(sketch, 2, &[entry(1, 11, 0, 0, [3, 3, 0, 0])]);
}
