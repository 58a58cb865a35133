//! Document 01's edges, its program's example, and the mistakes that members
//! would notice, asked of every checker.

use crate::common::*;
use compare::names::*;
use compare::sketch::*;

#[test]
fn twenty_and_thirty_six_zero_bytes_give_not_a_hull() {
    let expected = Given::Entries(vec![ship(19)]);
    assert_list_of(&[0; 20], &[0; 36], &expected);
}

#[test]
fn a_hull_alone_breaks_nothing() {
    assert_list(Sketch::hull(), &[]);
}

fn load(used: f64, available: f64) -> Sketch {
    Sketch::hull().ship(LOADS, used).ship(LOADS + 1, available)
}

#[test]
fn the_edges_of_over() {
    assert_list(load(1_000_000_001.0, 1_000_000_000.0), &[]);
    assert_list(
        load(1_000_000_002.0, 1_000_000_000.0),
        &[resource(0, 1_000_000_002.0, 1_000_000_000.0)],
    );
    assert_list(load(-999_999_999.0, -1_000_000_000.0), &[]);
    assert_list(load(f64::INFINITY, f64::NEG_INFINITY), &[]);
    assert_list(load(5.0, f64::NEG_INFINITY), &[]);
    assert_list(load(f64::NAN, 0.0), &[]);
    assert_list(load(1.0, f64::NAN), &[]);
}

#[test]
fn the_edges_of_the_cast_to_u8() {
    for (size, shown) in [(f64::NAN, 0), (-1.0, 0), (255.9, 255), (256.0, 255)] {
        let sketch = Sketch::hull()
            .known(5, 1, CATEGORY_MODULE)
            .ship(RIG_SIZE, 7.0)
            .item(5, RIG, 0)
            .with(RIG_SIZE, size);
        assert_list(sketch, &[entry(1, 12, 0, 0, [7, shown, 0, 0])]);
    }
}

#[test]
fn minus_two_point_seven_is_minus_two_as_an_id() {
    let sketch = Sketch::hull().ship(REQUIRED, -2.7).ship(REQUIRED + 1, 1.0);
    let minus_two = 0xFFFF_FFFE;
    assert_skills(sketch, 0, &[entry(0, 11, 0, 0, [minus_two, 1, 0, 0])]);
}

fn in_high_slot(volume: f64) -> Sketch {
    Sketch::hull()
        .known(5, 1, CATEGORY_MODULE)
        .name(IS_CAPITAL_SIZE)
        .item(5, HIGH, 0)
        .with(VOLUME, volume)
}

#[test]
fn a_volume_of_3500_is_no_capital_item() {
    assert_list(in_high_slot(3500.0), &[]);
    assert_list(in_high_slot(3500.5), &[item(0, 14)]);
}

#[test]
fn skills_that_demand_each_other_stand_once_at_the_highest_level() {
    let sketch = Sketch::hull()
        .ship(REQUIRED, 1.0)
        .ship(REQUIRED + 1, 3.0)
        .base(1, REQUIRED, 2.0)
        .base(1, REQUIRED + 1, 1.0)
        .base(2, REQUIRED, 1.0)
        .base(2, REQUIRED + 1, 4.0);
    assert_skills(
        sketch,
        0,
        &[
            entry(0, 11, 0, 0, [1, 4, 0, 0]),
            entry(0, 11, 0, 0, [2, 1, 0, 0]),
        ],
    );
}

#[test]
fn mistake_one_rig_sizes_are_compared_before_they_are_cast() {
    let sketch = Sketch::hull()
        .known(5, 1, CATEGORY_MODULE)
        .ship(RIG_SIZE, 1.0)
        .item(5, RIG, 0)
        .with(RIG_SIZE, 1.5);
    assert_list(sketch, &[entry(1, 12, 0, 0, [1, 1, 0, 0])]);
}

#[test]
fn mistake_two_both_items_in_a_slot_are_listed() {
    let sketch = Sketch::hull()
        .known(5, 1, CATEGORY_MODULE)
        .item(5, HIGH, 3)
        .item(5, HIGH, 3);
    assert_list(sketch, &[item(0, 8), item(1, 8)]);
}

#[test]
fn mistake_three_two_nan_parts_are_not_equal() {
    let parts = |first: f64, second: f64| {
        Sketch::hull()
            .known(5, 1, CATEGORY_SUBSYSTEM)
            .item(5, SUBSYSTEM, 0)
            .with(SUBSYSTEM_SLOT, first)
            .item(5, SUBSYSTEM, 1)
            .with(SUBSYSTEM_SLOT, second)
    };
    assert_list(parts(f64::NAN, f64::NAN), &[]);
    assert_list(parts(125.0, 125.0), &[item(0, 10), item(1, 10)]);
    assert_list(parts(0.0, -0.0), &[item(0, 10), item(1, 10)]);
}

#[test]
fn an_empty_cargo_sum_is_plus_zero() {
    let sketch = Sketch::hull().ship(CAPACITY, -1.0);
    assert_list(sketch, &[resource(11, 0.0, -1.0)]);
}

#[test]
fn a_load_keeps_the_sign_of_its_zero() {
    assert_list(load(-0.0, -1.0), &[resource(0, -0.0, -1.0)]);
}

#[test]
fn not_a_hull_stands_alone() {
    let sketch = Sketch::of(30, 25, CATEGORY_MODULE)
        .skill(77, 1)
        .mode(5)
        .ship(LOADS, 2.0)
        .ship(LOADS + 1, 1.0);
    assert_list(sketch, &[ship(19)]);
}

#[test]
fn the_list_goes_mode_skills_loads_drones_cargo_racks_hardpoints_checks_items() {
    let sketch = Sketch::hull()
        .known(9, 100, CATEGORY_CHARGE)
        .volume(2.0)
        .mark(9, 2)
        .mark(9, 7)
        .mode(1)
        .skill(5, 1)
        .skill(4, 1)
        .ship(LOADS, 2.0)
        .ship(LOADS + 1, 1.0)
        .name(MAX_ACTIVE_DRONES)
        .name(CAPACITY)
        .name(RACKS)
        .name(HARDPOINTS)
        .item(9, HIGH, 0)
        .with(MAX_TYPE_FITTED, 0.0)
        .item(9, DRONE_BAY, 0)
        .state(ACTIVE)
        .item(9, CARGO, 0);
    assert_list(
        sketch,
        &[
            ship(20),
            entry(0, 21, 0, 0, [4, 0, 0, 0]),
            entry(0, 21, 0, 0, [5, 0, 0, 0]),
            resource(0, 2.0, 1.0),
            resource(5, 1.0, 0.0),
            resource(11, 2.0, 0.0),
            entry(0, 2, 0, 0, [1, 0, 0, 0]),
            entry(0, 2, 6, 0, [1, 0, 0, 0]),
            entry(1, 3, 1, 0, [0; 4]),
            item(0, 4),
            item(1, 5),
            entry(1, 18, 0, 0, [9, 1, 0, 0]),
        ],
    );
}

#[test]
fn a_nan_capital_size_is_not_zero() {
    let sketch = in_high_slot(4000.0);
    assert_list(sketch.clone(), &[item(0, 14)]);
    assert_list(sketch.clone().ship(IS_CAPITAL_SIZE, -0.0), &[item(0, 14)]);
    assert_list(sketch.ship(IS_CAPITAL_SIZE, f64::NAN), &[]);
}

#[test]
fn rig_sizes_that_show_the_same_can_differ() {
    let rig = |ship: f64, rig: f64| {
        Sketch::hull()
            .known(5, 1, CATEGORY_MODULE)
            .ship(RIG_SIZE, ship)
            .item(5, RIG, 0)
            .with(RIG_SIZE, rig)
    };
    assert_list(rig(f64::NAN, f64::NAN), &[entry(1, 12, 0, 0, [0; 4])]);
    assert_list(rig(300.0, 400.0), &[entry(1, 12, 0, 0, [255, 255, 0, 0])]);
    assert_list(rig(0.0, -0.0), &[]);
}

#[test]
fn a_standup_mark_is_anything_but_zero() {
    for (mark, is_set) in [
        (1.0, true),
        (-1.0, true),
        (f64::NAN, true),
        (f64::from_bits(1), true),
        (0.0, false),
        (-0.0, false),
    ] {
        let sketch = Sketch::hull()
            .known(5, 1, CATEGORY_FIGHTER)
            .item(5, FIGHTER_BAY, 0)
            .with(STANDUP_FIGHTERS + 2, mark);
        let expected = if is_set { vec![item(0, 15)] } else { vec![] };
        assert_list(sketch, &expected);
    }
}

#[test]
fn the_limit_of_over_can_be_infinite() {
    assert_list(load(f64::INFINITY, f64::MAX), &[]);
    assert_list(
        load(f64::INFINITY, 1e300),
        &[resource(0, f64::INFINITY, 1e300)],
    );
}

#[test]
fn a_missing_name_skips_its_line_and_a_missing_value_is_zero() {
    // Load without an output's id: skipped. Output without a value: 0.
    assert_list(Sketch::hull().ship(LOADS, 3.0), &[]);
    assert_list(
        Sketch::hull().ship(LOADS, 3.0).name(LOADS + 1),
        &[resource(0, 3.0, 0.0)],
    );
    // Standup still reads the category where none of its names has an id.
    let sketch = Sketch::hull()
        .known(5, 1, CATEGORY_STRUCTURE_MODULE)
        .item(5, SERVICE, 0);
    assert_list(sketch, &[item(0, 15)]);
}

#[test]
fn pairs_are_the_first_of_items_and_results() {
    let crowded = |sketch: Sketch| sketch.known(5, 1, CATEGORY_MODULE).name(RACKS);
    let two = crowded(Sketch::hull()).item(5, HIGH, 0).item(5, HIGH, 0);
    assert_list(
        two,
        &[entry(0, 2, 0, 0, [2, 0, 0, 0]), item(0, 8), item(1, 8)],
    );
    let one = crowded(Sketch::hull())
        .item(5, HIGH, 0)
        .unpaired(5, HIGH, 0);
    assert_list(one, &[entry(0, 2, 0, 0, [1, 0, 0, 0])]);
}

#[test]
fn of_a_types_marks_the_last_rack_and_the_last_hardpoint_win() {
    let sketch = Sketch::hull()
        .known(5, 1, CATEGORY_MODULE)
        .mark(5, 3)
        .mark(5, 8)
        .mark(5, 7)
        .link(5, 99)
        .mark(5, 2)
        .name(HARDPOINTS)
        .name(HARDPOINTS + 1)
        .item(5, HIGH, 0);
    assert_list(
        sketch,
        &[entry(0, 2, 6, 0, [1, 0, 0, 0]), entry(1, 3, 1, 0, [0; 4])],
    );
}

#[test]
fn of_base_values_the_first_in_stored_order_counts() {
    let sketch = Sketch::hull()
        .ship(REQUIRED, 1.0)
        .name(REQUIRED + 1)
        .base(1, REQUIRED, 3.0)
        .base(1, REQUIRED, 2.0)
        .base(1, REQUIRED + 1, 4.0)
        .base(1, REQUIRED + 1, 5.0);
    assert_skills(sketch, 0, &[entry(0, 11, 0, 0, [3, 4, 0, 0])]);
}
