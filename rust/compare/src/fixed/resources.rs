//! Loads, launched drones and cargo at their corners.

use super::Make;
use crate::case::{Case, Growth};
use crate::generate::growth::grown;
use crate::model::Item;
use crate::names::*;
use crate::numbers::{FUSED_DIFFERS, limit};
use crate::sketch::*;

pub const CASES: &[Make] = &[
    || {
        let mut sketch = Sketch::hull();
        for row in 0..10 {
            let number = row as f64;
            sketch = sketch
                .ship(LOADS + 2 * row, number + 2.0)
                .ship(LOADS + 2 * row + 1, number + 1.0);
        }
        sketch.list("all ten loads over")
    },
    || load(1.0, 1.0, "a load at what is available"),
    || load(limit(7.0), 7.0, "a load at the edge"),
    || load(limit(7.0).next_up(), 7.0, "a load one step over the edge"),
    || fused(0, 0),
    || fused(0, 1),
    || fused(1, 0),
    || fused(1, 1),
    || load(1e-10, 0.0, "a little used of nothing"),
    || load(-0.0, -1.0, "minus zero used of less"),
    || load(0.0, -0.0, "zero used of minus zero"),
    || {
        load(
            f64::INFINITY,
            f64::MAX,
            "infinity used of the largest number",
        )
    },
    || load(f64::INFINITY, 1e300, "infinity used of a large number"),
    || load(f64::NAN, 1.0, "NaN used"),
    || load(5.0, f64::NAN, "NaN available"),
    || load(f64::NEG_INFINITY, f64::NEG_INFINITY, "minus infinity twice"),
    || load(-1e9 + 0.5, -1e9, "within the slack below zero"),
    || load(-1e9 - 0.5, -1e9, "within a slack of the wrong sign"),
    || load(1e9 + 0.5, 1e9, "within the slack"),
    || load(f64::from_bits(2), f64::from_bits(1), "subnormal amounts"),
    || {
        Sketch::hull()
            .ship(LOADS, 3.0)
            .list("a load without an output's id")
    },
    || {
        Sketch::hull()
            .name(LOADS)
            .ship(LOADS + 1, -1.0)
            .list("no load, less than nothing available")
    },
    || {
        Sketch::hull()
            .name(LOADS + 1)
            .ship(LOADS, 1.0)
            .list("a load, no output")
    },
    || {
        Sketch::hull()
            .ship(LOADS + 1, -1.0)
            .list("an output below zero without a load's id")
    },
    || {
        Sketch::hull()
            .name(LOADS)
            .name(LOADS + 1)
            .character(LOADS, 9.0)
            .list("a load on the character")
    },
    || drones(3, ACTIVE, 2.0),
    || drones(2, ACTIVE, 2.0),
    || drones(3, OVERLOAD, 2.0),
    || drones(3, ONLINE, 2.0),
    || drones(3, OFFLINE, 2.0),
    || drones(4_294_967_295, ACTIVE, 2.0),
    || drones(4_294_967_295, ACTIVE, 4_294_967_295.0),
    || drones(0, ACTIVE, -1.0),
    || drones(1, ACTIVE, f64::NAN),
    || {
        Sketch::hull()
            .known(9, 1, CATEGORY_DRONE)
            .name(MAX_ACTIVE_DRONES)
            .ship(MAX_ACTIVE_DRONES, 9.0)
            .item(9, DRONE_BAY, 0)
            .state(ACTIVE)
            .list("maxActiveDrones on the ship")
    },
    || {
        Sketch::hull()
            .known(9, 1, CATEGORY_FIGHTER)
            .name(MAX_ACTIVE_DRONES)
            .item(9, FIGHTER_TUBE, 0)
            .state(ACTIVE)
            .item(9, FIGHTER_BAY, 0)
            .state(ACTIVE)
            .list("fighters are no drones")
    },
    || big_drones().list("over 32 bits of drones"),
    || {
        big_drones()
            .nameless(MAX_ACTIVE_DRONES)
            .list("over 32 bits of drones, no id for maxActiveDrones")
    },
    || {
        let mut sketch = big_drones();
        sketch.catalogue.types[0].category = 7;
        sketch.list("over 32 bits of drones on no hull")
    },
    || big_drones().skills("over 32 bits of drones, skill call", 0),
    || {
        let mut sketch = big_drones();
        sketch.fit.results[1].state = ONLINE;
        sketch.list("over 32 bits of drones, one stack not active")
    },
    || {
        let mut sketch = big_drones();
        sketch.fit.results.truncate(1);
        sketch.list("over 32 bits of drones, one stack without a result")
    },
    || {
        let mut sketch = big_drones();
        sketch.fit.items[1].kind = CARGO;
        sketch.list("over 32 bits of drones, one stack in cargo")
    },
    || {
        let mut sketch = big_drones();
        sketch.fit.items[0].quantity = 4_294_967_294;
        sketch.list("exactly 4,294,967,295 drones")
    },
    || full_hangar().list("256 stacks of the largest quantity"),
    || led(full_hangar(), 1_099_511_627_520.0),
    || led(full_hangar(), 1_099_511_626_421.0),
    || led(full_hangar(), 1_099_511_626_420.0),
    || led(big_drones(), 4_294_967_295.0),
    || led(big_drones(), 4_294_967_292.0),
    || led(big_drones(), 4_294_967_291.0),
    || led(big_drones(), 1e300),
    || led(big_drones(), f64::NAN),
    || led(big_drones(), f64::INFINITY),
    || led(big_drones(), f64::NEG_INFINITY),
    || led(big_drones(), -1.0),
    || {
        big_drones()
            .mode(40)
            .skill(77, 1)
            .ship(LOADS, 2.0)
            .ship(LOADS + 1, 1.0)
            .ship(CAPACITY, -1.0)
            .item(9, HIGH, 0)
            .list("over 32 bits of drones between a load and cargo")
    },
    || launched_behind(4_294_967_295, &[1], 2.0),
    || launched_behind(4_294_967_295, &[4_294_967_295, 1], 4_294_967_290.0),
    || launched_behind(3, &[u32::MAX; 255], 2.0),
    || launched_behind(3, &[u32::MAX; 255], 1e300),
    || cargo(&[(0.5, 3)], 1.5),
    || cargo(&[(0.5, 4)], 1.5),
    || cargo(&[], 0.0),
    || cargo(&[], -1.0),
    || cargo(&[(-0.0, 7)], -1.0),
    || cargo(&[(-1.0, 0)], -1.0),
    || cargo(&[(0.0, 7)], -1.0),
    || cargo(&[(-0.0, 1), (0.0, 1)], -1.0),
    || cargo(&[(2.0, 1), (-2.0, 1)], -1.0),
    || cargo(&[(-0.0, 1), (-0.0, 4)], -2.0),
    || cargo(&[(f32::INFINITY, 1)], 5.0),
    || cargo(&[(f32::INFINITY, 1), (f32::NEG_INFINITY, 1)], 5.0),
    || cargo(&[(f32::INFINITY, 0)], 5.0),
    || cargo(&[(f32::NAN, 1)], 5.0),
    || cargo(&[(f32::MAX, u32::MAX), (1.0, 1)], 1e40),
    || cargo(&[(0.1, 3), (0.2, 5), (0.7, 11), (1e10, 1), (0.3, 7)], 1.0),
    || cargo(&[(1e16, 1), (1.0, 1), (1.0, 1), (1.0, 1), (-1e16, 1)], 0.5),
    || cargo(&[(1e16, 1), (1.0, 1), (1.0, 1)], 1.0),
    || cargo(&[(16_777_216.0, 1), (1.0, 1)], 16_777_216.5),
    // Rounded once, product and sum together give another last digit.
    || {
        let volumes = [0x3C2C_5998, 0x3DA6_49C1].map(f32::from_bits);
        cargo(
            &[(volumes[0], 2_755_385_480), (volumes[1], 3_520_945_500)],
            1.0,
        )
    },
    || {
        Sketch::hull()
            .known(9, 1, CATEGORY_CHARGE)
            .name(CAPACITY)
            .item(9, CARGO, 0)
            .item(10, CARGO, 0)
            .list("cargo without volume, cargo without type")
    },
    || {
        let mut sketch = Sketch::hull()
            .known(9, 1, CATEGORY_CHARGE)
            .name(CAPACITY)
            .item(9, CARGO, 0);
        sketch.catalogue.types[1].volume = 5f32.to_bits();
        sketch.list("volume bits under flag 0")
    },
    || {
        Sketch::hull()
            .known(9, 1, CATEGORY_CHARGE)
            .volume(2.0)
            .name(CAPACITY)
            .unpaired(9, CARGO, 0)
            .list("cargo without a result")
    },
    || {
        Sketch::hull()
            .known(9, 1, CATEGORY_DRONE)
            .volume(2.0)
            .name(MAX_ACTIVE_DRONES)
            .name(CAPACITY)
            .item(9, CARGO, 0)
            .item(9, DRONE_BAY, 0)
            .state(ACTIVE)
            .list("drones, then cargo")
    },
];

fn load(used: f64, available: f64, title: &str) -> Case {
    Sketch::hull()
        .ship(LOADS, used)
        .ship(LOADS + 1, available)
        .list(title)
}

/// So many steps over the edge of an amount that a fused limit has elsewhere.
fn fused(which: usize, steps: u32) -> Case {
    let available = f64::from_bits(FUSED_DIFFERS[which]);
    let used = (0..steps).fold(limit(available), |used, _| used.next_up());
    load(used, available, "an edge that a fused limit has elsewhere")
}

fn drones(quantity: u32, state: u8, available: f64) -> Case {
    Sketch::hull()
        .known(9, 1, CATEGORY_DRONE)
        .character(MAX_ACTIVE_DRONES, available)
        .item(9, DRONE_BAY, 0)
        .quantity(quantity)
        .state(state)
        .list("one stack of drones")
}

fn big_drones() -> Sketch {
    Sketch::hull()
        .known(9, 1, CATEGORY_DRONE)
        .name(MAX_ACTIVE_DRONES)
        .item(9, DRONE_BAY, 0)
        .quantity(4_294_967_295)
        .state(ACTIVE)
        .item(9, DRONE_BAY, 0)
        .state(ACTIVE)
}

/// As many drones as a fit holds.
fn full_hangar() -> Sketch {
    let mut sketch = big_drones();
    sketch.fit.items = vec![sketch.fit.items[0]; 256];
    sketch.fit.results = vec![sketch.fit.results[0].clone(); 256];
    sketch
}

fn led(hangar: Sketch, most: f64) -> Case {
    hangar
        .character(MAX_ACTIVE_DRONES, most)
        .list("over 32 bits of drones, of a number")
}

/// One stack of drones, and others that are put behind it.
fn launched_behind(first: u32, added: &[u32], most: f64) -> Case {
    let mut sketch = big_drones().character(MAX_ACTIVE_DRONES, most).finish();
    let stack = sketch.fit.items[0];
    let active = sketch.fit.results[0].clone();
    sketch.fit.items.truncate(1);
    sketch.fit.results.truncate(1);
    sketch.fit.items[0].quantity = first;
    let behind = added.iter().map(|quantity| Item {
        quantity: *quantity,
        ..stack
    });
    let growth = Growth {
        items: behind.collect(),
        results: vec![active; added.len()],
        ..Growth::default()
    };
    grown("drones behind drones", sketch.catalogue, sketch.fit, growth)
}

/// Types from 600 on, one for each volume and quantity.
fn cargo(loaded: &[(f32, u32)], capacity: f64) -> Case {
    let mut sketch = Sketch::hull().ship(CAPACITY, capacity);
    for (number, (volume, quantity)) in loaded.iter().enumerate() {
        let id = 600 + number as i32;
        sketch = sketch
            .known(id, 1, CATEGORY_CHARGE)
            .volume(*volume)
            .item(id, CARGO, 0)
            .quantity(*quantity);
    }
    sketch.list("cargo")
}
