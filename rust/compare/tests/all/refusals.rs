//! Document 01's refusals: its example for each number, both sides of each
//! limit, and the order in which they are given.

use crate::common::*;
use compare::checker::{Terms, refused};
use compare::model::{Base, Catalogue, Effect, Fit, Item, Link, Name, Outcome, Skill, Type};
use compare::names::*;
use compare::sketch::*;

fn a_type(id: i32) -> Type {
    Type {
        id,
        group: 0,
        category: 0,
        flag: 0,
        volume: 0,
    }
}

/// The list call of a catalogue with an empty fit.
fn assert_catalogue(catalogue: Catalogue, expected: Given) {
    assert_list_of(&catalogue.image(), &[0; 36], &expected);
}

/// The list call of a fit under an empty catalogue.
fn assert_fit(fit: Fit, expected: Given) {
    assert_list_of(&[0; 20], &fit.image(), &expected);
}

/// Answered: no catalogue row is a hull.
fn no_hull() -> Given {
    Given::Entries(vec![ship(19)])
}

#[test]
fn refusal_1_for_3_bytes_and_for_every_length_unlike_its_sizes() {
    assert_list_of(&[0; 3], &[0; 36], &Given::Refusal(1));
    for length in (0..40).filter(|length| *length != 20) {
        assert_list_of(&vec![0; length], &[0; 36], &Given::Refusal(1));
    }
    // N = 2^29: 8 N is 2^32, which is 0 in 32 bits.
    let mut wraps = [0; 20];
    wraps[3] = 0x20;
    assert_list_of(&wraps, &[0; 36], &Given::Refusal(1));
}

#[test]
fn refusal_2_for_types_5_5() {
    let catalogue = |ids: &[i32]| Catalogue {
        types: ids.iter().map(|id| a_type(*id)).collect(),
        ..Catalogue::default()
    };
    assert_catalogue(catalogue(&[5, 5]), Given::Refusal(2));
    assert_catalogue(catalogue(&[5, 4]), Given::Refusal(2));
    assert_catalogue(catalogue(&[5, -4]), Given::Refusal(2));
    assert_catalogue(catalogue(&[-4, 5]), no_hull());
}

#[test]
fn names_and_effects_ascend_strictly_too() {
    let names = |numbers: &[u32]| Catalogue {
        names: numbers
            .iter()
            .map(|number| Name {
                number: *number,
                attribute: 7,
            })
            .collect(),
        ..Catalogue::default()
    };
    assert_catalogue(names(&[3, 3]), Given::Refusal(2));
    assert_catalogue(names(&[3, 2]), Given::Refusal(2));
    assert_catalogue(names(&[2, 3]), no_hull());
    let effects = |ids: &[i32]| Catalogue {
        effects: ids.iter().map(|id| Effect { id: *id, mark: 0 }).collect(),
        ..Catalogue::default()
    };
    assert_catalogue(effects(&[3, 3]), Given::Refusal(2));
    assert_catalogue(effects(&[1, -1]), Given::Refusal(2));
    assert_catalogue(effects(&[-1, 1]), no_hull());
}

#[test]
fn links_and_bases_may_repeat_and_never_descend() {
    let links = |ids: &[i32]| Catalogue {
        links: ids
            .iter()
            .map(|id| Link {
                type_id: *id,
                effect: 1,
            })
            .collect(),
        ..Catalogue::default()
    };
    assert_catalogue(links(&[-5, 5, 5]), no_hull());
    assert_catalogue(links(&[5, 4]), Given::Refusal(2));
    let bases = |ids: &[i32]| Catalogue {
        bases: ids
            .iter()
            .map(|id| Base {
                type_id: *id,
                attribute: 1,
                value: 0,
            })
            .collect(),
        ..Catalogue::default()
    };
    assert_catalogue(bases(&[-5, 5, 5]), no_hull());
    assert_catalogue(bases(&[5, -4]), Given::Refusal(2));
}

#[test]
fn refusal_3_for_mark_9_name_88_and_flag_2() {
    let mark = |mark: u32| Catalogue {
        effects: vec![Effect { id: 1, mark }],
        ..Catalogue::default()
    };
    assert_catalogue(mark(9), Given::Refusal(3));
    assert_catalogue(mark(8), no_hull());
    let name = |number: u32| Catalogue {
        names: vec![Name {
            number,
            attribute: 0,
        }],
        ..Catalogue::default()
    };
    assert_catalogue(name(88), Given::Refusal(3));
    assert_catalogue(name(87), no_hull());
    let flag = |flag: u32| Catalogue {
        types: vec![Type { flag, ..a_type(1) }],
        ..Catalogue::default()
    };
    assert_catalogue(flag(2), Given::Refusal(3));
    assert_catalogue(flag(1), no_hull());
}

#[test]
fn name_numbers_are_unsigned() {
    // Ascending as unsigned, so the order holds and the number is too high.
    let catalogue = Catalogue {
        names: [5, u32::MAX]
            .map(|number| Name {
                number,
                attribute: 0,
            })
            .to_vec(),
        ..Catalogue::default()
    };
    assert_catalogue(catalogue, Given::Refusal(3));
}

fn of_sizes(skills: i32, items: usize, results: usize, attributes: i32) -> Fit {
    Fit {
        skills: (0..skills).map(|id| Skill { id, level: 0 }).collect(),
        items: vec![Item::default(); items],
        results: vec![Outcome::default(); results],
        ship: Outcome {
            attributes: (0..attributes).map(|id| (id, 0)).collect(),
            ..Outcome::default()
        },
        ..Fit::default()
    }
}

#[test]
fn refusal_4_for_257_items_and_every_other_limit() {
    assert_fit(of_sizes(0, 257, 0, 0), Given::Refusal(4));
    assert_fit(of_sizes(0, 0, 257, 0), Given::Refusal(4));
    assert_fit(of_sizes(1_025, 0, 0, 0), Given::Refusal(4));
    assert_fit(of_sizes(0, 0, 0, 30_001), Given::Refusal(4));
    assert_fit(of_sizes(1_024, 256, 256, 30_000), no_hull());
}

#[test]
fn refusal_4_for_lengths_and_counts() {
    for length in (0..80).filter(|length| *length != 36) {
        assert_list_of(&[0; 20], &vec![0; length], &Given::Refusal(4));
    }
    let counted = |count: u16| {
        let mut fit = of_sizes(0, 0, 0, 2);
        fit.ship.count = Some(count);
        fit
    };
    assert_fit(counted(1), Given::Refusal(4));
    assert_fit(counted(3), Given::Refusal(4));
    assert_fit(counted(2), no_hull());
}

#[test]
fn refusal_5_for_skills_9_4() {
    let skills = |ids: &[i32]| Fit {
        skills: ids.iter().map(|id| Skill { id: *id, level: 0 }).collect(),
        ..Fit::default()
    };
    assert_fit(skills(&[9, 4]), Given::Refusal(5));
    assert_fit(skills(&[4, 4]), Given::Refusal(5));
    assert_fit(skills(&[-9, 4]), no_hull());
}

#[test]
fn refusal_5_for_attributes_within_one_result_only() {
    let attributes = |ship: &[i32], character: &[i32]| {
        let outcome = |ids: &[i32]| Outcome {
            attributes: ids.iter().map(|id| (*id, 0)).collect(),
            ..Outcome::default()
        };
        Fit {
            ship: outcome(ship),
            character: outcome(character),
            ..Fit::default()
        }
    };
    assert_fit(attributes(&[1, 1], &[]), Given::Refusal(5));
    assert_fit(attributes(&[], &[3, -2]), Given::Refusal(5));
    assert_fit(attributes(&[1, 5], &[1, 5]), no_hull());
}

#[test]
fn refusal_6_for_state_4_and_every_other_field() {
    let state = |ship: u8, character: u8, item: u8| {
        let mut fit = of_sizes(0, 0, 1, 0);
        fit.ship.state = ship;
        fit.character.state = character;
        fit.results[0].state = item;
        fit
    };
    assert_fit(state(4, 0, 0), Given::Refusal(6));
    assert_fit(state(0, 4, 0), Given::Refusal(6));
    assert_fit(state(0, 0, 4), Given::Refusal(6));
    assert_fit(state(3, 3, 3), no_hull());

    let mode = |mode_flag: u32, mode: i32| Fit {
        mode_flag,
        mode,
        ..Fit::default()
    };
    assert_fit(mode(2, 0), Given::Refusal(6));
    assert_fit(mode(0, 1), Given::Refusal(6));
    assert_fit(mode(1, 0), no_hull());
    assert_fit(mode(1, -7), no_hull());

    let mut zero = of_sizes(0, 0, 1, 0);
    zero.results[0].zero = 1;
    assert_fit(zero, Given::Refusal(6));
}

#[test]
fn refusal_6_for_kinds_and_indices() {
    let item = |kind: u8, zero: u8, index: u16| Fit {
        items: vec![Item {
            type_id: 1,
            quantity: 1,
            kind,
            zero,
            index,
        }],
        ..Fit::default()
    };
    assert_fit(item(12, 0, 0), Given::Refusal(6));
    assert_fit(item(0, 1, 0), Given::Refusal(6));
    for kind in [0, 1, 2, 3, 4, 5, 6, 8] {
        assert_fit(item(kind, 0, 255), no_hull());
        assert_fit(item(kind, 0, 256), Given::Refusal(6));
    }
    assert_fit(item(9, 0, 65_535), no_hull());
    for kind in [7, 10, 11] {
        assert_fit(item(kind, 0, 0), no_hull());
        assert_fit(item(kind, 0, 1), Given::Refusal(6));
    }
}

fn drones(first: u32, second: u32) -> Sketch {
    Sketch::hull()
        .known(9, 1, CATEGORY_DRONE)
        .name(MAX_ACTIVE_DRONES)
        .item(9, DRONE_BAY, 0)
        .quantity(first)
        .state(ACTIVE)
        .item(9, DRONE_BAY, 0)
        .quantity(second)
        .state(ACTIVE)
}

/// Document 02: "Total the stacks without loss and answer." 7 stood for these.
#[test]
fn two_active_stacks_over_32_bits_are_answered() {
    assert_list(
        drones(4_294_967_295, 1),
        &[resource(5, 4_294_967_296.0, 0.0)],
    );
    assert_list(
        drones(4_294_967_295, 4_294_967_295).character(MAX_ACTIVE_DRONES, 5.0),
        &[resource(5, 8_589_934_590.0, 5.0)],
    );
    assert_list(
        drones(4_294_967_294, 1),
        &[resource(5, 4_294_967_295.0, 0.0)],
    );
    assert_list(drones(4_294_967_295, 1).nameless(MAX_ACTIVE_DRONES), &[]);
    assert_skills(drones(4_294_967_295, 1), 0, &[]);
}

/// "256 stacks of the largest quantity still convert exactly to f64."
#[test]
fn as_many_drones_as_a_fit_holds_are_totalled_without_loss() {
    let mut sketch = drones(4_294_967_295, 4_294_967_295);
    sketch.fit.items = vec![sketch.fit.items[0]; 256];
    sketch.fit.results = vec![sketch.fit.results[0].clone(); 256];
    let total = 1_099_511_627_520.0;
    assert_eq!(total as u64, (1 << 40) - 256);
    assert_list(sketch.clone(), &[resource(5, total, 0.0)]);
    let led = |most: f64| sketch.clone().character(MAX_ACTIVE_DRONES, most);
    assert_list(led(total), &[]);
    // 1e-9 of the limit is its slack: 1,099.5 drones.
    assert_list(led(total - 1_099.0), &[]);
    assert_list(led(total - 1_100.0), &[resource(5, total, total - 1_100.0)]);
}

#[test]
fn a_hangar_is_clear_where_it_is_not_over_its_limit() {
    for most in [4_294_967_296.0, 1e300, f64::MAX, f64::INFINITY] {
        let hangar = drones(4_294_967_295, 1).character(MAX_ACTIVE_DRONES, most);
        assert_list(hangar, &[]);
    }
    // A limit of minus infinity is never passed, nor is one that is no number.
    for most in [f64::NEG_INFINITY, f64::NAN] {
        let hangar = drones(4_294_967_295, 1).character(MAX_ACTIVE_DRONES, most);
        assert_list(hangar, &[]);
    }
}

#[test]
fn refusal_8_for_result_2_where_there_is_none() {
    assert_skill_of(&[0; 20], &[0; 36], 2, &Given::Refusal(8));
    assert_skill_of(&[0; 20], &[0; 36], u32::MAX, &Given::Refusal(8));
    assert_skill_of(&[0; 20], &[0; 36], 1, &Given::Entries(vec![]));
    let fit = of_sizes(0, 0, 1, 0).image();
    assert_skill_of(&[0; 20], &fit, 2, &Given::Entries(vec![]));
    assert_skill_of(&[0; 20], &fit, 3, &Given::Refusal(8));
}

/// Skills 1 to `length`, each demanding the next at level 1, the first demanded
/// by the ship at level 1.
fn chain(length: u32) -> Sketch {
    let mut sketch = Sketch::hull().ship(REQUIRED, 1.0).ship(REQUIRED + 1, 1.0);
    for id in 1..length as i32 {
        sketch = sketch
            .base(id, REQUIRED, (id + 1) as f32)
            .base(id, REQUIRED + 1, 1.0);
    }
    sketch
}

#[test]
fn refusal_9_for_a_chain_of_513() {
    let entries: Vec<Vec<u8>> = (1..=512)
        .map(|id| entry(0, 11, 0, 0, [id, 1, 0, 0]))
        .collect();
    assert_skills(chain(512), 0, &entries);
    let sketch = chain(513).finish();
    let (catalogue, fit) = (sketch.catalogue.image(), sketch.fit.image());
    assert_skill_of(&catalogue, &fit, 0, &Given::Refusal(9));
    // The list call does not walk.
    assert_list(chain(513), &[]);
}

#[test]
fn refusal_10_for_23_bytes_and_one_entry() {
    for (name, checker) in checkers() {
        let mut out = [0xC3; 24];
        assert_eq!(
            checker.list(&[0; 20], &[0; 36], Terms::default(), &mut out[..23]),
            refused(10),
            "{name}"
        );
        assert_eq!(out, [0xC3; 24], "{name}: nothing is written");
        assert_eq!(
            checker.list(&[0; 20], &[0; 36], Terms::default(), &mut out),
            1,
            "{name}"
        );
        assert_eq!(out.to_vec(), ship(19), "{name}");
    }
}

#[test]
fn an_empty_list_needs_no_buffer() {
    let sketch = Sketch::hull().finish();
    let (catalogue, fit) = (sketch.catalogue.image(), sketch.fit.image());
    for (name, checker) in checkers() {
        assert_eq!(
            checker.list(&catalogue, &fit, Terms::default(), &mut []),
            0,
            "{name}"
        );
        let word = checker.skill(&catalogue, &fit, 0, Terms::default(), &mut []);
        assert_eq!(word, 0, "{name}");
    }
}

#[test]
fn a_broken_order_anywhere_comes_before_a_bad_mark() {
    let catalogue = Catalogue {
        effects: vec![Effect { id: 1, mark: 9 }],
        bases: [2, 1]
            .map(|type_id| Base {
                type_id,
                attribute: 0,
                value: 0,
            })
            .to_vec(),
        ..Catalogue::default()
    };
    assert_catalogue(catalogue, Given::Refusal(2));
}

#[test]
fn the_catalogue_is_judged_before_the_fit() {
    let catalogue = Catalogue {
        effects: vec![Effect { id: 1, mark: 9 }],
        ..Catalogue::default()
    };
    assert_list_of(&catalogue.image(), &[0; 3], &Given::Refusal(3));
    assert_list_of(&[0; 3], &[0; 3], &Given::Refusal(1));
}

#[test]
fn ids_are_judged_before_fields_and_fields_before_the_result_number() {
    let mut fit = of_sizes(0, 0, 0, 2);
    fit.ship.attributes.reverse();
    fit.ship.state = 9;
    assert_skill_of(&[0; 20], &fit.image(), 7, &Given::Refusal(5));
    fit.ship.attributes.reverse();
    assert_skill_of(&[0; 20], &fit.image(), 7, &Given::Refusal(6));
    fit.ship.state = 0;
    assert_skill_of(&[0; 20], &fit.image(), 7, &Given::Refusal(8));
}

#[test]
fn counting_comes_before_the_buffer() {
    let chain = chain(513).finish();
    for (name, checker) in checkers() {
        let (catalogue, fit) = (chain.catalogue.image(), chain.fit.image());
        let word = checker.skill(&catalogue, &fit, 0, Terms::default(), &mut []);
        assert_eq!(word, refused(9), "{name}");
    }
}

#[test]
fn a_hangar_without_room_is_refused_by_10() {
    let drones = drones(4_294_967_295, 1).finish();
    let (catalogue, fit) = (drones.catalogue.image(), drones.fit.image());
    for (name, checker) in checkers() {
        for length in [0, 23] {
            let mut out = vec![0xC3; length];
            let word = checker.list(&catalogue, &fit, Terms::default(), &mut out);
            assert_eq!(word, refused(10), "{name}");
            assert_eq!(out, vec![0xC3; length], "{name}: nothing is written");
        }
    }
}
