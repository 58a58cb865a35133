//! What a catalogue leaves unchecked, held against what the library really
//! stops to list where a name or a mark is taken away.

use std::collections::BTreeSet;

use fitcheck::{
    Attribute, CatalogueBuilder, CatalogueImage, FitBuilder, FitItem, ItemResult, ListOptions,
    Mark, Missing, Reader, Rule, SkillOptions, Slot, State, Unchecked,
};

fn id(name: Attribute) -> i32 {
    1000 + i32::from(name.number())
}

fn result() -> ItemResult {
    ItemResult::new(State::Active)
}

/// A frigate, and a catalogue but for one name and one mark.
fn catalogue(name: Option<Attribute>, mark: Option<Mark>) -> CatalogueBuilder {
    let mut catalogue = CatalogueBuilder::new();
    for other in Attribute::ALL.iter().filter(|it| Some(**it) != name) {
        catalogue.name(*other, id(*other));
    }
    for other in Mark::ALL[1..].iter().filter(|it| Some(**it) != mark) {
        catalogue.effect(other.number().into(), *other);
    }
    catalogue
        .type_info(587, 25, 6, None)
        .type_info(1, 60, 7, Some(5.0));
    // A module for each kind of rack, with a hardpoint.
    for mark in 1..=8 {
        catalogue.type_info(100 + mark, 60 + mark, 7, None);
        catalogue.link(100 + mark, mark);
    }
    catalogue.type_info(200, 100, 18, None);
    catalogue.type_info(201, 300, 20, None);
    catalogue.type_info(202, 1652, 87, None);
    catalogue
}

/// A fit that breaks each rule that asks for a name, once for each name.
fn fit() -> FitBuilder {
    let mut ship = result();
    for load in Attribute::ALL[..20].chunks(2) {
        ship = ship.with(id(load[0]), 2.0).with(id(load[1]), 1.0);
    }
    let mut fit = FitBuilder::new(587);
    // Every rack and both hardpoints have no room, cargo and drones neither.
    fit.ship(ship.with(id(Attribute::RigSize), 1.0));
    // Types 101 to 106 in racks that are not theirs, 107 and 108 on hardpoints.
    for (slot, type_id) in [
        (Slot::Medium(0), 101),
        (Slot::Low(0), 102),
        (Slot::Rig(0), 103),
        (Slot::Subsystem(0), 104),
        (Slot::Service(0), 105),
        (Slot::High(0), 106),
        (Slot::High(1), 107),
        (Slot::High(2), 108),
    ] {
        fit.item(FitItem::new(type_id, slot), result());
    }
    fit.item(FitItem::new(200, Slot::DroneBay), result())
        .item(FitItem::new(1, Slot::Cargo), result())
        .item(
            FitItem::new(201, Slot::Implant(1)),
            result().with(id(Attribute::Implantness), 2.0),
        )
        .item(
            FitItem::new(201, Slot::Booster(1)),
            result().with(id(Attribute::Boosterness), 2.0),
        );
    for slot in [1, 2] {
        fit.item(
            FitItem::new(1, Slot::Subsystem(slot)),
            result().with(id(Attribute::SubSystemSlot), 7.0),
        );
    }
    fit.item(
        FitItem::new(1, Slot::Rig(1)),
        result().with(id(Attribute::RigSize), 3.0),
    );
    // One item for each name that could name the ship, and names another.
    for (slot, name) in (10..).zip(&Attribute::ALL[34..67]) {
        let other = result().with(id(*name), 5.0);
        fit.item(FitItem::new(1, Slot::Low(slot)), other);
    }
    fit.item(
        FitItem::new(1, Slot::Low(1)),
        result().with(id(Attribute::Volume), 4000.0),
    );
    for (tube, name) in (0..).zip(&Attribute::ALL[69..72]) {
        let standup = result().with(id(*name), 1.0);
        fit.item(FitItem::new(202, Slot::FighterTube(tube)), standup);
    }
    for (slot, name) in (100..).zip(&Attribute::ALL[72..76]) {
        let limited = result().with(id(*name), 0.0);
        fit.item(FitItem::new(1, Slot::Low(slot)), limited);
    }
    for (slot, pair) in (120..).zip(Attribute::ALL[76..].chunks(2)) {
        let wanting = result().with(id(pair[0]), 3300.0).with(id(pair[1]), 1.0);
        fit.item(FitItem::new(1, Slot::Low(slot)), wanting);
    }
    fit
}

/// What is said of the fit, but for numbers: the rule, its resource, slot or
/// limit, and the item.
fn said(catalogue: &CatalogueBuilder, fit: &[u8]) -> BTreeSet<(String, String)> {
    let catalogue = catalogue.build().unwrap();
    let results = fitcheck::FitImage::new(fit).unwrap().results() as u32 + 2;
    let mut entries = fitcheck::list(&catalogue, fit, &ListOptions::new(Reader::Officer)).unwrap();
    for result in 0..results {
        let skills = fitcheck::skills(&catalogue, fit, result, &SkillOptions::new(Reader::Officer));
        entries.extend(skills.unwrap());
    }
    let one = |entry: &fitcheck::Entry| {
        let sub = match entry.rule {
            Rule::Resource { resource, .. } => resource.to_string(),
            Rule::Slots { slot, .. } => slot.to_string(),
            Rule::WrongSlot { expected } => expected.to_string(),
            Rule::MaxGroup { limit, .. } => limit.to_string(),
            _ => String::new(),
        };
        (
            entry.rule.name().to_string(),
            format!("{sub} {:?}", entry.target),
        )
    };
    entries.iter().map(one).collect()
}

/// The rules that list less where one name or mark is missing.
fn lost(name: Option<Attribute>, mark: Option<Mark>) -> BTreeSet<String> {
    let fit = fit().build().unwrap();
    let before = said(&catalogue(None, None), &fit);
    let after = said(&catalogue(name, mark), &fit);
    assert!(after.is_subset(&before), "nothing is listed instead");
    let lost = before.difference(&after);
    lost.map(|(rule, _)| rule.clone()).collect()
}

fn rules(unchecked: &[Unchecked]) -> BTreeSet<String> {
    unchecked.iter().map(|it| it.rule.to_string()).collect()
}

#[test]
fn each_name_that_is_missing_turns_off_what_is_said() {
    for name in Attribute::ALL {
        let missing = catalogue(Some(*name), None).missing();
        assert_eq!(missing.names, [*name]);
        let unchecked = missing.unchecked();
        assert_eq!(unchecked.len(), 1, "{name}");
        assert_eq!(unchecked[0].names, [*name]);
        assert_eq!(rules(&unchecked), lost(Some(*name), None), "{name}");
    }
}

#[test]
fn each_mark_that_is_missing_turns_off_what_is_said() {
    for mark in &Mark::ALL[1..] {
        let missing = catalogue(None, Some(*mark)).missing();
        assert_eq!(missing.marks, [*mark]);
        let unchecked = missing.unchecked();
        assert_eq!(unchecked.len(), 1, "{mark}");
        assert_eq!(unchecked[0].marks, [*mark]);
        assert_eq!(rules(&unchecked), lost(None, Some(*mark)), "{mark}");
    }
}

#[test]
fn the_image_lacks_what_the_builder_lacks() {
    for (name, mark) in [
        (None, None),
        (Some(Attribute::CpuLoad), Some(Mark::LauncherFitted)),
        (Some(Attribute::RequiredSkill6Level), Some(Mark::HiPower)),
    ] {
        let builder = catalogue(name, mark);
        let image = builder.build().unwrap();
        let read = CatalogueImage::new(&image).unwrap();
        assert_eq!(read.missing(), builder.missing());
        assert_eq!(read.missing_names(), builder.missing_names());
        assert_eq!(read.missing().is_empty(), name.is_none());
        for cut in [0, 19, image.len() - 1] {
            assert!(CatalogueImage::new(&image[..cut]).is_none());
        }
    }
    let empty = CatalogueBuilder::new().missing();
    assert_eq!((empty.names.len(), empty.marks.len()), (88, 8));
}

#[test]
fn what_is_missing_is_said_in_one_sentence() {
    assert_eq!(Missing::default().to_string(), "");
    let missing = catalogue(Some(Attribute::Volume), Some(Mark::TurretFitted)).missing();
    assert_eq!(
        missing.to_string(),
        "the catalogue has no id for 1 of 88 attribute names (volume) and no effect for 1 of 8 \
         slot marks (turretFitted), so these are not checked: slots of the ship (turret); capital \
         modules"
    );
    let all = CatalogueBuilder::new().missing().to_string();
    assert_eq!(
        all,
        "the catalogue has no id for 88 of 88 attribute names and no effect for 8 of 8 slot marks, \
         so these are not checked: resources; slots of the ship; modules in a slot of another kind; \
         slots of implants and boosters; subsystems for the same part; rig sizes; which ships an \
         item goes on; capital modules; fighters of structures; how many there may be of a group; \
         how many there may be of a type; required skills"
    );
}

/// What the sentence leaves out where all parts of a rule are lost, the list
/// has part by part.
#[test]
fn every_part_of_a_rule_is_listed() {
    let all = CatalogueBuilder::new().missing().unchecked();
    let parts = |rule: &str| all.iter().filter(|it| it.rule == rule).count();
    for (rule, count) in [
        ("resource", 12),
        ("slots", 8),
        ("wrong_slot", 6),
        ("skill", 6),
    ] {
        assert_eq!(parts(rule), count, "{rule}");
    }
    let what: Vec<&str> = all.iter().map(|it| it.what.as_str()).collect();
    assert_eq!(what[0], "resources (CPU)");
    assert!(what.contains(&"modules in a slot of another kind (rig)"));
    assert!(what.contains(&"required skills (sixth)"));
}
