//! Every rule's sentence, of entries that a call really gave.

use fitcheck::{
    Attribute, CatalogueBuilder, Explainer, FitBuilder, FitItem, ItemResult, ListOptions, Mark,
    Names, Profile, Reader, SkillOptions, Slot, State,
};

const NAMES: &str = "\
587 Rifter
2048 Damage Control II
484 125mm Gatling AutoCannon I
2203 Acolyte I
3329 Minmatar Frigate
group 60 Damage Control
";

const CATEGORY_SHIP: i32 = 6;
const CATEGORY_MODULE: i32 = 7;
const CATEGORY_SKILL: i32 = 16;
const CATEGORY_DRONE: i32 = 18;
const CATEGORY_IMPLANT: i32 = 20;
const CATEGORY_SUBSYSTEM: i32 = 32;
const CATEGORY_STRUCTURE: i32 = 65;
const CATEGORY_STRUCTURE_MODULE: i32 = 66;

/// Every name has the id 1000 + its number; type 587 is a frigate.
fn catalogue() -> CatalogueBuilder {
    let mut catalogue = CatalogueBuilder::new();
    for name in Attribute::ALL {
        catalogue.name(*name, id(*name));
    }
    catalogue
        .effect(12, Mark::HiPower)
        .effect(42, Mark::TurretFitted)
        .effect(40, Mark::LauncherFitted)
        .type_info(587, 25, CATEGORY_SHIP, None)
        .type_info(3329, 257, CATEGORY_SKILL, None)
        .type_info(2203, 100, CATEGORY_DRONE, Some(5.0))
        .type_info(2048, 60, CATEGORY_MODULE, None)
        .type_info(484, 55, CATEGORY_MODULE, None)
        .link(484, 12)
        .link(484, 42);
    catalogue
}

fn id(name: Attribute) -> i32 {
    1000 + i32::from(name.number())
}

fn result() -> ItemResult {
    ItemResult::new(State::Active)
}

/// Room for 8 items in each of the racks, so that no rack is full.
fn roomy() -> ItemResult {
    Attribute::ALL[22..30]
        .iter()
        .fold(result(), |ship, name| ship.with(id(*name), 8.0))
}

fn said(catalogue: &CatalogueBuilder, fit: &FitBuilder) -> Vec<String> {
    let (catalogue, fit) = (catalogue.build().unwrap(), fit.build().unwrap());
    let names = Names::parse(NAMES).unwrap();
    let explainer = Explainer::new(&fit, &names);
    let entries = fitcheck::list(&catalogue, &fit, &ListOptions::new(Reader::Officer)).unwrap();
    let sentences = entries.iter().map(|entry| explainer.explain(entry));
    sentences.collect()
}

#[test]
fn resources() {
    let mut ship = result();
    for pair in Attribute::ALL[..20].chunks(2) {
        ship = ship.with(id(pair[0]), 512.5).with(id(pair[1]), 500.0);
    }
    ship = ship.with(id(Attribute::Capacity), 9.99);
    let mut fit = FitBuilder::new(587);
    fit.ship(ship)
        .character(result().with(id(Attribute::MaxActiveDrones), 5.0))
        .item(FitItem::new(2203, Slot::DroneBay).quantity(6), result())
        .item(FitItem::new(2203, Slot::Cargo).quantity(2), result());
    assert_eq!(
        said(&catalogue(), &fit),
        [
            "CPU: 512.5 of 500 used",
            "Powergrid: 512.5 of 500 used",
            "Calibration: 512.5 of 500 used",
            "Drone bay: 512.5 of 500 used",
            "Drone bandwidth: 512.5 of 500 used",
            "Fighter bay: 512.5 of 500 used",
            "Fighter tubes: 512.5 of 500 used",
            "Light fighter tubes: 512.5 of 500 used",
            "Support fighter tubes: 512.5 of 500 used",
            "Heavy fighter tubes: 512.5 of 500 used",
            "Launched drones: 6 of 5 used",
            "Cargo bay: 10 of 9.99 used",
        ]
    );
}

/// As many drones as a fit holds: a total that 32 bits do not.
#[test]
fn a_whole_hangar() {
    let mut fit = FitBuilder::new(587);
    fit.character(result().with(id(Attribute::MaxActiveDrones), 5.0));
    for _ in 0..256 {
        let stack = FitItem::new(2203, Slot::DroneBay).quantity(u32::MAX);
        fit.item(stack, result());
    }
    assert_eq!(
        said(&catalogue(), &fit),
        ["Launched drones: 1099511627520 of 5 used"]
    );
}

#[test]
fn racks_and_hardpoints() {
    let mut known = catalogue();
    known.type_info(5, 1, CATEGORY_MODULE, None).link(5, 40);
    let mut fit = FitBuilder::new(587);
    fit.ship(result().with(id(Attribute::TurretSlotsLeft), 1.0));
    fit.item(FitItem::new(484, Slot::High(0)), result())
        .item(FitItem::new(484, Slot::High(1)), result())
        .item(FitItem::new(5, Slot::Medium(0)), result())
        .item(FitItem::new(2048, Slot::Low(0)), result())
        .item(FitItem::new(2048, Slot::Rig(0)), result())
        .item(FitItem::new(2048, Slot::Subsystem(0)), result())
        .item(FitItem::new(2048, Slot::Service(0)), result());
    assert_eq!(
        said(&known, &fit),
        [
            "High slots: 2 of 0 used",
            "Medium slots: 1 of 0 used",
            "Low slots: 1 of 0 used",
            "Rig slots: 1 of 0 used",
            "Subsystem slots: 1 of 0 used",
            "Service slots: 1 of 0 used",
            "Turret hardpoints: 2 of 1 used",
            "Launcher hardpoints: 1 of 0 used",
        ]
    );
}

#[test]
fn items_in_the_wrong_place() {
    let mut known = catalogue();
    known.type_info(9, 300, CATEGORY_IMPLANT, None);
    let mut fit = FitBuilder::new(587);
    fit.ship(roomy())
        .item(FitItem::new(484, Slot::Low(2)), result())
        .item(FitItem::new(2203, Slot::Medium(1)), result())
        // Offline, or it would count as launched.
        .item(FitItem::new(2048, Slot::DroneBay), ItemResult::default())
        .item(FitItem::new(2048, Slot::FighterTube(0)), result())
        .item(FitItem::new(2048, Slot::FighterBay), result())
        .item(FitItem::new(2048, Slot::Implant(3)), result())
        .item(
            FitItem::new(9, Slot::Implant(6)),
            result().with(id(Attribute::Implantness), 7.0),
        )
        .item(
            FitItem::new(9, Slot::Booster(300)),
            result().with(id(Attribute::Boosterness), 2.0),
        );
    assert_eq!(
        said(&known, &fit),
        [
            "125mm Gatling AutoCannon I (item 0) is in Low slot 2 and belongs in a high slot",
            "Acolyte I (item 1) is in Medium slot 1 and is not a module",
            "Damage Control II (item 2) is in the drone bay and is not a drone",
            "Damage Control II (item 3) is in Fighter tube 0 and is not a fighter",
            "Damage Control II (item 4) is in the fighter bay and is not a fighter",
            "Damage Control II (item 5) is in Implant slot 3 and is not an implant or booster",
            "item 6 (type 9) is in Implant slot 6 and belongs in slot 7",
            "item 7 (type 9) is in Booster slot 300 and belongs in slot 2",
        ]
    );
}

#[test]
fn shared_slots_name_the_others() {
    let mut fit = FitBuilder::new(587);
    fit.ship(roomy())
        .item(FitItem::new(2048, Slot::Low(2)), result())
        .item(FitItem::new(2048, Slot::Low(3)), result())
        .item(FitItem::new(7, Slot::Low(2)), result());
    let known = {
        let mut known = catalogue();
        known.type_info(7, 1, CATEGORY_MODULE, None);
        known
    };
    assert_eq!(
        said(&known, &fit),
        [
            "Damage Control II (item 0) shares Low slot 2 with item 2 (type 7)",
            "item 2 (type 7) shares Low slot 2 with Damage Control II (item 0)",
        ]
    );

    let mut fit = FitBuilder::new(587);
    fit.ship(roomy());
    for _ in 0..6 {
        fit.item(FitItem::new(7, Slot::High(3)), result());
    }
    // An item without a result is no pair, so it takes no slot.
    fit.item_without_result(FitItem::new(7, Slot::High(3)));
    assert_eq!(
        said(&known, &fit)[5],
        "item 5 (type 7) shares High slot 3 with item 0 (type 7), item 1 (type 7), item 2 (type \
         7) and 2 more items"
    );
}

#[test]
fn subsystems_and_rigs() {
    let mut known = catalogue();
    known.type_info(5, 1, CATEGORY_SUBSYSTEM, None);
    let mut fit = FitBuilder::new(587);
    let part = result().with(id(Attribute::SubSystemSlot), 125.0);
    fit.ship(roomy().with(id(Attribute::RigSize), 1.0))
        .item(FitItem::new(5, Slot::Subsystem(0)), part.clone())
        .item(FitItem::new(5, Slot::Subsystem(1)), part)
        .item(
            FitItem::new(2048, Slot::Rig(0)),
            result().with(id(Attribute::RigSize), 2.0),
        )
        .item(
            FitItem::new(2048, Slot::Rig(1)),
            result().with(id(Attribute::RigSize), 1.5),
        );
    assert_eq!(
        said(&known, &fit),
        [
            "item 0 (type 5) covers the same part of the ship as another subsystem",
            "item 1 (type 5) covers the same part of the ship as another subsystem",
            "Damage Control II (item 2) is a rig of size 2, and the ship takes size 1",
            "Damage Control II (item 3) is a rig of another size than the ship takes; cut to whole \
             numbers both sizes are 1",
        ]
    );
}

#[test]
fn items_that_do_not_go_on_the_hull() {
    let mut known = catalogue();
    known.type_info(5, 1, CATEGORY_STRUCTURE_MODULE, None);
    let mut fit = FitBuilder::new(587);
    fit.ship(roomy())
        .item(
            FitItem::new(2048, Slot::Low(0)),
            result()
                .with(id(Attribute::FitsToShipType), 588.0)
                .with(id(Attribute::Volume), 3500.5),
        )
        .item(FitItem::new(5, Slot::Low(1)), result());
    assert_eq!(
        said(&known, &fit),
        [
            "Damage Control II (item 0) cannot be fitted to this ship, Rifter",
            "Damage Control II (item 0) is a capital module, and the ship is not a capital",
            "item 1 (type 5) goes on structures alone, and the hull is not a structure",
        ]
    );

    known.type_info(6, 1657, CATEGORY_STRUCTURE, None);
    let mut fit = FitBuilder::new(6);
    fit.ship(roomy())
        .item(FitItem::new(2048, Slot::Low(0)), result());
    assert_eq!(
        said(&known, &fit),
        ["Damage Control II (item 0) goes on ships alone, and the hull is a structure"]
    );
}

#[test]
fn limits_of_groups_and_types() {
    let mut fit = FitBuilder::new(587);
    let limited = result()
        .with(id(Attribute::MaxGroupFitted), 1.0)
        .with(id(Attribute::MaxGroupOnline), 1.0)
        .with(id(Attribute::MaxGroupActive), 1.0)
        .with(id(Attribute::MaxTypeFitted), 1.0);
    fit.ship(roomy())
        .item(FitItem::new(2048, Slot::Low(0)), limited)
        .item(FitItem::new(2048, Slot::Low(1)), result())
        .item(
            FitItem::new(484, Slot::High(0)),
            result().with(id(Attribute::MaxGroupFitted), 0.0),
        );
    assert_eq!(
        said(&catalogue(), &fit),
        [
            "2 of Damage Control (group 60) are fitted, and Damage Control II (item 0) allows 1",
            "1 of group 55 are fitted, and 125mm Gatling AutoCannon I (item 2) allows 0",
            "2 of Damage Control (group 60) are online, and Damage Control II (item 0) allows 1",
            "2 of Damage Control (group 60) are active, and Damage Control II (item 0) allows 1",
            "2 of Damage Control II are fitted, and Damage Control II (item 0) allows 1",
        ]
    );
}

#[test]
fn what_a_league_has_to_say() {
    let mut fit = FitBuilder::new(587);
    fit.ship(roomy())
        .item(FitItem::new(2048, Slot::Low(0)), result())
        .item(FitItem::new(484, Slot::High(0)), result())
        .item(FitItem::new(2048, Slot::Low(1)), result());
    let (catalogue, fit) = (catalogue().build().unwrap(), fit.build().unwrap());
    let names = Names::parse(NAMES).unwrap();
    let explainer = Explainer::new(&fit, &names);
    let said = |profile: &Profile, allowance: u32| {
        let image = profile.to_bytes();
        let options = ListOptions::new(Reader::Officer).league(&image, allowance);
        let entries = fitcheck::list(&catalogue, &fit, &options).unwrap();
        explainer.explain_all(&entries)
    };
    let mut profile = Profile::new();
    profile.ban(60).unwrap().ban(55).unwrap();
    assert_eq!(
        said(&profile, 0),
        [
            "Damage Control (group 60) is banned: Damage Control II (items 0, 2)",
            "group 55 is banned: 125mm Gatling AutoCannon I (item 1)",
        ]
    );
    let mut profile = Profile::new();
    profile.price(60, 70).unwrap().price(55, 1).unwrap();
    assert_eq!(said(&profile, 120), ["141 points of 120 allowed"]);
    assert!(said(&profile, 141).is_empty());
    let mut profile = Profile::new();
    profile.price(55, 1).unwrap();
    assert_eq!(said(&profile, 0), ["1 point of 0 allowed"]);
}

/// Said once a type, whatever the slots; the type's id stands beside a name.
#[test]
fn types_that_are_missing() {
    let mut fit = FitBuilder::new(587);
    fit.ship(roomy())
        .item(FitItem::new(34272, Slot::Cargo), result())
        .item(FitItem::new(2048, Slot::Low(0)), result())
        .item(FitItem::new(-9, Slot::Cargo), result())
        .item(FitItem::new(34272, Slot::Cargo).quantity(0), result())
        .item(FitItem::new(3330, Slot::Cargo), result())
        .item_without_result(FitItem::new(34272, Slot::Cargo));
    let known = catalogue();
    let why = "is not in this catalogue: the game no longer has it, or the catalogue is old";
    assert_eq!(
        said(&known, &fit),
        [
            format!("type 34272 (item 0) {why}"),
            format!("type -9 (item 2) {why}"),
            format!("type 34272 (item 3) {why}"),
            format!("type 3330 (item 4) {why}"),
        ]
    );
    let (catalogue, fit) = (known.build().unwrap(), fit.build().unwrap());
    let entries = fitcheck::list(&catalogue, &fit, &ListOptions::new(Reader::Officer)).unwrap();
    let mut names = Names::new();
    names.name_type(3330, "Caldari Frigate");
    assert_eq!(
        Explainer::new(&fit, &names).explain_all(&entries),
        [
            format!("type 34272 (items 0, 3) {why}"),
            format!("type -9 (item 2) {why}"),
            format!("Caldari Frigate (type 3330, item 4) {why}"),
        ]
    );
    // The entry has the type's id, so that it is said without the fit too.
    assert_eq!(
        Explainer::new(&[], &names).explain_all(&entries)[0],
        format!("type 34272 (items 0, 3) {why}")
    );
}

#[test]
fn hull_mode_and_skills() {
    let mut fit = FitBuilder::new(2048);
    assert_eq!(
        said(&catalogue(), &fit),
        ["Damage Control II is not a ship, structure or container, so nothing can be fitted to it"]
    );
    fit = FitBuilder::new(587);
    fit.mode(2048).skill(3329, 1).skill(484, 5).skill(-1, 0);
    assert_eq!(
        said(&catalogue(), &fit),
        [
            "Damage Control II is set as the mode and is not a tactical mode",
            "type -1 is listed as a skill and is not one",
            "125mm Gatling AutoCannon I is listed as a skill and is not one",
        ]
    );
}

#[test]
fn skills_that_are_lacking() {
    let wanting = |level: f64| {
        result()
            .with(id(Attribute::RequiredSkill1), 3329.0)
            .with(id(Attribute::RequiredSkill1Level), level)
    };
    let mut fit = FitBuilder::new(587);
    fit.skill(3329, 2)
        .ship(wanting(3.0))
        .character(wanting(4.0))
        .item(FitItem::new(2048, Slot::Low(0)), wanting(5.0))
        .result_without_item(wanting(5.0));
    let (catalogue, fit) = (catalogue().build().unwrap(), fit.build().unwrap());
    let names = Names::parse(NAMES).unwrap();
    let explainer = Explainer::new(&fit, &names);
    let said = |result: u32| {
        let entries = fitcheck::skills(
            &catalogue,
            &fit,
            result,
            &SkillOptions::new(Reader::Officer),
        )
        .unwrap();
        assert_eq!(entries.len(), 1);
        explainer.explain_skill(result, &entries[0])
    };
    assert_eq!(
        said(0),
        "Rifter (the ship) needs Minmatar Frigate at level 3, and it is trained to level 2"
    );
    assert_eq!(
        said(1),
        "the character needs Minmatar Frigate at level 4, and it is trained to level 2"
    );
    assert_eq!(
        said(2),
        "Damage Control II (item 0) needs Minmatar Frigate at level 5, and it is trained to level 2"
    );
    assert_eq!(
        said(3),
        "item 1 needs Minmatar Frigate at level 5, and it is trained to level 2"
    );
    let entries =
        fitcheck::skills(&catalogue, &fit, 0, &SkillOptions::new(Reader::Officer)).unwrap();
    assert_eq!(
        explainer.explain(&entries[0]),
        "the fit needs Minmatar Frigate at level 3, and it is trained to level 2"
    );
}

/// Of items of one type about which the same is said all stand in one
/// sentence; a slot that is shared stands once; nothing else is lost.
#[test]
fn what_repeats_is_said_once() {
    let (limit, restricted) = (
        id(Attribute::MaxGroupFitted),
        id(Attribute::CanFitShipType1),
    );
    let mut fit = FitBuilder::new(587);
    fit.ship(roomy())
        .item(
            FitItem::new(2048, Slot::Low(0)),
            result().with(limit, 1.0).with(restricted, 1.0),
        )
        .item(
            FitItem::new(2048, Slot::Low(0)),
            result().with(limit, 1.0).with(restricted, 1.0),
        )
        .item(FitItem::new(2048, Slot::Low(2)), result().with(limit, 2.0))
        .item(
            FitItem::new(484, Slot::High(1)),
            result().with(restricted, 1.0),
        )
        .item(FitItem::new(99, Slot::High(1)), result());
    let (catalogue, fit) = (catalogue().build().unwrap(), fit.build().unwrap());
    let entries = fitcheck::list(&catalogue, &fit, &ListOptions::new(Reader::Officer)).unwrap();
    let names = Names::parse(NAMES).unwrap();
    assert_eq!(
        Explainer::new(&fit, &names).explain_all(&entries),
        [
            "Low slot 0 is shared by Damage Control II (items 0, 1)",
            "High slot 1 is shared by 125mm Gatling AutoCannon I (item 3) and item 4 (type 99)",
            "item 4 (type 99) is in High slot 1 and is not a module",
            "Damage Control II (items 0, 1) cannot be fitted to this ship, Rifter",
            "125mm Gatling AutoCannon I (item 3) cannot be fitted to this ship, Rifter",
            "3 of Damage Control (group 60) are fitted, and Damage Control II (items 0, 1) allows 1",
            "3 of Damage Control (group 60) are fitted, and Damage Control II (item 2) allows 2",
            "type 99 (item 4) is not in this catalogue: the game no longer has it, or the \
             catalogue is old",
        ]
    );
    assert_eq!(
        Explainer::new(&fit, &Names::new()).explain_all(&entries)[0],
        "Low slot 0 is shared by type 2048 (items 0, 1)"
    );
    // Without the fit nobody knows of what type the items are.
    let blind = Explainer::new(&[], &names).explain_all(&entries);
    let together = "each of items 0, 1, 3 cannot be fitted to this ship";
    assert!(blind.iter().any(|said| said == together), "{blind:?}");
}

#[test]
fn skills_that_several_items_lack_are_said_once() {
    let wanting = |level: f64| {
        result()
            .with(id(Attribute::RequiredSkill1), 3329.0)
            .with(id(Attribute::RequiredSkill1Level), level)
    };
    let mut fit = FitBuilder::new(587);
    fit.ship(wanting(3.0))
        .character(wanting(3.0))
        .item(FitItem::new(484, Slot::High(0)), wanting(3.0))
        .item(FitItem::new(484, Slot::High(1)), wanting(4.0))
        .item(FitItem::new(484, Slot::High(2)), wanting(3.0))
        .item(FitItem::new(2048, Slot::Low(0)), wanting(3.0));
    let (catalogue, fit) = (catalogue().build().unwrap(), fit.build().unwrap());
    let mut lacking = Vec::new();
    for result in 0..6 {
        let skills = fitcheck::skills(
            &catalogue,
            &fit,
            result,
            &SkillOptions::new(Reader::Officer),
        )
        .unwrap();
        lacking.extend(skills.into_iter().map(|entry| (result, entry)));
    }
    let names = Names::parse(NAMES).unwrap();
    let rest = "at level 3, and it is not trained";
    assert_eq!(
        Explainer::new(&fit, &names).explain_all_skills(&lacking),
        [
            &format!("Rifter (the ship) needs Minmatar Frigate {rest}"),
            &format!("the character needs Minmatar Frigate {rest}"),
            &format!("125mm Gatling AutoCannon I (items 0, 2) needs Minmatar Frigate {rest}"),
            "125mm Gatling AutoCannon I (item 1) needs Minmatar Frigate at level 4, and it is not \
             trained",
            &format!("Damage Control II (item 3) needs Minmatar Frigate {rest}"),
        ]
    );
}
