//! A catalogue of a few types, fits of a Rifter, and what is wrong with them in
//! sentences.
//!
//! With a folder behind it, `cargo run --example rifter -- FOLDER`, it also
//! writes the catalogue, the names and the fits there, for the command
//! `fitcheck` to read.

#![forbid(unsafe_code)]

use std::error::Error;
use std::path::Path;
use std::{env, fs};

use fitcheck::{
    Attribute, BuildError, CatalogueBuilder, Explainer, FitBuilder, FitItem, ItemResult,
    ListOptions, Mark, Names, Reader, SkillOptions, Slot, State,
};

const NAMES: &str = "\
# Types by their id; a group has the word before it.
587 Rifter
484 125mm Gatling AutoCannon I
2048 Damage Control II
3300 Gunnery
3302 Small Projectile Turret
3329 Minmatar Frigate
3394 Hull Upgrades
group 60 Damage Control
";

const RIFTER: i32 = 587;
const AUTOCANNON: i32 = 484;
const DAMAGE_CONTROL: i32 = 2048;
const GUNNERY: i32 = 3300;
const SMALL_PROJECTILE_TURRET: i32 = 3302;
const MINMATAR_FRIGATE: i32 = 3329;
const HULL_UPGRADES: i32 = 3394;

// What none of the fits names: another ship, and a module with its skill.
const SLASHER: i32 = 585;
const SHIELD_EXTENDER: i32 = 377;
const SHIELD_UPGRADES: i32 = 3425;

// Attribute ids of the type data.
const POWER_OUTPUT: i32 = 11;
const LOW_SLOTS: i32 = 12;
const HI_SLOTS: i32 = 14;
const POWER_LOAD: i32 = 15;
const CPU_OUTPUT: i32 = 48;
const CPU_LOAD: i32 = 49;
const TURRETS: i32 = 102;
const REQUIRED_SKILL: i32 = 182;
const REQUIRED_LEVEL: i32 = 277;
const MAX_GROUP_FITTED: i32 = 1544;

// Of the 88 names the rules ask for, those that these fits have values for.
const NAMES_USED: [(Attribute, i32); 10] = [
    (Attribute::PowerOutput, POWER_OUTPUT),
    (Attribute::PowerLoad, POWER_LOAD),
    (Attribute::CpuOutput, CPU_OUTPUT),
    (Attribute::CpuLoad, CPU_LOAD),
    (Attribute::LowSlots, LOW_SLOTS),
    (Attribute::HiSlots, HI_SLOTS),
    (Attribute::TurretSlotsLeft, TURRETS),
    (Attribute::RequiredSkill1, REQUIRED_SKILL),
    (Attribute::RequiredSkill1Level, REQUIRED_LEVEL),
    (Attribute::MaxGroupFitted, MAX_GROUP_FITTED),
];

/// What the rules have to know of the type data.
fn catalogue() -> Result<Vec<u8>, BuildError> {
    let mut catalogue = CatalogueBuilder::new();
    for (name, attribute_id) in NAMES_USED {
        catalogue.name(name, attribute_id);
    }
    // A name without an id turns its rules off, and the command warns of it. A
    // site has all ids in its type data; here any others will do.
    for name in catalogue.missing_names() {
        catalogue.name(name, 100_000 + i32::from(name.number()));
    }
    for (mark, effect_id) in Mark::ALL[1..]
        .iter()
        .zip([12, 13, 11, 2663, 3772, 6306, 42, 40])
    {
        catalogue.effect(effect_id, *mark);
    }
    // Type, group, category, volume.
    catalogue
        .type_info(RIFTER, 25, 6, Some(27_289.0))
        .type_info(SLASHER, 25, 6, Some(17_400.0))
        .type_info(SHIELD_EXTENDER, 38, 7, Some(5.0))
        .type_info(AUTOCANNON, 55, 7, Some(5.0))
        .type_info(DAMAGE_CONTROL, 60, 7, Some(5.0));
    for skill in [
        GUNNERY,
        SMALL_PROJECTILE_TURRET,
        MINMATAR_FRIGATE,
        HULL_UPGRADES,
    ] {
        catalogue.type_info(skill, 255, 16, Some(0.01));
    }
    catalogue
        .link(AUTOCANNON, 12)
        .link(AUTOCANNON, 42)
        .link(DAMAGE_CONTROL, 11)
        .link(SHIELD_EXTENDER, 13)
        .base(SHIELD_EXTENDER, REQUIRED_SKILL, SHIELD_UPGRADES.into())
        .base(SHIELD_EXTENDER, REQUIRED_LEVEL, 1.0)
        // One skill asks for another.
        .base(SMALL_PROJECTILE_TURRET, REQUIRED_SKILL, GUNNERY.into())
        .base(SMALL_PROJECTILE_TURRET, REQUIRED_LEVEL, 1.0);
    catalogue.build()
}

/// What most pilots here have trained.
const TRAINED: [(i32, u8); 3] = [(MINMATAR_FRIGATE, 3), (GUNNERY, 1), (HULL_UPGRADES, 4)];

fn rifter(damage_controls: u8) -> FitBuilder {
    flown_by(&TRAINED, damage_controls)
}

/// A Rifter with three guns and as many damage controls as asked for, and what
/// its pilot has trained. The loads are what a calculation of the fit would give.
fn flown_by(trained: &[(i32, u8)], damage_controls: u8) -> FitBuilder {
    let wanting = |state: State, skill: i32, level: f64| {
        ItemResult::new(state)
            .with(REQUIRED_SKILL, f64::from(skill))
            .with(REQUIRED_LEVEL, level)
    };
    let mut fit = FitBuilder::new(RIFTER);
    for (skill, level) in trained {
        fit.skill(*skill, *level);
    }
    fit.ship(
        wanting(State::Online, MINMATAR_FRIGATE, 1.0)
            .with(POWER_OUTPUT, 41.0)
            .with(POWER_LOAD, 3.0 + f64::from(damage_controls))
            .with(CPU_OUTPUT, 130.0)
            .with(CPU_LOAD, 12.6 + 60.0 * f64::from(damage_controls))
            .with(HI_SLOTS, 4.0)
            .with(LOW_SLOTS, 4.0)
            .with(TURRETS, 3.0),
    );
    for slot in 0..3 {
        fit.item(
            FitItem::new(AUTOCANNON, Slot::High(slot)),
            wanting(State::Active, SMALL_PROJECTILE_TURRET, 1.0),
        );
    }
    for _ in 0..damage_controls {
        fit.item(
            FitItem::new(DAMAGE_CONTROL, Slot::Low(0)),
            wanting(State::Online, HULL_UPGRADES, 4.0).with(MAX_GROUP_FITTED, 1.0),
        );
    }
    fit
}

/// A Rifter with two damage controls in one slot, the second of which was
/// never calculated: it has no result, so no rule looks at it.
fn half() -> Result<Vec<u8>, BuildError> {
    let mut fit = rifter(1);
    fit.item_without_result(FitItem::new(DAMAGE_CONTROL, Slot::Low(0)));
    fit.build()
}

/// A type that a patch took out of the game: the catalogue does not have it.
const GONE: i32 = 34272;

/// A Rifter from before the patch, with one of these fitted and more in its
/// hold.
fn old() -> Result<Vec<u8>, BuildError> {
    let mut fit = rifter(1);
    fit.item(
        FitItem::new(GONE, Slot::High(3)),
        ItemResult::new(State::Online),
    )
    .item(
        FitItem::new(GONE, Slot::Cargo).quantity(20),
        ItemResult::new(State::Offline),
    );
    fit.build()
}

/// A Rifter whose pilot has a gun among the trained skills: a list that was
/// pasted in the wrong place.
fn pasted() -> Result<Vec<u8>, BuildError> {
    let mut fit = rifter(1);
    fit.skill(AUTOCANNON, 5);
    fit.build()
}

/// A Rifter whose pilot has a plan to make: the guns are still to be learnt.
fn rookie() -> Result<Vec<u8>, BuildError> {
    flown_by(&[(MINMATAR_FRIGATE, 3), (HULL_UPGRADES, 2)], 1).build()
}

/// The catalogue, the names, the fits, one that was calculated half, one that
/// was cut short on its way, and beside them an old one, one whose training is
/// wrong and one whose training is to come.
pub fn write(folder: &Path) -> Result<(), Box<dyn Error>> {
    let fits = folder.join("fits");
    fs::create_dir_all(&fits)?;
    fs::write(folder.join("types.bin"), catalogue()?)?;
    fs::write(folder.join("names.txt"), NAMES)?;
    fs::write(fits.join("one.fit"), rifter(1).build()?)?;
    fs::write(fits.join("two.fit"), rifter(2).build()?)?;
    fs::write(fits.join("half.fit"), half()?)?;
    fs::write(fits.join("cut.fit"), &rifter(1).build()?[..100])?;
    fs::write(folder.join("old.fit"), old()?)?;
    fs::write(folder.join("pasted.fit"), pasted()?)?;
    fs::write(folder.join("rookie.fit"), rookie()?)?;
    Ok(())
}

/// What is wrong with each fit, and how many are clear to fly.
pub fn say() -> Result<String, Box<dyn Error>> {
    let catalogue = catalogue()?;
    let names = Names::parse(NAMES)?;
    let fits = [rifter(1).build()?, rifter(2).build()?];
    let mut text = String::new();
    for (fit, with) in fits
        .iter()
        .zip(["one damage control", "two damage controls"])
    {
        text += &format!("with {with}:\n");
        let explainer = Explainer::new(fit, &names);
        for entry in fitcheck::list(&catalogue, fit, &ListOptions::new(Reader::Pilot))? {
            text += &format!("  {}\n", explainer.explain(&entry));
        }
        // Result 2 is the first item's.
        for entry in fitcheck::skills(&catalogue, fit, 2, &SkillOptions::new(Reader::Pilot))? {
            text += &format!("  {}\n", explainer.explain_skill(2, &entry));
        }
    }
    let hall = fitcheck::hall(&catalogue, &[&fits[0], &fits[1]])?;
    text += &format!("{} of {} clear to fly\n", hall.clear, fits.len());
    Ok(text)
}

fn main() -> Result<(), Box<dyn Error>> {
    print!("{}", say()?);
    match env::args_os().nth(1) {
        Some(folder) => write(Path::new(&folder)),
        None => Ok(()),
    }
}
