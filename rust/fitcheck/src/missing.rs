//! What a catalogue lacks, and which checks that turns off.

use std::fmt;

use crate::explain::resource_words;
use crate::{Attribute, GroupLimit, Mark, Resource, SlotKind};

/// The resources of the ten loads, in the order of their names.
const LOADS: [Resource; 10] = [
    Resource::Cpu,
    Resource::Powergrid,
    Resource::Calibration,
    Resource::DroneBay,
    Resource::DroneBandwidth,
    Resource::FighterBay,
    Resource::FighterTubes,
    Resource::LightFighterTubes,
    Resource::SupportFighterTubes,
    Resource::HeavyFighterTubes,
];

/// What a catalogue lacks: attribute names that have no id, and marks that no
/// effect has. The rules that ask for them list nothing, so a catalogue without
/// any names makes nearly every fit clear.
///
/// As text it says what is not checked; it is empty where nothing is missing.
///
/// ```
/// use fitcheck::{Attribute, CatalogueBuilder, Mark};
///
/// let mut builder = CatalogueBuilder::new();
/// for (id, attribute) in Attribute::ALL.iter().enumerate() {
///     if *attribute != Attribute::CpuOutput && *attribute != Attribute::RigSize {
///         builder.name(*attribute, id as i32);
///     }
/// }
/// for (id, mark) in Mark::ALL.iter().enumerate() {
///     builder.effect(id as i32, *mark);
/// }
/// assert_eq!(
///     builder.missing().to_string(),
///     "the catalogue has no id for 2 of 88 attribute names (cpuOutput, rigSize), so these are not \
///      checked: resources (CPU); rig sizes",
/// );
/// ```
#[derive(Debug, Clone, Default, PartialEq, Eq)]
pub struct Missing {
    /// The attribute names without an id, in the order of their numbers.
    pub names: Vec<Attribute>,
    /// The marks, but for [`Mark::Other`], that no effect has.
    pub marks: Vec<Mark>,
}

/// A check that a catalogue turns off by what it lacks.
#[non_exhaustive]
#[derive(Debug, Clone, PartialEq, Eq)]
pub struct Unchecked {
    /// The rule that lists less or nothing, as [`Rule::name`](crate::Rule::name)
    /// has it.
    pub rule: &'static str,
    /// What is not checked, in a pilot's words.
    pub what: String,
    /// The names that are missing for it.
    pub names: Vec<Attribute>,
    /// The marks that are missing for it.
    pub marks: Vec<Mark>,
    /// Which part of the rule's checks it is, where that has several.
    part: String,
}

/// A rule that asks for names or marks: what it checks, and in how many parts.
struct Check {
    rule: &'static str,
    what: &'static str,
    parts: usize,
}

const fn check(rule: &'static str, what: &'static str, parts: usize) -> Check {
    Check { rule, what, parts }
}

const RESOURCE: Check = check("resource", "resources", 12);
const SLOTS: Check = check("slots", "slots of the ship", 8);
const WRONG_SLOT: Check = check("wrong_slot", "modules in a slot of another kind", 6);
const WRONG_SLOT_INDEX: Check = check("wrong_slot_index", "slots of implants and boosters", 2);
const SUBSYSTEM_TAKEN: Check = check("subsystem_taken", "subsystems for the same part", 1);
const RIG_SIZE: Check = check("rig_size", "rig sizes", 1);
const SHIP_RESTRICTED: Check = check("ship_restricted", "which ships an item goes on", 1);
const CAPITAL_ITEM: Check = check("capital_item", "capital modules", 1);
const STRUCTURE_ITEM: Check = check("structure_item", "fighters of structures", 3);
const MAX_GROUP: Check = check("max_group", "how many there may be of a group", 3);
const MAX_TYPE: Check = check("max_type", "how many there may be of a type", 1);
const SKILL: Check = check("skill", "required skills", 6);

/// In the order in which they are said.
const CHECKS: [Check; 12] = [
    RESOURCE,
    SLOTS,
    WRONG_SLOT,
    WRONG_SLOT_INDEX,
    SUBSYSTEM_TAKEN,
    RIG_SIZE,
    SHIP_RESTRICTED,
    CAPITAL_ITEM,
    STRUCTURE_ITEM,
    MAX_GROUP,
    MAX_TYPE,
    SKILL,
];

impl Missing {
    /// Whether nothing is missing.
    pub fn is_empty(&self) -> bool {
        self.names.is_empty() && self.marks.is_empty()
    }

    /// What is not checked, in the order of the rules.
    pub fn unchecked(&self) -> Vec<Unchecked> {
        let resources = self.resources();
        let all = resources.chain(self.slots()).chain(self.items());
        all.chain(self.skills()).flatten().collect()
    }

    /// A part of a rule's checks, where one of the names or marks that it asks
    /// for is missing.
    fn lost(
        &self,
        check: &Check,
        part: &str,
        names: &[Attribute],
        marks: &[Mark],
    ) -> Option<Unchecked> {
        let names: Vec<Attribute> = common(names, &self.names);
        let marks: Vec<Mark> = common(marks, &self.marks);
        let is_lost = !names.is_empty() || !marks.is_empty();
        is_lost.then(|| Unchecked {
            rule: check.rule,
            what: match part {
                "" => check.what.to_string(),
                part => format!("{} ({part})", check.what),
            },
            names,
            marks,
            part: part.to_string(),
        })
    }

    fn resources(&self) -> impl Iterator<Item = Option<Unchecked>> {
        let loads = Attribute::ALL[..20].chunks(2).zip(LOADS);
        let others = Attribute::ALL[20..22]
            .chunks(1)
            .zip([Resource::LaunchedDrones, Resource::CargoBay]);
        loads
            .chain(others)
            .map(|(names, resource)| self.lost(&RESOURCE, resource_words(resource), names, &[]))
    }

    fn slots(&self) -> impl Iterator<Item = Option<Unchecked>> {
        let counted = Attribute::ALL[22..30].chunks(1).zip(SlotKind::ALL);
        let counted = counted.map(|(names, slot)| {
            let marks: &[Mark] = match slot {
                SlotKind::Turret => &[Mark::TurretFitted],
                SlotKind::Launcher => &[Mark::LauncherFitted],
                _ => &[],
            };
            self.lost(&SLOTS, slot.name(), names, marks)
        });
        let racks = Mark::ALL[1..7].chunks(1).zip(SlotKind::ALL);
        let racks = racks.map(|(marks, rack)| self.lost(&WRONG_SLOT, rack.name(), &[], marks));
        let own = Attribute::ALL[30..32].chunks(1);
        let own = own.zip(["implants", "boosters"]);
        let own = own.map(|(names, whose)| self.lost(&WRONG_SLOT_INDEX, whose, names, &[]));
        let part = self.lost(&SUBSYSTEM_TAKEN, "", &[Attribute::SubSystemSlot], &[]);
        counted.chain(racks).chain(own).chain([part])
    }

    fn items(&self) -> impl Iterator<Item = Option<Unchecked>> {
        let ships = &Attribute::ALL[34..67];
        let part = match common(ships, &self.names).len() {
            33 => String::new(),
            some => format!("by {some} of 33 names"),
        };
        let capital = [Attribute::Volume, Attribute::IsCapitalSize];
        let alone = [
            self.lost(&RIG_SIZE, "", &[Attribute::RigSize], &[]),
            self.lost(&SHIP_RESTRICTED, &part, ships, &[]),
            self.lost(&CAPITAL_ITEM, "", &capital, &[]),
        ];
        let fighters = Attribute::ALL[69..72].chunks(1);
        let fighters = fighters.zip(["light", "support", "heavy"]);
        let fighters = fighters.map(|(names, role)| self.lost(&STRUCTURE_ITEM, role, names, &[]));
        let limits = Attribute::ALL[72..75].chunks(1).zip(GroupLimit::ALL);
        let limits = limits.map(|(names, limit)| self.lost(&MAX_GROUP, limit.name(), names, &[]));
        let of_type = self.lost(&MAX_TYPE, "", &[Attribute::MaxTypeFitted], &[]);
        let alone = alone.into_iter();
        alone.chain(fighters).chain(limits).chain([of_type])
    }

    fn skills(&self) -> impl Iterator<Item = Option<Unchecked>> {
        let places = ["first", "second", "third", "fourth", "fifth", "sixth"];
        let pairs = Attribute::ALL[76..].chunks(2).zip(places);
        pairs.map(|(names, place)| self.lost(&SKILL, place, names, &[]))
    }
}

/// What is lacking, and what is not checked for it: by rule, with its parts
/// where not all of them are lost.
impl fmt::Display for Missing {
    fn fmt(&self, formatter: &mut fmt::Formatter<'_>) -> fmt::Result {
        let mut lacks = Vec::new();
        if !self.names.is_empty() {
            let names = named(&self.names, 88, "attribute names");
            lacks.push(format!("no id for {names}"));
        }
        if !self.marks.is_empty() {
            let marks = named(&self.marks, 8, "slot marks");
            lacks.push(format!("no effect for {marks}"));
        }
        if lacks.is_empty() {
            return Ok(());
        }
        let unchecked = self.unchecked();
        let mut what = Vec::new();
        for check in CHECKS {
            let lost = unchecked.iter().filter(|it| it.rule == check.rule);
            let parts: Vec<&str> = lost.map(|it| it.part.as_str()).collect();
            match parts[..] {
                [] => {}
                [""] => what.push(check.what.to_string()),
                _ if parts.len() == check.parts && check.parts > 1 => {
                    what.push(check.what.to_string());
                }
                _ => what.push(format!("{} ({})", check.what, parts.join(", "))),
            }
        }
        write!(
            formatter,
            "the catalogue has {}, so these are not checked: {}",
            lacks.join(" and "),
            what.join("; ")
        )
    }
}

/// How many are missing, and which where they are few.
fn named<T: fmt::Display>(missing: &[T], all: usize, what: &str) -> String {
    let count = missing.len();
    if count > 6 {
        return format!("{count} of {all} {what}");
    }
    let names: Vec<String> = missing.iter().map(T::to_string).collect();
    format!("{count} of {all} {what} ({})", names.join(", "))
}

/// Those of the one that are among the other.
fn common<T: Copy + PartialEq>(some: &[T], others: &[T]) -> Vec<T> {
    let among = some.iter().filter(|it| others.contains(it));
    among.copied().collect()
}

/// Those that are not among the ones that are there.
pub(crate) fn lacking<T: Copy + PartialEq>(all: &[T], there: impl Iterator<Item = T>) -> Vec<T> {
    let there: Vec<T> = there.collect();
    all.iter()
        .filter(|it| !there.contains(it))
        .copied()
        .collect()
}
