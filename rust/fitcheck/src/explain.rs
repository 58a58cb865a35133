//! Entries in sentences that a pilot understands.

use crate::training::levels;
use crate::{
    Cause, Entry, FitImage, GroupLimit, Names, PlannedSkill, Resource, Rule, SlotKind, Target,
};

/// How many of the items that share a slot are named.
const NAMED_ITEMS: usize = 3;

/// Stands for the subject in a sentence whose items are not known yet. No name
/// has it: control characters are refused there.
const SUBJECT: &str = "\u{0}";

/// Stands for the items' numbers in the same way.
const PLACES: &str = "\u{1}";

/// Whom a sentence is about.
enum About {
    Item(usize),
    Else(String),
}

/// A sentence about one or more items of a type, or about something else.
struct Said {
    type_id: Option<i32>,
    items: Vec<usize>,
    /// With [`SUBJECT`] or [`PLACES`] where the items are named.
    sentence: String,
}

/// One entry in a sentence; for several entries of one fit, see [`Explainer`].
///
/// ```
/// use fitcheck::{Entry, Names, Rule, Target};
///
/// let entry = Entry { target: Target::Ship, rule: Rule::NotAHull };
/// assert_eq!(
///     fitcheck::explain(&entry, &[0; 36], &Names::default()),
///     "type 0 is not a ship, structure or container, so nothing can be fitted to it",
/// );
/// ```
pub fn explain(entry: &Entry, fit: &[u8], names: &Names) -> String {
    Explainer::new(fit, names).explain(entry)
}

/// Says the entries of one fit in sentences.
///
/// Items are called by their type's name and their place in the fit, from 0.
/// Positions in a rack count from 0 too, as in the fit; implant and booster
/// slots have EVE's own numbers.
///
/// ```
/// use fitcheck::{
///     Entry, Explainer, FitBuilder, FitItem, ItemResult, Names, Rule, Slot, State, Target,
/// };
///
/// let fit = FitBuilder::new(587)
///     .item(FitItem::new(484, Slot::Low(2)), ItemResult::new(State::Online))
///     .build()?;
/// let entry = Entry { target: Target::Item { index: 0 }, rule: Rule::ShipRestricted };
///
/// let names = Names::parse("587 Rifter\n484 125mm Gatling AutoCannon I\n")?;
/// assert_eq!(
///     Explainer::new(&fit, &names).explain(&entry),
///     "125mm Gatling AutoCannon I (item 0) cannot be fitted to this ship, Rifter",
/// );
/// assert_eq!(
///     Explainer::new(&fit, &Names::default()).explain(&entry),
///     "item 0 (type 484) cannot be fitted to this ship, type 587",
/// );
/// # Ok::<(), Box<dyn std::error::Error>>(())
/// ```
#[derive(Debug, Clone, Copy)]
pub struct Explainer<'a> {
    fit: Option<FitImage<'a>>,
    names: &'a Names,
}

impl<'a> Explainer<'a> {
    /// For the entries of a fit image. Where the image is none, sentences say
    /// less.
    pub fn new(fit: &'a [u8], names: &'a Names) -> Explainer<'a> {
        Explainer {
            fit: FitImage::new(fit),
            names,
        }
    }

    /// The entry in a sentence, without a full stop.
    pub fn explain(&self, entry: &Entry) -> String {
        self.sentence(entry, &self.subject(entry.target))
    }

    /// The entries in sentences, in their order. What repeats stands once: of
    /// items of one type about which the same is said all are named in one
    /// sentence, and of a slot that items share there is one.
    ///
    /// ```
    /// use fitcheck::{
    ///     Entry, Explainer, FitBuilder, FitItem, ItemResult, Names, Rule, Slot, State, Target,
    /// };
    ///
    /// let mut fit = FitBuilder::new(587);
    /// for slot in 0..3 {
    ///     fit.item(FitItem::new(484, Slot::High(slot)), ItemResult::new(State::Online));
    /// }
    /// let fit = fit.build()?;
    /// let names = Names::parse("587 Rifter\n484 125mm Gatling AutoCannon I\n")?;
    /// let entries = [0, 1, 2].map(|index| Entry {
    ///     target: Target::Item { index },
    ///     rule: Rule::ShipRestricted,
    /// });
    /// assert_eq!(
    ///     Explainer::new(&fit, &names).explain_all(&entries),
    ///     ["125mm Gatling AutoCannon I (items 0, 1, 2) cannot be fitted to this ship, Rifter"],
    /// );
    /// # Ok::<(), Box<dyn std::error::Error>>(())
    /// ```
    pub fn explain_all(&self, entries: &[Entry]) -> Vec<String> {
        let mut said = Vec::new();
        for entry in entries {
            match (entry.target, entry.rule) {
                (Target::Item { index }, Rule::SlotTaken) => self.share(&mut said, index),
                (Target::Item { index }, _) => {
                    let sentence = self.sentence(entry, SUBJECT);
                    self.group(&mut said, About::Item(index), sentence);
                }
                _ => said.push(Said {
                    type_id: None,
                    items: Vec::new(),
                    sentence: self.explain(entry),
                }),
            }
        }
        said.iter().map(|said| self.finished(said)).collect()
    }

    /// The same for entries of [`skills`](crate::skills), each with the number
    /// of its result.
    pub fn explain_all_skills(&self, entries: &[(u32, Entry)]) -> Vec<String> {
        let mut said = Vec::new();
        for (result, entry) in entries {
            let about = match result {
                0 | 1 => About::Else(self.result_words(*result)),
                result => About::Item(*result as usize - 2),
            };
            let sentence = match entry.rule {
                Rule::Skill {
                    type_id,
                    required,
                    level,
                } => self.skill_words(SUBJECT, type_id, required, level),
                _ => self.sentence(entry, SUBJECT),
            };
            self.group(&mut said, about, sentence);
        }
        said.iter().map(|said| self.finished(said)).collect()
    }

    /// Adds a sentence, or the item to those of its type of which the same is
    /// said already.
    fn group(&self, said: &mut Vec<Said>, about: About, sentence: String) {
        let index = match about {
            About::Item(index) => index,
            About::Else(subject) => {
                return said.push(Said {
                    type_id: None,
                    items: Vec::new(),
                    sentence: sentence.replace(SUBJECT, &subject),
                });
            }
        };
        let type_id = self
            .fit
            .and_then(|fit| fit.item(index))
            .map(|it| it.type_id);
        let same = |it: &&mut Said| it.type_id == type_id && it.sentence == sentence;
        match said.iter_mut().find(same) {
            Some(group) => group.items.push(index),
            None => said.push(Said {
                type_id,
                items: vec![index],
                sentence,
            }),
        }
    }

    /// Adds the one sentence about the slot that an item shares, where it is
    /// not there yet.
    fn share(&self, said: &mut Vec<Said>, index: usize) {
        let target = Target::Item { index };
        let sentence = match self.fit.and_then(|fit| Some((fit, fit.item(index)?.slot))) {
            Some((fit, slot)) => {
                let sharing = |other: &usize| fit.item(*other).is_some_and(|it| it.slot == slot);
                let items: Vec<usize> = (0..fit.pairs()).filter(sharing).collect();
                format!("{slot} is shared by {}", self.several_words(&items))
            }
            None => self.slot_taken(&self.subject(target), target),
        };
        if !said.iter().any(|it| it.sentence == sentence) {
            said.push(Said {
                type_id: None,
                items: Vec::new(),
                sentence,
            });
        }
    }

    fn finished(&self, said: &Said) -> String {
        match said.items[..] {
            [] => said.sentence.clone(),
            _ => said
                .sentence
                .replace(SUBJECT, &self.several_words(&said.items))
                .replace(PLACES, &places_words(&said.items)),
        }
    }

    /// Items by name and places, those of one type together.
    pub(crate) fn several_words(&self, items: &[usize]) -> String {
        let type_of = |index: &usize| Some(self.fit?.item(*index)?.type_id);
        let mut types: Vec<(Option<i32>, Vec<usize>)> = Vec::new();
        for index in items {
            match types.iter_mut().find(|it| it.0 == type_of(index)) {
                Some(same) => same.1.push(*index),
                None => types.push((type_of(index), vec![*index])),
            }
        }
        let words: Vec<String> = types
            .iter()
            .map(|(type_id, items)| {
                if let [index] = items[..] {
                    return self.item_words(index);
                }
                let places = places_words(items);
                match type_id.map(|type_id| (type_id, self.names.type_name(type_id))) {
                    Some((_, Some(name))) => format!("{name} ({places})"),
                    Some((type_id, None)) => format!("type {type_id} ({places})"),
                    None => format!("each of {places}"),
                }
            })
            .collect();
        match words.split_last() {
            Some((last, first)) if !first.is_empty() => {
                format!("{} and {last}", first.join(", "))
            }
            _ => words.concat(),
        }
    }

    /// The sentence with this subject.
    fn sentence(&self, entry: &Entry, subject: &str) -> String {
        let place = self.place(entry.target);
        match entry.rule {
            Rule::Resource {
                resource,
                used,
                available,
            } => {
                let (used, available) = amounts(used, available);
                format!("{}: {used} of {available} used", resource_words(resource))
            }
            Rule::Slots {
                slot,
                used,
                available,
            } => format!("{}: {used} of {available} used", slots_words(slot)),
            Rule::WrongSlot { expected } => {
                format!("{subject} is {place} and belongs {}", rack_words(expected))
            }
            Rule::NotAModule => format!("{subject} is {place} and is not a module"),
            Rule::NotADrone => format!("{subject} is {place} and is not a drone"),
            Rule::NotAFighter => format!("{subject} is {place} and is not a fighter"),
            Rule::NotAnImplant => {
                format!("{subject} is {place} and is not an implant or booster")
            }
            Rule::SlotTaken => self.slot_taken(subject, entry.target),
            Rule::WrongSlotIndex { expected } => {
                format!("{subject} is {place} and belongs in slot {expected}")
            }
            Rule::SubsystemTaken => {
                format!("{subject} covers the same part of the ship as another subsystem")
            }
            Rule::Skill {
                type_id,
                required,
                level,
            } => self.skill_words(subject, type_id, required, level),
            Rule::RigSize { ship, item } if ship == item => format!(
                "{subject} is a rig of another size than the ship takes; cut to whole numbers \
                 both sizes are {ship}"
            ),
            Rule::RigSize { ship, item } => {
                format!("{subject} is a rig of size {item}, and the ship takes size {ship}")
            }
            Rule::ShipRestricted => match self.fit {
                Some(fit) => {
                    let ship = self.type_words(fit.ship_type());
                    format!("{subject} cannot be fitted to this ship, {ship}")
                }
                None => format!("{subject} cannot be fitted to this ship"),
            },
            Rule::CapitalItem => {
                format!("{subject} is a capital module, and the ship is not a capital")
            }
            Rule::StructureItem => {
                format!("{subject} goes on structures alone, and the hull is not a structure")
            }
            Rule::ShipItem => {
                format!("{subject} goes on ships alone, and the hull is a structure")
            }
            Rule::MaxGroup {
                group_id,
                limit,
                used,
                allowed,
            } => {
                let group = self.group_words(group_id);
                let are = limit_words(limit);
                format!("{used} of {group} are {are}, and {subject} allows {allowed}")
            }
            Rule::MaxType {
                type_id,
                used,
                allowed,
            } => {
                let name = self.type_words(type_id);
                format!("{used} of {name} are fitted, and {subject} allows {allowed}")
            }
            Rule::NotAHull => {
                let hull = match self.fit {
                    Some(fit) => self.type_words(fit.ship_type()),
                    None => "the hull".to_string(),
                };
                format!(
                    "{hull} is not a ship, structure or container, so nothing can be fitted to it"
                )
            }
            Rule::NotAMode => match self.fit.and_then(|fit| fit.mode()) {
                Some(mode) => format!(
                    "{} is set as the mode and is not a tactical mode",
                    self.type_words(mode)
                ),
                None => "the mode is not a tactical mode".to_string(),
            },
            Rule::NotASkill { type_id } => {
                let name = self.type_words(type_id);
                format!("{name} is listed as a skill and is not one")
            }
            Rule::Banned { group_id } => {
                format!("{} is banned: {subject}", self.group_words(group_id))
            }
            Rule::Points { used: 1, allowed } => format!("1 point of {allowed} allowed"),
            Rule::Points { used, allowed } => format!("{used} points of {allowed} allowed"),
            Rule::UnknownType { type_id } => self.unknown_type(subject, entry.target, type_id),
            Rule::Unknown {
                rule,
                sub,
                zero,
                words,
            } => format!(
                "{subject} breaks rule {rule}, which this version does not know: sub {sub}, byte \
                 {zero}, words {words:?}"
            ),
        }
    }

    /// The same for an entry of [`skills`](crate::skills) of a result. The
    /// entry itself does not tell the ship's demands from the character's;
    /// the result's number does.
    ///
    /// ```
    /// use fitcheck::{Entry, Explainer, FitBuilder, Names, Rule, Target};
    ///
    /// let fit = FitBuilder::new(587).build()?;
    /// let names = Names::parse("587 Rifter\n3329 Minmatar Frigate\n")?;
    /// let rule = Rule::Skill { type_id: 3329, required: 2, level: 0 };
    /// let entry = Entry { target: Target::Ship, rule };
    /// assert_eq!(
    ///     Explainer::new(&fit, &names).explain_skill(0, &entry),
    ///     "Rifter (the ship) needs Minmatar Frigate at level 2, and it is not trained",
    /// );
    /// # Ok::<(), Box<dyn std::error::Error>>(())
    /// ```
    pub fn explain_skill(&self, result: u32, entry: &Entry) -> String {
        match entry.rule {
            Rule::Skill {
                type_id,
                required,
                level,
            } => self.skill_words(&self.result_words(result), type_id, required, level),
            _ => self.explain(entry),
        }
    }

    /// Which items make an entry, or why none does.
    ///
    /// ```
    /// use fitcheck::{
    ///     CatalogueBuilder, Explainer, FitBuilder, FitItem, ItemResult, Names, Slot, State,
    ///     WholeList,
    /// };
    ///
    /// let catalogue = CatalogueBuilder::new()
    ///     .type_info(587, 25, 6, None)
    ///     .type_info(2048, 60, 7, Some(5.0))
    ///     .build()?;
    /// let mut fit = FitBuilder::new(587);
    /// for _ in 0..3 {
    ///     fit.item(FitItem::new(2048, Slot::Low(0)), ItemResult::new(State::Online));
    /// }
    /// let fit = fit.build()?;
    /// let names = Names::parse("2048 Damage Control II\n")?;
    /// let list = WholeList::new(&catalogue, &fit)?;
    /// let last = list.entries().last().unwrap();
    /// assert_eq!(
    ///     Explainer::new(&fit, &names).explain_cause(&last.cause()?),
    ///     "shown by Damage Control II (items 0, 2)",
    /// );
    /// # Ok::<(), Box<dyn std::error::Error>>(())
    /// ```
    pub fn explain_cause(&self, cause: &Cause<'_>) -> String {
        if cause.is_of_the_item_alone() {
            return "shown by the item alone".to_string();
        }
        match (cause.items(), cause.entry().rule) {
            ([], Rule::Resource { resource, .. }) if resource == Resource::CargoBay => {
                "of no item: there is less than no room, even with nothing in it".to_string()
            }
            ([], Rule::Resource { resource, .. }) if resource == Resource::LaunchedDrones => {
                "of no item: fewer than none may be launched".to_string()
            }
            ([], Rule::Resource { .. }) => {
                "of no single item: it is what the ship comes to as a whole".to_string()
            }
            ([], Rule::NotAHull) => "of no item: it is the ship itself".to_string(),
            ([], Rule::NotAMode) => "of no item: it is the mode".to_string(),
            ([], Rule::NotASkill { .. }) => "of no item: it is the list of skills".to_string(),
            ([], _) => "of no item".to_string(),
            (items, _) => format!("shown by {}", self.several_words(items)),
        }
    }

    /// A skill of a plan: `Gunnery: 2 to 4, 2 levels`.
    pub fn explain_training(&self, skill: PlannedSkill) -> String {
        let PlannedSkill { type_id, from, to } = skill;
        let (name, levels) = (self.type_words(type_id), levels(skill.levels()));
        format!("{name}: {from} to {to}, {levels}")
    }

    /// What a result number stands for: `Rifter (the ship)`, `the character`,
    /// or the item.
    pub fn result_words(&self, result: u32) -> String {
        match (result, self.fit) {
            (0, None) => "the ship".to_string(),
            (0, Some(fit)) => match self.names.type_name(fit.ship_type()) {
                Some(name) => format!("{name} (the ship)"),
                None => format!("the ship (type {})", fit.ship_type()),
            },
            (1, _) => "the character".to_string(),
            (result, _) => self.item_words(result as usize - 2),
        }
    }

    fn skill_words(&self, subject: &str, type_id: i32, required: u8, level: u8) -> String {
        let skill = self.type_words(type_id);
        let trained = match level {
            0 => "it is not trained".to_string(),
            level => format!("it is trained to level {level}"),
        };
        format!("{subject} needs {skill} at level {required}, and {trained}")
    }

    /// What an entry is about, as the subject of its sentence. The ship's and
    /// the character's skill demands are both about the fit.
    fn subject(&self, target: Target) -> String {
        match target {
            Target::Ship => "the fit".to_string(),
            Target::Item { index } => self.item_words(index),
            Target::Unknown { target, index } => format!("target {target}, index {index}"),
        }
    }

    /// Where it is.
    fn place(&self, target: Target) -> String {
        let Target::Item { index } = target else {
            return "there".to_string();
        };
        match self.fit.and_then(|fit| fit.item(index)) {
            Some(item) => format!("in {}", item.slot),
            None => "in a slot".to_string(),
        }
    }

    /// An item by name and place in the fit.
    fn item_words(&self, index: usize) -> String {
        let Some(fit) = self.fit else {
            return format!("item {index}");
        };
        match fit.item(index) {
            Some(item) => match self.names.type_name(item.type_id) {
                Some(name) => format!("{name} (item {index})"),
                None => format!("item {index} (type {})", item.type_id),
            },
            None => format!("item {index}"),
        }
    }

    /// A type by its name, or by its id.
    fn type_words(&self, type_id: i32) -> String {
        match self.names.type_name(type_id) {
            Some(name) => name.to_string(),
            None => format!("type {type_id}"),
        }
    }

    /// A group by its name and id, or by its id alone.
    fn group_words(&self, group_id: i32) -> String {
        match self.names.group_name(group_id) {
            Some(name) => format!("{name} (group {group_id})"),
            None => format!("group {group_id}"),
        }
    }

    /// The id stands beside a name too: it is what one looks for in type data.
    fn unknown_type(&self, subject: &str, target: Target, type_id: i32) -> String {
        let items = match target {
            Target::Item { .. } if subject == SUBJECT => PLACES.to_string(),
            Target::Item { index } => places_words(&[index]),
            Target::Ship | Target::Unknown { .. } => subject.to_string(),
        };
        let missing = match self.names.type_name(type_id) {
            Some(name) => format!("{name} (type {type_id}, {items})"),
            None => format!("type {type_id} ({items})"),
        };
        format!(
            "{missing} is not in this catalogue: the game no longer has it, or the catalogue is old"
        )
    }

    fn slot_taken(&self, subject: &str, target: Target) -> String {
        let unknown = || format!("{subject} shares its slot with another item");
        let (Some(fit), Target::Item { index }) = (self.fit, target) else {
            return unknown();
        };
        let Some(item) = fit.item(index) else {
            return unknown();
        };
        let sharing = |other: &usize| {
            *other != index && fit.item(*other).is_some_and(|it| it.slot == item.slot)
        };
        let others: Vec<usize> = (0..fit.pairs()).filter(sharing).collect();
        let mut words: Vec<String> = others
            .iter()
            .take(NAMED_ITEMS)
            .map(|other| self.item_words(*other))
            .collect();
        match others.len().saturating_sub(NAMED_ITEMS) {
            0 => {}
            1 => words.push("1 more item".to_string()),
            more => words.push(format!("{more} more items")),
        }
        match words.split_last() {
            None => unknown(),
            Some((last, [])) => format!("{subject} shares {} with {last}", item.slot),
            Some((last, first)) => {
                let first = first.join(", ");
                format!("{subject} shares {} with {first} and {last}", item.slot)
            }
        }
    }
}

/// Items by their numbers.
fn places_words(items: &[usize]) -> String {
    let numbers: Vec<String> = items.iter().map(usize::to_string).collect();
    match items.len() {
        1 => format!("item {}", numbers[0]),
        _ => format!("items {}", numbers.join(", ")),
    }
}

pub(crate) fn resource_words(resource: Resource) -> &'static str {
    match resource {
        Resource::Cpu => "CPU",
        Resource::Powergrid => "Powergrid",
        Resource::Calibration => "Calibration",
        Resource::DroneBay => "Drone bay",
        Resource::DroneBandwidth => "Drone bandwidth",
        Resource::LaunchedDrones => "Launched drones",
        Resource::FighterBay => "Fighter bay",
        Resource::FighterTubes => "Fighter tubes",
        Resource::LightFighterTubes => "Light fighter tubes",
        Resource::SupportFighterTubes => "Support fighter tubes",
        Resource::HeavyFighterTubes => "Heavy fighter tubes",
        Resource::CargoBay => "Cargo bay",
        Resource::ChargeCapacity => "Charge capacity",
    }
}

fn slots_words(slot: SlotKind) -> &'static str {
    match slot {
        SlotKind::High => "High slots",
        SlotKind::Medium => "Medium slots",
        SlotKind::Low => "Low slots",
        SlotKind::Rig => "Rig slots",
        SlotKind::Subsystem => "Subsystem slots",
        SlotKind::Service => "Service slots",
        SlotKind::Turret => "Turret hardpoints",
        SlotKind::Launcher => "Launcher hardpoints",
    }
}

fn rack_words(slot: SlotKind) -> &'static str {
    match slot {
        SlotKind::High => "in a high slot",
        SlotKind::Medium => "in a medium slot",
        SlotKind::Low => "in a low slot",
        SlotKind::Rig => "in a rig slot",
        SlotKind::Subsystem => "in a subsystem slot",
        SlotKind::Service => "in a service slot",
        SlotKind::Turret => "on a turret hardpoint",
        SlotKind::Launcher => "on a launcher hardpoint",
    }
}

fn limit_words(limit: GroupLimit) -> &'static str {
    match limit {
        GroupLimit::Fitted => "fitted",
        GroupLimit::Online => "online",
        GroupLimit::Active => "active",
    }
}

/// Two amounts with two decimals, or with as many as tell them apart.
fn amounts(used: f64, available: f64) -> (String, String) {
    let small = |value: f64| value.abs() < 1e15;
    if small(used) && small(available) {
        for decimals in 2..=9 {
            let used = rounded(used, decimals);
            let available = rounded(available, decimals);
            if used != available {
                return (used, available);
            }
        }
    }
    (exact(used), exact(available))
}

fn rounded(value: f64, decimals: usize) -> String {
    let text = format!("{value:.decimals$}");
    let text = text.trim_end_matches('0').trim_end_matches('.');
    match text {
        "-0" => "0".to_string(),
        text => text.to_string(),
    }
}

/// The shortest text that is this number and no other.
fn exact(value: f64) -> String {
    let size = value.abs();
    if value == 0.0 {
        "0".to_string()
    } else if value.is_finite() && !(1e-5..1e15).contains(&size) {
        format!("{value:e}")
    } else {
        format!("{value}")
    }
}

#[cfg(test)]
mod tests {
    use super::*;

    fn shown(used: f64, available: f64) -> String {
        let (used, available) = amounts(used, available);
        format!("{used} of {available}")
    }

    #[test]
    fn amounts_are_short_and_tell_apart() {
        assert_eq!(shown(512.5, 500.0), "512.5 of 500");
        assert_eq!(shown(37.800000000000004, 37.5), "37.8 of 37.5");
        assert_eq!(shown(500.0001, 500.0), "500.0001 of 500");
        assert_eq!(shown(0.0, -1.0), "0 of -1");
        assert_eq!(shown(-0.0, -1.0), "0 of -1");
        assert_eq!(shown(1_000_000_002.0, 1e9), "1000000002 of 1000000000");
        assert_eq!(shown(1e-300, 0.0), "1e-300 of 0");
        assert_eq!(shown(f64::INFINITY, 1e300), "inf of 1e300");
        assert_eq!(shown(f64::INFINITY, f64::NEG_INFINITY), "inf of -inf");
        assert_eq!(shown(f64::NAN, 5.0), "NaN of 5");
        assert_eq!(shown(100.0, 10.0), "100 of 10");
    }

    #[test]
    fn without_a_fit_a_sentence_says_less_and_still_reads() {
        let entry = |rule| Entry {
            target: Target::Item { index: 3 },
            rule,
        };
        let said = |rule| entry(rule).to_string();
        assert_eq!(
            said(Rule::SlotTaken),
            "item 3 shares its slot with another item"
        );
        assert_eq!(
            said(Rule::WrongSlot {
                expected: SlotKind::High
            }),
            "item 3 is in a slot and belongs in a high slot"
        );
        assert_eq!(
            said(Rule::ShipRestricted),
            "item 3 cannot be fitted to this ship"
        );
        assert_eq!(
            said(Rule::UnknownType { type_id: 34272 }),
            "type 34272 (item 3) is not in this catalogue: the game no longer has it, or the \
             catalogue is old"
        );
    }
}
