//! Catalogues and fits in words: the text format of `samples/`, which
//! `docs/CALLING.md` describes and `fitcheck pack` turns into images.
//!
//! ```
//! use fitcheck::text::Types;
//!
//! let types = Types::parse(
//!     "name cpuLoad 49
//! name cpuOutput 48
//! effect 11 loPower
//! type 587 group 25 category 6 volume 27289 Rifter
//! type 2048 group 60 category 7 volume 5 Damage Control II
//!   is loPower
//! ",
//! )?;
//! let fit = types.fit(
//!     "ship Rifter
//!   cpuLoad 150.5
//!   cpuOutput 130
//! Low 0: Damage Control II, Online
//! ",
//! )?;
//! let (catalogue, fit) = (types.catalogue().build()?, fit.build()?);
//! let options = fitcheck::ListOptions::new(fitcheck::Reader::Pilot);
//! let entries = fitcheck::list(&catalogue, &fit, &options)?;
//! assert_eq!(entries[0].to_string(), "CPU: 150.5 of 130 used");
//! # Ok::<(), Box<dyn std::error::Error>>(())
//! ```

use std::collections::BTreeMap;
use std::error::Error;
use std::fmt;
use std::str::FromStr;

use crate::{
    Attribute, CatalogueBuilder, FitBuilder, FitItem, ItemResult, Mark, Names, Profile, Slot,
    SlotType, State,
};

/// What is wrong with a line.
#[derive(Debug, Clone, PartialEq, Eq)]
pub struct TextError {
    /// The line, from 1.
    pub line: usize,
    what: String,
}

impl fmt::Display for TextError {
    fn fmt(&self, formatter: &mut fmt::Formatter<'_>) -> fmt::Result {
        write!(formatter, "line {}: {}", self.line, self.what)
    }
}

impl Error for TextError {}

/// A catalogue in words, and the ids behind the names that fits over it use.
#[derive(Debug, Clone, Default)]
pub struct Types {
    catalogue: CatalogueBuilder,
    names: Names,
    attributes: BTreeMap<Attribute, i32>,
    effects: BTreeMap<Mark, i32>,
    types: BTreeMap<String, i32>,
}

impl Types {
    /// Reads a catalogue in words.
    ///
    /// # Errors
    ///
    /// The first line that is none of the format's.
    pub fn parse(text: &str) -> Result<Types, TextError> {
        let mut types = Types::default();
        let mut above = None;
        for line in lines(text) {
            if line.inner {
                let type_id = above.ok_or_else(|| line.wrong("no type stands above"))?;
                types.detail(&line, type_id)?;
            } else {
                above = types.row(&line)?;
            }
        }
        Ok(types)
    }

    /// The catalogue, to be built.
    pub fn catalogue(&self) -> &CatalogueBuilder {
        &self.catalogue
    }

    /// What its types and groups are called.
    pub fn names(&self) -> &Names {
        &self.names
    }

    /// Reads a fit in words, of these types.
    ///
    /// # Errors
    ///
    /// The first line that is none of the format's, or that names something
    /// which the catalogue does not have.
    pub fn fit(&self, text: &str) -> Result<FitBuilder, TextError> {
        let mut fit = Fit::default();
        for line in lines(text) {
            if line.inner {
                fit.value(&line, self)?;
            } else {
                fit.row(&line, self)?;
            }
        }
        fit.builder().ok_or(TextError {
            line: text.lines().count().max(1),
            what: "no line `ship NAME` up to here".to_string(),
        })
    }

    fn type_id(&self, line: &Line<'_>, name: &str) -> Result<i32, TextError> {
        let id = self.types.get(name).copied();
        id.ok_or_else(|| line.wrong(&format!("no type is called `{name}`")))
    }

    fn attribute_id(&self, line: &Line<'_>, name: &str) -> Result<i32, TextError> {
        let id = self.attributes.get(&line.attribute(name)?).copied();
        id.ok_or_else(|| line.wrong(&format!("`{name}` has no id in the catalogue")))
    }

    /// A line that is not indented; the type, where it is one.
    fn row(&mut self, line: &Line<'_>) -> Result<Option<i32>, TextError> {
        let words: Vec<&str> = line.text.split_whitespace().collect();
        match words[..] {
            ["name", name, id] => {
                let (attribute, id) = (line.attribute(name)?, line.number(id)?);
                if self.attributes.insert(attribute, id).is_some() {
                    return Err(line.wrong(&format!("`{name}` has an id already")));
                }
                self.catalogue.name(attribute, id);
                Ok(None)
            }
            ["effect", id, name] => {
                let (id, mark) = (line.number(id)?, line.mark(name)?);
                self.effects.insert(mark, id);
                self.catalogue.effect(id, mark);
                Ok(None)
            }
            ["group", id, _, ..] => {
                let name = words[2..].join(" ");
                self.names.name_group(line.number(id)?, &name);
                Ok(None)
            }
            ["type", ..] => self.type_row(line, &words).map(Some),
            _ => Err(line.wrong(
                "not `name NAME ID`, `effect ID MARK`, `group ID NAME` or \
                 `type ID group ID category ID volume M3 NAME`",
            )),
        }
    }

    /// A line that begins with `type`; the type's id.
    fn type_row(&mut self, line: &Line<'_>, words: &[&str]) -> Result<i32, TextError> {
        let [
            _,
            id,
            "group",
            group,
            "category",
            category,
            "volume",
            volume,
            _,
            ..,
        ] = *words
        else {
            return Err(line.wrong("not `type ID group ID category ID volume M3 NAME`"));
        };
        let type_id = line.number(id)?;
        let volume = match volume {
            "-" => None,
            given => Some(line.number(given)?),
        };
        let (group, category) = (line.number(group)?, line.number(category)?);
        self.catalogue.type_info(type_id, group, category, volume);
        let name = words[8..].join(" ");
        self.names.name_type(type_id, &name);
        match self.types.insert(name, type_id) {
            Some(_) => Err(line.wrong("another type is called so")),
            None => Ok(type_id),
        }
    }

    /// A line under a type.
    fn detail(&mut self, line: &Line<'_>, type_id: i32) -> Result<(), TextError> {
        let words: Vec<&str> = line.text.split_whitespace().collect();
        match words[..] {
            ["is", _, ..] => {
                for name in &words[1..] {
                    let effect = self.effects.get(&line.mark(name)?).copied();
                    let effect =
                        effect.ok_or_else(|| line.wrong(&format!("no effect is `{name}`")))?;
                    self.catalogue.link(type_id, effect);
                }
                Ok(())
            }
            [name, value] => {
                let attribute = self.attribute_id(line, name)?;
                self.catalogue.base(type_id, attribute, line.number(value)?);
                Ok(())
            }
            _ => Err(line.wrong("not `is MARK..` or `NAME VALUE`")),
        }
    }
}

/// A fit as its lines come.
#[derive(Default)]
struct Fit {
    ship: Option<(i32, ItemResult)>,
    character: ItemResult,
    mode: Option<i32>,
    skills: BTreeMap<i32, u8>,
    items: Vec<(FitItem, ItemResult)>,
    about: About,
}

/// Which result the indented lines are about.
#[derive(Default)]
enum About {
    #[default]
    Nothing,
    Ship,
    Character,
    LastItem,
}

impl Fit {
    /// A line that is not indented.
    fn row(&mut self, line: &Line<'_>, types: &Types) -> Result<(), TextError> {
        let (word, rest) = line.text.split_once(' ').unwrap_or((line.text, ""));
        let rest = rest.trim_start();
        self.about = match word {
            "ship" => {
                let ship = (types.type_id(line, rest)?, ItemResult::default());
                if self.ship.replace(ship).is_some() {
                    return Err(line.wrong("a second ship"));
                }
                About::Ship
            }
            "character" if rest.is_empty() => About::Character,
            "mode" => {
                if self.mode.replace(types.type_id(line, rest)?).is_some() {
                    return Err(line.wrong("a second mode"));
                }
                About::Nothing
            }
            "skill" => {
                let (name, level) = rest
                    .rsplit_once(' ')
                    .ok_or_else(|| line.wrong("not `skill NAME LEVEL`"))?;
                let skill = types.type_id(line, name.trim_end())?;
                if self.skills.insert(skill, line.number(level)?).is_some() {
                    return Err(line.wrong("the skill has a level already"));
                }
                About::Nothing
            }
            _ => {
                self.items.push(item(line, types)?);
                About::LastItem
            }
        };
        Ok(())
    }

    /// An indented line: an attribute's name and its value.
    fn value(&mut self, line: &Line<'_>, types: &Types) -> Result<(), TextError> {
        let result = match self.about {
            About::Ship => self.ship.as_mut().map(|ship| &mut ship.1),
            About::Character => Some(&mut self.character),
            About::LastItem => self.items.last_mut().map(|item| &mut item.1),
            About::Nothing => None,
        };
        let result = result.ok_or_else(|| line.wrong("nothing above has values"))?;
        let (name, value) = line
            .text
            .split_once(char::is_whitespace)
            .ok_or_else(|| line.wrong("not `NAME VALUE`"))?;
        let id = types.attribute_id(line, name)?;
        if result.attributes.iter().any(|attribute| attribute.0 == id) {
            return Err(line.wrong(&format!("`{name}`, attribute {id}, has a value already")));
        }
        result.attributes.push((id, line.number(value.trim())?));
        Ok(())
    }

    /// The fit, where it has a ship.
    fn builder(self) -> Option<FitBuilder> {
        let (ship_type, ship) = self.ship?;
        let mut builder = FitBuilder::new(ship_type);
        builder.ship(ship).character(self.character);
        if let Some(mode) = self.mode {
            builder.mode(mode);
        }
        for (skill, level) in self.skills {
            builder.skill(skill, level);
        }
        for (item, result) in self.items {
            builder.item(item, result);
        }
        Some(builder)
    }
}

/// Reads a league's profile in words: a line `ban GROUP` for a group that is
/// banned, `price POINTS GROUP` for one that costs points. A group is its id, or
/// the name that it has among the names.
///
/// ```
/// use fitcheck::{Names, Price, text};
///
/// let names = Names::parse("group 464 Strip Miner\n")?;
/// let profile = text::profile("ban Strip Miner\nprice 47 60 # Damage Control\n", &names)?;
/// assert_eq!(profile.of(464), Some(Price::Banned));
/// assert_eq!(profile.of(60), Some(Price::Points(47)));
/// assert_eq!(text::profile(&profile.to_string(), &names).as_ref(), Ok(&profile));
/// # Ok::<(), Box<dyn std::error::Error>>(())
/// ```
///
/// # Errors
///
/// The first line that is none of the two, that names no group or more than one,
/// or that the profile does not take: see
/// [`ProfileError`](crate::ProfileError).
pub fn profile(text: &str, names: &Names) -> Result<Profile, TextError> {
    let mut profile = Profile::new();
    for line in lines(text) {
        let (word, rest) = line.text.split_once(' ').unwrap_or((line.text, ""));
        let listed = match word {
            "ban" => profile.ban(group_id(&line, rest, names)?),
            "price" => {
                let rest = rest.trim_start().split_once(' ');
                let (points, group) = rest.ok_or_else(|| line.wrong("not `price POINTS GROUP`"))?;
                profile.price(group_id(&line, group, names)?, line.number(points)?)
            }
            _ => return Err(line.wrong("neither `ban GROUP` nor `price POINTS GROUP`")),
        };
        listed.map_err(|error| line.wrong(&error.to_string()))?;
    }
    Ok(profile)
}

/// A group by its id or by its name.
fn group_id(line: &Line<'_>, group: &str, names: &Names) -> Result<i32, TextError> {
    let group = group.trim();
    if let Ok(id) = group.parse() {
        return Ok(id);
    }
    match names.groups_called(group)[..] {
        [id] => Ok(id),
        [] => Err(line.wrong(&format!("no group is called `{group}`"))),
        _ => Err(line.wrong(&format!("more than one group is called `{group}`"))),
    }
}

/// `SLOT [INDEX]: [QUANTITY x] NAME, STATE`.
fn item(line: &Line<'_>, types: &Types) -> Result<(FitItem, ItemResult), TextError> {
    let wrong = || line.wrong("not `SLOT [INDEX]: [QUANTITY x] NAME, STATE`");
    let (place, rest) = line.text.split_once(": ").ok_or_else(wrong)?;
    let (what, state) = rest.rsplit_once(", ").ok_or_else(wrong)?;
    let (kind, index) = place.split_once(' ').unwrap_or((place, "0"));
    let (quantity, name) = what.split_once(" x ").unwrap_or(("1", what));
    let slot = cased(SlotType::ALL, kind)
        .ok_or_else(|| line.wrong(&format!("there is no slot `{kind}`")))?;
    let state = cased(State::ALL, state.trim())
        .ok_or_else(|| line.wrong(&format!("there is no state `{state}`")))?;
    let slot = Slot::new(slot, line.number(index.trim())?)
        .map_err(|error| line.wrong(&error.to_string()))?;
    let item = FitItem::new(types.type_id(line, name.trim())?, slot);
    let item = item.quantity(line.number(quantity.trim())?);
    Ok((item, ItemResult::new(state)))
}

/// The case that a word names, as `FighterTube`.
fn cased<T: Copy + fmt::Debug>(all: &[T], word: &str) -> Option<T> {
    let named = |it: &&T| format!("{it:?}") == word;
    all.iter().find(named).copied()
}

/// A line that says something.
struct Line<'a> {
    number: usize,
    /// Whether it belongs to the line above that is not indented.
    inner: bool,
    text: &'a str,
}

impl Line<'_> {
    /// A complaint about this line.
    fn wrong(&self, what: &str) -> TextError {
        TextError {
            line: self.number,
            what: format!("{what}: {}", self.text),
        }
    }

    fn number<N: FromStr>(&self, word: &str) -> Result<N, TextError> {
        word.parse()
            .map_err(|_| self.wrong(&format!("`{word}` is not a number that can stand here")))
    }

    fn attribute(&self, name: &str) -> Result<Attribute, TextError> {
        Attribute::from_name(name)
            .ok_or_else(|| self.wrong(&format!("no rule asks for a name `{name}`")))
    }

    fn mark(&self, name: &str) -> Result<Mark, TextError> {
        Mark::of_effect(name)
            .ok_or_else(|| self.wrong(&format!("no effect of slots is called `{name}`")))
    }
}

/// The lines of a text without comments and empty lines.
fn lines(text: &str) -> impl Iterator<Item = Line<'_>> {
    let text = text.strip_prefix('\u{FEFF}').unwrap_or(text);
    text.lines().enumerate().filter_map(|(at, line)| {
        let said = line.split('#').next().unwrap_or("");
        let text = said.trim();
        (!text.is_empty()).then_some(Line {
            number: at + 1,
            inner: said.starts_with(char::is_whitespace),
            text,
        })
    })
}
