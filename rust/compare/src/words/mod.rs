//! Images, calls and entries in words, for a reader who has to see what
//! differs without counting bytes.

mod entry;
mod tables;

use crate::case::{Ask, Case, Growth, Position, Room, Steps};
use crate::checker::{Checker, ENTRY, Terms, in_words, refused};
use crate::model::{Catalogue, Damage, Fit, Name, Outcome, hall_image};
use crate::names::{MARKS, NAMES};
use crate::page::Limits;
use crate::profile::{BANNED, League};
use crate::reader::Reader;
use crate::reference::{self, Original, Plan, widen};
use crate::verdict::hall_in_words;

pub use entry::{double, entries, entry};
pub use tables::{KINDS, LIMITS, RACKS, RESOURCES, RULES, STATES};

use entry::single;
use tables::named;

/// The whole case, with the call that is asked.
pub fn case(case: &Case) -> String {
    let mut text = format!("{}\n", case.title);
    catalogue(&mut text, &case.catalogue);
    let own = |number: usize| match number {
        0 if case.fits.len() == 1 => "fit".to_string(),
        _ => format!("fit {number}"),
    };
    let names = &case.catalogue.names;
    for (number, one) in case.fits.iter().enumerate() {
        fit(&mut text, &own(number), one, names);
    }
    damage(&mut text, "hall input", &case.frame);
    league(&mut text, &case.league);
    limits(&mut text, "limits", case.limits);
    readers(&mut text, case);
    let growth = &case.growth;
    if case
        .asks
        .iter()
        .any(|ask| matches!(ask, Ask::GrownList | Ask::GrownSkill(_)))
    {
        text += &format!(
            "the fit grows by {} items and {} results; levels fall by {:?}\n",
            growth.items.len(),
            growth.results.len(),
            growth.lowered
        );
        let more = Fit {
            items: growth.items.clone(),
            results: growth.results.clone(),
            ..Fit::default()
        };
        things(&mut text, &more, names);
        limits(&mut text, "limits for the grown fit", growth.limits);
    }
    if case
        .asks
        .iter()
        .any(|ask| matches!(ask, Ask::HauledList | Ask::HauledSkill(_)))
    {
        haul(&mut text, &case.haul, names);
    }
    for planted in &case.planted {
        text += &format!("planted: refusal {} by {}\n", planted.cause, planted.how);
    }
    for one in &case.asks {
        text += &format!("call: {}\n", ask(*one));
    }
    text
}

/// Who calls are for, where it is no officer, and the skills of the other fit
/// that a guest reads.
fn readers(text: &mut String, case: &Case) {
    if case.reader != Reader::OFFICER {
        *text += &format!("calls are for {}\n", case.reader);
    }
    let reads_two = |ask: &Ask| matches!(ask, Ask::RetrainedList(_) | Ask::RetrainedSkill(..));
    if !case.asks.iter().any(reads_two) {
        return;
    }
    *text += &format!("the same fit with {} other skills\n", case.training.len());
    list(text, &case.training, |skill| {
        format!("skill {} trained to {}", skill.id, skill.level)
    });
}

/// What is put behind the fit.
fn haul(text: &mut String, haul: &Growth, names: &[Name]) {
    *text += &format!(
        "{} items of cargo and {} results are put behind the fit\n",
        haul.items.len(),
        haul.results.len()
    );
    let more = Fit {
        items: haul.items.clone(),
        results: haul.results.clone(),
        ..Fit::default()
    };
    things(text, &more, names);
    limits(text, "limits for the hauled fit", haul.limits);
}

/// What the original answers to each kind of call of a case, whatever the
/// buffers.
pub fn answers(case: &Case) -> String {
    let catalogue = case.catalogue.image();
    let own = Terms {
        reader: case.reader,
        profile: &case.league.image(),
        allowance: case.league.allowance,
        limits: case.limits,
    };
    let mut text = String::new();
    let mut asked = Vec::new();
    for one in &case.asks {
        let mut terms = own;
        let (what, result) = match one {
            Ask::List(_) | Ask::GrownList | Ask::HauledList => ("list".to_string(), None),
            Ask::RetrainedList(_) => {
                terms.reader = Reader::GUEST;
                ("list for a guest".to_string(), None)
            }
            Ask::RetrainedSkill(..) => continue,
            Ask::Skill(result, _) | Ask::GrownSkill(result) | Ask::HauledSkill(result) => {
                (format!("skill of {}", holder(*result)), Some(*result))
            }
            Ask::Hall => {
                let word = Original.hall(&catalogue, &hall_image(&case.fits, &case.frame));
                text += &format!("hall: the original makes it {}\n", hall_in_words(word));
                continue;
            }
            Ask::Widen(_) => {
                let word = match widen(&case.catalogue.old_image()) {
                    Ok(new) => new.len() as u64,
                    Err(refusal) => refused(refusal),
                };
                text += &format!("widening: document 02 makes it {}\n", in_words(word));
                continue;
            }
            // The lists of the old catalogue, which those of the case are
            // where its base values are f32.
            Ask::WidenedList | Ask::WidenedSkill(_) => continue,
            Ask::Train(result, steps, _) => {
                text += &training(&catalogue, &case.fits[0], *result, *steps);
                continue;
            }
            Ask::Trained(..) => continue,
            Ask::Trim(_) => {
                text += &trim(&catalogue, &case.fits[0]);
                continue;
            }
            Ask::Trimmed => continue,
            Ask::Cause(position, _) => {
                text += &cause(&catalogue, &case.fits[0], *position);
                continue;
            }
            Ask::Caused(_) => continue,
            Ask::LeaveOut(budget, _) => {
                text += &leave_out(&catalogue, &case.fits[0], *budget);
                continue;
            }
            Ask::LeftOut => continue,
        };
        if asked.contains(&(terms.reader, result)) {
            continue;
        }
        asked.push((terms.reader, result));
        let fit = case.fits[0].image();
        let mut out = vec![0; ENTRY * 8_192];
        let word = match result {
            None => Original.list(&catalogue, &fit, terms, &mut out),
            Some(result) => Original.skill(&catalogue, &fit, result, terms, &mut out),
        };
        text += &format!("{what}: the original makes it {}\n", in_words(word));
        let count = if word >> 32 == 0 { word as usize } else { 0 };
        for entry in entries(&out[..ENTRY * count]) {
            text += &format!("  {entry}\n");
        }
    }
    text
}

pub fn ask(ask: Ask) -> String {
    match ask {
        Ask::List(room) => format!("list, {}", self::room(room)),
        Ask::Skill(result, room) => {
            format!("skill of {}, {}", holder(result), self::room(room))
        }
        Ask::Hall => "hall".to_string(),
        Ask::GrownList => "list of the fit and of the grown fit".to_string(),
        Ask::GrownSkill(result) => {
            format!("skill of {}, in the fit and the grown fit", holder(result))
        }
        Ask::HauledList => "list of the fit and of the one with cargo behind it".to_string(),
        Ask::HauledSkill(result) => {
            format!("skill of {}, without and with cargo behind", holder(result))
        }
        Ask::Widen(room) => format!("widening of the old form, {}", self::room(room)),
        Ask::WidenedList => "list under the widened catalogue".to_string(),
        Ask::WidenedSkill(result) => {
            format!("skill of {} under the widened catalogue", holder(result))
        }
        Ask::RetrainedList(room) => {
            format!("a guest's list with either training, {}", self::room(room))
        }
        Ask::RetrainedSkill(result, room) => {
            let (holder, room) = (holder(result), self::room(room));
            format!("a guest's skill of {holder} with either training, {room}")
        }
        Ask::Train(result, steps, room) => {
            let (holder, room) = (holder(result), self::room(room));
            format!("training for {holder}, {}, {room}", self::steps(steps))
        }
        Ask::Trained(result, steps) => {
            let (holder, steps) = (holder(result), self::steps(steps));
            format!("training for {holder}, {steps} and one more, with the skills after both")
        }
        Ask::Trim(room) => format!("trim, {}", self::room(room)),
        Ask::Trimmed => {
            "list and skills under both catalogues, and the trimmed one trimmed again".to_string()
        }
        Ask::Cause(position, room) => {
            let (position, room) = (self::position(position), self::room(room));
            format!("cause of {position}, {room}")
        }
        Ask::Caused(position) => {
            let position = self::position(position);
            format!("cause of {position}, with the lists of its parts")
        }
        Ask::LeaveOut(budget, room) => {
            format!("leave out within {budget} tries, {}", self::room(room))
        }
        Ask::LeftOut => "leave out within each budget, with the lists of the parts".to_string(),
    }
}

fn holder(result: u32) -> String {
    match result {
        0 => "the ship (result 0)".to_string(),
        1 => "the character (result 1)".to_string(),
        _ => format!("item {} (result {result})", result - 2),
    }
}

fn steps(steps: Steps) -> String {
    match steps {
        Steps::Of(number) => format!("{number} steps"),
        Steps::OneLess => "one step less than is missing".to_string(),
        Steps::All => "as many steps as are missing".to_string(),
        Steps::OneMore => "one step more than is missing".to_string(),
    }
}

/// What document 02 makes of a training: the skills that its steps change.
fn training(catalogue: &[u8], fit: &Fit, result: u32, steps: Steps) -> String {
    let plan = reference::Catalogue::decode(catalogue)
        .and_then(|catalogue| Plan::of(&catalogue, &fit.image(), result));
    let what = format!("training for {}", holder(result));
    let plan = match plan {
        Ok(plan) => plan,
        Err(refusal) => return format!("{what}: document 02 makes it refusal {refusal}\n"),
    };
    let steps = steps.number(plan.missing());
    let mut text = format!(
        "{what}: {} levels are missing, {steps} steps lead to {} bytes\n",
        plan.missing(),
        plan.image(steps).len()
    );
    let (before, after) = (plan.after(0), plan.after(steps));
    let changed: Vec<_> = after
        .into_iter()
        .filter(|(id, level)| before.get(id) != Some(level))
        .collect();
    list(&mut text, &changed, |(id, level)| match before.get(id) {
        Some(from) => format!("skill {id} from {from} to {level}"),
        None => format!("skill {id} added at {level}"),
    });
    text
}

/// What document 02 makes of a trim: the sizes that are left.
fn trim(catalogue: &[u8], fit: &Fit) -> String {
    let small = match reference::trim(catalogue, &fit.image()) {
        Ok(small) => small,
        Err(refusal) => return format!("trim: document 02 makes it refusal {refusal}\n"),
    };
    let sizes = small[..20].chunks_exact(4);
    let sizes = sizes.map(|size| u32::from_le_bytes([size[0], size[1], size[2], size[3]]));
    let [names, effects, types, links, bases] =
        <[u32; 5]>::try_from(sizes.collect::<Vec<_>>()).expect("five sizes");
    format!(
        "trim: of {} bytes {} are left, {names} names, {effects} effects, {types} types, {links} \
         links, {bases} bases\n",
        catalogue.len(),
        small.len()
    )
}

fn position(position: Position) -> String {
    match position {
        Position::Of(number) => format!("position {number}"),
        Position::Last => "the last entry".to_string(),
        Position::Behind => "the position behind the list".to_string(),
    }
}

/// What document 02 makes of a cause: the entry, and the pairs that make it.
fn cause(catalogue: &[u8], fit: &Fit, position: Position) -> String {
    let what = format!("cause of {}", self::position(position));
    let made = || {
        let catalogue = reference::Catalogue::decode(catalogue)?;
        let fit = reference::Fit::decode(&fit.image())?;
        let entries = reference::officers_list(&catalogue, &fit).entries.len();
        let cause = reference::Cause::of(&catalogue, &fit, position.number(entries))?;
        Ok((entry(&cause.entry), cause.numbers()))
    };
    match made() {
        Ok((entry, numbers)) => format!("{what}: {entry}\n  pairs {numbers:?}\n"),
        Err::<_, reference::Refusal>(refusal) => {
            format!("{what}: document 02 makes it refusal {refusal}\n")
        }
    }
}

/// What document 02 takes off within a budget.
fn leave_out(catalogue: &[u8], fit: &Fit, budget: u32) -> String {
    let what = format!("leave out within {budget} tries");
    let made = || {
        let catalogue = reference::Catalogue::decode(catalogue)?;
        let fit = reference::Fit::decode(&fit.image())?;
        let judge = reference::Judge::new(&catalogue, &fit);
        Ok(reference::LeaveOut::of(&judge).within(budget))
    };
    match made() {
        Ok(left) => format!(
            "{what}: {} tries, at most {} off\n  pairs {:?}\n",
            left.tries,
            left.distance,
            left.numbers()
        ),
        Err::<_, reference::Refusal>(refusal) => {
            format!("{what}: document 02 makes it refusal {refusal}\n")
        }
    }
}

fn room(room: Room) -> String {
    match room {
        Room::Empty => "empty buffer".to_string(),
        Room::OneShort => "buffer one byte short".to_string(),
        Room::Exact => "buffer of the exact length".to_string(),
        Room::Longer(more) => format!("buffer {more} bytes longer than what is written"),
        Room::Of(length) => format!("buffer of {length} bytes"),
    }
}

fn catalogue(text: &mut String, catalogue: &Catalogue) {
    let Catalogue {
        names,
        effects,
        types,
        links,
        bases,
        damage: harm,
    } = catalogue;
    *text += &format!(
        "catalogue: {} names, {} effects, {} types, {} links, {} bases\n",
        names.len(),
        effects.len(),
        types.len(),
        links.len(),
        bases.len()
    );
    list(text, names, |row| match NAMES.get(row.number as usize) {
        Some(name) => format!("{name} is attribute {}", row.attribute),
        None => format!("name {} is attribute {}", row.number, row.attribute),
    });
    list(text, effects, |row| match MARKS.get(row.mark as usize) {
        Some(name) => format!("effect {} is {name}", row.id),
        None => format!("effect {} has mark {}", row.id, row.mark),
    });
    list(text, types, |row| {
        let volume = match row.flag {
            0 => "no volume".to_string(),
            1 => format!("volume {}", single(row.volume)),
            flag => format!("volume flag {flag}"),
        };
        format!(
            "type {}: group {}, category {}, {volume}",
            row.id, row.group, row.category
        )
    });
    list(text, links, |row| {
        format!("type {} has effect {}", row.type_id, row.effect)
    });
    list(text, bases, |row| {
        format!(
            "type {} starts with {} = {}",
            row.type_id,
            attribute(names, row.attribute),
            double(row.value)
        )
    });
    damage(text, "catalogue", harm);
}

/// An attribute by every name that has its id, or by the id alone.
fn attribute(names: &[Name], id: i32) -> String {
    let known: Vec<&str> = names
        .iter()
        .filter(|row| row.attribute == id)
        .filter_map(|row| NAMES.get(row.number as usize).copied())
        .collect();
    match known.is_empty() {
        true => format!("attribute {id}"),
        false => known.join(" and "),
    }
}

fn fit(text: &mut String, own: &str, fit: &Fit, names: &[Name]) {
    let mode = match (fit.mode_flag, fit.mode) {
        (0, 0) => "no mode".to_string(),
        (1, mode) => format!("mode {mode}"),
        (flag, mode) => format!("mode flag {flag}, mode {mode}"),
    };
    *text += &format!(
        "{own}: ship type {}, {mode}, {} skills, {} items, {} results, {} attributes\n",
        fit.ship_type,
        fit.skills.len(),
        fit.items.len(),
        fit.results.len(),
        fit.attribute_total()
    );
    list(text, &fit.skills, |skill| {
        format!("skill {} trained to {}", skill.id, skill.level)
    });
    list(text, &[&fit.ship], |one| {
        format!("the ship: {}", outcome(one, names))
    });
    list(text, &[&fit.character], |one| {
        format!("the character: {}", outcome(one, names))
    });
    things(text, fit, names);
    damage(text, own, &fit.damage);
}

/// A profile and the allowance, where either is brought.
fn league(text: &mut String, league: &League) {
    let allowance = league.allowance;
    let Some(profile) = &league.profile else {
        if allowance > 0 {
            *text += &format!("no profile, allowance {allowance}\n");
        }
        return;
    };
    let groups = profile.prices.len();
    *text += &format!("profile: {groups} groups, allowance {allowance}\n");
    list(text, &profile.prices, |price| match price.points {
        BANNED => format!("group {} is banned", price.group),
        points => format!("group {} costs {points}", price.group),
    });
    damage(text, "profile", &profile.damage);
}

/// What calls take, where it is not what the main page takes.
fn limits(text: &mut String, own: &str, limits: Limits) {
    let Limits { pairs, skills } = limits;
    if limits != Limits::MAIN {
        *text += &format!("{own}: {pairs} pairs, {skills} skills\n");
    }
}

/// Items and results, side by side.
fn things(text: &mut String, fit: &Fit, names: &[Name]) {
    let places: Vec<usize> = (0..fit.items.len().max(fit.results.len())).collect();
    list(text, &places, |place| {
        let item = match fit.items.get(*place) {
            Some(item) => format!(
                "{} of type {} in {} {}{}",
                item.quantity,
                item.type_id,
                named(&KINDS, item.kind),
                item.index,
                if item.zero == 0 {
                    ""
                } else {
                    ", zero byte not 0"
                }
            ),
            None => "no item".to_string(),
        };
        let result = match fit.results.get(*place) {
            Some(result) => outcome(result, names),
            None => "no result".to_string(),
        };
        format!("item {place}: {item}; {result}")
    });
}

fn outcome(outcome: &Outcome, names: &[Name]) -> String {
    let values: Vec<String> = outcome
        .attributes
        .iter()
        .take(60)
        .map(|(id, bits)| format!("{} = {}", attribute(names, *id), double(*bits)))
        .collect();
    let more = outcome.attributes.len() - values.len();
    let mut text = format!("{}, {{{}", named(&STATES, outcome.state), values.join(", "));
    if more > 0 {
        text += &format!(" and {more} more");
    }
    text.push('}');
    if let Some(count) = outcome.count {
        text += &format!(", count written as {count}");
    }
    if outcome.zero != 0 {
        text += ", zero byte not 0";
    }
    text
}

fn damage(text: &mut String, own: &str, damage: &Damage) {
    for (place, size) in &damage.sizes {
        *text += &format!("  {own}: size {place} is written as {size}\n");
    }
    if damage.cut > 0 {
        match damage.cut {
            usize::MAX => *text += &format!("  {own}: all bytes cut off\n"),
            cut => *text += &format!("  {own}: {cut} bytes cut off the end\n"),
        }
    }
    if !damage.extra.is_empty() {
        *text += &format!("  {own}: these bytes put behind: {:02x?}\n", damage.extra);
    }
    for (place, value) in &damage.patches {
        *text += &format!("  {own}: byte {place} is {value}\n");
    }
}

fn list<T>(text: &mut String, rows: &[T], one: impl Fn(&T) -> String) {
    const MOST: usize = 100;
    for row in rows.iter().take(MOST) {
        *text += &format!("  {}\n", one(row));
    }
    if rows.len() > MOST {
        *text += &format!("  and {} more\n", rows.len() - MOST);
    }
}
