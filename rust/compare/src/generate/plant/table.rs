//! The plants, one by one.

use super::ground::{Ground, an_entry, chain};
use crate::case::Room;
use crate::model::{Base, Catalogue, Effect, Fit, Item, Link, Name, Outcome, Skill, Type};
use crate::profile::Price;
use crate::rng::Rng;
use crate::sketch::{CARGO, DRONE_BAY, FIGHTER_BAY, HIGH};

pub type Dig = fn(&mut Ground, &mut Rng);

/// Every plant: its refusal, how it is deserved, and the change that does it.
/// No plant brings about any other refusal.
pub const PLANTS: &[(u8, &str, Dig)] = &[
    (1, "catalogue one byte short", |g, _| {
        g.catalogue.damage.cut += 1
    }),
    (1, "catalogue of 3 bytes", |g, _| {
        g.catalogue.damage.cut = usize::MAX;
        g.catalogue.damage.extra = vec![1, 0, 0];
    }),
    (1, "catalogue of 19 bytes", |g, _| {
        g.catalogue.damage.cut = usize::MAX;
        g.catalogue.damage.extra = vec![0; 19];
    }),
    (1, "no catalogue", |g, _| {
        g.catalogue.damage.cut = usize::MAX
    }),
    (1, "one byte behind the catalogue", |g, rng| {
        g.catalogue.damage.extra.push(rng.draw() as u8);
    }),
    (1, "catalogue size one too high", |g, rng| {
        let block = rng.below(5);
        let sizes = catalogue_sizes(&g.catalogue);
        g.catalogue.damage.sizes.push((block, sizes[block] + 1));
    }),
    (1, "catalogue size one too low", |g, rng| {
        let sizes = catalogue_sizes(&g.catalogue);
        let held: Vec<usize> = (0..5).filter(|block| sizes[*block] > 0).collect();
        let block = rng.pick(&held);
        g.catalogue.damage.sizes.push((block, sizes[block] - 1));
    }),
    (1, "catalogue size that wraps 32 bits", |g, _| {
        let sizes = catalogue_sizes(&g.catalogue);
        g.catalogue.damage.sizes.push((0, sizes[0] + 0x2000_0000));
    }),
    (1, "catalogue sizes of 4,294,967,295", |g, _| {
        for block in 0..5 {
            g.catalogue.damage.sizes.push((block, u32::MAX));
        }
    }),
    (2, "name twice", |g, _| {
        let last = *g.catalogue.names.last().expect("a name");
        g.catalogue.names.push(last);
    }),
    (2, "names descend", |g, _| {
        let names = &mut g.catalogue.names;
        let last = names.len() - 1;
        names.swap(last, last - 1);
    }),
    (2, "effect twice", |g, _| {
        let last = *g.catalogue.effects.last().expect("an effect");
        g.catalogue.effects.push(last);
    }),
    (2, "effects descend", |g, _| {
        g.catalogue.effects.push(Effect { id: -1, mark: 0 });
    }),
    (2, "type twice", |g, _| {
        g.catalogue.types.push(a_type(i32::MAX));
        g.catalogue.types.push(a_type(i32::MAX));
    }),
    (2, "types descend", |g, _| {
        g.catalogue.types.push(a_type(i32::MIN));
    }),
    (2, "links descend", |g, _| {
        g.catalogue.links.push(Link {
            type_id: 9,
            effect: 1,
        });
        g.catalogue.links.push(Link {
            type_id: 8,
            effect: 1,
        });
    }),
    (2, "bases descend", |g, _| {
        g.catalogue.bases.push(Base::single(i32::MAX, 0, 0.0));
        g.catalogue.bases.push(Base::single(-1, 0, 0.0));
    }),
    (3, "name 88", |g, _| {
        g.catalogue.names.push(Name {
            number: 88,
            attribute: 1,
        });
    }),
    (3, "name 4,294,967,295", |g, _| {
        g.catalogue.names.push(Name {
            number: u32::MAX,
            attribute: 1,
        });
    }),
    (3, "mark 9", |g, _| {
        g.catalogue.effects.push(Effect {
            id: i32::MAX,
            mark: 9,
        });
    }),
    (3, "mark 4,294,967,295", |g, _| {
        g.catalogue.effects[0].mark = u32::MAX;
    }),
    (3, "volume flag 2", |g, rng| {
        let at = rng.below(g.catalogue.types.len());
        g.catalogue.types[at].flag = 2;
    }),
    (3, "volume flag 256", |g, _| g.catalogue.types[0].flag = 256),
    (4, "fit one byte short", |g, _| g.fit.damage.cut += 1),
    (4, "no fit", |g, _| g.fit.damage.cut = usize::MAX),
    (4, "fit of 35 bytes", |g, _| {
        g.fit.damage.cut = usize::MAX;
        g.fit.damage.extra = vec![0; 35];
    }),
    (4, "fit of 15 bytes", |g, _| {
        g.fit.damage.cut = usize::MAX;
        g.fit.damage.extra = vec![0; 15];
    }),
    (4, "one byte behind the fit", |g, rng| {
        g.fit.damage.extra.push(rng.draw() as u8);
    }),
    (4, "1,025 skills", |g, _| {
        let mut id = g.fit.skills.last().map_or(0, |skill| skill.id);
        while g.fit.skills.len() < 1_025 {
            id += 1;
            g.fit.skills.push(Skill { id, level: 1 });
        }
    }),
    (4, "257 items", |g, _| {
        g.fit.items.resize(257, an_item(CARGO, 0));
    }),
    (4, "257 results", |g, _| {
        g.fit.results.resize(257, Outcome::default());
    }),
    (4, "30,001 attributes", |g, _| {
        let missing = 30_001 - g.fit.attribute_total() as i32;
        let first = g.fit.ship.attributes.last().map_or(0, |row| row.0);
        let more = (1..=missing).map(|number| (first + number, 0));
        g.fit.ship.attributes.extend(more);
    }),
    (4, "fit size one too high", |g, rng| {
        let size = rng.below(4);
        let sizes = fit_sizes(&g.fit);
        g.fit.damage.sizes.push((size, sizes[size] + 1));
    }),
    (4, "fit size of 4,294,967,295", |g, rng| {
        g.fit.damage.sizes.push((rng.below(4), u32::MAX));
    }),
    (4, "counts add to more than A", |g, _| {
        let count = g.fit.character.attributes.len() as u16;
        g.fit.character.count = Some(count + 1);
    }),
    (4, "counts add to less than A", |g, _| {
        let count = g.fit.ship.attributes.len() as u16;
        g.fit.ship.count = Some(count - 1);
    }),
    (4, "counts add to A plus 65,536", |g, _| {
        g.fit.results.insert(0, Outcome::default());
        g.fit.results.insert(0, Outcome::default());
        g.fit.results[0].count = Some(65_535);
        g.fit.results[1].count = Some(1);
    }),
    (5, "skill twice", |g, _| {
        let last = *g.fit.skills.last().expect("a skill");
        g.fit.skills.push(last);
    }),
    (5, "skills descend", |g, _| {
        g.fit.skills.push(Skill {
            id: i32::MIN,
            level: 0,
        });
    }),
    (5, "ship attribute twice", |g, _| twice(&mut g.fit.ship)),
    (5, "ship attributes descend", |g, _| {
        descend(&mut g.fit.ship)
    }),
    (5, "character attributes descend", |g, _| {
        descend(&mut g.fit.character)
    }),
    (5, "item attribute twice", |g, _| {
        twice(&mut g.fit.results[0])
    }),
    (5, "last result's attributes descend", |g, _| {
        let mut last = Outcome::default();
        descend(&mut last);
        g.fit.results.push(last);
    }),
    (6, "slot kind 12", |g, _| g.fit.items[0] = an_item(12, 0)),
    (6, "slot kind 255", |g, _| g.fit.items[0] = an_item(255, 0)),
    (6, "item's zero byte", |g, rng| {
        g.fit.items[0].zero = rng.between(1, 255) as u8;
    }),
    (6, "index 256 in a rack", |g, rng| {
        g.fit.items[0] = an_item(rng.pick(&[0, 1, 2, 3, 4, 5, 6, 8]), 256);
    }),
    (6, "index 65,535 in a rack", |g, _| {
        g.fit.items[0] = an_item(HIGH, 65_535)
    }),
    (6, "index in a bay", |g, rng| {
        g.fit.items[0] = an_item(rng.pick(&[FIGHTER_BAY, DRONE_BAY]), 1);
    }),
    (6, "index in Cargo", |g, _| {
        g.fit.items[0] = an_item(CARGO, 1)
    }),
    (6, "bad item without a result", |g, _| {
        g.fit.results.truncate(g.fit.items.len());
        g.fit.items.push(an_item(13, 0));
    }),
    (6, "state 4 of the ship", |g, _| g.fit.ship.state = 4),
    (6, "state 4 of the character", |g, _| {
        g.fit.character.state = 4
    }),
    (6, "state 4 of an item", |g, _| g.fit.results[0].state = 4),
    (6, "state 255 without an item", |g, _| {
        g.fit.items.truncate(g.fit.results.len());
        g.fit.results.push(Outcome {
            state: 255,
            ..Outcome::default()
        });
    }),
    (6, "result's zero byte", |g, rng| {
        g.fit.results[0].zero = rng.between(1, 255) as u8;
    }),
    (6, "ship's zero byte", |g, _| g.fit.ship.zero = 1),
    (6, "mode flag 2", |g, _| g.fit.mode_flag = 2),
    (6, "mode flag 256", |g, _| g.fit.mode_flag = 256),
    (6, "mode under flag 0", |g, rng| {
        g.fit.mode_flag = 0;
        g.fit.mode = rng.pick(&[1, -1, i32::MIN]);
    }),
    (11, "profile one byte short", |g, _| {
        g.profile().damage.cut += 1
    }),
    (11, "one byte behind the profile", |g, rng| {
        let more = rng.draw() as u8;
        g.profile().damage.extra.push(more);
    }),
    (11, "profile of 1 byte", |g, _| replace_profile(g, 1)),
    (11, "profile of 2 bytes", |g, _| replace_profile(g, 2)),
    (11, "profile of 3 bytes", |g, _| replace_profile(g, 3)),
    (11, "profile size one too high", |g, _| {
        let size = g.profile().prices.len() as u32;
        g.profile().damage.sizes.push((0, size + 1));
    }),
    (11, "profile size one too low", |g, _| {
        let size = g.profile().prices.len() as u32;
        g.profile().damage.sizes.push((0, size - 1));
    }),
    (11, "profile size of 0 before groups", |g, _| {
        g.profile().damage.sizes.push((0, 0));
    }),
    (11, "profile size of 4,294,967,295", |g, _| {
        g.profile().damage.sizes.push((0, u32::MAX));
    }),
    (11, "profile size that wraps 32 bits", |g, _| {
        let size = g.profile().prices.len() as u32;
        g.profile().damage.sizes.push((0, size + 0x2000_0000));
    }),
    (11, "profile of 4,097 groups", |g, _| {
        let prices = &mut g.profile().prices;
        let first = prices.iter().map(|price| price.group).max().unwrap_or(0);
        let more = 4_097 - prices.len() as i32;
        prices.extend((1..=more).map(|number| Price {
            group: first + number,
            points: 5,
        }));
    }),
    (12, "group twice", |g, _| {
        let prices = &mut g.profile().prices;
        prices.insert(1, prices[1]);
    }),
    (12, "last group twice", |g, _| {
        let prices = &mut g.profile().prices;
        let last = prices[prices.len() - 1];
        prices.push(last);
    }),
    (12, "groups descend", |g, _| g.profile().prices.swap(1, 2)),
    (12, "groups descend below zero", |g, _| {
        let points = 1;
        g.profile().prices.push(Price { group: -1, points });
    }),
    (12, "points of 1,000,001", |g, rng| {
        a_price(g, rng, 1_000_001)
    }),
    (12, "points of 2,147,483,648", |g, rng| {
        a_price(g, rng, 2_147_483_648)
    }),
    (12, "points of 4,294,967,294", |g, rng| {
        a_price(g, rng, 4_294_967_294)
    }),
    (12, "points of 1,000,001 at the end", |g, _| {
        let prices = &mut g.profile().prices;
        prices.last_mut().expect("a group").points = 1_000_001;
    }),
    (8, "result R + 2", |g, _| {
        g.result = g.fit.results.len() as u32 + 2
    }),
    (8, "result 4,294,967,295", |g, _| g.result = u32::MAX),
    (9, "513 wanted skills", |g, _| chain(g, 513)),
    (9, "600 wanted skills", |g, _| chain(g, 600)),
    (10, "empty buffer", |g, _| {
        an_entry(g);
        g.room = Room::Empty;
    }),
    (10, "buffer one byte short", |g, _| {
        an_entry(g);
        g.room = Room::OneShort;
    }),
];

/// Zero bytes in the place of a profile.
fn replace_profile(ground: &mut Ground, length: usize) {
    let damage = &mut ground.profile().damage;
    damage.cut = usize::MAX;
    damage.extra = vec![0; length];
}

/// Points for one of the profile's groups.
fn a_price(ground: &mut Ground, rng: &mut Rng, points: u32) {
    let prices = &mut ground.profile().prices;
    let row = rng.below(prices.len());
    prices[row].points = points;
}

fn catalogue_sizes(catalogue: &Catalogue) -> [u32; 5] {
    [
        catalogue.names.len() as u32,
        catalogue.effects.len() as u32,
        catalogue.types.len() as u32,
        catalogue.links.len() as u32,
        catalogue.bases.len() as u32,
    ]
}

fn fit_sizes(fit: &Fit) -> [u32; 4] {
    [
        fit.skills.len() as u32,
        fit.items.len() as u32,
        fit.results.len() as u32,
        fit.attribute_total() as u32,
    ]
}

fn a_type(id: i32) -> Type {
    Type {
        id,
        group: 0,
        category: 0,
        flag: 0,
        volume: 0,
    }
}

pub fn an_item(kind: u8, index: u16) -> Item {
    Item {
        type_id: 1,
        quantity: 1,
        kind,
        zero: 0,
        index,
    }
}

fn twice(outcome: &mut Outcome) {
    let row = outcome.attributes.last().copied().unwrap_or((7, 0));
    outcome.attributes.push(row);
    if outcome.attributes.len() == 1 {
        outcome.attributes.push(row);
    }
}

fn descend(outcome: &mut Outcome) {
    outcome.attributes.push((i32::MAX, 0));
    outcome.attributes.push((i32::MIN, 0));
}
