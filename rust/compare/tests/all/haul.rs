//! Document 02's P7: cargo behind a fit touches nothing but the hold. The
//! promises' own example on every checker; what a league makes of cargo; and
//! that a run which holds the property (`run`, `hauled`) tells each breach of
//! it, also where every call by itself is answered as it should be.

use std::iter;

use crate::common::*;
use compare::case::{Ask, Case, Growth, Room};
use compare::checker::{Checker, ENTRY, Entry, Terms};
use compare::faults;
use compare::fixed;
use compare::hauled;
use compare::names::{CAPACITY, GROUP_LIMITS, MAX_TYPE_FITTED, RACKS, REQUIRED};
use compare::plain::Plain;
use compare::profile::{BANNED, League};
use compare::reader::Reader;
use compare::reference::Original;
use compare::run::run;
use compare::sketch::*;
use compare::tally::Tally;

const GUN: i32 = 10;
const GUNNERY: i32 = 24;
const ORE: i32 = 25;
const GHOST: i32 = 26;
const SCRAP: i32 = 27;
const LOST: i32 = -99;
const UNKNOWN: i32 = 99;
const GUNS: i32 = 50;
const STUFF: i32 = 450;

/// The promises' example: on a ship with a hold of 1 and one High slot two guns
/// in that slot, of which the first allows one of its group and one of its type
/// and wants a skill at 5 that is trained to 3; 5 less 1 in the hold, and an
/// implant that is not in the catalogue.
fn old() -> Sketch {
    Sketch::of(1, SHIP_GROUP, CATEGORY_SHIP)
        .known(GUN, GUNS, CATEGORY_MODULE)
        .volume(f32::INFINITY)
        .known(ORE, STUFF, 25)
        .volume(2.5)
        .known(GHOST, STUFF, 25)
        .known(SCRAP, STUFF, 25)
        .volume(-1.0)
        .skill(GUNNERY, 3)
        .ship(CAPACITY, 1.0)
        .ship(RACKS, 1.0)
        .item(GUN, HIGH, 0)
        .state(ONLINE)
        .with(GROUP_LIMITS, 1.0)
        .with(MAX_TYPE_FITTED, 1.0)
        .with(REQUIRED, GUNNERY.into())
        .with(REQUIRED + 1, 5.0)
        .item(GUN, HIGH, 0)
        .state(ONLINE)
        .item(ORE, CARGO, 0)
        .quantity(2)
        .item(SCRAP, CARGO, 0)
        .item(LOST, IMPLANT, 0)
        .state(ONLINE)
}

/// Cargo with a volume, with none as its flag is 0, with none as its type is
/// missing, and one without a result.
fn loaded() -> Sketch {
    old()
        .item(ORE, CARGO, 0)
        .item(GHOST, CARGO, 0)
        .item(UNKNOWN, CARGO, 0)
        .unpaired(ORE, CARGO, 0)
}

/// Five of a volume below zero.
fn lightened() -> Sketch {
    old().item(SCRAP, CARGO, 0).quantity(5)
}

/// A gun, which is no cargo.
fn armed() -> Sketch {
    old().item(GUN, HIGH, 1).state(ONLINE)
}

/// So many guns in the High slot, with the first one's limits.
fn guns(used: u32) -> Vec<Vec<u8>> {
    vec![
        entry(0, 2, 0, 0, [used, 1, 0, 0]),
        item(0, 8),
        item(1, 8),
        item(4, 7),
        entry(1, 17, 0, 0, [GUNS as u32, used, 1, 0]),
        entry(1, 18, 0, 0, [GUN as u32, used, 1, 0]),
    ]
}

fn not_a_skill() -> Vec<u8> {
    entry(0, 21, 0, 0, [GUNNERY as u32, 0, 0, 0])
}

/// The example's list: the hold as it is used, and what stands behind the rest.
fn listed(hold: Option<f64>, behind: &[Vec<u8>]) -> Vec<Vec<u8>> {
    let hold = hold.map(|used| resource(11, used, 1.0));
    let first = [not_a_skill()].into_iter().chain(hold);
    first.chain(guns(2)).chain(behind.to_vec()).collect()
}

#[test]
fn the_example_in_the_hold_and_outside() {
    let missing = [unknown(4, LOST), unknown(7, UNKNOWN)];
    let lost = &missing[..1];
    assert_list(old(), &listed(Some(4.0), lost));
    assert_list(loaded(), &listed(Some(6.5), &missing));
    let lacking = [entry(1, 11, 0, 0, [GUNNERY as u32, 5, 3, 0])];
    for sketch in [old(), loaded(), lightened(), armed()] {
        assert_skills(sketch.clone(), 2, &lacking);
        assert_skills(sketch, 3, &[]);
    }
    // Why a volume may not be below zero, and why what is added has to be cargo.
    assert_list(lightened(), &listed(None, lost));
    let first = [not_a_skill(), resource(11, 4.0, 1.0)];
    assert_list(armed(), &[&first[..], &guns(3), lost].concat());
}

/// Asserts what every checker lists for a reader in a league.
fn assert_league(sketch: Sketch, reader: Reader, league: &League, expected: Vec<Vec<u8>>) {
    let sketch = sketch.finish();
    let terms = Terms {
        reader,
        profile: &league.image(),
        allowance: league.allowance,
        ..Terms::default()
    };
    let (catalogue, fit) = (sketch.catalogue.image(), sketch.fit.image());
    assert_list_with(&catalogue, &fit, terms, &Given::Entries(expected));
}

fn banned(index: u32, group: i32) -> Vec<u8> {
    entry(1, 24, 0, index, [group as u32, 0, 0, 0])
}

fn points(used: u32, allowed: u32) -> Vec<u8> {
    entry(0, 25, 0, 0, [used, allowed, 0, 0])
}

#[test]
fn the_example_in_leagues_and_for_a_guest() {
    let missing = [unknown(4, LOST), unknown(7, UNKNOWN)];
    let behind = |own: &[Vec<u8>], count: usize| [own, &missing[..count]].concat();
    let banning = League::of(&[(GUNS, BANNED)], 5);
    let bans = [banned(0, GUNS), banned(1, GUNS)];
    let pricing = League::of(&[(GUNS, 3)], 5);
    for (sketch, hold, count) in [(old(), 4.0, 1), (loaded(), 6.5, 2)] {
        let list = listed(Some(hold), &behind(&bans, count));
        assert_league(sketch.clone(), Reader::OFFICER, &banning, list);
        let list = listed(Some(hold), &behind(&[points(6, 5)], count));
        assert_league(sketch, Reader::GUEST, &pricing, list[1..].to_vec());
    }
}

/// One gun, and then guns, ore and what is missing in the hold, which has no
/// capacity and so is over none.
fn gun_and_cargo() -> [Sketch; 2] {
    let gun = Sketch::hull()
        .known(GUN, GUNS, CATEGORY_MODULE)
        .known(ORE, STUFF, 25)
        .item(GUN, HIGH, 0);
    let cargo = gun.clone().item(GUN, CARGO, 0).item(ORE, CARGO, 0);
    [gun, cargo.quantity(9).item(UNKNOWN, CARGO, 0)]
}

/// What a run meets of cargo in a league, and what shows where a checker has the
/// league count it.
const BAN: &str = "of a banned group, and no ban of it";
const BESIDE: &str = "of a banned group that is fitted too, and no ban more";
const PRICED: &str = "of a priced group, and no points of it";
const OVER: &str = "of a price over the allowance, and Points stays away";
const MORE: &str = "of a priced group, and Points stays as it was";

/// A league, what it lists of the gun and no more of the cargo, and what a run
/// meets there.
type Row = (League, Vec<Vec<u8>>, Vec<&'static str>);

fn leagues() -> [Row; 7] {
    let all = |guns: u32, others: u32, allowance: u32| {
        League::of(&[(0, others), (GUNS, guns), (STUFF, others)], allowance)
    };
    let ban = || vec![banned(0, GUNS)];
    [
        (all(0, BANNED, 0), vec![], vec![BAN]),
        (all(BANNED, BANNED, 0), ban(), vec![BAN, BESIDE]),
        (all(7, 1_000_000, 7), vec![], vec![PRICED, OVER]),
        (all(7, 1_000_000, 6), vec![points(7, 6)], vec![PRICED, MORE]),
        (all(7, BANNED, 14), vec![], vec![BAN, PRICED]),
        (all(BANNED, 1, 1), ban(), vec![BAN, BESIDE, PRICED, OVER]),
        (all(0, 0, 0), vec![], vec![]),
    ]
}

/// Cargo is not fitted: with a banned or priced group in the hold, and without,
/// rules 24 and 25 list the same.
#[test]
fn a_league_neither_bans_nor_prices_cargo() {
    for (league, expected, _) in leagues() {
        for reader in Reader::ALL {
            let [gun, cargo] = gun_and_cargo();
            assert_league(gun, reader, &league, expected.clone());
            let with_missing = [&expected[..], &[unknown(3, UNKNOWN)]].concat();
            assert_league(cargo, reader, &league, with_missing);
        }
    }
}

/// The cargo behind the gun, in a league.
fn in_league(league: League) -> Case {
    let [gun, cargo] = gun_and_cargo();
    Case {
        league,
        ..hauling(gun, cargo, &[Ask::HauledList])
    }
}

#[test]
fn banned_and_priced_cargo_is_met_where_it_is() {
    for (number, (league, _, expected)) in leagues().into_iter().enumerate() {
        let mut tally = Tally::default();
        assert!(run(&in_league(league), &Original, &mut tally).is_ok());
        let met = tally.required().into_iter().filter(|point| point.1 > 0);
        let words = met.map(|point| point.0.to_string());
        let own = words.filter(|words| {
            [BAN, BESIDE, PRICED, OVER, MORE]
                .iter()
                .any(|it| words.ends_with(it))
        });
        let expected = expected
            .iter()
            .map(|it| format!("cargo behind a fit, {it}"));
        assert_eq!(
            own.collect::<Vec<_>>(),
            expected.collect::<Vec<_>>(),
            "league {number}"
        );
    }
}

/// A port in which a league counts cargo is reported by the property, in those
/// leagues where that shows.
#[test]
fn a_league_that_counts_cargo_breaks_the_property() {
    let faults = [
        ("BannedUnfitted", vec![BAN]),
        ("BannedInCargo", vec![BAN]),
        ("BannedCargoBeside", vec![BESIDE]),
        ("PointsUnfitted", vec![OVER, MORE]),
        ("PointsInCargo", vec![OVER, MORE]),
    ];
    for (fault, shows) in faults {
        for (number, (league, _, met)) in leagues().into_iter().enumerate() {
            let reports = reported_of(fault, &[in_league(league)]);
            let is_shown = met.iter().any(|point| shows.contains(point));
            assert_eq!(
                reports.len(),
                usize::from(is_shown),
                "{fault}, league {number}"
            );
            for what in reports {
                let expected = "for an officer, in the checker's lists, outside the hold, ";
                assert!(
                    what.starts_with(expected),
                    "{fault}, league {number}: {what}"
                );
            }
        }
    }
}

/// The original's entries of a list, or of one result's skills.
fn original(sketch: Sketch, result: Option<u32>) -> Vec<Entry> {
    let sketch = sketch.finish();
    let (catalogue, fit) = (sketch.catalogue.image(), sketch.fit.image());
    let (terms, mut out) = (Terms::default(), [0; 1_000]);
    let word = match result {
        None => Original.list(&catalogue, &fit, terms, &mut out),
        Some(result) => Original.skill(&catalogue, &fit, result, terms, &mut out),
    };
    assert_eq!(word >> 32, 0, "the example is answered");
    entries(word, &out)
}

fn entries(word: u64, out: &[u8]) -> Vec<Entry> {
    let entries = out.chunks_exact(ENTRY).take(word as usize);
    entries.map(|entry| entry.try_into().unwrap()).collect()
}

fn take(list: &mut Vec<Entry>, place: usize) {
    list.remove(place);
}

/// A list without one of its entries, with it twice, with it and the next one
/// exchanged, and with each of its bytes changed.
fn spoiled(list: &[Entry], place: usize) -> Vec<Vec<Entry>> {
    let changed = |change: &dyn Fn(&mut Vec<Entry>)| {
        let mut list = list.to_vec();
        change(&mut list);
        list
    };
    let mut spoiled = vec![
        changed(&|list| take(list, place)),
        changed(&|list| list.insert(place, list[place])),
    ];
    if place + 1 < list.len() {
        spoiled.push(changed(&|list| list.swap(place, place + 1)));
    }
    spoiled.extend((0..ENTRY).map(|at| changed(&|list| list[place][at] ^= 0x80)));
    spoiled
}

/// Of the original's own lists: without the hold and rule 26 each entry counts,
/// and each of its bytes, whatever the volumes.
#[test]
fn each_change_outside_the_hold_is_a_breach() {
    let outside = |list: Vec<Entry>| -> Vec<Entry> {
        let kept = |entry: &Entry| entry[1..3] != [1, 11] && entry[1] != 26;
        list.into_iter().filter(kept).collect()
    };
    let (before, after) = (original(old(), None), original(loaded(), None));
    assert_eq!(hauled::lists(&before, &after, true), Ok(()));
    let list = outside(after);
    assert_eq!(list.len(), 7);
    for place in 0..list.len() {
        for spoiled in spoiled(&list, place) {
            for grows in [false, true] {
                let held = hauled::lists(&outside(before.clone()), &spoiled, grows);
                let what = held.expect_err("a breach");
                assert!(what.starts_with("outside the hold, "), "{what}");
            }
        }
    }
}

#[test]
fn each_change_of_an_old_results_skills_is_a_breach() {
    let (before, after) = (original(old(), Some(2)), original(loaded(), Some(2)));
    assert_eq!(hauled::skills(&before, &after), Ok(()));
    assert_eq!(after.len(), 1);
    for spoiled in spoiled(&after, 0) {
        assert!(hauled::skills(&before, &spoiled).is_err());
    }
}

/// Where the hold stands in the example's lists.
const HOLD: usize = 1;

/// A list whose hold has this in use.
fn using(used: f64) -> Vec<Entry> {
    let mut list = original(old(), None);
    list[HOLD][8..16].copy_from_slice(&used.to_le_bytes());
    list
}

/// The hold may appear and grow. It goes or falls by volumes that are not
/// finite or below zero alone, and is never there twice.
#[test]
fn what_may_become_of_the_hold() {
    let (away, none) = (original(lightened(), None), f64::NAN);
    let twice = spoiled(&using(6.5), HOLD).swap_remove(1);
    let rows = [
        (away.clone(), using(4.0), [true, true]),
        (using(4.0), using(4.0), [true, true]),
        (using(4.0), using(6.5), [true, true]),
        (using(4.0), using(f64::INFINITY), [true, true]),
        (using(4.0), using(3.5), [true, false]),
        (using(4.0), using(none), [true, false]),
        (using(4.0), away.clone(), [true, false]),
        (away, twice.clone(), [false, false]),
        (using(4.0), twice.clone(), [false, false]),
        (twice, using(6.5), [false, false]),
    ];
    for (number, (before, after, holds)) in rows.into_iter().enumerate() {
        let held = [false, true].map(|grows| hauled::lists(&before, &after, grows).is_ok());
        assert_eq!(held, holds, "row {number}");
    }
}

/// A fit, and what another one has behind it.
fn hauling(old: Sketch, new: Sketch, asks: &[Ask]) -> Case {
    let (old, new) = (old.case("cargo behind a fit", asks), new.finish().fit);
    let (items, results) = (old.fits[0].items.len(), old.fits[0].results.len());
    Case {
        haul: Growth {
            items: new.items[items..].to_vec(),
            results: new.results[results..].to_vec(),
            ..Growth::default()
        },
        ..old
    }
}

/// The same calls on either fit by itself.
fn apart(case: &Case) -> [Case; 2] {
    let rooms = [Room::Exact, Room::Longer(ENTRY)];
    let calls = |ask: &Ask| match *ask {
        Ask::HauledSkill(result) => rooms.map(|room| Ask::Skill(result, room)),
        _ => rooms.map(Ask::List),
    };
    let asks: Vec<Ask> = case.asks.iter().flat_map(calls).collect();
    let fits = [case.fits[0].clone(), case.haul.of(&case.fits[0])];
    fits.map(|fit| Case {
        fits: vec![fit],
        asks: asks.clone(),
        ..case.clone()
    })
}

/// What a run reports of a checker, if anything.
fn reported(case: &Case, checker: &dyn Checker) -> Option<String> {
    let held = run(case, checker, &mut Tally::default());
    held.err().map(|difference| difference.what)
}

type Spoil = fn(&mut Vec<Entry>);

/// The original, but that one reader gets a spoiled list of a fit with cargo
/// behind it, where the buffer has room for some entries more. A run lends such
/// a buffer where it holds the property; each call by itself is lent less, and
/// is answered well.
struct Spoiler {
    reader: Reader,
    spoil: Spoil,
}

impl Spoiler {
    fn spoil(&self, reader: Reader, fit: &[u8], word: u64, out: &mut [u8]) -> u64 {
        let items = u32::from_le_bytes(fit[4..8].try_into().unwrap()) as usize;
        let is_asked = reader == self.reader && items > old().fit.items.len();
        let has_room = out.len() > ENTRY * (word as usize + 4);
        if word >> 32 != 0 || !is_asked || !has_room {
            return word;
        }
        let mut list = entries(word, out);
        (self.spoil)(&mut list);
        out[..ENTRY * list.len()].copy_from_slice(&list.concat());
        list.len() as u64
    }
}

impl Checker for Spoiler {
    fn list(&self, catalogue: &[u8], fit: &[u8], terms: Terms, out: &mut [u8]) -> u64 {
        let word = Original.list(catalogue, fit, terms, out);
        self.spoil(terms.reader, fit, word, out)
    }

    fn skill(
        &self,
        catalogue: &[u8],
        fit: &[u8],
        result: u32,
        terms: Terms,
        out: &mut [u8],
    ) -> u64 {
        let word = Original.skill(catalogue, fit, result, terms, out);
        self.spoil(terms.reader, fit, word, out)
    }

    fn hall(&self, catalogue: &[u8], input: &[u8]) -> u64 {
        Original.hall(catalogue, input)
    }

    fn widen(&self, old: &[u8], out: &mut [u8]) -> u64 {
        Original.widen(old, out)
    }

    fn train(&self, catalogue: &[u8], fit: &[u8], result: u32, steps: u32, out: &mut [u8]) -> u64 {
        Original.train(catalogue, fit, result, steps, out)
    }

    fn leave_out(&self, catalogue: &[u8], fit: &[u8], budget: u32, out: &mut [u8]) -> u64 {
        Original.leave_out(catalogue, fit, budget, out)
    }

    fn cause(&self, catalogue: &[u8], fit: &[u8], position: u32, out: &mut [u8]) -> u64 {
        Original.cause(catalogue, fit, position, out)
    }

    fn trim(&self, catalogue: &[u8], fit: &[u8], out: &mut [u8]) -> u64 {
        Original.trim(catalogue, fit, out)
    }
}

/// Asserts that nothing is reported of a spoiler's calls one by one, and of both
/// fits together what the property says, or nothing.
fn assert_reported_for(reader: Reader, case: &Case, spoil: Spoil, expected: Option<&str>) {
    let checker = Spoiler { reader, spoil };
    for apart in apart(case) {
        assert_eq!(reported(&apart, &checker), None, "by itself");
    }
    let what = reported(case, &checker);
    match expected {
        None => assert_eq!(what, None),
        Some(words) => {
            let what = what.expect("a breach");
            let expected = format!("for {reader}, in the checker's lists, {words}");
            assert!(what.starts_with(&expected), "{what}\nexpected: {expected}");
        }
    }
}

fn assert_reported(case: &Case, spoil: Spoil, expected: Option<&str>) {
    assert_reported_for(Reader::OFFICER, case, spoil, expected);
}

fn set_used(list: &mut [Entry], used: f64) {
    list[HOLD][8..16].copy_from_slice(&used.to_le_bytes());
}

#[test]
fn a_run_tells_a_breach_that_no_call_shows_by_itself() {
    let breaches: [(Spoil, &str); 11] = [
        (|list| take(list, 0), "outside the hold, entry 0 was"),
        (|list| list.swap(2, 3), "outside the hold, entry 1 was"),
        (|list| list[4][5] ^= 1, "outside the hold, entry 3 was"),
        (|list| list[7][23] = 1, "outside the hold, entry 6 was"),
        (
            |list| list.insert(0, list[0]),
            "outside the hold, entry 1 was",
        ),
        (
            |list| take(list, 7),
            "outside the hold, there were 7 entries and are 6",
        ),
        (
            |list| list.push(list[7]),
            "outside the hold, there were 7 entries and are 8",
        ),
        (|list| take(list, HOLD), "CargoBay is gone"),
        (
            |list| list.push(list[HOLD]),
            "CargoBay is listed more than once",
        ),
        (|list| set_used(list, 3.5), "CargoBay does not stay"),
        (|list| list[HOLD][16] ^= 1, "CargoBay does not stay"),
    ];
    let case = hauling(old(), loaded(), &[Ask::HauledList]);
    for (spoil, words) in breaches {
        assert_reported(&case, spoil, Some(words));
    }
}

#[test]
fn a_run_tells_a_breach_for_one_reader_alone() {
    let case = hauling(old(), loaded(), &[Ask::HauledList]);
    for reader in Reader::ALL {
        // Behind the guest's first entries, who gets no NotASkill.
        let words = Some("outside the hold, entry");
        assert_reported_for(reader, &case, |list| list[4][23] ^= 1, words);
        let skills = hauling(old(), loaded(), &[Ask::HauledSkill(2)]);
        let words = match reader {
            // His skill calls are refused, so that nothing is held of them.
            Reader::GUEST => None,
            _ => Some("of an old result's skills, there were 1 entries and are 0"),
        };
        assert_reported_for(reader, &skills, Vec::clear, words);
    }
}

/// What the property leaves free: rule 26, how far the hold grows, and the hold
/// altogether where a volume is below zero.
#[test]
fn a_run_tells_no_breach_where_there_is_none() {
    let free: [Spoil; 5] = [
        |_| {},
        |list| list.truncate(8),
        |list| list.swap(8, 9),
        |list| list.insert(0, list[9]),
        |list| set_used(list, 1e9),
    ];
    let case = hauling(old(), loaded(), &[Ask::HauledList]);
    for spoil in free {
        assert_reported(&case, spoil, None);
    }
    let case = hauling(old(), lightened(), &[Ask::HauledList]);
    let appears: Spoil = |list| {
        let hold: Entry = resource(11, 2.0, 1.0).try_into().unwrap();
        list.insert(HOLD, hold);
    };
    assert_reported(&case, appears, None);
    let twice: Spoil = |list| {
        let hold: Entry = resource(11, 2.0, 1.0).try_into().unwrap();
        list.splice(HOLD..HOLD, iter::repeat_n(hold, 2));
    };
    assert_reported(&case, twice, Some("CargoBay is listed more than once"));
}

#[test]
fn a_run_tells_a_breach_of_an_old_results_skills() {
    let breaches: [(Spoil, &str); 3] = [
        (|list| list[0][16] ^= 1, "entry 0 was"),
        (Vec::clear, "there were 1 entries and are 0"),
        (|list| list.push(list[0]), "there were 1 entries and are 2"),
    ];
    let case = hauling(old(), loaded(), &[Ask::HauledSkill(2)]);
    for (spoil, words) in breaches {
        let words = format!("of an old result's skills, {words}");
        assert_reported(&case, spoil, Some(&words));
    }
    // An added result's skills are its own.
    let added = hauling(old(), loaded(), &[Ask::HauledSkill(7)]);
    assert_reported(&added, |list| list.push([11; ENTRY]), None);
}

/// Without a premise the claim is false of the original's own lists, and a run
/// does not hold it.
#[test]
fn nothing_is_held_without_the_premises() {
    let asks = [Ask::HauledList, Ask::HauledSkill(2)];
    let before = original(old(), None);
    let after = original(armed(), None);
    assert!(hauled::lists(&before, &after, true).is_err());
    assert_eq!(reported(&hauling(old(), armed(), &asks), &Original), None);

    let after = original(lightened(), None);
    assert!(hauled::lists(&before, &after, true).is_err());
    assert_eq!(
        reported(&hauling(old(), lightened(), &asks), &Original),
        None
    );

    let mut forgetful = hauling(old(), loaded(), &asks);
    forgetful.haul.lowered = vec![1];
    let mut untrained = loaded();
    untrained.fit.skills[0].level = 2;
    let skills = [old(), untrained].map(|sketch| original(sketch, Some(2)));
    assert!(hauled::skills(&skills[0], &skills[1]).is_err());
    assert_eq!(reported(&forgetful, &Original), None);

    // The added result becomes that of the third gun, which had none.
    let uneven = || old().unpaired(GUN, HIGH, 1);
    let lists = [uneven(), uneven().result()].map(|sketch| original(sketch, None));
    assert!(hauled::lists(&lists[0], &lists[1], true).is_err());
    let mut case = uneven().case("more items than results", &asks);
    case.haul.results = vec![Default::default()];
    assert_eq!(reported(&case, &Original), None);
}

/// The fixed cases of cargo behind a fit, which stand together.
fn fixed_cases() -> Vec<Case> {
    let numbers = (0..fixed::count() - fixed::LONG).rev();
    let cases = numbers.map(|number| fixed::case(number).unwrap());
    let is_haul = |case: &Case| case.asks.contains(&Ask::HauledList);
    let last = cases.skip_while(|case| !is_haul(case));
    last.take_while(is_haul).collect()
}

/// What runs of the fixed cases report of the plain port with a fault.
fn reported_of(fault: &str, cases: &[Case]) -> Vec<String> {
    let checker = Plain::with(faults::named(fault).expect("a fault"));
    let reports = cases.iter().filter_map(|case| reported(case, &checker));
    reports.collect()
}

/// A wrong port is reported by the property where it breaks it, in the words of
/// that, and else by the comparison of its lists with the original's.
#[test]
fn faults_that_break_the_property_are_reported_by_it() {
    const BY_PROPERTY: &str = "in the checker's lists, ";
    let cases = fixed_cases();
    assert!(cases.len() > 20, "{} cases", cases.len());
    let breaking = [
        ("CargoFitted", "outside the hold"),
        ("CargoInRack", "outside the hold"),
        ("CargoLaunched", "outside the hold"),
        ("TakenInCargo", "outside the hold"),
        ("GroupUnfitted", "outside the hold"),
        ("BannedUnfitted", "outside the hold"),
        ("BannedInCargo", "outside the hold"),
        ("PointsUnfitted", "outside the hold"),
        ("PointsInCargo", "outside the hold"),
        ("CargoEach", "CargoBay is listed more than once"),
        ("CargoLastAlone", "CargoBay is gone"),
        ("CargoLastAlone", "CargoBay does not stay"),
    ];
    for (fault, words) in breaking {
        let reports = reported_of(fault, &cases);
        let expected = format!("{BY_PROPERTY}{words}");
        let is_told = reports.iter().any(|what| what.contains(&expected));
        assert!(is_told, "{fault}: {reports:#?}");
    }
    for fault in ["CargoNanFree", "CargoUnits", "UnknownNoCargo"] {
        let reports = reported_of(fault, &cases);
        assert!(!reports.is_empty(), "{fault} is told apart");
        for what in reports {
            assert!(!what.contains(BY_PROPERTY), "{fault}: {what}");
        }
    }
}
