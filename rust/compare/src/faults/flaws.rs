//! Every flaw of the plain port: what it is called, and what it does wrong.

use crate::names::{GROUP_LIMITS, MARKS, NAMES, SHIP_GROUPS, SHIP_TYPES, STANDUP_FIGHTERS, VOLUME};
use crate::plain::{FAULTS, Flaw, Measure, Number, Rows};

/// A flaw with its name and what it does wrong, in words.
pub struct Described {
    pub flaw: Flaw,
    pub name: String,
    pub words: String,
}

impl Described {
    fn new(flaw: Flaw, name: String, words: String) -> Described {
        Described { flaw, name, words }
    }

    /// Whether it is about sizes that only the large cases have.
    pub fn is_about_size(&self) -> bool {
        matches!(
            self.flaw,
            Flaw::Short(..) | Flaw::Narrow(..) | Flaw::Refused(..)
        )
    }
}

/// Where rows may end too early: after a few, after the widths that a number
/// of rows could be cut to, and one before the last that a case has.
const SHORT: &[(Rows, &[usize], &str)] = &[
    (
        Rows::Effects,
        &[64, 256, 3_499, 65_536, 2_097_090],
        "effects are found",
    ),
    (
        Rows::Types,
        &[64, 256, 4_096, 47_999, 65_536, 838_858],
        "types are found",
    ),
    (
        Rows::Links,
        &[400, 4_096, 49_999, 65_536, 2_097_097],
        "links are found",
    ),
    (
        Rows::Bases,
        &[1_024, 65_536, 599_999, 1_048_571],
        "base values are found",
    ),
    (
        Rows::LinksOfOne,
        &[16, 256, 1_001, 65_536],
        "links of a type are found",
    ),
    (
        Rows::BasesOfOne,
        &[16, 256, 12_003, 65_536],
        "base values of a type are found",
    ),
    (Rows::Listed, &[250, 512, 1_023], "listed skills are judged"),
    (
        Rows::Trained,
        &[250, 512, 1_023],
        "trained skills are found",
    ),
    (Rows::Pairs, &[64, 128, 255], "pairs are judged"),
    (
        Rows::Attributes,
        &[256, 4_096, 16_384, 29_999],
        "values of a result are found",
    ),
    (
        Rows::AllAttributes,
        &[4_096, 16_384, 29_999],
        "values of a fit are found",
    ),
    (
        Rows::ListEntries,
        &[1_585, 2_730, 3_855, 4_367],
        "entries of a list are written",
    ),
    (
        Rows::SkillEntries,
        &[128, 256, 511],
        "entries of skills are written",
    ),
    (Rows::HallFits, &[32, 63], "fits of a hall are counted"),
    (
        Rows::Widened,
        &[64, 1_024, 65_536, 599_999, 1_398_095],
        "base values are widened",
    ),
    (
        Rows::Prices,
        &[64, 256, 2_048, 4_095],
        "groups of a profile are found",
    ),
    (
        Rows::Unknown,
        &[64, 128, 255],
        "pairs of missing types are listed",
    ),
    (Rows::Plan, &[64, 256, 511], "entries of a list are trained"),
    (
        Rows::TrainedBytes,
        &[256, 4_096, 65_536, 262_144, 369_251],
        "bytes of a trained fit are written",
    ),
    (
        Rows::TrimNamed,
        &[64, 512, 1_024, 1_280],
        "ids that a fit names are kept by a trim",
    ),
    (
        Rows::TrimResults,
        &[64, 128, 257],
        "results of a trim want skills",
    ),
    (
        Rows::TrimWanted,
        &[64, 256, 511],
        "skills that a result wants are kept by a trim",
    ),
    (
        Rows::TrimTogether,
        &[64, 256, 511, 512],
        "skills that all results together want are kept by a trim",
    ),
    (
        Rows::TrimmedRun,
        &[64, 1_000, 65_536, 1_048_568],
        "records of an id are kept by a trim",
    ),
    (
        Rows::TrimmedBytes,
        &[256, 65_536, 1_048_576, 16_777_215],
        "bytes of a trimmed catalogue are written",
    ),
    (
        Rows::CausePairs,
        &[64, 128, 255],
        "pairs are looked at by a cause",
    ),
    (
        Rows::CauseBytes,
        &[64, 512, 1_023],
        "bytes of a cause are written",
    ),
    (
        Rows::LeavePairs,
        &[4, 16, 64, 255],
        "pairs are put back when leaving out",
    ),
    (
        Rows::LeaveBytes,
        &[8, 64, 512, 1_031],
        "bytes of what is left out are written",
    ),
];

/// Where numbers may be too narrow, in bits.
const NARROW: &[(Number, &[u32], &str)] = &[
    (Number::EffectRow, &[8, 16], "an effect's row"),
    (Number::TypeRow, &[8, 12, 16], "a type's row"),
    (Number::LinkRow, &[8, 12, 16], "a link's row"),
    (Number::BaseRow, &[8, 16, 19], "a base value's row"),
    (
        Number::CataloguePlace,
        &[16, 20, 23],
        "a place in the catalogue",
    ),
    (
        Number::AttributeRow,
        &[8, 12],
        "a value's number in its result",
    ),
    (Number::FitPlace, &[16, 18], "a place in the fit"),
    (
        Number::HallPlace,
        &[16, 20, 24],
        "a place in the hall input",
    ),
    (Number::OutPlace, &[16], "a place in the buffer"),
    (Number::OutLength, &[16, 20, 24], "the buffer's length"),
    (Number::Result, &[8, 16, 31], "the result number"),
    (Number::Count, &[8, 11], "the count"),
    (
        Number::WideCount,
        &[8, 16, 20, 24],
        "the count of a widened catalogue's bytes",
    ),
    (
        Number::WidenPlace,
        &[8, 16, 20, 23],
        "a place in the old catalogue",
    ),
    (Number::PairIndex, &[7], "an entry's pair index"),
    (Number::SlotsUsed, &[8], "used of Slots"),
    (Number::SlotsAmount, &[8, 16, 32], "the slot amount"),
    (Number::GroupUsed, &[8], "used of MaxGroup"),
    (Number::GroupAllowed, &[8, 16, 32], "allowed of MaxGroup"),
    (Number::TypeUsed, &[8], "used of MaxType"),
    (Number::TypeAllowed, &[8, 16, 32], "allowed of MaxType"),
    (Number::EffectId, &[16, 24], "an effect's id"),
    (Number::TypeId, &[16, 24], "a type's id"),
    (Number::AttributeId, &[16, 24], "an attribute's id"),
    (Number::TrainedId, &[16, 24], "a trained skill's id"),
    (Number::WantedId, &[16, 24], "a wanted skill's id"),
    (Number::GroupId, &[16, 24], "a pair's group"),
    (
        Number::PriceRow,
        &[8, 11],
        "a group's number in its profile",
    ),
    (Number::Points, &[8, 16], "the points of a group"),
    (Number::PointsUsed, &[8, 16, 24, 27], "used of Points"),
    (Number::Allowance, &[8, 16, 24, 31], "the allowance"),
    (Number::UnknownId, &[8, 16, 24], "the id of a missing type"),
    (Number::PairLimit, &[8, 16, 31], "the pair limit"),
    (Number::SkillLimit, &[8, 9, 16, 31], "the skill limit"),
    (Number::Reader, &[2, 8, 16, 24, 31], "the reader"),
    (Number::Steps, &[8, 16, 24, 31], "the number of steps"),
    (
        Number::TrainCount,
        &[8, 16, 18],
        "the count of a trained fit's bytes",
    ),
    (
        Number::TrimCount,
        &[8, 16, 24],
        "the count of a trimmed catalogue's bytes",
    ),
    (
        Number::TrimPlace,
        &[16, 20],
        "the number of a record that a trim marks",
    ),
    (
        Number::CausePosition,
        &[8, 12, 16, 24, 31],
        "the position that a cause is of",
    ),
    (
        Number::CauseTarget,
        &[4, 7],
        "the pair that the entry of a cause is about",
    ),
    (Number::CauseLimit, &[4, 7], "the limit of a cause"),
    (Number::CauseDrones, &[16, 32], "the drones of a cause"),
    (Number::CauseNumber, &[4, 7], "a number that a cause writes"),
    (
        Number::CauseCount,
        &[4, 8, 10],
        "the count of a cause's bytes",
    ),
    (
        Number::LeaveBudget,
        &[8, 16, 24, 31],
        "the budget of leaving out",
    ),
    (
        Number::LeaveTries,
        &[8, 16],
        "the tries that leaving out writes",
    ),
    (
        Number::LeaveDistance,
        &[4, 7, 8],
        "the distance that leaving out writes",
    ),
    (
        Number::LeaveLimit,
        &[4, 7, 8, 16, 24, 31],
        "a limit when leaving out",
    ),
    (
        Number::LeaveNumber,
        &[4, 7],
        "a number that leaving out writes",
    ),
    (
        Number::LeaveCount,
        &[4, 8, 10],
        "the count of what is left out",
    ),
];

/// What may be refused too early.
const REFUSED: &[(Measure, &[usize], &str)] = &[
    (
        Measure::CatalogueBytes,
        &[65_536, 1_048_576, 8_388_608],
        "bytes of the catalogue",
    ),
    (
        Measure::FitBytes,
        &[65_536, 262_144, 369_251],
        "bytes of a fit",
    ),
    (
        Measure::HallBytes,
        &[65_536, 600_000, 16_777_216, 23_632_387],
        "bytes of a hall input",
    ),
    (
        Measure::OutBytes,
        &[65_536, 135_696, 16_777_215],
        "bytes of buffer",
    ),
    (
        Measure::ListEntries,
        &[1_585, 2_730, 3_855, 4_367],
        "entries of a list",
    ),
    (Measure::SkillEntries, &[128, 511], "entries of skills"),
    (
        Measure::OldBytes,
        &[65_536, 1_048_576, 8_388_608, 16_777_215],
        "bytes of an old catalogue",
    ),
    (
        Measure::ProfileBytes,
        &[4_096, 16_384, 32_771],
        "bytes of a profile",
    ),
    (
        Measure::TrimmedBytes,
        &[65_536, 1_048_576, 16_777_215],
        "bytes of a trimmed catalogue",
    ),
    (
        Measure::TrimTogether,
        &[256, 511],
        "skills that all results together want",
    ),
    (
        Measure::CausePosition,
        &[255, 1_585, 2_730, 4_095],
        "for a cause's position",
    ),
    (Measure::CauseBytes, &[64, 512, 1_023], "bytes of a cause"),
    (
        Measure::LeaveBytes,
        &[64, 512, 1_031],
        "bytes of what is left out",
    ),
    (
        Measure::LeaveTries,
        &[255, 65_551, 65_552],
        "tries of leaving out",
    ),
];

/// Every flaw.
pub fn flaws() -> Vec<Described> {
    let mut flaws = Vec::new();
    for (fault, words) in FAULTS {
        let flaw = Flaw::Fault(*fault);
        flaws.push(Described::new(
            flaw,
            format!("{fault:?}"),
            words.to_string(),
        ));
    }
    flaws.extend(of_tables());
    flaws.extend(of_sizes());
    flaws
}

fn of_tables() -> Vec<Described> {
    let mut flaws = Vec::new();
    for (number, name) in NAMES.iter().enumerate() {
        let words = format!("{name} is passed over");
        let flaw = Flaw::NameLost(number);
        flaws.push(Described::new(flaw, format!("NameLost{number}"), words));
    }
    for (number, pair) in NAMES.windows(2).enumerate() {
        if order_is_free(number) {
            continue;
        }
        let words = format!("{} and {} change places", pair[0], pair[1]);
        let flaw = Flaw::NamesSwapped(number);
        flaws.push(Described::new(flaw, format!("NamesSwapped{number}"), words));
    }
    for (mark, pair) in MARKS.windows(2).enumerate() {
        let words = format!("{} and {} change places", pair[0], pair[1]);
        let flaw = Flaw::MarksSwapped(mark as u32);
        flaws.push(Described::new(flaw, format!("MarksSwapped{mark}"), words));
    }
    flaws
}

fn of_sizes() -> Vec<Described> {
    let mut flaws = Vec::new();
    for (rows, ends, what) in SHORT {
        for most in *ends {
            let words = format!("only the first {} {what}", grouped(*most));
            let name = format!("Short{rows:?}{most}");
            flaws.push(Described::new(Flaw::Short(*rows, *most), name, words));
        }
    }
    for (number, widths, what) in NARROW {
        for bits in *widths {
            let words = format!("{what} is cut to {bits} bits");
            let name = format!("Narrow{number:?}{bits}");
            flaws.push(Described::new(Flaw::Narrow(*number, *bits), name, words));
        }
    }
    for (measure, limits, what) in REFUSED {
        for most in *limits {
            let words = format!("more than {} {what} are refused", grouped(*most));
            let name = format!("Refused{measure:?}{most}");
            flaws.push(Described::new(Flaw::Refused(*measure, *most), name, words));
        }
    }
    flaws
}

/// A number with a comma after every three digits.
fn grouped(number: usize) -> String {
    match number {
        0..1_000 => number.to_string(),
        _ => format!("{},{:03}", grouped(number / 1_000), number % 1_000),
    }
}

/// Whether a name and the next one stand in a table whose order no rule
/// shows: an item's ship types are a set, and so are its ship groups and its
/// standup marks.
fn order_is_free(number: usize) -> bool {
    let tables = [
        SHIP_TYPES..SHIP_GROUPS,
        SHIP_GROUPS..VOLUME,
        STANDUP_FIGHTERS..GROUP_LIMITS,
    ];
    tables
        .iter()
        .any(|table| table.contains(&number) && table.contains(&(number + 1)))
}

/// The flaw of a name.
pub fn named(name: &str) -> Option<Flaw> {
    let found = flaws().into_iter().find(|known| known.name == name);
    found.map(|known| known.flaw)
}

#[cfg(test)]
mod tests {
    use super::*;

    #[test]
    fn every_flaw_has_a_name_of_its_own() {
        let mut names: Vec<String> = flaws().into_iter().map(|flaw| flaw.name).collect();
        let count = names.len();
        names.sort();
        names.dedup();
        assert_eq!(names.len(), count);
    }

    #[test]
    fn digits_are_grouped() {
        assert_eq!(grouped(64), "64");
        assert_eq!(grouped(65_536), "65,536");
        assert_eq!(grouped(16_777_215), "16,777,215");
        assert_eq!(grouped(1_001), "1,001");
    }
}
