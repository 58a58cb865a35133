//! What may be wrong with the port: one of the named faults, a name or a mark
//! exchanged, or a size that it does not reach.

use super::fault::Fault;
use crate::case::Ask;

/// What is wrong, if anything.
#[derive(Clone, Copy, Debug, Default, PartialEq, Eq)]
pub enum Flaw {
    #[default]
    None,
    /// One wrong turn.
    Fault(Fault),
    /// A name of the tables is passed over.
    NameLost(usize),
    /// A name of the tables and the next one change places.
    NamesSwapped(usize),
    /// A mark and the next one change places.
    MarksSwapped(u32),
    /// Only the first so many rows are found.
    Short(Rows, usize),
    /// A number keeps no more than its lowest bits.
    Narrow(Number, u32),
    /// More than so much is refused.
    Refused(Measure, usize),
}

/// Rows that may end too early.
#[derive(Clone, Copy, Debug, PartialEq, Eq)]
pub enum Rows {
    Effects,
    Types,
    Links,
    Bases,
    LinksOfOne,
    BasesOfOne,
    /// The skills whose category is asked for.
    Listed,
    /// The skills whose level is asked for.
    Trained,
    Pairs,
    /// The attributes of one result.
    Attributes,
    /// The attributes of all results together.
    AllAttributes,
    ListEntries,
    SkillEntries,
    HallFits,
    /// The bases that are widened.
    Widened,
    /// The groups of a profile.
    Prices,
    /// The pairs that rule 26 lists.
    Unknown,
    /// The entries of a list that are trained.
    Plan,
    /// The bytes of a trained fit.
    TrainedBytes,
    /// The ids that the fit of a trim names.
    TrimNamed,
    /// The results of a trim that want skills.
    TrimResults,
    /// The skills that one result of a trim wants.
    TrimWanted,
    /// The skills that all results of a trim want.
    TrimTogether,
    /// The records of one id that a trim keeps.
    TrimmedRun,
    /// The bytes of a trimmed catalogue.
    TrimmedBytes,
    /// The pairs that a cause looks at.
    CausePairs,
    /// The bytes of a cause.
    CauseBytes,
    /// The pairs that are put back when leaving out.
    LeavePairs,
    /// The bytes of what is left out.
    LeaveBytes,
}

/// Numbers that may be too narrow.
#[derive(Clone, Copy, Debug, PartialEq, Eq)]
pub enum Number {
    EffectRow,
    TypeRow,
    LinkRow,
    BaseRow,
    /// A place in the catalogue, in bytes.
    CataloguePlace,
    /// An attribute's number within its result.
    AttributeRow,
    /// A place in the fit, in bytes.
    FitPlace,
    /// A place in the hall input, in bytes.
    HallPlace,
    /// A place in the buffer, in bytes.
    OutPlace,
    OutLength,
    /// The result number of the skill call.
    Result,
    /// The count in the word.
    Count,
    /// The count of a widened catalogue's bytes.
    WideCount,
    /// A place in the old catalogue, in bytes.
    WidenPlace,
    /// The pair index of an entry.
    PairIndex,
    SlotsUsed,
    SlotsAmount,
    GroupUsed,
    GroupAllowed,
    TypeUsed,
    TypeAllowed,
    EffectId,
    TypeId,
    AttributeId,
    TrainedId,
    WantedId,
    /// The group of a pair, as a profile is asked for it.
    GroupId,
    /// A group's number in its profile.
    PriceRow,
    /// The points of one group.
    Points,
    /// The points of all pairs together.
    PointsUsed,
    Allowance,
    /// The type id that rule 26 shows.
    UnknownId,
    /// The limits of a call.
    PairLimit,
    SkillLimit,
    /// The reader that a call names.
    Reader,
    /// The steps of a training.
    Steps,
    /// The count of a trained fit's bytes.
    TrainCount,
    /// The count of a trimmed catalogue's bytes.
    TrimCount,
    /// The number of a place among types, links and bases.
    TrimPlace,
    /// The position that a cause is of.
    CausePosition,
    /// The pair that the entry of a cause is about.
    CauseTarget,
    /// How many pairs may count for the entry of a cause.
    CauseLimit,
    /// The drones of a cause.
    CauseDrones,
    /// A pair that a cause writes.
    CauseNumber,
    /// The count of a cause's bytes.
    CauseCount,
    /// The budget of leaving out.
    LeaveBudget,
    /// The tries that it writes.
    LeaveTries,
    /// The distance that it writes.
    LeaveDistance,
    /// How many pairs may stay.
    LeaveLimit,
    /// A pair that it writes.
    LeaveNumber,
    /// The count of its bytes.
    LeaveCount,
}

/// Sizes that may be refused too early.
#[derive(Clone, Copy, Debug, PartialEq, Eq)]
pub enum Measure {
    CatalogueBytes,
    FitBytes,
    HallBytes,
    OutBytes,
    ListEntries,
    SkillEntries,
    /// Of a catalogue that is widened.
    OldBytes,
    ProfileBytes,
    /// Of a catalogue that is trimmed, when it is.
    TrimmedBytes,
    /// The skills that all results of a trim want.
    TrimTogether,
    /// The position that a cause is of.
    CausePosition,
    /// The bytes of a cause.
    CauseBytes,
    /// The bytes of what is left out.
    LeaveBytes,
    /// The tries of leaving out.
    LeaveTries,
}

/// The calls that have flaws of their own.
#[derive(Clone, Copy, PartialEq)]
enum Own {
    Trainings,
    Trims,
    Causes,
    LeaveOuts,
}

impl Flaw {
    pub fn has(self, fault: Fault) -> bool {
        self == Flaw::Fault(fault)
    }

    /// Whether it is about who a call is for.
    pub fn is_about_readers(self) -> bool {
        match self {
            Flaw::Fault(fault) => fault.is_about_readers(),
            Flaw::Narrow(Number::Reader, _) => true,
            _ => false,
        }
    }

    /// Whether a call can show it: those about trainings, trims, causes or leaving out show
    /// in no other.
    pub fn can_show_in(self, ask: &Ask) -> bool {
        let about = self.about();
        match ask {
            Ask::Train(..) | Ask::Trained(..) => about.is_none_or(|own| own == Own::Trainings),
            Ask::Trim(_) | Ask::Trimmed => about.is_none_or(|own| own == Own::Trims),
            Ask::Cause(..) | Ask::Caused(_) => about.is_none_or(|own| own == Own::Causes),
            Ask::LeaveOut(..) | Ask::LeftOut => about.is_none_or(|own| own == Own::LeaveOuts),
            _ => about.is_none(),
        }
    }

    /// The calls that it is about, where it is about such.
    fn about(self) -> Option<Own> {
        match self {
            Flaw::Fault(fault) if fault.is_about_trainings() => Some(Own::Trainings),
            Flaw::Fault(fault) if fault.is_about_trims() => Some(Own::Trims),
            Flaw::Fault(fault) if fault.is_about_causes() => Some(Own::Causes),
            Flaw::Fault(fault) if fault.is_about_leaving_out() => Some(Own::LeaveOuts),
            Flaw::Short(rows, _) => match rows {
                Rows::Plan | Rows::TrainedBytes => Some(Own::Trainings),
                Rows::TrimNamed
                | Rows::TrimResults
                | Rows::TrimWanted
                | Rows::TrimTogether
                | Rows::TrimmedRun
                | Rows::TrimmedBytes => Some(Own::Trims),
                Rows::CausePairs | Rows::CauseBytes => Some(Own::Causes),
                Rows::LeavePairs | Rows::LeaveBytes => Some(Own::LeaveOuts),
                _ => None,
            },
            Flaw::Narrow(number, _) => match number {
                Number::Steps | Number::TrainCount => Some(Own::Trainings),
                Number::TrimCount | Number::TrimPlace => Some(Own::Trims),
                Number::CausePosition
                | Number::CauseTarget
                | Number::CauseLimit
                | Number::CauseDrones
                | Number::CauseNumber
                | Number::CauseCount => Some(Own::Causes),
                Number::LeaveBudget
                | Number::LeaveTries
                | Number::LeaveDistance
                | Number::LeaveLimit
                | Number::LeaveNumber
                | Number::LeaveCount => Some(Own::LeaveOuts),
                _ => None,
            },
            Flaw::Refused(measure, _) => match measure {
                Measure::TrimmedBytes | Measure::TrimTogether => Some(Own::Trims),
                Measure::CausePosition | Measure::CauseBytes => Some(Own::Causes),
                Measure::LeaveBytes | Measure::LeaveTries => Some(Own::LeaveOuts),
                _ => None,
            },
            _ => None,
        }
    }

    /// How many of so many rows are found.
    pub fn rows(self, rows: Rows, count: usize) -> usize {
        match self {
            Flaw::Short(short, most) if short == rows => count.min(most),
            _ => count,
        }
    }

    /// What is left of a number.
    pub fn number(self, number: Number, value: usize) -> usize {
        match self {
            Flaw::Narrow(narrow, bits) if narrow == number => value & ((1 << bits) - 1),
            _ => value,
        }
    }

    /// The same for an amount that was a float: its whole part.
    pub fn amount(self, number: Number, value: f64, cast: u32) -> u32 {
        match self {
            Flaw::Narrow(narrow, _) if narrow == number && value >= 0.0 => {
                self.number(number, value as usize) as u32
            }
            _ => cast,
        }
    }

    /// The same for an id, which keeps the sign of its highest bit.
    pub fn id(self, number: Number, id: i32) -> i32 {
        match self {
            Flaw::Narrow(narrow, bits) if narrow == number => (id << (32 - bits)) >> (32 - bits),
            _ => id,
        }
    }

    /// Whether a size is refused that should not be.
    pub fn refuses(self, measure: Measure, size: usize) -> bool {
        matches!(self, Flaw::Refused(refused, most) if refused == measure && size > most)
    }
}
