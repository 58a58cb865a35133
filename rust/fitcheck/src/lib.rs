//! The proved fit checker for Rust: given EVE Online's type data (a catalogue)
//! and a ship's fit, every fitting rule that the fit breaks.
//!
//! Behind it stands `libfitcheck.a`, whose calls are proved to give the list
//! of their definition for every input, of any content and length. This crate
//! adds what a Rust program wants around them:
//!
//! - [`list`], [`skills`], [`hall`] and [`verdicts`] over slices, with
//!   [`list_into`] and [`skills_into`] for a caller's own buffer;
//! - [`Entry`], [`Rule`] and [`Target`] under the names of the original
//!   (EVEShipFit/dogma-engine), [`Refusal`] for bytes that are no catalogue or
//!   fit;
//! - [`Explainer`], which says each entry in a sentence that a pilot
//!   understands;
//! - [`CatalogueBuilder`] and [`FitBuilder`], whose images are always well
//!   formed: none is refused by 1 to 6;
//! - [`Profile`], what a tournament bans and prices, for a list call;
//! - [`Limits`], for a page that takes fewer items and skills than the main one;
//! - [`Reader`], whom a list is for: skills are private, and guests are not told;
//! - [`TrainingPlan`], what a result lacks and the fit that training for it leads
//!   to;
//! - [`TrimmedCatalogue`], the part of a catalogue that one fit touches, for a page
//!   that fetches no more;
//! - [`WholeList`], an officer's list of which each entry can be asked which items make
//!   it;
//! - [`LeaveOut`], which items to take off so that no slot is taken twice and no limit
//!   passed;
//! - [`widen`], which makes a catalogue of today's form of an old one.
//!
//! ```
//! use fitcheck::{
//!     Attribute, CatalogueBuilder, Explainer, FitBuilder, FitItem, ItemResult, ListOptions,
//!     Names, Reader, Slot, State,
//! };
//!
//! // What the type data says: two attributes, a ship and a module.
//! let catalogue = CatalogueBuilder::new()
//!     .name(Attribute::CpuLoad, 49)
//!     .name(Attribute::CpuOutput, 48)
//!     .type_info(587, 25, 6, None)
//!     .type_info(2048, 60, 7, Some(5.0))
//!     .build()?;
//!
//! // What the calculation made of the fit.
//! let fit = FitBuilder::new(587)
//!     .ship(ItemResult::new(State::Online).with(49, 150.5).with(48, 130.0))
//!     .item(FitItem::new(2048, Slot::Low(0)), ItemResult::new(State::Online))
//!     .item(FitItem::new(2048, Slot::Low(0)), ItemResult::new(State::Online))
//!     .build()?;
//!
//! let names = Names::parse("587 Rifter\n2048 Damage Control II\n")?;
//! let explainer = Explainer::new(&fit, &names);
//! let options = ListOptions::new(Reader::Pilot);
//! let sentences: Vec<String> = fitcheck::list(&catalogue, &fit, &options)?
//!     .iter()
//!     .map(|entry| explainer.explain(entry))
//!     .collect();
//! assert_eq!(sentences, [
//!     "CPU: 150.5 of 130 used",
//!     "Damage Control II (item 0) shares Low slot 0 with Damage Control II (item 1)",
//!     "Damage Control II (item 1) shares Low slot 0 with Damage Control II (item 0)",
//! ]);
//! # Ok::<(), Box<dyn std::error::Error>>(())
//! ```
//!
//! The calls share no state: any number of threads may make them at once.

#![deny(missing_docs)]
#![deny(unsafe_code)]

#[forbid(unsafe_code)]
mod attribute;
#[forbid(unsafe_code)]
mod call;
#[forbid(unsafe_code)]
mod catalogue;
#[forbid(unsafe_code)]
mod cause;
#[forbid(unsafe_code)]
mod entry;
#[forbid(unsafe_code)]
mod error;
#[forbid(unsafe_code)]
mod explain;
#[allow(unsafe_code)]
mod exported;
#[forbid(unsafe_code)]
mod fit;
#[forbid(unsafe_code)]
mod image;
#[forbid(unsafe_code)]
pub mod json;
#[forbid(unsafe_code)]
mod leave_out;
#[forbid(unsafe_code)]
mod limits;
#[forbid(unsafe_code)]
mod mark;
#[forbid(unsafe_code)]
mod missing;
#[forbid(unsafe_code)]
mod names;
#[forbid(unsafe_code)]
mod numbered;
#[forbid(unsafe_code)]
mod options;
#[forbid(unsafe_code)]
mod profile;
#[forbid(unsafe_code)]
mod reader;
#[forbid(unsafe_code)]
mod refusal;
#[forbid(unsafe_code)]
mod report;
#[forbid(unsafe_code)]
mod rule;
#[forbid(unsafe_code)]
mod slot;
#[forbid(unsafe_code)]
pub mod text;
#[forbid(unsafe_code)]
mod training;
#[forbid(unsafe_code)]
mod trimmed;
#[forbid(unsafe_code)]
mod type_data;
#[forbid(unsafe_code)]
mod unpaired;

pub use attribute::Attribute;
pub use call::{Hall, Verdict, hall, list, list_into, skills, skills_into, verdicts, widen};
pub use catalogue::CatalogueBuilder;
pub use cause::{BadVolume, CAUSE_BYTES, Cause, CausedReport, ListedEntry, WholeList};
pub use entry::Entry;
pub use error::{BuildError, FitPart};
pub use explain::{Explainer, explain};
pub use fit::{FitBuilder, FitItem, ItemResult};
pub use image::{CatalogueImage, FitImage};
pub use leave_out::{LEAVE_OUT_BYTES, LeaveOut, MOST_TRIES};
pub use limits::{Limits, Passed};
pub use mark::Mark;
pub use missing::{Missing, Unchecked};
pub use names::{Names, NamesError};
pub use options::{ListOptions, SkillOptions};
pub use profile::{MOST_GROUPS, MOST_POINTS, Price, Profile, ProfileError};
pub use reader::Reader;
pub use refusal::Refusal;
pub use report::Report;
pub use rule::{GroupLimit, Resource, Rule, SlotKind, Target};
pub use slot::{Slot, SlotType, State};
pub use training::{PlannedSkill, Trained, TrainingPlan};
pub use trimmed::{Kept, TrimmedCatalogue};
pub use type_data::{TypeData, TypeInfo, type_ids_of};
pub use unpaired::Unpaired;

/// Bytes of one entry.
pub const ENTRY_BYTES: usize = 24;

/// No list has more entries: a mode, 1,024 skills, 12 resources, 8 racks and
/// hardpoints, for each of 256 pairs 8 slot checks, 8 item rules, a ban and a
/// missing type, and the points.
pub const MOST_ENTRIES: usize = 1 + 1_024 + 12 + 8 + 256 * (8 + 8 + 1 + 1) + 1;

/// No longer league profile is accepted.
pub const PROFILE_BYTES: usize = 4 + 8 * MOST_GROUPS;

/// No result's skills have more entries.
pub const MOST_SKILLS: usize = 512;

/// No longer catalogue is accepted.
pub const CATALOGUE_BYTES: usize = 16_777_216;

/// No longer fit is accepted: 1,024 skills, 256 items, 256 results and 30,000
/// attributes.
pub const FIT_BYTES: usize = 36 + 5 * 1_024 + 12 * 256 + 4 * 256 + 12 * 30_000;

/// The library takes no more fits in one hall call; [`hall`] splits.
pub const FITS_PER_CALL: usize = 64;

/// The number of the calls, images and rules that the linked library has. A library
/// of another number than this crate was written for does not link.
///
/// ```
/// println!("calls of interface {}", fitcheck::interface());
/// ```
pub fn interface() -> u64 {
    exported::interface()
}
