//! Which items make an entry.

use std::fmt;

use crate::json::{self, Json};
use crate::{
    CatalogueImage, Entry, Explainer, FitImage, FitItem, Limits, ListOptions, Reader, Refusal,
    Report, Slot, Target, exported, list,
};

/// So many bytes hold what makes any entry: four for each of 256 items that have a
/// result.
pub const CAUSE_BYTES: usize = 4 * 256;

/// An officer's list of one fit, without a league, of which each entry can be asked
/// which items make it.
///
/// That call takes a position in exactly this list. A guest's list is another one, and
/// so is one with a league's entries, so positions of those would ask about other
/// entries without a sign; therefore no number is taken here, and an entry that stands
/// in another list is looked up by [`WholeList::find`].
///
/// ```
/// use fitcheck::{
///     Attribute, CatalogueBuilder, FitBuilder, FitItem, ItemResult, Slot, State, WholeList,
/// };
///
/// let catalogue = CatalogueBuilder::new()
///     .name(Attribute::HiSlots, 14)
///     .type_info(587, 25, 6, None)
///     .type_info(484, 55, 7, Some(5.0))
///     .build()?;
/// // Four guns, and the ship has room for two of them.
/// let mut fit = FitBuilder::new(587);
/// fit.ship(ItemResult::new(State::Online).with(14, 2.0));
/// for slot in 0..4 {
///     fit.item(FitItem::new(484, Slot::High(slot)), ItemResult::new(State::Online));
/// }
/// let fit = fit.build()?;
///
/// let list = WholeList::new(&catalogue, &fit)?;
/// let entry = list.entries().next().unwrap();
/// assert_eq!(entry.entry().to_string(), "High slots: 4 of 2 used");
/// // The first three are enough, and without any of these the entry is gone.
/// assert_eq!(entry.cause()?.items(), [0, 1, 2]);
/// # Ok::<(), Box<dyn std::error::Error>>(())
/// ```
#[derive(Debug, Clone)]
pub struct WholeList<'a> {
    catalogue: &'a [u8],
    fit: &'a [u8],
    entries: Vec<Entry>,
}

impl<'a> WholeList<'a> {
    /// The list of a fit.
    ///
    /// # Errors
    ///
    /// The refusal that the documents' order picks, of 1 to 6.
    pub fn new(catalogue: &'a [u8], fit: &'a [u8]) -> Result<WholeList<'a>, Refusal> {
        let entries = list(catalogue, fit, &ListOptions::new(Reader::Officer))?;
        Ok(WholeList {
            catalogue,
            fit,
            entries,
        })
    }

    /// The entries in their order.
    pub fn entries(&self) -> impl ExactSizeIterator<Item = ListedEntry<'a>> {
        let (catalogue, fit) = (self.catalogue, self.fit);
        let entries = self.entries.iter().enumerate();
        entries.map(move |(place, entry)| ListedEntry {
            catalogue,
            fit,
            position: place as u32,
            entry: *entry,
        })
    }

    /// An entry that another list of this fit has: a guest's, a page's, or one with a
    /// league's entries. None where it is not in this one: a league's own are not.
    #[must_use]
    pub fn find(&self, entry: &Entry) -> Option<ListedEntry<'a>> {
        let bytes = entry.to_bytes();
        let mut entries = self.entries();
        entries.find(|listed| listed.entry.to_bytes() == bytes)
    }

    /// What makes each entry, in their order, by a call for each.
    ///
    /// # Errors
    ///
    /// As [`ListedEntry::cause`].
    pub fn causes(&self) -> Result<Vec<Cause<'a>>, Refusal> {
        self.entries().map(|entry| entry.cause()).collect()
    }
}

/// An entry of a [`WholeList`], which knows where it stands there.
#[derive(Debug, Clone, Copy)]
pub struct ListedEntry<'a> {
    catalogue: &'a [u8],
    fit: &'a [u8],
    position: u32,
    entry: Entry,
}

impl<'a> ListedEntry<'a> {
    /// The entry itself.
    #[must_use]
    pub fn entry(&self) -> Entry {
        self.entry
    }

    /// A smallest part of the fit that shows it: from the last item to the first, each
    /// is left out without which the entry stays, about the same item and with the same
    /// rule, sub and id. Leave out any one or more of those that are kept, and it is gone
    /// (that is proved).
    ///
    /// # Errors
    ///
    /// [`Refusal::CargoVolume`] where an item in Cargo that has a result, whatever the
    /// entry, has a volume that is below zero, infinite or NaN.
    pub fn cause(&self) -> Result<Cause<'a>, Refusal> {
        let mut room = [0; CAUSE_BYTES];
        let word = exported::cause(self.catalogue, self.fit, self.position, &mut room);
        let count = match Refusal::or_count(word) {
            Ok(count) => count as usize,
            Err(refusal) => return Err(told(refusal, self.catalogue, self.fit)),
        };
        let (numbers, rest) = match room.get(..count) {
            Some(written) => written.as_chunks::<4>(),
            None => return Err(Refusal::Unexpected { word }),
        };
        if !rest.is_empty() {
            return Err(Refusal::Unexpected { word });
        }
        let items = numbers.iter().map(|number| u32::from_le_bytes(*number));
        Ok(Cause {
            fit: self.fit,
            entry: self.entry,
            items: items.map(|number| number as usize).collect(),
        })
    }
}

/// The items that make an entry. [`Explainer::explain_cause`] says them by name.
///
/// [`Explainer::explain_cause`]: crate::Explainer::explain_cause
#[derive(Debug, Clone)]
pub struct Cause<'a> {
    fit: &'a [u8],
    entry: Entry,
    items: Vec<usize>,
}

impl Cause<'_> {
    /// The entry.
    #[must_use]
    pub fn entry(&self) -> Entry {
        self.entry
    }

    /// The items' places in the fit, ascending. An entry that looks at no item, such as
    /// one about CPU, has none.
    #[must_use]
    pub fn items(&self) -> &[usize] {
        &self.items
    }

    /// The items themselves, each with its place.
    pub fn fit_items(&self) -> impl Iterator<Item = (usize, FitItem)> {
        let fit = FitImage::new(self.fit);
        let items = self.items.iter();
        items.filter_map(move |place| Some((*place, fit?.item(*place)?)))
    }

    /// Whether the item that the entry is about makes it by itself.
    #[must_use]
    pub fn is_of_the_item_alone(&self) -> bool {
        match self.entry.target {
            Target::Item { index } => self.items == [index],
            _ => false,
        }
    }
}

/// A report for an officer, on a fit without a league, in which each entry says which
/// items make it. Where one volume in Cargo cannot be added, no entry says so, and the
/// report says why.
///
/// ```
/// use fitcheck::{CausedReport, Explainer, Limits, Names};
///
/// let (catalogue, fit) = ([0; 20], [0; 36]);
/// let report = CausedReport::new(&catalogue, &fit, Limits::main())?;
/// let names = Names::new();
/// let text = report.text(&Explainer::new(&fit, &names));
/// assert!(text.contains("\n    of no item: it is the ship itself\n"), "{text}");
/// # Ok::<(), fitcheck::Refusal>(())
/// ```
#[derive(Debug, Clone)]
pub struct CausedReport<'a> {
    report: Report,
    causes: Result<Vec<Cause<'a>>, Refusal>,
}

impl<'a> CausedReport<'a> {
    /// Makes the calls of an officer's [`Report`] on a page, and asks for what makes each
    /// entry.
    ///
    /// # Errors
    ///
    /// As [`Report::new`].
    pub fn new(
        catalogue: &'a [u8],
        fit: &'a [u8],
        limits: Limits,
    ) -> Result<CausedReport<'a>, Refusal> {
        let options = ListOptions::new(Reader::Officer).limits(limits);
        Ok(CausedReport {
            report: Report::new(catalogue, fit, &options)?,
            causes: WholeList::new(catalogue, fit)?.causes(),
        })
    }

    /// All else that there is to say of the fit.
    #[must_use]
    pub fn report(&self) -> &Report {
        &self.report
    }

    /// What makes each entry, in their order.
    ///
    /// # Errors
    ///
    /// As [`ListedEntry::cause`].
    pub fn causes(&self) -> Result<&[Cause<'a>], Refusal> {
        self.causes.as_deref().map_err(|refusal: &Refusal| *refusal)
    }

    /// As [`Report::text`], but that each entry stands by itself, with the items that make
    /// it on the next line.
    pub fn text(&self, explainer: &Explainer<'_>) -> String {
        let sentences = match &self.causes {
            Ok(causes) => {
                let said = |cause: &Cause<'_>| {
                    let sentence = explainer.explain(&cause.entry);
                    format!("{sentence}\n    {}", explainer.explain_cause(cause))
                };
                causes.iter().map(said).collect()
            }
            Err(refusal) => {
                let mut sentences = explainer.explain_all(&self.report.entries);
                sentences.push(format!(
                    "which items make each entry is not told: refused by {}: {refusal}",
                    refusal.number()
                ));
                sentences
            }
        };
        self.report.text_with(&sentences, explainer)
    }

    /// As [`Report::json`], but that each entry has the places of the items that make it
    /// beside its sentence, or the whole the refusal.
    pub fn json(&self, explainer: &Explainer<'_>) -> Json {
        let sentence = |entry: &Entry| explainer.explain(entry);
        let entries = match &self.causes {
            Ok(causes) => {
                let one = |cause: &Cause<'_>| json::caused(cause, &sentence(&cause.entry));
                causes.iter().map(one).collect()
            }
            Err(_) => {
                let one = |entry: &Entry| json::entry(entry, &sentence(entry));
                self.report.entries.iter().map(one).collect()
            }
        };
        let mut fields = self.report.fields_with(entries, explainer);
        if let Err(refusal) = &self.causes {
            fields.push(("causes", json::refusal(*refusal)));
        }
        Json::Object(fields)
    }
}

/// An item in Cargo whose volume cannot be added. As text it is the sentence that says
/// so.
///
/// ```
/// use fitcheck::BadVolume;
///
/// let bad = BadVolume { item: 3, type_id: 34, volume_bits: (-1f32).to_bits() };
/// assert_eq!(
///     bad.to_string(),
///     "item 3 (type 34) is in Cargo and has a volume of -1, and volumes there have to be \
///      finite and not below 0",
/// );
/// ```
#[derive(Debug, Clone, Copy, PartialEq, Eq, Hash)]
pub struct BadVolume {
    /// The item's place in the fit, from 0. Items behind it may have such volumes too.
    pub item: usize,
    /// Its type, to which the catalogue gives the volume.
    pub type_id: i32,
    /// The bits of the volume; see [`BadVolume::volume`].
    pub volume_bits: u32,
}

impl BadVolume {
    /// The volume: below zero, infinite or NaN.
    #[must_use]
    pub fn volume(self) -> f32 {
        f32::from_bits(self.volume_bits)
    }

    /// The first item in Cargo whose volume is bad, if one is.
    fn find(catalogue: &[u8], fit: &[u8]) -> Option<BadVolume> {
        let (catalogue, fit) = (CatalogueImage::new(catalogue)?, FitImage::new(fit)?);
        let bad = |item: usize| {
            let FitItem { type_id, slot, .. } = fit.item(item)?;
            let volume = catalogue.volume(type_id).filter(|_| slot == Slot::Cargo)?;
            (!volume.is_finite() || volume < 0.0).then_some(BadVolume {
                item,
                type_id,
                volume_bits: volume.to_bits(),
            })
        };
        (0..fit.pairs()).find_map(bad)
    }
}

impl fmt::Display for BadVolume {
    fn fmt(&self, formatter: &mut fmt::Formatter<'_>) -> fmt::Result {
        let BadVolume { item, type_id, .. } = *self;
        let volume = match self.volume() {
            volume if volume.is_nan() => "a volume that is no number".to_string(),
            f32::INFINITY => "an infinite volume".to_string(),
            f32::NEG_INFINITY => "a volume of minus infinity".to_string(),
            volume => format!("a volume of {volume}"),
        };
        write!(
            formatter,
            "item {item} (type {type_id}) is in Cargo and has {volume}, and volumes there have to \
             be finite and not below 0"
        )
    }
}

/// A refusal by 15 with the item that it is about; any other as it is.
fn told(refusal: Refusal, catalogue: &[u8], fit: &[u8]) -> Refusal {
    match refusal {
        Refusal::CargoVolume(None) => Refusal::CargoVolume(BadVolume::find(catalogue, fit)),
        refusal => refusal,
    }
}

#[cfg(test)]
mod tests {
    use super::*;

    #[test]
    fn a_bad_volume_in_words() {
        let said = |volume: f32| {
            let bad = BadVolume {
                item: 0,
                type_id: 9,
                volume_bits: volume.to_bits(),
            };
            let said = bad.to_string();
            let (_, has) = said.split_once(" has ").unwrap();
            has.split_once(", and ").unwrap().0.to_string()
        };
        assert_eq!(said(-0.5), "a volume of -0.5");
        assert_eq!(said(f32::NAN), "a volume that is no number");
        assert_eq!(said(f32::INFINITY), "an infinite volume");
        assert_eq!(said(f32::NEG_INFINITY), "a volume of minus infinity");
    }
}
