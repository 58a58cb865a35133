//! The part of a catalogue that one fit touches.

use crate::json::{self, Json};
use crate::{
    CATALOGUE_BYTES, CatalogueImage, Entry, ListOptions, Refusal, Report, SkillOptions, exported,
    list, skills,
};

/// What one fit touches of a catalogue: a page that shows one fit fetches this and
/// no more.
///
/// Names and effects are all there; of the rest, the types of the ship, the mode,
/// the listed skills and the items, every skill that a result wants, and all links
/// and base values under those ids, in their old order. Under it the fit's list and
/// each of its skill lists are the same bytes as under the whole catalogue, for
/// every reader, league and page, refusals too; and trimmed again for the same fit it
/// stays as it is (that is proved).
///
/// All of that is of this one fit. Under the same bytes another ship may be no hull,
/// other items may be unknown types, and what a skill demands that only another fit
/// wants may be gone without a sign, though the whole catalogue has it all; so the fit
/// is held on to, and the calls here take no other. What leaves it as plain bytes is
/// for whoever sends it to keep beside the fit.
///
/// ```
/// use fitcheck::{
///     CatalogueBuilder, FitBuilder, FitItem, ItemResult, ListOptions, Reader, Slot, State,
///     TrimmedCatalogue,
/// };
///
/// let catalogue = CatalogueBuilder::new()
///     .type_info(587, 25, 6, None)
///     .type_info(588, 25, 6, None)
///     .type_info(2048, 60, 7, Some(5.0))
///     .base(588, 1132, 400.0)
///     .build()?;
/// let fit = FitBuilder::new(587)
///     .item(FitItem::new(2048, Slot::Low(0)), ItemResult::new(State::Online))
///     .build()?;
///
/// // The other ship goes, a type and a base value: 36 bytes.
/// let trimmed = TrimmedCatalogue::new(&catalogue, &fit)?;
/// assert_eq!(trimmed.bytes_saved(), 36);
/// assert_eq!((trimmed.types().now, trimmed.types().before), (2, 3));
///
/// let options = ListOptions::new(Reader::Pilot);
/// assert_eq!(trimmed.list(&options)?, fitcheck::list(&catalogue, &fit, &options)?);
/// # Ok::<(), Box<dyn std::error::Error>>(())
/// ```
#[derive(Debug, Clone, PartialEq, Eq)]
pub struct TrimmedCatalogue<'a> {
    bytes: Vec<u8>,
    fit: &'a [u8],
    bytes_before: usize,
    types: Kept,
    links: Kept,
    bases: Kept,
}

/// How many records of a kind there are, and how many there were.
#[derive(Debug, Clone, Copy, PartialEq, Eq, Hash)]
pub struct Kept {
    /// In the trimmed catalogue.
    pub now: usize,
    /// In the whole one.
    pub before: usize,
}

impl<'a> TrimmedCatalogue<'a> {
    /// What a fit touches of a catalogue.
    ///
    /// # Errors
    ///
    /// The refusal that the documents' order picks, of 1 to 6 and 9
    /// ([`Refusal::WantedSkills`]), where any result of the fit wants more than 512
    /// skills: its skill list would be refused as well.
    pub fn new(catalogue: &[u8], fit: &'a [u8]) -> Result<TrimmedCatalogue<'a>, Refusal> {
        // No trimmed catalogue is longer than the whole one; what is longer than a
        // catalogue may be is refused whatever the buffer.
        let mut bytes = vec![0; catalogue.len().min(CATALOGUE_BYTES)];
        let word = exported::trim(catalogue, fit, &mut bytes);
        let count = Refusal::or_count(word)? as usize;
        if count > bytes.len() {
            return Err(Refusal::Unexpected { word });
        }
        bytes.truncate(count);
        bytes.shrink_to_fit();
        let images = (CatalogueImage::new(&bytes), CatalogueImage::new(catalogue));
        let (Some(now), Some(before)) = images else {
            return Err(Refusal::Unexpected { word });
        };
        let kept = |now: usize, before: usize| Kept { now, before };
        let types = kept(now.types(), before.types());
        let links = kept(now.links(), before.links());
        let bases = kept(now.bases(), before.bases());
        Ok(TrimmedCatalogue {
            bytes,
            fit,
            bytes_before: catalogue.len(),
            types,
            links,
            bases,
        })
    }

    /// The image: a catalogue like any other, for this fit.
    #[must_use]
    pub fn bytes(&self) -> &[u8] {
        &self.bytes
    }

    /// The image itself, to send or to keep beside the fit.
    #[must_use]
    pub fn into_bytes(self) -> Vec<u8> {
        self.bytes
    }

    /// The fit that it is for.
    #[must_use]
    pub fn fit(&self) -> &'a [u8] {
        self.fit
    }

    /// How many bytes the whole catalogue has.
    #[must_use]
    pub fn bytes_before(&self) -> usize {
        self.bytes_before
    }

    /// How many of them are left out.
    #[must_use]
    pub fn bytes_saved(&self) -> usize {
        self.bytes_before.saturating_sub(self.bytes.len())
    }

    /// The types that are kept, and those that there were.
    #[must_use]
    pub fn types(&self) -> Kept {
        self.types
    }

    /// The same of links, of types to their effects.
    #[must_use]
    pub fn links(&self) -> Kept {
        self.links
    }

    /// The same of base values.
    #[must_use]
    pub fn bases(&self) -> Kept {
        self.bases
    }

    /// The fit's list, as [`list`](crate::list()) has it under the whole catalogue.
    ///
    /// # Errors
    ///
    /// As there, but for 1 to 6.
    pub fn list(&self, options: &ListOptions<'_>) -> Result<Vec<Entry>, Refusal> {
        list(&self.bytes, self.fit, options)
    }

    /// What one result lacks, as [`skills`](crate::skills()) has it under the whole
    /// catalogue.
    ///
    /// # Errors
    ///
    /// As there, but for 1 to 6 and 9.
    pub fn skills(&self, result: u32, options: &SkillOptions) -> Result<Vec<Entry>, Refusal> {
        skills(&self.bytes, self.fit, result, options)
    }

    /// All that there is to say of the fit, as [`Report::new`] has it under the
    /// whole catalogue.
    ///
    /// # Errors
    ///
    /// As there, but for 1 to 6.
    pub fn report(&self, options: &ListOptions<'_>) -> Result<Report, Refusal> {
        Report::new(&self.bytes, self.fit, options)
    }

    /// What was saved, and what was kept, a line each.
    pub fn text(&self) -> String {
        let (now, before) = (self.bytes.len(), self.bytes_before);
        let saved = match self.bytes_saved() {
            0 => "nothing is saved: the fit touches all of it".to_string(),
            // A part of a hundred that is not reached is not said.
            saved => format!("{saved} are saved, {} %", 100 * saved / before),
        };
        let kept = |kept: Kept| format!("{} of {}", kept.now, kept.before);
        format!(
            "{now} bytes of {before}: {saved}\n  all names and effects, {} types, {} links, {} \
             base values\n",
            kept(self.types),
            kept(self.links),
            kept(self.bases)
        )
    }

    /// The same as one object.
    pub fn json(&self) -> Json {
        let kept = |kept: Kept| {
            Json::Object(vec![
                ("now", Json::count(kept.now)),
                ("before", Json::count(kept.before)),
            ])
        };
        let bytes = Kept {
            now: self.bytes.len(),
            before: self.bytes_before,
        };
        let mut fields = json::versioned("trimmed");
        fields.extend([
            ("bytes", kept(bytes)),
            ("bytes_saved", Json::count(self.bytes_saved())),
            ("types", kept(self.types)),
            ("links", kept(self.links)),
            ("bases", kept(self.bases)),
        ]);
        Json::Object(fields)
    }
}

#[cfg(test)]
mod tests {
    use super::*;

    fn trimmed(now: usize, before: usize) -> TrimmedCatalogue<'static> {
        let records = |now, before| Kept { now, before };
        TrimmedCatalogue {
            bytes: vec![0; now],
            fit: &[],
            bytes_before: before,
            types: records(2, 3),
            links: records(0, 0),
            bases: records(7, 41),
        }
    }

    #[test]
    fn what_is_saved_in_words() {
        assert_eq!(
            trimmed(300, 1_000).text(),
            "300 bytes of 1000: 700 are saved, 70 %\n  \
             all names and effects, 2 of 3 types, 0 of 0 links, 7 of 41 base values\n"
        );
        // Not all is saved, so not 100 %.
        let much = trimmed(1, 10_000).text();
        assert!(much.starts_with("1 bytes of 10000: 9999 are saved, 99 %\n"));
        let nothing = trimmed(20, 20).text();
        let said = "20 bytes of 20: nothing is saved: the fit touches all of it\n";
        assert!(nothing.starts_with(said), "{nothing}");
    }

    #[test]
    fn what_is_saved_in_json() {
        assert_eq!(
            trimmed(300, 1_000).json().to_string(),
            "{\"version\":2,\"status\":\"trimmed\",\"bytes\":{\"now\":300,\"before\":1000},\
             \"bytes_saved\":700,\"types\":{\"now\":2,\"before\":3},\"links\":{\"now\":0,\
             \"before\":0},\"bases\":{\"now\":7,\"before\":41}}"
        );
    }
}
