//! The calls over slices.

use std::fmt;
use std::ops::AddAssign;

use crate::{
    CATALOGUE_BYTES, ENTRY_BYTES, Entry, FIT_BYTES, FITS_PER_CALL, FitImage, Limits, ListOptions,
    MOST_ENTRIES, MOST_SKILLS, Passed, Reader, Refusal, SkillOptions, Unpaired, exported, limits,
};

/// How many entries the first try has room for; few fits break more rules.
const FIRST_ROOM: usize = 64;

/// Where growing stops: far beyond [`MOST_ENTRIES`], which is never passed.
const LAST_ROOM: usize = 1 << 20;

/// Every rule that the fit breaks, in the order of the original's `validate`;
/// behind them what a league has to say, where the options bring one, and then
/// [`Rule::UnknownType`](crate::Rule::UnknownType) for each item with a result
/// whose type the catalogue lacks. With an
/// empty list the fit is clear to fly where it has as many results as
/// items: rules look at pairs, and [`FitImage::unpaired`] says what is left.
///
/// That is what a pilot and an officer get. A guest's list omits
/// [`Rule::NotASkill`](crate::Rule::NotASkill), and is empty of a fit that breaks
/// that rule alone: it does not say that a fit is clear. Of two fits that differ
/// in their trained skills alone, a guest gets the same (that is proved).
///
/// The catalogue is the type data, the fit the ship with its items and
/// results, both in the bytes of document 01; see [`CatalogueBuilder`] and
/// [`FitBuilder`]. Any bytes are answered or refused.
///
/// [`CatalogueBuilder`]: crate::CatalogueBuilder
/// [`FitBuilder`]: crate::FitBuilder
///
/// # Errors
///
/// The refusal that the documents' order picks, of 1 to 6, 13 for pairs
/// ([`Refusal::PageLimit`]), 11 and 12. The buffer grows by itself, so it is
/// never [`Refusal::BufferLength`].
///
/// ```
/// use fitcheck::{Entry, ListOptions, Reader, Refusal, Rule, Target};
///
/// // No type is known, so the ship is no hull.
/// let options = ListOptions::new(Reader::Officer);
/// let entries = fitcheck::list(&[0; 20], &[0; 36], &options)?;
/// assert_eq!(entries, [Entry { target: Target::Ship, rule: Rule::NotAHull }]);
///
/// let refused = fitcheck::list(&[0; 20], &[0; 35], &options);
/// assert_eq!(refused, Err(Refusal::FitLength));
/// # Ok::<(), Refusal>(())
/// ```
pub fn list(
    catalogue: &[u8],
    fit: &[u8],
    options: &ListOptions<'_>,
) -> Result<Vec<Entry>, Refusal> {
    listed(catalogue, fit, options).map(|bytes| decoded(&bytes))
}

/// As [`list`], into the caller's buffer, without any allocation. The entries
/// stand from its beginning; nothing else of it is changed, and nothing at all
/// where the call is refused.
///
/// [`MOST_ENTRIES`] times [`ENTRY_BYTES`] bytes are enough for every fit. What
/// a guest does not get needs no room.
///
/// # Errors
///
/// As [`list`], and [`Refusal::BufferLength`] where the entries do not fit.
///
/// ```
/// use fitcheck::{Entry, ListOptions, Reader, Refusal, Rule};
///
/// let options = ListOptions::new(Reader::Officer);
/// let mut buffer = [0; 48];
/// let entries = fitcheck::list_into(&[0; 20], &[0; 36], &options, &mut buffer)?;
/// assert_eq!(entries.len(), 1);
/// assert_eq!(Entry::from_bytes(&entries[0]).rule, Rule::NotAHull);
///
/// let short = fitcheck::list_into(&[0; 20], &[0; 36], &options, &mut buffer[..23]);
/// assert_eq!(short, Err(Refusal::BufferLength));
/// # Ok::<(), Refusal>(())
/// ```
pub fn list_into<'a>(
    catalogue: &[u8],
    fit: &[u8],
    options: &ListOptions<'_>,
    buffer: &'a mut [u8],
) -> Result<&'a [[u8; ENTRY_BYTES]], Refusal> {
    let word = list_word(catalogue, fit, options, buffer);
    written(word, buffer).map_err(|refusal| told(refusal, fit, options.limits))
}

/// The skills that one result wants and the character lacks, in the order in
/// which they are met, each an [`Entry`] with [`Rule::Skill`].
///
/// Result 0 is the ship's, 1 the character's, 2 the first item's, and so on.
///
/// [`Rule::Skill`]: crate::Rule::Skill
///
/// # Errors
///
/// The refusal that the documents' order picks, of 20 ([`Refusal::GuestSkills`]),
/// which is a guest's whatever the bytes, 1 to 6, 13 for pairs, 8
/// ([`Refusal::NoSuchResult`]), 9 ([`Refusal::WantedSkills`]) and 13 for skills
/// ([`Refusal::PageLimit`]).
///
/// ```
/// use fitcheck::{
///     Attribute, CatalogueBuilder, FitBuilder, ItemResult, Reader, Refusal, Rule, SkillOptions,
///     State,
/// };
///
/// // Attribute 182 names a skill and 277 its level; the ship asks for skill
/// // 3329 at level 2, and it is trained to 1.
/// let catalogue = CatalogueBuilder::new()
///     .name(Attribute::RequiredSkill1, 182)
///     .name(Attribute::RequiredSkill1Level, 277)
///     .build()?;
/// let fit = FitBuilder::new(587)
///     .skill(3329, 1)
///     .ship(ItemResult::new(State::Online).with(182, 3329.0).with(277, 2.0))
///     .build()?;
///
/// let options = SkillOptions::new(Reader::Pilot);
/// let skills = |result| fitcheck::skills(&catalogue, &fit, result, &options);
/// let lacking = skills(0)?;
/// assert_eq!(lacking.len(), 1);
/// assert_eq!(lacking[0].rule, Rule::Skill { type_id: 3329, required: 2, level: 1 });
/// assert_eq!(skills(1)?, []);
/// assert_eq!(skills(2), Err(Refusal::NoSuchResult));
/// # Ok::<(), Box<dyn std::error::Error>>(())
/// ```
pub fn skills(
    catalogue: &[u8],
    fit: &[u8],
    result: u32,
    options: &SkillOptions,
) -> Result<Vec<Entry>, Refusal> {
    let bytes = grown(FIRST_ROOM, MOST_SKILLS, |room| {
        skill_word(catalogue, fit, result, options, room)
    });
    let told = |refusal| told_of_skills(refusal, catalogue, fit, result, options);
    bytes.map(|bytes| decoded(&bytes)).map_err(told)
}

/// As [`skills`], into the caller's buffer; see [`list_into`].
/// [`MOST_SKILLS`] times [`ENTRY_BYTES`] bytes are enough for every result.
///
/// # Errors
///
/// As [`skills`], and [`Refusal::BufferLength`] where the entries do not fit.
///
/// ```
/// let mut buffer = [0; fitcheck::MOST_SKILLS * fitcheck::ENTRY_BYTES];
/// let options = fitcheck::SkillOptions::new(fitcheck::Reader::Pilot);
/// let entries = fitcheck::skills_into(&[0; 20], &[0; 36], 0, &options, &mut buffer)?;
/// assert!(entries.is_empty());
/// # Ok::<(), fitcheck::Refusal>(())
/// ```
pub fn skills_into<'a>(
    catalogue: &[u8],
    fit: &[u8],
    result: u32,
    options: &SkillOptions,
    buffer: &'a mut [u8],
) -> Result<&'a [[u8; ENTRY_BYTES]], Refusal> {
    let word = skill_word(catalogue, fit, result, options, buffer);
    let told = |refusal| told_of_skills(refusal, catalogue, fit, result, options);
    written(word, buffer).map_err(told)
}

/// The list call with what the options say.
fn list_word(catalogue: &[u8], fit: &[u8], options: &ListOptions<'_>, room: &mut [u8]) -> u64 {
    let ListOptions {
        reader,
        profile,
        allowance,
        limits,
    } = *options;
    let page = limits.page(reader);
    exported::list(page, catalogue, fit, profile, allowance, room)
}

/// The skill call with what the options say.
fn skill_word(
    catalogue: &[u8],
    fit: &[u8],
    result: u32,
    options: &SkillOptions,
    room: &mut [u8],
) -> u64 {
    let SkillOptions { reader, limits } = *options;
    exported::skill(limits.page(reader), catalogue, fit, result, room)
}

/// A refusal by 13 with how many pairs the fit has; any other as it is.
fn told(refusal: Refusal, fit: &[u8], limits: Limits) -> Refusal {
    if refusal != Refusal::PageLimit(None) {
        return refusal;
    }
    let limit = limits.most_pairs();
    let pairs = FitImage::new(fit).map_or(0, |fit| fit.items().min(fit.results()) as u32);
    let passed = Passed::Pairs { pairs, limit };
    Refusal::PageLimit((pairs > limit).then_some(passed))
}

/// The same of a skill call: where the pairs are not too many, the skills are.
fn told_of_skills(
    refusal: Refusal,
    catalogue: &[u8],
    fit: &[u8],
    result: u32,
    options: &SkillOptions,
) -> Refusal {
    let limits = options.limits;
    match told(refusal, fit, limits) {
        Refusal::PageLimit(None) => {
            let limit = limits.most_skills();
            let is_refused = |most: u32| {
                let under = options.limits(limits.skills(most));
                skill_word(catalogue, fit, result, &under, &mut []) >> 32 == 13
            };
            let wanted = limits::wanted(limit, is_refused);
            Refusal::PageLimit(Some(Passed::Skills { wanted, limit }))
        }
        refusal => refusal,
    }
}

/// The bytes of a list's entries.
fn listed(catalogue: &[u8], fit: &[u8], options: &ListOptions<'_>) -> Result<Vec<u8>, Refusal> {
    let bytes = grown(FIRST_ROOM, MOST_ENTRIES, |room| {
        list_word(catalogue, fit, options, room)
    });
    bytes.map_err(|refusal| told(refusal, fit, options.limits))
}

/// How many fits are clear to fly, faulted and refused; see [`hall`].
#[derive(Debug, Clone, Copy, Default, PartialEq, Eq)]
pub struct Hall {
    /// Fits whose list is empty and that have as many results as items.
    pub clear: usize,
    /// Fits whose list has entries, or of which not all was checked.
    pub faulted: usize,
    /// Fits that are refused, by 4 to 6.
    pub refused: usize,
}

/// The numbers of two halls together.
impl AddAssign for Hall {
    fn add_assign(&mut self, more: Hall) {
        self.clear += more.clear;
        self.faulted += more.faulted;
        self.refused += more.refused;
    }
}

/// How many of the fits are clear to fly, faulted and refused. The three
/// numbers add up to the number of fits.
///
/// Clear means that all of a fit was checked: one that has items without a
/// result, or results without an item, is faulted even where its list is
/// empty. [`verdicts`] says which these are and why, in a sentence.
///
/// The library takes 64 fits in a call; more are split into calls of 64 and
/// the numbers added up. With no fits the catalogue is judged all the same.
///
/// # Errors
///
/// The catalogue's refusal, 1 to 3. A refused fit is counted, not an error.
///
/// ```
/// use fitcheck::{Hall, Refusal};
///
/// // Ship 0 is no hull; 35 bytes are no fit.
/// let hall = fitcheck::hall(&[0; 20], &[&[0; 36], &[0; 35]])?;
/// assert_eq!(hall, Hall { clear: 0, faulted: 1, refused: 1 });
/// assert_eq!(fitcheck::hall(&[0; 20], &[])?, Hall::default());
/// assert_eq!(fitcheck::hall(&[0; 3], &[]), Err(Refusal::CatalogueLength));
/// # Ok::<(), Refusal>(())
/// ```
pub fn hall(catalogue: &[u8], fits: &[&[u8]]) -> Result<Hall, Refusal> {
    let mut sum = Hall::default();
    let mut rest = fits;
    loop {
        let (now, later) = rest.split_at(rest.len().min(FITS_PER_CALL));
        sum += counted(exported::hall(catalogue, &hall_input(now)), now.len())?;
        rest = later;
        if rest.is_empty() {
            return Ok(sum);
        }
    }
}

/// What became of one fit; see [`verdicts`]. As text it says so in words, with
/// the reason where a fit is refused or was not checked whole.
#[non_exhaustive]
#[derive(Debug, Clone, Copy, PartialEq, Eq)]
pub enum Verdict {
    /// It breaks no rule, and all of it was checked.
    Clear,
    /// It breaks rules, or not all of it was checked.
    Faulted {
        /// How many entries its list has.
        entries: usize,
        /// What no rule looked at. Where there are no entries, the fit is
        /// faulted for this.
        unpaired: Option<Unpaired>,
    },
    /// It is no fit, for this reason: 4 to 6.
    Refused(Refusal),
}

impl Verdict {
    /// Of a fit that is not refused, with so many entries in its list.
    fn answered(entries: usize, unpaired: Option<Unpaired>) -> Verdict {
        match (entries, unpaired) {
            (0, None) => Verdict::Clear,
            (entries, unpaired) => Verdict::Faulted { entries, unpaired },
        }
    }
}

impl fmt::Display for Verdict {
    fn fmt(&self, formatter: &mut fmt::Formatter<'_>) -> fmt::Result {
        match self {
            Verdict::Clear => formatter.write_str("clear"),
            Verdict::Faulted { entries, unpaired } => {
                write!(formatter, "faulted, {}", counted_entries(*entries))?;
                match unpaired {
                    Some(unpaired) => write!(formatter, "; {unpaired}"),
                    None => Ok(()),
                }
            }
            Verdict::Refused(refusal) => {
                write!(formatter, "refused by {}: {refusal}", refusal.number())
            }
        }
    }
}

/// A number of entries in words.
pub(crate) fn counted_entries(count: usize) -> String {
    match count {
        1 => "1 entry".to_string(),
        count => format!("{count} entries"),
    }
}

/// What became of each fit, in their order: [`hall`] one by one. Both are the
/// officer's, and count what guests are not told: see [`Reader`].
///
/// # Errors
///
/// The catalogue's refusal, 1 to 3, whatever the fits.
///
/// ```
/// use fitcheck::{
///     CatalogueBuilder, FitBuilder, FitItem, Refusal, Slot, Unpaired, Verdict,
/// };
///
/// let catalogue = CatalogueBuilder::new().type_info(587, 25, 6, None).build()?;
/// let clear = FitBuilder::new(587).build()?;
/// let unread = FitBuilder::new(587)
///     .item_without_result(FitItem::new(2048, Slot::Low(0)))
///     .build()?;
/// let verdicts = fitcheck::verdicts(&catalogue, &[&clear, &unread, &[0; 36], &[0; 35]])?;
/// assert_eq!(verdicts[0], Verdict::Clear);
/// let unpaired = Some(Unpaired::Items(1));
/// assert_eq!(verdicts[1], Verdict::Faulted { entries: 0, unpaired });
/// assert_eq!(
///     verdicts[1].to_string(),
///     "faulted, 0 entries; 1 item has no result, so not all of it was checked",
/// );
/// assert_eq!(verdicts[2], Verdict::Faulted { entries: 1, unpaired: None });
/// assert_eq!(verdicts[3], Verdict::Refused(Refusal::FitLength));
/// # Ok::<(), Box<dyn std::error::Error>>(())
/// ```
pub fn verdicts(catalogue: &[u8], fits: &[&[u8]]) -> Result<Vec<Verdict>, Refusal> {
    hall(catalogue, &[])?;
    let options = ListOptions::new(Reader::Officer);
    fits.iter()
        .map(|fit| match listed(catalogue, fit, &options) {
            Ok(bytes) => {
                let unpaired = FitImage::new(fit).and_then(|fit| fit.unpaired());
                Ok(Verdict::answered(bytes.len() / ENTRY_BYTES, unpaired))
            }
            Err(refusal @ (Refusal::FitLength | Refusal::FitOrder | Refusal::FitField)) => {
                Ok(Verdict::Refused(refusal))
            }
            Err(other) => Err(other),
        })
        .collect()
}

/// An old catalogue in the form of today. Catalogues had base values of f32
/// once, 12 bytes a base; these are widened to f64 exactly, every NaN becomes
/// one, and all else is copied.
///
/// Lists and skill lists under the new catalogue are those under the old one
/// (that is proved), where it has at most [`CATALOGUE_BYTES`]. A longer one is
/// made all the same, and the other calls refuse it by 1.
///
/// # Errors
///
/// The refusal of 1 to 3 that the old form deserves. A catalogue of today's
/// form is an old one only where it has no bases; else it is
/// [`Refusal::CatalogueLength`] here.
///
/// ```
/// use fitcheck::Refusal;
///
/// // One base: type 3302 starts with 1.5 under attribute 182.
/// let mut old = vec![0; 16];
/// old.extend([1u32, 3302, 182].iter().flat_map(|word| word.to_le_bytes()));
/// old.extend(1.5f32.to_le_bytes());
/// let new = fitcheck::widen(&old)?;
/// assert_eq!(new[..28], old[..28]);
/// assert_eq!(new[28..], 1.5f64.to_le_bytes());
///
/// assert_eq!(fitcheck::widen(&new), Err(Refusal::CatalogueLength));
/// # Ok::<(), Refusal>(())
/// ```
pub fn widen(old: &[u8]) -> Result<Vec<u8>, Refusal> {
    // A base takes four bytes more, and had 12; what is longer than a
    // catalogue may be is refused whatever the buffer.
    let longest = old.len().min(CATALOGUE_BYTES);
    let mut new = vec![0; longest + longest / 3];
    let word = exported::widen(old, &mut new);
    let count = Refusal::or_count(word)? as usize;
    if count > new.len() {
        return Err(Refusal::Unexpected { word });
    }
    new.truncate(count);
    Ok(new)
}

/// The entries' bytes of a call whose buffer grows where 10 comes: first a
/// small one, then one that is always enough, and should even that be refused,
/// doubled until there is no sense in it.
fn grown(
    first: usize,
    enough: usize,
    mut call: impl FnMut(&mut [u8]) -> u64,
) -> Result<Vec<u8>, Refusal> {
    let mut entries = first.min(enough);
    loop {
        let mut buffer = vec![0; ENTRY_BYTES * entries];
        let word = call(&mut buffer);
        match written(word, &buffer).map(<[_]>::len) {
            Ok(count) => {
                buffer.truncate(ENTRY_BYTES * count);
                return Ok(buffer);
            }
            Err(Refusal::BufferLength) if entries < LAST_ROOM => {
                entries = if entries < enough {
                    enough
                } else {
                    2 * entries
                };
            }
            Err(refusal) => return Err(refusal),
        }
    }
}

/// The entries that a call wrote, or its refusal. A count beyond the buffer is
/// not believed.
fn written(word: u64, buffer: &[u8]) -> Result<&[[u8; ENTRY_BYTES]], Refusal> {
    let count = Refusal::or_count(word)? as usize;
    let (room, _) = buffer.as_chunks();
    room.get(..count).ok_or(Refusal::Unexpected { word })
}

fn decoded(bytes: &[u8]) -> Vec<Entry> {
    let (entries, _) = bytes.as_chunks();
    entries.iter().map(Entry::from_bytes).collect()
}

/// The input of a hall call: the number of fits, their lengths, and the fits
/// end to end.
fn hall_input(fits: &[&[u8]]) -> Vec<u8> {
    let fits: Vec<&[u8]> = fits
        .iter()
        // A longer one passes a limit or is unlike its sizes, so it is refused
        // by 4 whatever it holds. So is the empty one, which takes its place:
        // every length then goes into 32 bits.
        .map(|fit| if fit.len() > FIT_BYTES { &[] } else { *fit })
        .collect();
    let mut input = Vec::new();
    input.extend((fits.len() as u32).to_le_bytes());
    for fit in &fits {
        input.extend((fit.len() as u32).to_le_bytes());
    }
    for fit in &fits {
        input.extend_from_slice(fit);
    }
    input
}

/// The numbers in a hall call's word; they must add up to the number of fits.
fn counted(word: u64, fits: usize) -> Result<Hall, Refusal> {
    let count = Refusal::or_count(word)? as usize;
    let hall = Hall {
        clear: count % 256,
        faulted: count / 256 % 256,
        refused: count / 65_536,
    };
    if hall.clear + hall.faulted + hall.refused == fits {
        Ok(hall)
    } else {
        Err(Refusal::Unexpected { word })
    }
}

#[cfg(test)]
mod tests {
    use super::*;

    const REFUSED_10: u64 = 10 << 32;

    /// A call that lists so many entries, each of them all ones.
    fn listing(count: usize) -> impl FnMut(&mut [u8]) -> u64 {
        move |room| match room.get_mut(..ENTRY_BYTES * count) {
            Some(entries) => {
                entries.fill(1);
                count as u64
            }
            None => REFUSED_10,
        }
    }

    #[test]
    fn the_buffer_grows_until_the_list_fits() {
        for count in [0, 1, 64, 65, 512, 5_654, 5_655, 20_000] {
            let bytes = grown(FIRST_ROOM, MOST_ENTRIES, listing(count)).unwrap();
            assert_eq!(bytes, vec![1; ENTRY_BYTES * count], "{count} entries");
        }
    }

    #[test]
    fn a_list_of_the_greatest_length_takes_two_calls() {
        let mut calls = 0;
        let mut list = listing(MOST_ENTRIES);
        let bytes = grown(FIRST_ROOM, MOST_ENTRIES, |room| {
            calls += 1;
            list(room)
        });
        assert_eq!(bytes.unwrap().len(), ENTRY_BYTES * MOST_ENTRIES);
        assert_eq!(calls, 2);
    }

    #[test]
    fn growing_ends() {
        let refused = grown(FIRST_ROOM, MOST_ENTRIES, |_| REFUSED_10);
        assert_eq!(refused, Err(Refusal::BufferLength));
    }

    #[test]
    fn other_refusals_are_not_tried_again() {
        let mut calls = 0;
        let refused = grown(FIRST_ROOM, MOST_ENTRIES, |_| {
            calls += 1;
            6 << 32
        });
        assert_eq!(refused, Err(Refusal::FitField));
        assert_eq!(calls, 1);
    }

    #[test]
    fn a_count_beyond_the_buffer_is_not_believed() {
        assert_eq!(written(1, &[0; 23]), Err(Refusal::Unexpected { word: 1 }));
        let word = u64::from(u32::MAX);
        assert_eq!(written(word, &[0; 48]), Err(Refusal::Unexpected { word }));
        assert_eq!(written(2, &[7; 49]), Ok([[7; 24]; 2].as_slice()));
        assert_eq!(written(0, &[]), Ok([].as_slice()));
    }

    /// Document 01: "u32 K, K lengths (u32), then K fits end to end".
    #[test]
    fn a_hall_input_is_laid_out_as_document_01_says() {
        assert_eq!(hall_input(&[]), [0; 4]);
        assert_eq!(
            hall_input(&[&[5, 6], &[7]]),
            [2, 0, 0, 0, 2, 0, 0, 0, 1, 0, 0, 0, 5, 6, 7]
        );
    }

    /// 36 + 5 × 1,024 + 12 × 256 + 4 × 256 + 12 × 30,000.
    #[test]
    fn a_fit_that_is_too_long_for_any_is_handed_over_empty() {
        assert_eq!(FIT_BYTES, 369_252);
        let longest = vec![1; FIT_BYTES];
        assert_eq!(hall_input(&[&longest]).len(), 8 + FIT_BYTES);
        let longer = vec![1; FIT_BYTES + 1];
        assert_eq!(hall_input(&[&longer]), [1, 0, 0, 0, 0, 0, 0, 0]);
    }

    /// Document 01: "clear + 256 × faulted + 65,536 × refused".
    #[test]
    fn hall_numbers_must_add_up() {
        let word = 3 + 256 * 4 + 65_536 * 57;
        let hall = Hall {
            clear: 3,
            faulted: 4,
            refused: 57,
        };
        assert_eq!(counted(word, 64), Ok(hall));
        assert_eq!(counted(word, 63), Err(Refusal::Unexpected { word }));
        assert_eq!(counted(2 << 32, 0), Err(Refusal::CatalogueOrder));
    }
}
