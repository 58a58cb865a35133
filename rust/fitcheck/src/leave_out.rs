//! Which items to take off a fit.

use crate::json::Json;
use crate::{
    ENTRY_BYTES, Entry, Explainer, FitImage, FitItem, ListOptions, Reader, Refusal, Rule, exported,
    list_into,
};

/// So many bytes hold what is to be taken off any fit: two numbers, and four bytes for
/// each of 256 items that have a result.
pub const LEAVE_OUT_BYTES: usize = 8 + 4 * 256;

/// With so many tries no fit has any left: one for each item, and of up to 16 items one
/// for each set of them too.
pub const MOST_TRIES: u32 = 16 + (1 << 16);

/// The most items of which every set can be tried.
const SETS: usize = 16;

/// What is said where nothing is to be taken off.
const NOTHING: &str = "no slot or part is listed as taken twice, and no group, type or rack as over \
                       its limit";

/// What is said of a ship that is no hull.
const NO_HULL: &str = "the ship is no hull, so no rule looks at its items";

/// A few items to take off a fit, so that no slot and no part of the ship is listed as
/// taken twice, no limit of a group or a type as passed, and no rack as too full.
///
/// What else a fit breaks may stay: CPU, hardpoints and cargo are no matter of it, nor are
/// items that do not belong where they are. What the list does not look at is not looked
/// at here: a rule whose names the catalogue lacks, and every item on a ship that is no
/// hull.
///
/// Each try checks one set of items. Tries first put back each item in turn, which stays
/// where what is left is then still in order, and after that, of up to 16 items with a
/// result, take every set there is. What is found is in order whatever the number of tries,
/// more tries never take more items off, and of the items at most so many might stay after
/// all as [`LeaveOut::most_too_many`] says (that is proved).
///
/// ```
/// use fitcheck::{
///     Attribute, CatalogueBuilder, FitBuilder, FitItem, ItemResult, LeaveOut, MOST_TRIES, Slot,
///     State,
/// };
///
/// let catalogue = CatalogueBuilder::new()
///     .name(Attribute::MaxTypeFitted, 2431)
///     .type_info(587, 25, 6, None)
///     .type_info(2048, 60, 7, Some(5.0))
///     .build()?;
/// // Of the first there may be one of its type alone; the others do not care.
/// let online = || ItemResult::new(State::Online);
/// let mut fit = FitBuilder::new(587);
/// fit.item(FitItem::new(2048, Slot::Low(0)), online().with(2431, 1.0));
/// fit.item(FitItem::new(2048, Slot::Low(1)), online());
/// fit.item(FitItem::new(2048, Slot::Low(2)), online());
/// let fit = fit.build()?;
///
/// // Each put back in turn: the first may stay, so that the others may not.
/// let few = LeaveOut::within(&catalogue, &fit, 3)?;
/// assert_eq!(few.items(), [1, 2]);
/// assert!(few.is_least() && !few.is_fewest());
/// assert_eq!(few.most_too_many(), 2);
/// // Among all sets there is a smaller one.
/// let best = LeaveOut::within(&catalogue, &fit, MOST_TRIES)?;
/// assert_eq!((best.items(), best.tries()), (&[0][..], 3 + 8));
/// assert!(best.is_fewest());
/// # Ok::<(), Box<dyn std::error::Error>>(())
/// ```
#[derive(Debug, Clone, PartialEq, Eq)]
pub struct LeaveOut<'a> {
    catalogue: &'a [u8],
    fit: &'a [u8],
    items: Vec<usize>,
    pairs: usize,
    tries: u32,
    most_too_many: u32,
}

impl<'a> LeaveOut<'a> {
    /// The fewest items that are found within so many tries. With [`MOST_TRIES`] all are
    /// made that there are.
    ///
    /// # Errors
    ///
    /// The refusal that the documents' order picks, of 1 to 6.
    pub fn within(catalogue: &'a [u8], fit: &'a [u8], tries: u32) -> Result<LeaveOut<'a>, Refusal> {
        let mut room = [0; LEAVE_OUT_BYTES];
        let word = exported::leave_out(catalogue, fit, tries, &mut room);
        let count = Refusal::or_count(word)? as usize;
        let unexpected = Refusal::Unexpected { word };
        let written = room.get(..count).ok_or(unexpected)?;
        let (words, rest) = written.as_chunks::<4>();
        let [tries, most_too_many, numbers @ ..] = words else {
            return Err(unexpected);
        };
        if !rest.is_empty() {
            return Err(unexpected);
        }
        let number = |bytes: &[u8; 4]| u32::from_le_bytes(*bytes);
        Ok(LeaveOut {
            catalogue,
            fit,
            items: numbers.iter().map(|bytes| number(bytes) as usize).collect(),
            pairs: FitImage::new(fit).map_or(0, |fit| fit.pairs()),
            tries: number(tries),
            most_too_many: number(most_too_many),
        })
    }

    /// The places in the fit of the items to take off, ascending.
    #[must_use]
    pub fn items(&self) -> &[usize] {
        &self.items
    }

    /// The items themselves, each with its place.
    pub fn fit_items(&self) -> impl Iterator<Item = (usize, FitItem)> {
        let fit = FitImage::new(self.fit);
        let items = self.items.iter();
        items.filter_map(move |place| Some((*place, fit?.item(*place)?)))
    }

    /// How many tries were made.
    #[must_use]
    pub fn tries(&self) -> u32 {
        self.tries
    }

    /// How many more items than have to may be among them, at most: there are so many
    /// beyond what the racks hold too much. 0 says that no fewer are enough; more says
    /// nothing of the kind, as racks are not all that counts.
    #[must_use]
    pub fn most_too_many(&self) -> u32 {
        self.most_too_many
    }

    /// Whether no fewer items are known to be enough: all sets were tried, or the racks
    /// alone take as many, or it is a single item that cannot be put back.
    #[must_use]
    pub fn is_fewest(&self) -> bool {
        let is_one = self.items.len() == 1 && self.is_each_tried();
        (self.has_sets() && !self.is_cut()) || self.most_too_many == 0 || is_one
    }

    /// Whether every set can be tried.
    fn has_sets(&self) -> bool {
        self.pairs <= SETS
    }

    /// Whether there are more tries than were made.
    fn is_cut(&self) -> bool {
        let sets = if self.has_sets() { 1 << self.pairs } else { 0 };
        (self.tries as usize) < self.pairs + sets
    }

    /// Whether putting back was tried of each item.
    fn is_each_tried(&self) -> bool {
        self.tries as usize >= self.pairs
    }

    /// Whether no single one of the items can be put back by itself, which is known where
    /// each was tried.
    #[must_use]
    pub fn is_least(&self) -> bool {
        self.is_each_tried() || self.is_fewest()
    }

    /// As a line for a pilot.
    ///
    /// ```
    /// use fitcheck::{CatalogueBuilder, Explainer, FitBuilder, LeaveOut, MOST_TRIES, Names};
    ///
    /// let catalogue = CatalogueBuilder::new().type_info(587, 25, 6, None).build()?;
    /// let (rifter, none) = (FitBuilder::new(587).build()?, FitBuilder::new(0).build()?);
    /// let names = Names::new();
    /// let nothing = LeaveOut::within(&catalogue, &rifter, MOST_TRIES)?;
    /// assert_eq!(
    ///     nothing.sentence(&Explainer::new(&rifter, &names)),
    ///     "take nothing off: no slot or part is listed as taken twice, and no group, type or \
    ///      rack as over its limit",
    /// );
    /// let nothing = LeaveOut::within(&catalogue, &none, MOST_TRIES)?;
    /// assert_eq!(
    ///     nothing.sentence(&Explainer::new(&none, &names)),
    ///     "take nothing off: the ship is no hull, so no rule looks at its items",
    /// );
    /// # Ok::<(), Box<dyn std::error::Error>>(())
    /// ```
    pub fn sentence(&self, explainer: &Explainer<'_>) -> String {
        let is_hull = self.is_hull();
        if self.items.is_empty() {
            let why = if is_hull { NOTHING } else { NO_HULL };
            return format!("take nothing off: {why}");
        }
        let what = explainer.several_words(&self.items);
        let how_sure = match is_hull {
            true => self.how_sure(),
            false => format!("but nothing has to go: {NO_HULL}"),
        };
        format!("take off {what}: {how_sure}")
    }

    /// Whether the ship is a hull: where it is none, the list has that entry alone.
    fn is_hull(&self) -> bool {
        let mut room = [0; ENTRY_BYTES];
        let options = ListOptions::new(Reader::Officer);
        let listed = list_into(self.catalogue, self.fit, &options, &mut room);
        !listed.is_ok_and(|entries| {
            let mut rules = entries.iter().map(|bytes| Entry::from_bytes(bytes).rule);
            rules.any(|rule| rule == Rule::NotAHull)
        })
    }

    /// Whether fewer might be enough, of a fit on a hull.
    fn how_sure(&self) -> String {
        let count = self.items.len();
        let (items, most) = (counted(count), self.most_too_many as usize);
        // With more than 16 items no try is left that could tell.
        let more = if self.is_cut() {
            ": more tries would tell"
        } else {
            ""
        };
        match () {
            () if self.is_fewest() && count == 1 => "one item, and less is not enough".to_string(),
            () if self.is_fewest() => format!("{items}, and fewer are not enough"),
            // One has to go, as each would have been put back.
            () if self.is_least() => format!(
                "{items}, and none of them can be put back alone; with others off instead, up to \
                 {} fewer may do{more}",
                most.min(count - 1)
            ),
            () if count == 1 => {
                "one item, which may not have to go: more tries would tell".to_string()
            }
            () => format!(
                "{items}, some of which may not have to go: more tries would tell, and up to {most} \
                 fewer may do"
            ),
        }
    }

    /// What is known of the items, in a word: `fewest`, `least`, or `enough`.
    fn known(&self) -> &'static str {
        match () {
            () if self.is_fewest() => "fewest",
            () if self.is_least() => "least",
            () => "enough",
        }
    }

    /// The items' places, the tries, what is known of them, how many may be too many, and
    /// the sentence. Of these `fewest` says that no fewer are enough, `least` that none of
    /// them can be put back by itself, and `enough` neither.
    pub fn json(&self, explainer: &Explainer<'_>) -> Json {
        let items = self.items.iter().map(|item| Json::count(*item));
        Json::Object(vec![
            ("items", Json::List(items.collect())),
            ("tries", Json::Integer(self.tries.into())),
            ("known", Json::text(self.known())),
            ("most_too_many", Json::Integer(self.most_too_many.into())),
            ("sentence", Json::text(self.sentence(explainer))),
        ])
    }
}

fn counted(items: usize) -> String {
    match items {
        1 => "one item".to_string(),
        items => format!("{items} items"),
    }
}
