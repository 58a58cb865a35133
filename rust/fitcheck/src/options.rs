//! What a call is told besides its images.

use crate::{Limits, Reader};

/// What the list call is told besides catalogue and fit: who reads the list,
/// which has to be said; and what may be said, a league's profile with its
/// allowance, and the limits of a page. Choices that come later are fields of
/// their own, and a call that names none of them goes on as it does now.
///
/// ```
/// use fitcheck::{ListOptions, Reader};
///
/// let options = ListOptions::new(Reader::Pilot);
/// let entries = fitcheck::list(&[0; 20], &[0; 36], &options)?;
/// assert_eq!(entries.len(), 1);
/// # Ok::<(), fitcheck::Refusal>(())
/// ```
#[derive(Debug, Clone, Copy)]
pub struct ListOptions<'a> {
    pub(crate) reader: Reader,
    pub(crate) profile: &'a [u8],
    pub(crate) allowance: u32,
    pub(crate) limits: Limits,
}

impl<'a> ListOptions<'a> {
    /// All that a reader gets, of no league, on the main page.
    pub const fn new(reader: Reader) -> ListOptions<'a> {
        ListOptions {
            reader,
            profile: &[],
            allowance: 0,
            limits: Limits::main(),
        }
    }

    /// For a page that takes fewer pairs: a fit that has more is
    /// [`Refusal::PageLimit`], and every other is answered or refused as on the
    /// main page. The limit of skills is the skill call's.
    ///
    /// [`Refusal::PageLimit`]: crate::Refusal::PageLimit
    ///
    /// ```
    /// use fitcheck::{
    ///     CatalogueBuilder, FitBuilder, FitItem, ItemResult, Limits, ListOptions, Reader, Slot,
    ///     State,
    /// };
    ///
    /// let catalogue = CatalogueBuilder::new().type_info(587, 25, 6, None).build()?;
    /// let fit = FitBuilder::new(587)
    ///     .item(FitItem::new(34, Slot::Cargo), ItemResult::new(State::Offline))
    ///     .item(FitItem::new(35, Slot::Cargo), ItemResult::new(State::Offline))
    ///     .build()?;
    /// let options = ListOptions::new(Reader::Pilot);
    /// let under = |pairs| options.limits(Limits::main().pairs(pairs));
    ///
    /// let main = fitcheck::list(&catalogue, &fit, &options)?;
    /// assert_eq!(fitcheck::list(&catalogue, &fit, &under(2))?, main);
    /// let refusal = fitcheck::list(&catalogue, &fit, &under(1)).unwrap_err();
    /// assert_eq!(refusal.number(), 13);
    /// assert_eq!(
    ///     refusal.to_string(),
    ///     "the fit has 2 items with a result, and this page takes 1",
    /// );
    /// # Ok::<(), Box<dyn std::error::Error>>(())
    /// ```
    pub const fn limits(self, limits: Limits) -> ListOptions<'a> {
        ListOptions { limits, ..self }
    }

    /// Behind the list of a hull stand [`Rule::Banned`] and [`Rule::Points`]:
    /// what the league bans, and whether the fit costs more points than it
    /// allows. The profile is an image, as [`Profile::to_bytes`] gives it; one
    /// of no bytes is none, and then the allowance is not read.
    ///
    /// [`Rule::Banned`]: crate::Rule::Banned
    /// [`Rule::Points`]: crate::Rule::Points
    /// [`Profile::to_bytes`]: crate::Profile::to_bytes
    ///
    /// ```
    /// use fitcheck::{
    ///     CatalogueBuilder, FitBuilder, FitItem, ItemResult, ListOptions, Profile, Reader, Slot,
    ///     State,
    /// };
    ///
    /// let catalogue = CatalogueBuilder::new()
    ///     .type_info(32880, 25, 6, None)
    ///     .type_info(17482, 464, 7, None)
    ///     .build()?;
    /// let fit = FitBuilder::new(32880)
    ///     .item(FitItem::new(17482, Slot::High(0)), ItemResult::new(State::Online))
    ///     .build()?;
    /// let mut profile = Profile::new();
    /// profile.ban(464)?;
    /// let image = profile.to_bytes();
    ///
    /// let options = ListOptions::new(Reader::Guest);
    /// let entries = fitcheck::list(&catalogue, &fit, &options.league(&image, 120))?;
    /// assert_eq!(entries[0].to_string(), "group 464 is banned: item 0");
    /// assert_eq!(fitcheck::list(&catalogue, &fit, &options)?, []);
    /// # Ok::<(), Box<dyn std::error::Error>>(())
    /// ```
    pub const fn league(self, profile: &'a [u8], allowance: u32) -> ListOptions<'a> {
        ListOptions {
            profile,
            allowance,
            ..self
        }
    }
}

/// What the skill call is told besides catalogue, fit and result; see
/// [`ListOptions`].
#[derive(Debug, Clone, Copy)]
pub struct SkillOptions {
    pub(crate) reader: Reader,
    pub(crate) limits: Limits,
}

impl SkillOptions {
    /// All of a result's skills, on the main page. A guest gets none:
    /// [`Refusal::GuestSkills`](crate::Refusal::GuestSkills).
    pub const fn new(reader: Reader) -> SkillOptions {
        SkillOptions {
            reader,
            limits: Limits::main(),
        }
    }

    /// For a page that takes fewer pairs or skills: a fit with more pairs, or a
    /// result that wants more skills, is [`Refusal::PageLimit`], and every other
    /// is answered or refused as on the main page.
    ///
    /// [`Refusal::PageLimit`]: crate::Refusal::PageLimit
    ///
    /// ```
    /// use fitcheck::{
    ///     Attribute, CatalogueBuilder, FitBuilder, ItemResult, Limits, Passed, Reader, Refusal,
    ///     SkillOptions, State,
    /// };
    ///
    /// // The ship asks for skill 3329, and that for skill 3327.
    /// let catalogue = CatalogueBuilder::new()
    ///     .name(Attribute::RequiredSkill1, 182)
    ///     .name(Attribute::RequiredSkill1Level, 277)
    ///     .base(3329, 182, 3327.0)
    ///     .build()?;
    /// let fit = FitBuilder::new(587)
    ///     .ship(ItemResult::new(State::Online).with(182, 3329.0).with(277, 2.0))
    ///     .build()?;
    /// let options = SkillOptions::new(Reader::Pilot);
    /// let under = |skills| options.limits(Limits::main().skills(skills));
    ///
    /// assert_eq!(fitcheck::skills(&catalogue, &fit, 0, &under(2))?.len(), 1);
    /// let refused = fitcheck::skills(&catalogue, &fit, 0, &under(1));
    /// let passed = Passed::Skills { wanted: 2, limit: 1 };
    /// assert_eq!(refused, Err(Refusal::PageLimit(Some(passed))));
    /// # Ok::<(), Box<dyn std::error::Error>>(())
    /// ```
    pub const fn limits(self, limits: Limits) -> SkillOptions {
        SkillOptions { limits, ..self }
    }
}
