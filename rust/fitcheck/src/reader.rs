//! Who reads what a call gives.

use crate::numbered::numbered;

numbered! {
    /// Who reads what a list or skill call gives: a pilot's skills are private.
    ///
    /// Every such call names one. There is no default, here or in the options: a
    /// call that says nothing of its reader would tell a guest what is not for
    /// guests, or keep it from whoever has to see it. The hall, its verdicts and
    /// the widening are the officer's.
    ///
    /// ```
    /// use fitcheck::{CatalogueBuilder, FitBuilder, ListOptions, Reader, Refusal, SkillOptions};
    ///
    /// // A gun stands among the skills, and it is none.
    /// let catalogue = CatalogueBuilder::new().type_info(587, 25, 6, None).build()?;
    /// let fit = FitBuilder::new(587).skill(2889, 5).build()?;
    /// let list = |reader| fitcheck::list(&catalogue, &fit, &ListOptions::new(reader));
    ///
    /// assert_eq!(list(Reader::Officer)?.len(), 1);
    /// assert_eq!(list(Reader::Pilot)?, list(Reader::Officer)?);
    /// assert_eq!(list(Reader::Guest)?, []);
    ///
    /// let skills = |reader| fitcheck::skills(&catalogue, &fit, 0, &SkillOptions::new(reader));
    /// assert_eq!(skills(Reader::Pilot)?, []);
    /// assert_eq!(skills(Reader::Guest), Err(Refusal::GuestSkills));
    /// # Ok::<(), Box<dyn std::error::Error>>(())
    /// ```
    ///
    /// Nothing stands for a reader that is not named:
    ///
    /// ```compile_fail,E0061
    /// let options = fitcheck::ListOptions::new();
    /// ```
    ///
    /// ```compile_fail,E0061
    /// let options = fitcheck::SkillOptions::new();
    /// ```
    ///
    /// ```compile_fail,E0277
    /// let options: fitcheck::ListOptions = Default::default();
    /// ```
    ///
    /// ```compile_fail,E0277
    /// let options: fitcheck::SkillOptions = Default::default();
    /// ```
    ///
    /// ```compile_fail,E0277
    /// let reader: fitcheck::Reader = Default::default();
    /// ```
    Reader {
        /// Looks at a shared fit. [`Rule::NotASkill`](crate::Rule::NotASkill) is
        /// not in the list, and a skill call is
        /// [`Refusal::GuestSkills`](crate::Refusal::GuestSkills).
        Guest = "guest",
        /// Gets everything, of skills too.
        Pilot = "pilot",
        /// Gets everything, of skills too.
        Officer = "officer",
    }
}
