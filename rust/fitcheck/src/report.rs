//! What is to be said of one fit, whole.

use crate::call::counted_entries;
use crate::json::{self, Json};
use crate::{
    CatalogueImage, Entry, Explainer, FitImage, ListOptions, Missing, Reader, Refusal,
    SkillOptions, Unpaired,
};

/// What is to be said of one fit to one reader: its list, what of it no rule
/// looked at, the skills that each of its results lacks, and what the catalogue
/// leaves unchecked.
///
/// A guest is told nothing of skills. A guest's report never says that a fit is
/// clear, as it may break [`Rule::NotASkill`](crate::Rule::NotASkill).
///
/// ```
/// use fitcheck::{Explainer, ListOptions, Names, Reader, Report};
///
/// let (catalogue, fit) = ([0; 20], [0; 36]);
/// let report = Report::new(&catalogue, &fit, &ListOptions::new(Reader::Pilot))?;
/// assert!(report.is_faulted());
/// assert_eq!(report.missing.names.len(), 88, "the catalogue is empty");
/// let names = Names::new();
/// let text = report.text(&Explainer::new(&fit, &names));
/// assert!(text.starts_with("faulted: 1 entry\n  type 0 is not a ship"));
/// # Ok::<(), fitcheck::Refusal>(())
/// ```
#[non_exhaustive]
#[derive(Debug, Clone)]
pub struct Report {
    reader: Reader,
    /// The list.
    pub entries: Vec<Entry>,
    /// The items without a result, or the results without an item.
    pub unpaired: Option<Unpaired>,
    /// What each result lacks, by its number, or why that cannot be told.
    pub skills: Vec<Result<Vec<Entry>, Refusal>>,
    /// What the catalogue lacks.
    pub missing: Missing,
}

impl Report {
    /// Who reads it.
    #[must_use]
    pub fn reader(&self) -> Reader {
        self.reader
    }

    /// Makes the list call, and the skill call of every result, all for one reader
    /// and on one page.
    ///
    /// # Errors
    ///
    /// The list call's refusal. A refused skill call is told in its place.
    pub fn new(catalogue: &[u8], fit: &[u8], options: &ListOptions<'_>) -> Result<Report, Refusal> {
        let entries = crate::list(catalogue, fit, options)?;
        let image = FitImage::new(fit);
        let results = image.map_or(0, |fit| fit.results() as u32 + 2);
        let of_skills = SkillOptions::new(options.reader).limits(options.limits);
        let skills = (0..results).map(|result| crate::skills(catalogue, fit, result, &of_skills));
        Ok(Report {
            reader: options.reader,
            entries,
            unpaired: image.and_then(|fit| fit.unpaired()),
            skills: skills.collect(),
            missing: CatalogueImage::new(catalogue)
                .map(|catalogue| catalogue.missing())
                .unwrap_or_default(),
        })
    }

    /// Whether the full list is empty and all of the fit was checked. Skills may be
    /// lacking all the same. A guest is not told, so it is never so in a guest's
    /// report.
    pub fn is_clear(&self) -> bool {
        self.reader != Reader::Guest && !self.is_faulted()
    }

    /// Whether the reader's list has entries, or not all of the fit was checked.
    pub fn is_faulted(&self) -> bool {
        !self.entries.is_empty() || self.unpaired.is_some()
    }

    /// The list, what was not checked and the skills in sentences, a line each;
    /// what repeats stands once. What is missing is not said here.
    pub fn text(&self, explainer: &Explainer<'_>) -> String {
        self.text_with(&explainer.explain_all(&self.entries), explainer)
    }

    /// The same with other sentences for the entries.
    pub(crate) fn text_with(&self, sentences: &[String], explainer: &Explainer<'_>) -> String {
        let mut lines = vec![match self.is_faulted() {
            true => format!("faulted: {}", counted_entries(self.entries.len())),
            false if self.is_clear() => "clear: no rule is broken".to_string(),
            false => "nothing listed: no rule is broken that a guest may see".to_string(),
        }];
        let indented = |sentence: String| format!("  {sentence}");
        let sentences = sentences.iter().cloned();
        let unpaired = self.unpaired.map(|unpaired| unpaired.to_string());
        lines.extend(sentences.chain(unpaired).map(indented));
        if self.reader == Reader::Guest {
            lines.push("skills: not for a guest".to_string());
            return lines.join("\n") + "\n";
        }

        let mut lacking = Vec::new();
        let mut refused = Vec::new();
        for (number, skills) in (0..).zip(&self.skills) {
            match skills {
                Ok(entries) => lacking.extend(entries.iter().map(|entry| (number, *entry))),
                Err(refusal) => refused.push(format!(
                    "{}: refused by {}: {refusal}",
                    explainer.result_words(number),
                    refusal.number()
                )),
            }
        }
        lines.push(self.skill_line(refused.len()));
        let sentences = explainer.explain_all_skills(&lacking);
        lines.extend(sentences.into_iter().chain(refused).map(indented));
        lines.join("\n") + "\n"
    }

    /// For how many results skills are lacking.
    fn skill_line(&self, refused: usize) -> String {
        let is_lacking = |it: &&Result<Vec<Entry>, Refusal>| matches!(it, Ok(it) if !it.is_empty());
        let lacking = self.skills.iter().filter(is_lacking).count();
        let results = self.skills.len();
        match (lacking, refused) {
            (0, 0) => "skills: none is lacking".to_string(),
            (_, 0) => format!("skills: lacking for {lacking} of {results} results"),
            _ => format!("skills: lacking for {lacking} of {results} results, {refused} refused"),
        }
    }

    /// All of it as one object, every entry by itself.
    pub fn json(&self, explainer: &Explainer<'_>) -> Json {
        let entries = self.entries.iter();
        let entries = entries.map(|entry| json::entry(entry, &explainer.explain(entry)));
        Json::Object(self.fields_with(entries.collect(), explainer))
    }

    /// The fields of that object, with other values for the entries.
    pub(crate) fn fields_with(
        &self,
        entries: Vec<Json>,
        explainer: &Explainer<'_>,
    ) -> Vec<(&'static str, Json)> {
        let skills = (0..).zip(&self.skills).map(|(number, skills)| {
            let lacking = match skills {
                Ok(entries) => {
                    let one = |entry| json::entry(entry, &explainer.explain_skill(number, entry));
                    ("entries", Json::List(entries.iter().map(one).collect()))
                }
                Err(refusal) => ("refusal", json::refusal(*refusal)),
            };
            Json::Object(vec![("result", Json::Integer(number.into())), lacking])
        });
        let mut fields = json::versioned(match self.is_faulted() {
            true => "faulted",
            false if self.is_clear() => "clear",
            false => "nothing_listed",
        });
        fields.extend([
            ("unchecked", json::unchecked(&self.missing.unchecked())),
            ("entries", Json::List(entries)),
        ]);
        fields.extend(self.unpaired.map(|it| ("unpaired", json::unpaired(it))));
        fields.push(("skills", Json::List(skills.collect())));
        fields
    }
}
