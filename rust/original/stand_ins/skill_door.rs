// Stands inside the published `validate/skill.rs`, after its last line: the
// methods of `Run` that need what is private there.

impl<I: Info> crate::Run<'_, I> {
    /// The skills that one result wants, each with the highest level asked of
    /// it, in the order met.
    pub fn wanted_skills(&self, result: &ItemResult) -> Vec<(i32, u8)> {
        let context = Context::new(self.info, self.fit, self.calculation);
        wanted_skills(&context, &required(&context), result)
    }

    /// What `report` says of one result.
    pub fn report(&self, result: &ItemResult, target: Target) -> Vec<Violation> {
        let context = Context::new(self.info, self.fit, self.calculation);
        let mut found = Vec::new();
        report(&context, &required(&context), result, target, &mut found);
        found
    }
}

/// The pairs of `REQUIRED`, gathered as the published `validate` gathers them.
fn required<I: Info>(context: &Context<'_, I>) -> Vec<(i32, i32)> {
    REQUIRED
        .iter()
        .filter_map(|(skill, level)| {
            Some((context.attribute_id(skill)?, context.attribute_id(level)?))
        })
        .collect()
}
