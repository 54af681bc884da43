//! Footnotes and their calls.

use super::Walk;
use crate::Name;

impl Walk<'_> {
    pub(super) fn start_footnote(&mut self, label: &str) {
        self.footnotes.insert(folded(label));
        self.document.enter(Name::GfmFootnoteDefinition);
        self.document.within(
            Name::GfmFootnoteDefinitionPrefix,
            Name::GfmFootnoteDefinitionLabelString,
            label,
        );
    }

    pub(super) fn call(&mut self, label: &str) {
        self.before_phrasing();
        self.calls.push(self.document.events.len());
        self.document.call(label);
    }

    /// Makes texts of the calls whose footnote isn't defined.
    pub(super) fn settle_calls(&mut self) {
        for &call in &self.calls {
            if !self
                .footnotes
                .contains(&folded(&self.document.label_of(call)))
            {
                self.document.uncall(call);
            }
        }
    }
}

/// A label, folded so that those which are equal are so for the library too: case aside, with one
/// space for each run of spaces and line endings.
fn folded(label: &str) -> String {
    let is_space = |each: char| matches!(each, '\t' | '\n' | '\r' | ' ');
    let words: Vec<&str> = label
        .split(is_space)
        .filter(|word| !word.is_empty())
        .collect();
    words
        .join(" ")
        .chars()
        .flat_map(char::to_lowercase)
        .collect()
}
