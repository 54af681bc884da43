//! Texts, code in texts, and breaks.

use super::Walk;
use crate::Name;

impl Walk<'_> {
    pub(super) fn text(&mut self, text: &str) {
        self.before_phrasing();
        if !text.is_empty() {
            self.document.text(Name::Data, text);
        }
    }

    /// The parser took a space off each end of the code, and so does the library: where one is
    /// left, two more are needed.
    pub(super) fn code(&mut self, code: &str) {
        self.before_phrasing();
        let is_padded =
            code.starts_with(' ') && code.ends_with(' ') && code.contains(|each| each != ' ');
        if is_padded {
            self.document
                .within(Name::CodeText, Name::CodeTextData, &format!(" {code} "));
        } else {
            self.document
                .within(Name::CodeText, Name::CodeTextData, code);
        }
    }

    /// A break is a line ending, and a space in an image's alternative text.
    pub(super) fn line_break(&mut self, is_hard: bool) {
        self.before_phrasing();
        if is_hard && self.images == 0 {
            self.document.empty(Name::HardBreakEscape);
        }
        self.document
            .text(Name::Data, if self.images > 0 { " " } else { "\n" });
    }
}
