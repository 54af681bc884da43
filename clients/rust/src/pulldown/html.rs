//! HTML in the document.

use super::open::Open;
use super::pieces::is_spaces;
use super::Walk;
use crate::Name;
use pulldown_cmark::Event;
use std::ops::Range;

impl Walk<'_> {
    /// Whether HTML is a block here. In a tight list's item the parser doesn't say so; but there a
    /// block ends its line, by itself or in the next event.
    pub(super) fn is_in_flow(&self, html: &str, next: Option<&(Event, Range<usize>)>) -> bool {
        let is_line_end = |each| each == '\n' || each == '\r';
        match self.open.last() {
            None | Some(Open::Flow) => true,
            Some(Open::Item(_)) if self.is_in_loose_item() => true,
            Some(Open::Item(_)) => match next {
                Some((Event::Html(next), _)) if next.starts_with(is_line_end) => true,
                _ => html.ends_with(is_line_end),
            },
            _ => false,
        }
    }

    /// Whether a text is the rest of a tab before HTML: there is no other text outside of
    /// blocks, and no paragraph begins with a space.
    pub(super) fn is_before_flow_html(
        &self,
        text: &str,
        next: Option<&(Event, Range<usize>)>,
    ) -> bool {
        let is_between_blocks = match self.open.last() {
            None | Some(Open::Flow) => true,
            Some(Open::Item(item)) => !item.has_tight_paragraph,
            _ => false,
        };
        is_between_blocks && is_spaces(text) && matches!(next, Some((Event::Html(_), _)))
    }

    pub(super) fn flow_html(&mut self, html: &str) {
        let html = html.trim_end_matches(|each| each == '\n' || each == '\r');
        self.before_block();
        self.document
            .within(Name::HtmlFlow, Name::HtmlFlowData, html);
    }

    pub(super) fn text_html(&mut self, html: &str) {
        self.before_phrasing();
        self.document
            .within(Name::HtmlText, Name::HtmlTextData, html);
    }
}
