//! Converts pulldown-cmark's events into the library's.
//!
//! Nothing is proved about that parser or about this conversion. The library's promises hold for
//! any events.

mod blocks;
mod building;
mod footnotes;
mod html;
mod lists;
mod open;
mod pieces;
mod spans;
mod table;
mod texts;

use crate::{Document, Name};
use open::{Open, Span};
use pieces::{whole_html, whole_text};
use pulldown_cmark::{Alignment, Event, Tag};
use std::collections::{HashMap, HashSet};
use std::iter::Peekable;
use std::ops::Range;

/// Converts the events of pulldown-cmark into a document for the library.
///
/// It is for callers of pulldown-cmark that use other options or change its events. The parser
/// doesn't report bare links, and this doesn't make any.
///
/// ```
/// use bivdrazo::pulldown_cmark::{Event, Parser};
/// use bivdrazo::{events_of, Options};
///
/// let parser = Parser::new("a\nb").into_offset_iter();
/// let changed = parser.map(|(event, range)| match event {
///     Event::SoftBreak => (Event::HardBreak, range),
///     other => (other, range),
/// });
/// let html = events_of(changed).compile(&Options::default())?;
/// assert_eq!(html, "<p>a<br />\nb</p>\n");
/// # Ok::<(), bivdrazo::Error>(())
/// ```
pub fn events_of<'a, P>(parser: P) -> Document
where
    P: IntoIterator<Item = (Event<'a>, Range<usize>)>,
{
    let mut walk = Walk::default();
    walk.all(parser);
    walk.document
}

/// The conversion of a parser's events. Each kind of node has its own module.
#[derive(Default)]
struct Walk<'a> {
    document: Document,
    open: Vec<Open>,
    spans: Vec<Span<'a>>,
    /// The number of open images.
    images: usize,
    alignments: Vec<Alignment>,
    footnotes: HashSet<String>,
    /// The indices of the first events of footnotes' calls.
    calls: Vec<usize>,
    /// The ranges in the bytes of destinations and titles that definitions share, by their
    /// addresses and lengths.
    shared: HashMap<(usize, usize), Range<usize>>,
}

impl<'a> Walk<'a> {
    /// Converts all events.
    fn all<P>(&mut self, parser: P)
    where
        P: IntoIterator<Item = (Event<'a>, Range<usize>)>,
    {
        let mut rest = parser.into_iter().peekable();
        while let Some((event, range)) = rest.next() {
            self.one(event, range, &mut rest);
        }
        self.document.text(Name::BlankLineEnding, "\n");
        self.settle_calls();
    }

    fn one<P>(&mut self, event: Event<'a>, range: Range<usize>, rest: &mut Peekable<P>)
    where
        P: Iterator<Item = (Event<'a>, Range<usize>)>,
    {
        match event {
            Event::Start(tag) => self.start(tag),
            Event::End(tag) => self.end(&tag),
            Event::Text(text) if self.is_in_code() => self.code_line(&text),
            Event::Text(text) if self.is_before_flow_html(&text, rest.peek()) => {
                self.flow_html(&whole_html(&text, rest));
            }
            Event::Text(text) => self.text(&whole_text(text, range.end, rest)),
            Event::Code(code) => self.code(&code),
            Event::Html(html) if self.is_in_flow(&html, rest.peek()) => {
                self.flow_html(&whole_html(&html, rest));
            }
            Event::Html(html) => self.text_html(&html),
            Event::FootnoteReference(label) => self.call(&label),
            Event::SoftBreak => self.line_break(false),
            Event::HardBreak => self.line_break(true),
            Event::Rule => {
                self.before_block();
                self.document.empty(Name::ThematicBreak);
            }
            Event::TaskListMarker(is_checked) => self.task(is_checked),
        }
    }

    /// Begins the paragraph of a tight list's item, unless it has begun.
    fn before_phrasing(&mut self) {
        if let Some(Open::Item(item)) = self.open.last_mut() {
            if item.has_tight_paragraph {
                return;
            }
            item.has_tight_paragraph = true;
            if item.has_block {
                self.document.text(Name::Data, "\n");
            }
            self.document.enter(Name::Paragraph);
        }
    }

    /// Ends the paragraph of a tight list's item. Its line ending replaces the next one, which
    /// isn't printed.
    fn before_block(&mut self) {
        self.end_spans();
        if let Some(Open::Item(item)) = self.open.last_mut() {
            item.has_block = true;
            if item.has_tight_paragraph {
                item.has_tight_paragraph = false;
                self.document.exit(Name::Paragraph);
                self.document.text(Name::LineEnding, "\n");
            }
        }
    }

    fn start(&mut self, tag: Tag<'a>) {
        match tag {
            Tag::Emphasis | Tag::Strong | Tag::Strikethrough | Tag::Link(..) | Tag::Image(..) => {
                self.start_span(&tag);
                self.spans.push(Span {
                    tag,
                    is_ended: false,
                });
            }
            Tag::Table(_) | Tag::TableHead | Tag::TableRow | Tag::TableCell => {
                self.start_table(&tag);
            }
            _ => {
                self.before_block();
                self.start_block(&tag);
            }
        }
    }

    fn end(&mut self, tag: &Tag) {
        match tag {
            Tag::Emphasis | Tag::Strong | Tag::Strikethrough | Tag::Link(..) | Tag::Image(..) => {
                if let Some(span) = self.spans.pop().filter(|span| !span.is_ended) {
                    self.end_span(&span.tag);
                }
            }
            Tag::Table(_) | Tag::TableHead | Tag::TableRow | Tag::TableCell => self.end_table(tag),
            _ => self.end_block(tag),
        }
    }
}

#[cfg(test)]
mod tests;
