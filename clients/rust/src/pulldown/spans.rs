//! Emphasis, links and images.

use super::Walk;
use crate::Name;
use pulldown_cmark::{CowStr, LinkType, Tag};
use std::borrow::Cow;
use std::mem;

impl Walk<'_> {
    pub(super) fn start_span(&mut self, tag: &Tag) {
        self.before_phrasing();
        match tag {
            Tag::Emphasis => self.document.enter(Name::Emphasis),
            Tag::Strong => self.document.enter(Name::Strong),
            Tag::Link(..) => self.start_media(Name::Link),
            Tag::Image(..) => {
                self.images += 1;
                self.start_media(Name::Image);
            }
            _ => self.document.enter(Name::GfmStrikethrough),
        }
    }

    pub(super) fn end_span(&mut self, tag: &Tag) {
        match tag {
            Tag::Emphasis => self.document.exit(Name::Emphasis),
            Tag::Strong => self.document.exit(Name::Strong),
            Tag::Link(kind, url, title) => self.end_media(Name::Link, *kind, url, title),
            Tag::Image(kind, url, title) => {
                self.images -= 1;
                self.end_media(Name::Image, *kind, url, title);
            }
            _ => self.document.exit(Name::GfmStrikethrough),
        }
    }

    /// Ends the open spans: in a tight list's item the parser reports some around a block.
    pub(super) fn end_spans(&mut self) {
        let mut spans = mem::take(&mut self.spans);
        for span in spans.iter_mut().rev().take_while(|span| !span.is_ended) {
            span.is_ended = true;
            self.end_span(&span.tag);
        }
        self.spans = spans;
    }

    fn start_media(&mut self, name: Name) {
        self.document.enter(name);
        self.document.enter(Name::Label);
        self.document.enter(Name::LabelText);
    }

    fn end_media(&mut self, name: Name, kind: LinkType, url: &CowStr, title: &CowStr) {
        self.document.exit(Name::LabelText);
        self.document.exit(Name::Label);
        self.document.enter(Name::Resource);
        self.destination(kind, url);
        if !title.is_empty() {
            self.string(Name::ResourceTitleString, kind, title, |title| title.into());
        }
        self.document.exit(Name::Resource);
        self.document.exit(name);
    }

    fn destination(&mut self, kind: LinkType, url: &CowStr) {
        let name = Name::ResourceDestinationString;
        self.string(name, kind, url, |url| match kind {
            LinkType::Email => format!("mailto:{url}").into(),
            _ => url.into(),
        });
    }

    /// A destination or a title. The parser returns the same text for each link that uses a
    /// definition, so the bytes have it once. Two texts that are borrowed from the document are
    /// equal if their addresses and lengths are.
    fn string(
        &mut self,
        name: Name,
        kind: LinkType,
        text: &CowStr,
        made: impl Fn(&str) -> Cow<str>,
    ) {
        let place = match (kind, text) {
            (LinkType::Inline | LinkType::Autolink | LinkType::Email, _) => None,
            (_, CowStr::Borrowed(own)) => Some((own.as_ptr() as usize, own.len())),
            _ => None,
        };
        let known = place.and_then(|place| self.shared.get(&place).cloned());
        let range = known.unwrap_or_else(|| self.document.append(&made(text)));
        self.document.within_at(name, Name::Data, range.clone());
        if let Some(place) = place {
            self.shared.insert(place, range);
        }
    }
}
