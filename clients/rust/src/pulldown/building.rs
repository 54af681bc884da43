//! Makes a document, node by node.

use crate::{Document, Event, Kind, Name};
use std::borrow::Cow;
use std::ops::Range;

impl Document {
    /// Begins a node after the bytes so far.
    pub(super) fn enter(&mut self, name: Name) {
        self.events.push(Event::enter(name, self.bytes.len()));
    }

    /// Ends a node after the bytes so far.
    pub(super) fn exit(&mut self, name: Name) {
        self.events.push(Event::exit(name, self.bytes.len()));
    }

    /// A node without bytes or children.
    pub(super) fn empty(&mut self, name: Name) {
        self.enter(name);
        self.exit(name);
    }

    /// A node with its own text.
    pub(super) fn text(&mut self, name: Name, text: &str) {
        self.enter(name);
        self.bytes.extend_from_slice(text.as_bytes());
        self.exit(name);
    }

    /// A node with one text in it.
    pub(super) fn within(&mut self, outer: Name, inner: Name, text: &str) {
        let range = self.append(text);
        self.within_at(outer, inner, range);
    }

    /// A node with one text in it, which is at that place in the bytes.
    pub(super) fn within_at(&mut self, outer: Name, inner: Name, range: Range<usize>) {
        self.events.extend([
            Event::enter(outer, range.start),
            Event::enter(inner, range.start),
            Event::exit(inner, range.end),
            Event::exit(outer, range.end),
        ]);
    }

    /// Appends a text to the bytes; returns its range.
    pub(super) fn append(&mut self, text: &str) -> Range<usize> {
        let start = self.bytes.len();
        self.bytes.extend_from_slice(text.as_bytes());
        start..self.bytes.len()
    }

    /// A call of a footnote: six events, of which the third and the fourth are those of its label.
    pub(super) fn call(&mut self, label: &str) {
        self.enter(Name::GfmFootnoteCall);
        self.enter(Name::Label);
        self.bytes.extend_from_slice(b"[^");
        self.text(Name::LabelText, label);
        self.bytes.push(b']');
        self.exit(Name::Label);
        self.exit(Name::GfmFootnoteCall);
    }

    /// The label of the call whose first event has that index.
    pub(super) fn label_of(&self, index: usize) -> Cow<'_, str> {
        let [start, end] = [index + 2, index + 3].map(|each| self.events[each].index);
        String::from_utf8_lossy(&self.bytes[start..end])
    }

    /// Makes a text of the call whose first event has that index.
    pub(super) fn uncall(&mut self, index: usize) {
        if let [call, label, start, end, label_end, call_end] = &mut self.events[index..index + 6] {
            for outer in [&mut *call, label, label_end, &mut *call_end] {
                outer.name = Name::Other(0);
            }
            *start = Event::enter(Name::Data, call.index);
            *end = Event::exit(Name::Data, call_end.index);
        }
    }

    /// Removes the empty cells at the end of a row, which the library prints anyway.
    pub(super) fn drop_empty_cells(&mut self) {
        let is = |event: &Event, kind| event.kind == kind && event.name == Name::GfmTableCell;
        while let [.., start, end] = &self.events[..] {
            if !(is(start, Kind::Enter) && is(end, Kind::Exit)) {
                return;
            }
            self.events.truncate(self.events.len() - 2);
        }
    }
}
