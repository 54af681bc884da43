//! Blocks that hold blocks or texts, and code.

use super::open::{Item, Open};
use super::Walk;
use crate::Name;
use pulldown_cmark::{CodeBlockKind, Tag};

impl Walk<'_> {
    pub(super) fn start_block(&mut self, tag: &Tag) {
        let open = match tag {
            Tag::Paragraph => {
                if let Some(Open::Item(item)) = self.open.last_mut() {
                    item.has_paragraph = true;
                }
                self.document.enter(Name::Paragraph);
                Open::Text
            }
            Tag::Heading(level, ..) => {
                self.document.enter(Name::HeadingAtx);
                self.document
                    .text(Name::HeadingAtxSequence, &"######"[..*level as usize]);
                self.document.enter(Name::HeadingAtxText);
                Open::Text
            }
            Tag::BlockQuote => {
                self.document.enter(Name::BlockQuote);
                Open::Flow
            }
            Tag::FootnoteDefinition(label) => {
                self.start_footnote(label);
                Open::Flow
            }
            Tag::CodeBlock(kind) => {
                self.start_code(kind);
                Open::Code { has_chunk: false }
            }
            Tag::List(start) => self.start_list(*start),
            _ => self.start_item(),
        };
        self.open.push(open);
    }

    pub(super) fn end_block(&mut self, tag: &Tag) {
        self.before_block();
        let open = self.open.pop();
        match tag {
            Tag::Paragraph => self.document.exit(Name::Paragraph),
            Tag::Heading(..) => {
                self.document.exit(Name::HeadingAtxText);
                self.document.exit(Name::HeadingAtx);
            }
            Tag::BlockQuote => self.document.exit(Name::BlockQuote),
            Tag::FootnoteDefinition(_) => self.document.exit(Name::GfmFootnoteDefinition),
            Tag::CodeBlock(_) => {
                self.end_code(matches!(open, Some(Open::Code { has_chunk: true })))
            }
            Tag::List(_) => {
                if let Some(Open::List(list)) = open {
                    self.document.exit(list.name);
                }
            }
            _ => self.end_item(matches!(
                open,
                Some(Open::Item(Item {
                    has_paragraph: true,
                    ..
                }))
            )),
        }
    }

    /// A block of code has two fences here, however it was written; its language is the
    /// info's first word.
    fn start_code(&mut self, kind: &CodeBlockKind) {
        self.document.enter(Name::CodeFenced);
        self.document.enter(Name::CodeFencedFence);
        if let CodeBlockKind::Fenced(info) = kind {
            if let Some(language) = info.split_ascii_whitespace().next() {
                self.document
                    .within(Name::CodeFencedFenceInfo, Name::Data, language);
            }
        }
        self.document.exit(Name::CodeFencedFence);
    }

    pub(super) fn is_in_code(&self) -> bool {
        matches!(self.open.last(), Some(Open::Code { .. }))
    }

    pub(super) fn code_line(&mut self, line: &str) {
        if let Some(Open::Code {
            has_chunk: has_chunk @ false,
        }) = self.open.last_mut()
        {
            *has_chunk = true;
            self.document.enter(Name::CodeFlowChunk);
        }
        self.document.bytes.extend_from_slice(line.as_bytes());
    }

    fn end_code(&mut self, has_chunk: bool) {
        if has_chunk {
            self.document.exit(Name::CodeFlowChunk);
        }
        self.document.empty(Name::CodeFencedFence);
        self.document.exit(Name::CodeFenced);
    }
}
