//! The open nodes during the conversion of a parser's events.

use crate::Name;
use pulldown_cmark::Tag;

/// An open node, as far as later events depend on it.
pub(super) enum Open {
    /// A quote or a footnote's definition.
    Flow,
    List(List),
    Item(Item),
    Code {
        has_chunk: bool,
    },
    Table {
        has_body: bool,
    },
    /// A paragraph, a heading, a cell.
    Text,
}

/// A list.
pub(super) struct List {
    pub(super) name: Name,
    /// The number of the first item.
    pub(super) start: Option<u64>,
    /// Whether a blank line was added, which makes it loose.
    pub(super) is_marked_loose: bool,
}

/// An item of a list.
#[derive(Default)]
pub(super) struct Item {
    /// Whether a paragraph is open that the parser doesn't report, since the list is tight.
    pub(super) has_tight_paragraph: bool,
    pub(super) has_paragraph: bool,
    pub(super) has_block: bool,
}

/// Emphasis, a link or an image that the parser began.
pub(super) struct Span<'a> {
    pub(super) tag: Tag<'a>,
    /// Whether it was ended already, before a block.
    pub(super) is_ended: bool,
}
