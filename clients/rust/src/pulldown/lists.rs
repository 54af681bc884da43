//! Lists, their items, and tasks.

use super::open::{Item, List, Open};
use super::Walk;
use crate::Name;

impl Walk<'_> {
    pub(super) fn start_list(&mut self, start: Option<u64>) -> Open {
        let name = match start {
            Some(_) => Name::ListOrdered,
            None => Name::ListUnordered,
        };
        self.document.enter(name);
        Open::List(List {
            name,
            start,
            is_marked_loose: false,
        })
    }

    /// The number of an ordered list is in its first item.
    pub(super) fn start_item(&mut self) -> Open {
        self.document.enter(Name::ListItem);
        self.document.enter(Name::ListItemPrefix);
        if let Some(Open::List(list)) = self.open.last_mut() {
            if let Some(start) = list.start.take() {
                self.document.text(Name::ListItemValue, &start.to_string());
            }
        }
        self.document.empty(Name::ListItemMarker);
        self.document.exit(Name::ListItemPrefix);
        Open::Item(Item::default())
    }

    /// A list whose items hold paragraphs is loose: a blank line after the first of these says so.
    pub(super) fn end_item(&mut self, has_paragraph: bool) {
        self.document.exit(Name::ListItem);
        if let Some(Open::List(list)) = self.open.last_mut() {
            if has_paragraph && !list.is_marked_loose {
                list.is_marked_loose = true;
                self.document.text(Name::BlankLineEnding, "\n");
            }
        }
    }

    /// Whether an item is open that is known to be in a loose list.
    pub(super) fn is_in_loose_item(&self) -> bool {
        match self.open[..] {
            [.., Open::List(ref list), Open::Item(ref item)] => {
                list.is_marked_loose || item.has_paragraph
            }
            _ => false,
        }
    }

    /// The box of a task and a space. They are in a quote's prefix, which prints nothing itself and
    /// isn't part of an item's content: so an item with only its box ends on the same line.
    pub(super) fn task(&mut self, is_checked: bool) {
        self.document.enter(Name::BlockQuotePrefix);
        self.document.enter(Name::GfmTaskListItemCheck);
        if is_checked {
            self.document.empty(Name::GfmTaskListItemValueChecked);
        }
        self.document.exit(Name::GfmTaskListItemCheck);
        self.document.text(Name::Data, " ");
        self.document.exit(Name::BlockQuotePrefix);
    }
}
