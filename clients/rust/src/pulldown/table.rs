//! Tables.

use super::open::Open;
use super::Walk;
use crate::Name;
use pulldown_cmark::{Alignment, Tag};

impl Walk<'_> {
    pub(super) fn start_table(&mut self, tag: &Tag) {
        match tag {
            Tag::Table(alignments) => {
                self.before_block();
                self.alignments = alignments.clone();
                self.open.push(Open::Table { has_body: false });
                if !alignments.is_empty() {
                    self.document.enter(Name::GfmTable);
                }
            }
            Tag::TableHead | Tag::TableRow if self.alignments.is_empty() => {}
            Tag::TableHead => {
                self.document.enter(Name::GfmTableHead);
                self.document.enter(Name::GfmTableRow);
            }
            Tag::TableRow => {
                if let Some(Open::Table {
                    has_body: has_body @ false,
                }) = self.open.last_mut()
                {
                    *has_body = true;
                    self.document.text(Name::LineEnding, "\n");
                    self.document.enter(Name::GfmTableBody);
                }
                self.document.enter(Name::GfmTableRow);
            }
            _ => {
                if let (true, [.., Open::Item(item), _]) =
                    (self.alignments.is_empty(), &mut self.open[..])
                {
                    item.has_paragraph = true;
                }
                self.document.enter(self.cell_name());
                self.open.push(Open::Text);
            }
        }
    }

    /// The parser reports tables without columns, of which the library prints no cell: their cells
    /// become paragraphs.
    fn cell_name(&self) -> Name {
        if self.alignments.is_empty() {
            Name::Paragraph
        } else {
            Name::GfmTableCell
        }
    }

    pub(super) fn end_table(&mut self, tag: &Tag) {
        match tag {
            Tag::Table(_) => {
                let open = self.open.pop();
                if self.alignments.is_empty() {
                    return;
                }
                if let Some(Open::Table { has_body: true }) = open {
                    self.document.exit(Name::GfmTableBody);
                }
                self.document.exit(Name::GfmTable);
                self.alignments.clear();
            }
            Tag::TableHead | Tag::TableRow if self.alignments.is_empty() => {}
            Tag::TableHead => {
                self.document.exit(Name::GfmTableRow);
                self.delimiter_row();
                self.document.exit(Name::GfmTableHead);
            }
            Tag::TableRow => {
                self.document.drop_empty_cells();
                self.document.exit(Name::GfmTableRow);
            }
            _ => {
                self.open.pop();
                self.document.exit(self.cell_name());
            }
        }
    }

    /// The alignment of columns: markers at the first and at the last place of each value.
    fn delimiter_row(&mut self) {
        self.document.enter(Name::GfmTableDelimiterRow);
        for alignment in &self.alignments {
            self.document.enter(Name::GfmTableDelimiterCellValue);
            let places: &[Name] = match alignment {
                Alignment::None => &[],
                Alignment::Left => &[Name::GfmTableDelimiterMarker, Name::Other(0)],
                Alignment::Center => &[Name::GfmTableDelimiterMarker],
                Alignment::Right => &[Name::Other(0), Name::GfmTableDelimiterMarker],
            };
            places.iter().for_each(|&name| self.document.empty(name));
            self.document.exit(Name::GfmTableDelimiterCellValue);
        }
        self.document.exit(Name::GfmTableDelimiterRow);
    }
}
