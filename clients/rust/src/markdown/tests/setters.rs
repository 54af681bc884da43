//! Each setter sets its field, and nothing else.

use crate::tests::setters::{sets, text};
use crate::{DocumentHtml, MarkdownOptions};

#[test]
fn texts() {
    let new = MarkdownOptions::default;
    sets(new().with_footnote_prefix("a"), |it| {
        it.footnote_prefix = text();
    });
    sets(new().with_footnote_label("a"), |it| {
        it.footnote_label = text();
    });
    sets(new().with_footnote_back_label("a"), |it| {
        it.footnote_back_label = text();
    });
    sets(new().with_base("a"), |it| it.base = text());
    sets(new().with_rel("a"), |it| it.rel = text());
    sets(new().with_heading_ids("a"), |it| it.heading_ids = text());
}

#[test]
fn choices() {
    let new = MarkdownOptions::default;
    sets(new().with_number_ids(true), |it| it.number_ids = true);
    sets(new().with_hard_breaks(true), |it| it.hard_breaks = true);
    sets(new().with_bare_links(false), |it| it.bare_links = false);
    sets(new().with_math(true), |it| it.math = true);
    sets(new().with_front_matter(true), |it| it.front_matter = true);
    sets(new().with_footnotes(false), |it| it.footnotes = false);
    sets(new().with_tables(false), |it| it.tables = false);
    let html = DocumentHtml::LeftOut;
    sets(new().with_html(html), |it| it.html = html);
}

#[test]
fn limits() {
    let new = MarkdownOptions::default;
    sets(new().with_max_input(1), |it| it.max_input = Some(1));
    sets(new().with_max_output(1), |it| it.max_output = Some(1));
    sets(new().with_max_work(1), |it| it.max_work = Some(1));
    sets(new().with_max_depth(1), |it| it.max_depth = Some(1));
}
