//! Setters of [`MarkdownOptions`].

use super::{DocumentHtml, MarkdownOptions};
use crate::setters::setters;

setters! { MarkdownOptions:
    with_math(math: bool) = math;
    with_front_matter(front_matter: bool) = front_matter;
    with_footnotes(footnotes: bool) = footnotes;
    with_tables(tables: bool) = tables;
    with_footnote_prefix(footnote_prefix: impl Into<String>) = Some(footnote_prefix.into());
    with_number_ids(number_ids: bool) = number_ids;
    with_footnote_label(footnote_label: impl Into<String>) = Some(footnote_label.into());
    with_footnote_back_label(footnote_back_label: impl Into<String>) =
        Some(footnote_back_label.into());
    with_hard_breaks(hard_breaks: bool) = hard_breaks;
    with_bare_links(bare_links: bool) = bare_links;
    with_html(html: DocumentHtml) = html;
    with_base(base: impl Into<String>) = Some(base.into());
    with_rel(rel: impl Into<String>) = Some(rel.into());
    with_heading_ids(heading_ids: impl Into<String>) = Some(heading_ids.into());
    with_heading_slugs(heading_slugs: bool) = heading_slugs;
    with_max_input(max_input: usize) = Some(max_input);
    with_max_output(max_output: usize) = Some(max_output);
    with_max_work(max_work: usize) = Some(max_work);
    with_max_depth(max_depth: usize) = Some(max_depth);
}
