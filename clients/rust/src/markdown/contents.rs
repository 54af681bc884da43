//! A table of contents, rendered from a Markdown document that has it.

use super::{call, MarkdownOptions};
use crate::{Error, Heading, SafeHtml};

/// A table of contents: a list of links to headings, nested by their levels. It is made by
/// [`markdown_to_html`](crate::markdown_to_html), so it is as safe. Without headings it is empty.
///
/// # Errors
///
/// [`Error::Memory`] if the library runs out of memory.
///
/// ```
/// use bivdrazo::{contents, markdown_with_headings, MarkdownOptions};
///
/// let options = MarkdownOptions::default().with_heading_slugs(true);
/// let made = markdown_with_headings("# a\n## b & *c*\n", &options)?;
/// let wanted = "<ul>\n<li><a href=\"#a\">a</a>\n<ul>\n\
///               <li><a href=\"#b--c\">b &amp; c</a></li>\n</ul>\n</li>\n</ul>\n";
/// assert_eq!(contents(&made.headings)?, wanted);
/// # Ok::<(), bivdrazo::Error>(())
/// ```
pub fn contents(headings: &[Heading]) -> Result<SafeHtml, Error> {
    let mut options = MarkdownOptions::default()
        .with_bare_links(false)
        .with_footnotes(false)
        .with_tables(false);
    options.max_work = Some(usize::MAX);
    call::html(&document_of(headings), &options)
}

/// A list of links in Markdown.
fn document_of(headings: &[Heading]) -> String {
    let mut document = String::new();
    let mut open: Vec<u8> = Vec::new();
    for heading in headings {
        while open.last().map_or(false, |level| *level >= heading.level) {
            open.pop();
        }
        document.push_str(&"  ".repeat(open.len()));
        open.push(heading.level);
        let text = unescaped(&heading.text);
        let text = match text.trim() {
            "" => &*heading.id,
            text => text,
        };
        let (text, id) = (quoted(text), quoted(&heading.id));
        document.push_str(&format!("- [{text}](<#{id}>)\n"));
    }
    document
}

/// A text without the library's escapes.
pub(crate) fn unescaped(text: &str) -> String {
    if !text.contains('&') {
        return text.to_string();
    }
    let text = text.replace("&lt;", "<").replace("&gt;", ">");
    text.replace("&quot;", "\"").replace("&amp;", "&")
}

/// A text in Markdown: what may be a mark has a backslash, and a line ending is a space.
fn quoted(text: &str) -> String {
    let mut quoted = String::with_capacity(text.len() + 8);
    for each in text.chars() {
        match each {
            '\n' | '\r' => quoted.push(' '),
            _ if each.is_ascii_punctuation() => quoted.extend(['\\', each]),
            _ => quoted.push(each),
        }
    }
    quoted
}

#[cfg(test)]
mod tests {
    use super::*;

    fn heading(level: u8, text: &str, id: &str) -> Heading {
        Heading {
            level,
            number: 1,
            text: SafeHtml::made(text.to_string()),
            id: id.to_string(),
        }
    }

    #[test]
    fn levels() {
        let levels = [3, 1, 3, 2, 6, 6, 1].map(|level| heading(level, "a", "b"));
        let link = "- [a](<#b>)\n";
        let wanted = ["", "", "  ", "  ", "    ", "    ", ""].map(|space| format!("{space}{link}"));
        assert_eq!(document_of(&levels), wanted.concat());
        assert_eq!(contents(&[]).unwrap(), "");
    }

    /// Whatever a text or an id has, there is one link with that text, to that id.
    #[test]
    fn texts() {
        for (text, id, wanted) in [
            (
                "a](x) *b* `c` &lt;d&gt; &amp;amp; www.e.org",
                "é b",
                "#%C3%A9%20b",
            ),
            ("- 1. # &gt; | ~ ![", ">\"\\)", "#%3E%22%5C)"),
            ("\\ [^1] a@b.org https://c.org", "", "#"),
            (" \n ", "a_*b*", "#a_*b*"),
        ] {
            let html = contents(&[heading(2, text, id)]).unwrap();
            let shown = match text.trim() {
                "" => id,
                text => text,
            };
            let link = format!("<ul>\n<li><a href=\"{wanted}\">{shown}</a></li>\n</ul>\n");
            assert_eq!(html, link, "{text}");
        }
    }
}
