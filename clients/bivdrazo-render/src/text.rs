//! The library's text: its URLs and its first heading.
//!
//! The text has one reading as HTML, in which `<` begins a tag, and no value contains a quotation
//! mark. So a search for a tag or a value finds these and nothing else.

use memchr::memmem;
use memchr::{memchr, memchr_iter};
use std::borrow::Cow;
use std::iter;

/// The beginnings of a link and of an image; the URL follows.
const LINK: &str = "<a href=\"";
const IMAGE: &str = "<img src=\"";

/// The beginning of the section of footnotes, and the beginning and end of a footnote call.
const FOOTNOTES: &str = "<section data-footnotes";
const CALL: &str = "<sup><a href=\"#";
const CALL_END: &str = "</sup>";

/// The characters that are escaped, with their escapes; `&` is first, since all escapes have it.
const ESCAPED: [(&str, &str); 4] = [
    ("&", "&amp;"),
    ("<", "&lt;"),
    (">", "&gt;"),
    ("\"", "&quot;"),
];

/// Replaces the URL of each link and image by the one that `made` returns; a URL for which it
/// returns none stays.
pub fn with_urls(html: &str, mut made: impl FnMut(&str) -> Option<String>) -> Cow<'_, str> {
    let mut changed = String::new();
    // The text before `kept` is in `changed`.
    let mut kept = 0;
    for tag in memchr_iter(b'<', html.as_bytes()) {
        if let Some(start) = url_after(html, tag) {
            let end = find(html, start, b'"').unwrap_or(html.len());
            if let Some(other) = made(&unescaped(&html[start..end])) {
                changed.push_str(&html[kept..start]);
                changed.push_str(&escaped(&other));
                kept = end;
            }
        }
    }
    if kept == 0 {
        return html.into();
    }
    changed.push_str(&html[kept..]);
    changed.into()
}

/// Where the URL of a link or of an image begins whose tag begins at a place.
fn url_after(html: &str, tag: usize) -> Option<usize> {
    let text = &html.as_bytes()[tag..];
    let before = match text.get(1) {
        Some(b'a') => LINK,
        Some(b'i') => IMAGE,
        _ => return None,
    };
    text.starts_with(before.as_bytes())
        .then_some(tag + before.len())
}

/// The position of the next such byte.
fn find(html: &str, from: usize, wanted: u8) -> Option<usize> {
    memchr(wanted, &html.as_bytes()[from..]).map(|at| from + at)
}

/// The ids of a text.
pub fn ids(html: &str) -> impl Iterator<Item = Cow<'_, str>> {
    // Quotation marks are only around values.
    let mut at = 0;
    let values = iter::from_fn(move || {
        let start = find(html, at, b'"')? + 1;
        let end = find(html, start, b'"')?;
        let before = &html[at..start];
        at = end + 1;
        Some((before, &html[start..end]))
    });
    values
        .filter(|(before, _)| before.ends_with(" id=\""))
        .map(|(_, value)| unescaped(value))
}

/// The text of the first heading, escaped, without tags and footnote calls; none if the document
/// has no heading or that is empty.
pub fn heading(html: &str) -> Option<String> {
    let start = heading_tag(html, "<h")?;
    if html[..start].contains(FOOTNOTES) {
        return None;
    }
    let end = html[start..].find("</h")?;
    let text = without_tags(&without_calls(&html[start..start + end]));
    let text = text.split_whitespace().collect::<Vec<_>>().join(" ");
    (!text.is_empty()).then_some(text)
}

/// Whether a text has a heading of the first level.
pub fn has_h1(html: &str) -> bool {
    heading_tag(html, "<h1").is_some()
}

/// The place of the first tag of a heading that begins like this.
fn heading_tag(html: &str, beginning: &str) -> Option<usize> {
    let is_heading = |tag: &[u8]| matches!(tag, [_, _, b'1'..=b'6', b' ' | b'>', ..]);
    let html = html.as_bytes();
    memmem::find_iter(html, beginning).find(|at| is_heading(&html[*at..]))
}

/// A text without footnote calls.
fn without_calls(html: &str) -> String {
    let mut kept = String::new();
    let mut rest = html;
    while let Some((before, call)) = rest.split_once(CALL) {
        kept.push_str(before);
        rest = call.split_once(CALL_END).map_or("", |(_, after)| after);
    }
    kept + rest
}

/// A text without tags.
fn without_tags(html: &str) -> String {
    let mut kept = String::new();
    let mut rest = html;
    while let Some((before, tag)) = rest.split_once('<') {
        kept.push_str(before);
        rest = tag.split_once('>').map_or("", |(_, after)| after);
    }
    kept + rest
}

/// A value without escapes.
fn unescaped(value: &str) -> Cow<'_, str> {
    if !value.contains('&') {
        return value.into();
    }
    let all = ESCAPED.iter().rev();
    let value = all.fold(value.to_string(), |value, (each, escape)| {
        value.replace(escape, each)
    });
    value.into()
}

/// A text escaped for a value.
fn escaped(text: &str) -> String {
    if !text.contains(['&', '<', '>', '"']) {
        return text.to_string();
    }
    let all = ESCAPED.iter();
    all.fold(text.to_string(), |text, (each, escape)| {
        text.replace(each, escape)
    })
}

#[cfg(test)]
mod tests {
    use super::*;
    use bivdrazo::{markdown_to_html, MarkdownOptions};

    fn html(text: &str) -> String {
        markdown_to_html(text, &MarkdownOptions::default())
            .unwrap()
            .into_string()
    }

    #[test]
    fn urls() {
        let text = "[a](b \"<a href='x'>\") ![c](d) [e] [f][e] <g@h.ij> `<a href=\"b\">` www.j.org [](<>) \
                    [k](l?m&n) [o](<p q>)\n\n[e]: b '&amp;'\n\n<a href=\"b\">\n";
        let mut urls = Vec::new();
        let before = html(text);
        let changed = with_urls(&before, |url| {
            urls.push(url.to_string());
            (url == "b" || url == "d").then(|| format!("{url}/?&\"<"))
        });
        assert_eq!(
            urls,
            [
                "b",
                "d",
                "b",
                "b",
                "mailto:g@h.ij",
                "http://www.j.org",
                "",
                "l?m&n",
                "p%20q"
            ]
        );
        let wanted = html(text)
            .replace("href=\"b\"", "href=\"b/?&amp;&quot;&lt;\"")
            .replace("src=\"d\"", "src=\"d/?&amp;&quot;&lt;\"");
        assert_eq!(changed, wanted);
        assert_eq!(with_urls(&html(text), |_| None), html(text));
        assert_eq!(
            with_urls(&html(text), |url| Some(url.to_string())),
            html(text)
        );
    }

    #[test]
    fn ids_of() {
        let mut options = MarkdownOptions::default().with_heading_slugs(true);
        options.heading_ids = Some("x\"&".to_string());
        let text = "# a b\n\nc[^1] ` id=\"d\"` [e](f \" id=\")\n\n[^1]: g\n";
        let mut found: Vec<String> = ids(&markdown_to_html(text, &options).unwrap())
            .map(Cow::into_owned)
            .collect();
        found.sort();
        let wanted = [
            "footnote-label",
            "user-content-fn-1",
            "user-content-fnref-1",
            "x\"&a-b",
        ];
        assert_eq!(found, wanted);
    }

    #[test]
    fn headings() {
        for (text, wanted) in [
            ("# a *b* `c`\n", Some("a b c")),
            ("d\n\n## [a](b \"c\") ![e](f)\n# g\n", Some("a")),
            (
                "a  <b>c</b>\n&amp;\n===\n",
                Some("a &lt;b&gt;c&lt;/b&gt; &amp;"),
            ),
            ("> # a[^1] d\n\n[^1]: b\n", Some("a d")),
            ("a[^1]\n\n[^1]: b\n\n    # c\n", None),
            ("***\n\n#\n\n# a\n", None),
            ("a\n", None),
            ("", None),
        ] {
            assert_eq!(heading(&html(text)).as_deref(), wanted, "{text}");
        }
        let options = MarkdownOptions::default().with_heading_ids("x");
        let made = markdown_to_html("# a\n", &options).unwrap();
        assert_eq!(heading(&made).as_deref(), Some("a"));
        for (text, wanted) in [
            ("# a", true),
            ("## a\n\nb\n===", true),
            ("## a\n`<h1>`", false),
        ] {
            assert_eq!(has_h1(&html(text)), wanted, "{text}");
        }
        assert!(has_h1(&made));
    }
}
