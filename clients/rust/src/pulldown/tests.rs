//! The HTML of pulldown-cmark's events.

use super::*;
use crate::Options;
use pulldown_cmark::{CowStr, Parser};

/// The HTML of a document that pulldown-cmark reads with its options.
fn html(text: &str) -> String {
    let parser = Parser::new_ext(text, pulldown_cmark::Options::all());
    let document = events_of(parser.into_offset_iter());
    document.compile(&Options::default()).unwrap()
}

#[test]
fn blocks() {
    for (text, wanted) in [
        ("", ""),
        ("a", "<p>a</p>\n"),
        ("# a\n\nb\n===\n", "<h1>a</h1>\n<h1>b</h1>\n"),
        ("***", "<hr />\n"),
        (
            "> a\n> > b",
            "<blockquote>\n<p>a</p>\n<blockquote>\n<p>b</p>\n</blockquote>\n</blockquote>\n",
        ),
        ("    a\n\n    b", "<pre><code>a\n\nb\n</code></pre>\n"),
        (
            "```rust x\n```",
            "<pre><code class=\"language-rust\"></code></pre>\n",
        ),
        ("```\na\n```", "<pre><code>a\n</code></pre>\n"),
        ("a  \nb\\\nc\nd", "<p>a<br />\nb<br />\nc\nd</p>\n"),
    ] {
        assert_eq!(html(text), wanted, "{text:?}");
    }
}

#[test]
fn lists() {
    for (text, wanted) in [
        ("- a\n- b", "<ul>\n<li>a</li>\n<li>b</li>\n</ul>\n"),
        (
            "7. a\n8. b",
            "<ol start=\"7\">\n<li>a</li>\n<li>b</li>\n</ol>\n",
        ),
        (
            "- a\n\n- b",
            "<ul>\n<li>\n<p>a</p>\n</li>\n<li>\n<p>b</p>\n</li>\n</ul>\n",
        ),
        (
            "-\n\n- b",
            "<ul>\n<li></li>\n<li>\n<p>b</p>\n</li>\n</ul>\n",
        ),
        (
            "- a\n  - b\n\n    c\n- d",
            "<ul>\n<li>a\n<ul>\n<li>\n<p>b</p>\n<p>c</p>\n</li>\n</ul>\n</li>\n\
             <li>d</li>\n</ul>\n",
        ),
        (
            "- a\n  # b\n  c",
            "<ul>\n<li>a\n<h1>b</h1>\nc</li>\n</ul>\n",
        ),
        (
            "- <b>a</b>\n- <div>\n  b\n- c",
            "<ul>\n<li>&lt;b&gt;a&lt;/b&gt;</li>\n<li>\n&lt;div&gt;\nb\n</li>\n\
             <li>c</li>\n</ul>\n",
        ),
        (
            "- [ ] a\n- [x] b",
            "<ul>\n<li><input type=\"checkbox\" disabled=\"\" /> a</li>\n\
             <li><input type=\"checkbox\" disabled=\"\" checked=\"\" /> b</li>\n</ul>\n",
        ),
    ] {
        assert_eq!(html(text), wanted, "{text:?}");
    }
}

#[test]
fn tables() {
    let head = "<table>\n<thead>\n<tr>\n<th align=\"left\">a</th>\n<th>b</th>\n</tr>\n</thead>\n";
    assert_eq!(html("| a | b |\n|:--|---|\n"), format!("{head}</table>\n"));
    let row = "<tr>\n<td align=\"left\"><code>c|d</code></td>\n<td></td>\n</tr>\n";
    let wanted = format!("{head}<tbody>\n{row}</tbody>\n</table>\n");
    assert_eq!(html("| a | b |\n|:--|---|\n| `c\\|d` |\n"), wanted);
    assert!(html("|a|b|\n|-:|:-:|\n|c|d")
        .contains("<td align=\"right\">c</td>\n<td align=\"center\">d</td>"));
}

#[test]
fn spans() {
    for (text, wanted) in [
        (
            "*a* **b** ~~c~~ `` ` ``",
            "<p><em>a</em> <strong>b</strong> <del>c</del> <code>`</code></p>\n",
        ),
        ("`  a  ` `  `", "<p><code> a </code> <code>  </code></p>\n"),
        (
            "[a](b 'c') ![*d*\ne](f \"g\")",
            "<p><a href=\"b\" title=\"c\">a</a> <img src=\"f\" alt=\"d e\" title=\"g\" /></p>\n",
        ),
        (
            "[a](javascript:b) ![c](mailto:d)",
            "<p><a href=\"\">a</a> <img src=\"\" alt=\"c\" /></p>\n",
        ),
        (
            "<a@b.c> <https://d.e>",
            "<p><a href=\"mailto:a@b.c\">a@b.c</a> <a href=\"https://d.e\">https://d.e</a></p>\n",
        ),
        ("&amp;&copy;&#0;\0", "<p>&amp;\u{a9}\u{fffd}\u{fffd}</p>\n"),
        (
            "[a] [a][] [b][a]\n\n[a]: c 'd'",
            "<p><a href=\"c\" title=\"d\">a</a> <a href=\"c\" title=\"d\">a</a> \
             <a href=\"c\" title=\"d\">b</a></p>\n",
        ),
    ] {
        assert_eq!(html(text), wanted, "{text:?}");
    }
}

#[test]
fn footnotes() {
    let text = "a[^B] [^c]\n\n[^b]: d\n";
    let html = html(text);
    let begins = "<p>a<sup><a href=\"#user-content-fn-b\" id=\"user-content-fnref-b\"";
    assert!(html.starts_with(begins));
    assert!(html.contains(
        "</sup> [^c]</p>\n<section data-footnotes=\"\" class=\"footnotes\">\
         <h2 id=\"footnote-label\""
    ));
}

/// A call is one where the library says so too: a character and its small one call each other.
#[test]
fn footnotes_of_each_letter() {
    let has_small = |letter: &char| !letter.to_lowercase().eq([*letter]);
    for letter in ('\u{21}'..char::MAX).filter(has_small) {
        let small: String = letter.to_lowercase().collect();
        for (call, label) in [(&letter.to_string(), &small), (&small, &letter.to_string())] {
            let html = html(&format!("[^{call}]\n\n[^{label}]: a\n"));
            assert!(html.contains("<section"), "{call} {label}");
        }
    }
}

/// HTML that ends the document is a block in a loose list's item, also without a line
/// ending after it.
#[test]
fn html_at_the_end_of_a_loose_list() {
    let first = "<ul>\n<li>\n<p>a</p>\n</li>\n<li>\n";
    assert_eq!(
        html("- a\n\n- <div>"),
        format!("{first}&lt;div&gt;\n</li>\n</ul>\n")
    );
    let in_text = "<ul>\n<li>a</li>\n<li>&lt;div&gt;</li>\n</ul>\n";
    assert_eq!(html("- a\n- <div>"), in_text);
}

/// The line ending between a table's head and its body isn't lost to a tight paragraph before it.
#[test]
fn table_after_a_tight_paragraph() {
    let table =
        "<table>\n<thead>\n<tr>\n<th>c</th>\n</tr>\n</thead>\n<tbody>\n<tr>\n<td>d</td>\n</tr>\n";
    let wanted = format!("<ul>\n<li>a\n<h1>b</h1>\n{table}</tbody>\n</table>\n</li>\n</ul>\n");
    assert_eq!(html("- a\n  # b\n  | c |\n  |---|\n  | d |"), wanted);
}

/// In a tight list's item the parser reports spans around blocks.
#[test]
fn spans_around_blocks() {
    for (text, wanted) in [
        (
            "- [a\n  # b\n  c](d)",
            "<ul>\n<li><a href=\"d\">a</a>\n<h1>b</h1>\nc</li>\n</ul>\n",
        ),
        (
            "- ![a\n  > b\n\n  c](d)",
            "<ul>\n<li>\n<p>![a</p>\n<blockquote>\n<p>b</p>\n</blockquote>\n\
             <p>c](d)</p>\n</li>\n</ul>\n",
        ),
        (
            "- *a **b\n  ***\n  c** d*",
            "<ul>\n<li><em>a <strong>b</strong></em>\n<hr />\nc d</li>\n</ul>\n",
        ),
    ] {
        assert_eq!(html(text), wanted, "{text:?}");
    }
}

/// Events that no parser reports: each list is refused or has a text.
#[test]
fn strange_parsers() {
    let tags = [
        Tag::Item,
        Tag::TableCell,
        Tag::TableRow,
        Tag::List(Some(u64::MAX)),
        Tag::Table(Vec::new()),
        Tag::Paragraph,
    ];
    for first in &tags {
        for second in &tags {
            let events = [
                Event::Start(first.clone()),
                Event::Text("a".into()),
                Event::End(second.clone()),
            ];
            let document = events_of(events.into_iter().map(|event| (event, 0..0)));
            let _ = document.compile(&Options::default());
        }
    }
    let stray = Event::End(Tag::FootnoteDefinition(CowStr::Borrowed("")));
    assert!(events_of([(stray, 0..0)])
        .compile(&Options::default())
        .is_err());
}
