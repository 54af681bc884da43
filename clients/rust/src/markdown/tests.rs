//! Documents; the modules below test the options.

use crate::{
    front_matter_of, markdown_to_html, markdown_with_headings, DocumentHtml, Error,
    MarkdownOptions, SafeHtml,
};

mod additions;
mod bases;
mod choices;
mod limits;
mod setters;

/// The HTML under changed default options.
fn html_with(text: &str, change: impl Fn(&mut MarkdownOptions)) -> Result<String, Error> {
    let mut options = MarkdownOptions::default();
    change(&mut options);
    markdown_to_html(text, &options).map(SafeHtml::into_string)
}

fn html(text: &str) -> String {
    html_with(text, |_| ()).unwrap()
}

#[test]
fn blocks() {
    for (text, wanted) in [
        ("", ""),
        ("a", "<p>a</p>\n"),
        ("# a\n\nb\n===\n", "<h1>a</h1>\n<h1>b</h1>\n"),
        ("***", "<hr />\n"),
        (
            "> a\n> > b",
            "<blockquote>\n<p>a</p>\n<blockquote>\n<p>b</p>\n</blockquote>\n</blockquote>\n",
        ),
        ("    a\n\n    b", "<pre><code>a\n\nb\n</code></pre>\n"),
        (
            "```rust x\n```",
            "<pre><code class=\"language-rust\"></code></pre>\n",
        ),
        ("```\na\n```", "<pre><code>a\n</code></pre>\n"),
        ("a  \nb\\\nc\nd", "<p>a<br />\nb<br />\nc\nd</p>\n"),
    ] {
        assert_eq!(html(text), wanted, "{text:?}");
    }
}

#[test]
fn lists() {
    for (text, wanted) in [
        ("- a\n- b", "<ul>\n<li>a</li>\n<li>b</li>\n</ul>\n"),
        (
            "7. a\n8. b",
            "<ol start=\"7\">\n<li>a</li>\n<li>b</li>\n</ol>\n",
        ),
        (
            "- a\n\n- b",
            "<ul>\n<li>\n<p>a</p>\n</li>\n<li>\n<p>b</p>\n</li>\n</ul>\n",
        ),
        (
            "-\n\n- b",
            "<ul>\n<li></li>\n<li>\n<p>b</p>\n</li>\n</ul>\n",
        ),
        (
            "- a\n  - b\n\n    c\n- d",
            "<ul>\n<li>a\n<ul>\n<li>\n<p>b</p>\n<p>c</p>\n</li>\n</ul>\n</li>\n\
             <li>d</li>\n</ul>\n",
        ),
        (
            "- a\n  # b\n  c",
            "<ul>\n<li>a\n<h1>b</h1>\nc</li>\n</ul>\n",
        ),
        (
            "- <b>a</b>\n- <div>\n  b\n- c",
            "<ul>\n<li>&lt;b&gt;a&lt;/b&gt;</li>\n<li>\n&lt;div&gt;\nb\n</li>\n\
             <li>c</li>\n</ul>\n",
        ),
        (
            "- [ ] a\n- [x] b",
            "<ul>\n<li><input type=\"checkbox\" disabled=\"\" /> a</li>\n\
             <li><input type=\"checkbox\" disabled=\"\" checked=\"\" /> b</li>\n</ul>\n",
        ),
    ] {
        assert_eq!(html(text), wanted, "{text:?}");
    }
}

#[test]
fn tables() {
    let head = "<table>\n<thead>\n<tr>\n<th align=\"left\">a</th>\n<th>b</th>\n</tr>\n</thead>\n";
    assert_eq!(html("| a | b |\n|:--|---|\n"), format!("{head}</table>\n"));
    let row = "<tr>\n<td align=\"left\"><code>c|d</code></td>\n<td></td>\n</tr>\n";
    let wanted = format!("{head}<tbody>\n{row}</tbody>\n</table>\n");
    assert_eq!(html("| a | b |\n|:--|---|\n| `c\\|d` |\n"), wanted);
    assert!(html("|a|b|\n|-:|:-:|\n|c|d")
        .contains("<td align=\"right\">c</td>\n<td align=\"center\">d</td>"));
}

#[test]
fn spans() {
    for (text, wanted) in [
        (
            "*a* **b** ~~c~~ `` ` ``",
            "<p><em>a</em> <strong>b</strong> <del>c</del> <code>`</code></p>\n",
        ),
        ("`  a  ` `  `", "<p><code> a </code> <code>  </code></p>\n"),
        (
            "[a](b 'c') ![*d*\ne](f \"g\")",
            "<p><a href=\"b\" title=\"c\">a</a> <img src=\"f\" alt=\"d\ne\" title=\"g\" /></p>\n",
        ),
        (
            "[a](javascript:b) ![c](mailto:d)",
            "<p><a href=\"\">a</a> <img src=\"\" alt=\"c\" /></p>\n",
        ),
        (
            "<a@b.c> <https://d.e>",
            "<p><a href=\"mailto:a@b.c\">a@b.c</a> <a href=\"https://d.e\">https://d.e</a></p>\n",
        ),
        ("&amp;&copy;&#0;\0", "<p>&amp;\u{a9}\u{fffd}\u{fffd}</p>\n"),
        (
            "[a] [a][] [b][a]\n\n[a]: c 'd'",
            "<p><a href=\"c\" title=\"d\">a</a> <a href=\"c\" title=\"d\">a</a> \
             <a href=\"c\" title=\"d\">b</a></p>\n",
        ),
    ] {
        assert_eq!(html(text), wanted, "{text:?}");
    }
}

#[test]
fn footnotes() {
    let text = "a[^B] [^c]\n\n[^b]: d\n";
    let html = html(text);
    let begins = "<p>a<sup><a href=\"#user-content-fn-b\" id=\"user-content-fnref-b\"";
    assert!(html.starts_with(begins));
    assert!(html.contains(
        "</sup> [^c]</p>\n<section data-footnotes=\"\" class=\"footnotes\">\
         <h2 id=\"footnote-label\""
    ));
    let prefixed = html_with(text, |options| {
        options.footnote_prefix = Some("x-".to_string())
    })
    .unwrap();
    assert_eq!(prefixed, html.replace("user-content-", "x-"));
    let numbered = html_with(text, |options| options.number_ids = true).unwrap();
    assert_eq!(
        numbered,
        html.replace("-fn-b", "-fn-1")
            .replace("-fnref-b", "-fnref-1-1")
    );
    let labelled = html_with(text, |options| {
        options.footnote_label = Some("<N>".to_string())
    })
    .unwrap();
    assert_eq!(labelled, html.replace(">Footnotes<", ">&lt;N&gt;<"));
    let back = html_with(text, |options| {
        options.footnote_back_label = Some("Up".to_string())
    })
    .unwrap();
    assert_eq!(back, html.replace("Back to content", "Up"));
}

/// A call is one where the library says so too: a character and its small one call each other.
#[test]
fn footnotes_of_each_letter() {
    let options = MarkdownOptions::default();
    let has_small = |letter: &char| !letter.to_lowercase().eq([*letter]);
    for letter in ('\u{21}'..char::MAX).filter(has_small) {
        let small: String = letter.to_lowercase().collect();
        for (call, label) in [(&letter.to_string(), &small), (&small, &letter.to_string())] {
            let html = markdown_to_html(&format!("[^{call}]\n\n[^{label}]: a\n"), &options);
            assert!(html.unwrap().contains("<section"), "{call} {label}");
        }
    }
}

#[test]
fn byte_order_mark() {
    assert_eq!(html("\u{feff}# a"), "<h1>a</h1>\n");
}

/// The line ending between a table's head and its body isn't lost to a tight paragraph before it.
#[test]
fn table_after_a_tight_paragraph() {
    let table =
        "<table>\n<thead>\n<tr>\n<th>c</th>\n</tr>\n</thead>\n<tbody>\n<tr>\n<td>d</td>\n</tr>\n";
    let wanted = format!("<ul>\n<li>a\n<h1>b</h1>\n{table}</tbody>\n</table>\n</li>\n</ul>\n");
    assert_eq!(html("- a\n  # b\n  | c |\n  |---|\n  | d |"), wanted);
}

/// HTML that ends the document is a block in an item, also without a line ending after it.
#[test]
fn html_at_the_end_of_a_list() {
    let block = "<li>\n&lt;div&gt;\n</li>\n</ul>\n";
    let loose = format!("<ul>\n<li>\n<p>a</p>\n</li>\n{block}");
    assert_eq!(html("- a\n\n- <div>"), loose);
    assert_eq!(html("- a\n- <div>"), format!("<ul>\n<li>a</li>\n{block}"));
}

/// No link is in a link, and no footnote call is.
#[test]
fn links_in_links() {
    for (text, wanted) in [
        ("[a [b](c) d](e)", "<p>[a <a href=\"c\">b</a> d](e)</p>\n"),
        (
            "[foo <http://x.y>](/z)",
            "<p><a href=\"/z\">foo http://x.y</a></p>\n",
        ),
        (
            "[a [^n]](b)\n\n[^n]: c",
            "<p><a href=\"b\">a [^n]</a></p>\n",
        ),
    ] {
        assert_eq!(html(text), wanted, "{text:?}");
    }
}

/// Documents that pulldown-cmark reads differently.
#[test]
fn as_gfm() {
    for (text, wanted) in [
        (
            "a\n| b |\n|---|",
            "<p>a</p>\n<table>\n<thead>\n<tr>\n<th>b</th>\n</tr>\n</thead>\n</table>\n",
        ),
        ("~a~", "<p><del>a</del></p>\n"),
        (
            "a\n>\nb",
            "<p>a</p>\n<blockquote>\n</blockquote>\n<p>b</p>\n",
        ),
        ("&#1114112;", "<p>\u{fffd}</p>\n"),
        ("www.a.b", "<p><a href=\"http://www.a.b\">www.a.b</a></p>\n"),
    ] {
        assert_eq!(html(text), wanted, "{text:?}");
    }
    let notes = html("a[^b] c[^d]\n\n[^b]: e\n\n    f\n\n- [^d]: g\n");
    assert!(notes.contains("<p>e</p>\n<p>f "), "{notes}");
    assert!(notes.contains("<p>g "), "{notes}");
}
