//! Safe HTML as a text.

use crate::{
    contents, is_safe_html, markdown_to_html, markdown_with_headings, MarkdownOptions, SafeHtml,
};
use std::borrow::Cow;
use std::collections::HashSet;

#[test]
fn texts() {
    let html = markdown_to_html("a", &MarkdownOptions::default()).unwrap();
    let text = "<p>a</p>\n";
    assert_eq!(html, text);
    assert_eq!(html, *text);
    assert_eq!(html, text.to_string());
    assert_eq!(text, html);
    assert_eq!(text.to_string(), html);
    assert_ne!(html, "<p>b</p>\n");
    assert_eq!(html.to_string(), text);
    assert_eq!(format!("{html:>11}|{html:.3}"), "  <p>a</p>\n|<p>");
    assert_eq!(html.as_str(), text);
    assert_eq!(AsRef::<str>::as_ref(&html), text);
    assert_eq!(AsRef::<[u8]>::as_ref(&html), text.as_bytes());
    assert!(html.starts_with("<p>") && html.len() == text.len());
    assert_eq!(Cow::from(html.clone()), text);
    assert_eq!(String::from(html.clone()), text);
    assert!(HashSet::from([html.clone()]).contains(&html));
    assert!(SafeHtml::default() < html);
    assert_eq!(html.into_string(), text);
}

#[test]
fn headings() {
    let options = MarkdownOptions::default().with_heading_slugs(true);
    let made = markdown_with_headings("# a *b* <c>", &options).unwrap();
    let text: &SafeHtml = &made.headings[0].text;
    assert_eq!(text, "a b &lt;c&gt;");
    let toc: SafeHtml = contents(&made.headings).unwrap();
    assert!(toc.contains("href=\"#a-b-c\""));
}

/// Texts that aren't safe HTML.
const ATTACKS: [&str; 24] = [
    "<script>alert(1)</script>",
    "<ScRiPt>alert(1)</sCrIpT>",
    "<p onclick=\"alert(1)\">a</p>",
    "<img src=\"a\" onerror=\"alert(1)\" />",
    "<img src=a onerror=alert(1)>",
    "<a href=\"javascript:alert(1)\">a</a>",
    "<a href=\"JaVaScRiPt:alert(1)\">a</a>",
    "<a href=\"java&#115;cript:alert(1)\">a</a>",
    "<a href=\"javascript&colon;alert(1)\">a</a>",
    "<a href=\"data:text/html,a\">a</a>",
    "<img src=\"data:image/svg+xml,a\" alt=\"b\" />",
    "<a href=\"a\" href=\"javascript:alert(1)\">a</a>",
    "<svg onload=\"alert(1)\"></svg>",
    "<iframe src=\"https://a.b\"></iframe>",
    "<form action=\"https://a.b\"></form>",
    "<style>body { display: none }</style>",
    "<p style=\"position: fixed\">a</p>",
    "</div></div><p>a</p>",
    "<p>a",
    "a <!-- b",
    "<a href=\"a\"><a href=\"b\">c</a></a>",
    "<p title='</p><script>alert(1)</script>'>a</p>",
    "a\0b",
    "<plaintext>a",
];

#[test]
fn checked_texts() {
    for text in ["", "a", "\u{1fa90}", "<p>a &amp; <em>b</em></p>\n"] {
        assert!(is_safe_html(text));
        assert_eq!(SafeHtml::from_checked(text.to_string()).unwrap(), text);
    }
    for text in ATTACKS {
        assert!(!is_safe_html(text), "{text}");
        let error = SafeHtml::from_checked(text.to_string()).unwrap_err();
        assert_eq!(error.to_string(), "the text isn't safe HTML");
        assert_eq!(error.into_string(), text);
    }
    assert!(is_safe_html(&"<p>a</p>".repeat(100_000)));
    assert!(!is_safe_html(&"<blockquote>".repeat(100_000)));
}

#[test]
fn stored_texts() {
    let document = "# a <b>\n\n- [x] *c* [d](e \"f\")\n\n|g|\n|-|\n|h[^i]|\n\n[^i]: j\n";
    let options = MarkdownOptions::default().with_rel("nofollow ugc");
    let html = markdown_to_html(document, &options).unwrap();
    assert!(html.contains("rel=\"nofollow ugc\""));
    let stored: Vec<u8> = html.clone().into_string().into_bytes();
    let read = String::from_utf8(stored).unwrap();
    assert_eq!(SafeHtml::from_checked(read), Ok(html.clone()));
    // A part of it that ends in its last element isn't safe.
    let (start, end) = (html.rfind("<section").unwrap(), html.trim_end().len());
    for (cut, _) in html.char_indices() {
        assert_eq!(
            is_safe_html(&html[start..cut.max(start)]),
            cut <= start || cut >= end
        );
    }
}
