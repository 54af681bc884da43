//! Tests of cleaning HTML.

use crate::{clean, is_safe_html, CleanOptions, Error, CLEAN_TAGS};

/// What is kept of a text with these elements.
fn with_tags(html: &str, tags: &[&str]) -> String {
    let options = CleanOptions::default().with_tags(tags);
    clean(html, &options).unwrap().into_string()
}

#[test]
fn texts() {
    for (html, wanted) in [
        ("", ""),
        ("a & b < c", "a &amp; b &lt; c"),
        (
            "<p onclick=f()>one<script>f()</script><p>two",
            "<p>one</p><p>two</p>",
        ),
        ("<b>1<p>2</b>3", "<b>1</b><p><b>2</b>3</p>"),
        ("<a href=' javascript:alert(1)'>a</a>", "<a>a</a>"),
        (
            "<table><tr><td>1",
            "<table><tbody><tr><td>1</td></tr></tbody></table>",
        ),
        ("<font color=red>a</font>", "a"),
    ] {
        let made = clean(html, &CleanOptions::default()).unwrap();
        assert_eq!(made, wanted);
        assert_eq!(clean(&made, &CleanOptions::default()).unwrap(), made);
    }
}

#[test]
fn attacks() {
    for html in [
        "<svg><style><img title=\"</style><img src=x onerror=alert(1)>\">",
        "<noscript><p title=\"</noscript><img src=x onerror=alert(1)>\">",
        "<math><mtext></form><form><mglyph><style></math><img src onerror=alert(1)>",
        "<a href=\"java&#115;cript:alert(1)\">a</a>",
        "<<script>alert(1);//<</script>",
        "a\0b",
        &"<blockquote>".repeat(100_000),
    ] {
        let made = clean(html, &CleanOptions::default()).unwrap();
        assert!(is_safe_html(&made));
        assert!(!made.contains("<script") && !made.contains("javascript:"));
    }
}

#[test]
fn choices() {
    assert_eq!(
        with_tags("<p>a <b>b</b><h1>c</h1>d", &["p"]),
        "<p>a b</p>c\nd"
    );
    assert_eq!(with_tags("<p>a <b>b</b>", &[]), "a b");
    assert_eq!(with_tags("<ul><li>a", &["ul"]), "<ul><li>a</li></ul>");
    let html = "<p>a<table><tr><td>b<pre>c";
    let whole = clean(html, &CleanOptions::default()).unwrap();
    assert_eq!(with_tags(html, &CLEAN_TAGS), whole);
    let options = CleanOptions::default().with_protocols(["https"]);
    let made = clean("<a href=http://a>b</a><a href=https://c>d</a>", &options).unwrap();
    assert_eq!(made, "<a>b</a><a href=\"https://c\">d</a>");
}

#[test]
fn errors() {
    let options = CleanOptions::default();
    let of = |options: CleanOptions| clean("<p>a", &options).unwrap_err();
    let is_protocol = false;
    assert_eq!(
        of(options.clone().with_tags(["p", "font"])),
        Error::CleanName { is_protocol }
    );
    let is_protocol = true;
    assert_eq!(
        of(options.clone().with_protocols(["javascript"])),
        Error::CleanName { is_protocol }
    );
    let (length, limit) = (4, 3);
    assert_eq!(
        of(options.clone().with_max_input(3)),
        Error::InputTooLong { length, limit }
    );
    assert_eq!(
        of(options.clone().with_max_output(7)),
        Error::OutputTooLong { limit: 7 }
    );
    let fitting = options.with_max_input(4).with_max_output(8);
    assert_eq!(clean("<p>a", &fitting).unwrap(), "<p>a</p>");
    let quotes = "\"".repeat(10_000);
    let made = clean(&quotes, &CleanOptions::default()).unwrap();
    assert_eq!(made, "&quot;".repeat(10_000));
}
