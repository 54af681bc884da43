//! Syntax that options switch on or off.

use super::*;

#[test]
fn math() {
    for (text, wanted) in [
        (
            "$a$ $b $c$d",
            "<p><code class=\"language-math math-inline\">a</code> $b $c$d</p>\n",
        ),
        (
            "$$\na < b\n$$",
            "<pre><code class=\"language-math math-display\">a &lt; b\n</code></pre>\n",
        ),
    ] {
        let read = html_with(text, |options| options.math = true).unwrap();
        assert_eq!(read, wanted, "{text:?}");
    }
    assert_eq!(html("$a$"), "<p>$a$</p>\n");
}

#[test]
fn front_matter() {
    let text = "---\na: b\n---\n# c\n";
    let without = html_with(text, |options| options.front_matter = true).unwrap();
    assert_eq!(without, "<h1>c</h1>\n");
    assert_eq!(html(text), "<hr />\n<h2>a: b</h2>\n<h1>c</h1>\n");
    for (text, wanted) in [
        (text, Some("a: b\n")),
        ("\u{feff}---\r\na\r\n---", Some("a\r\n")),
        ("---\n---\n", Some("")),
        ("--- \n\u{e9}\n---\t\nb", Some("\u{e9}\n")),
        ("", None),
        ("---", None),
        ("---\na\n", None),
        ("\n---\na\n---\n", None),
        ("+++\na\n+++\n", None),
        ("----\na\n----\n", None),
    ] {
        assert_eq!(front_matter_of(text), wanted, "{text:?}");
    }
}

#[test]
fn no_footnotes() {
    let text = "a[^b]\n\n[^b]: c\n";
    let without = html_with(text, |options| options.footnotes = false).unwrap();
    assert_eq!(without, "<p>a<a href=\"c\">^b</a></p>\n");
}

#[test]
fn no_tables() {
    let text = "| a |\n|---|\n";
    let without = html_with(text, |options| options.tables = false).unwrap();
    assert_eq!(without, "<p>| a |\n|---|</p>\n");
    assert!(html(text).starts_with("<table>"));
}
