//! URLs that are resolved against a base.

use super::*;

/// A URL in the text, resolved against a base.
fn resolved(base: &str, url: &str) -> String {
    let text = format!("[x](<{url}>)");
    let html = html_with(&text, |options| options.base = Some(base.to_string())).unwrap();
    let start = html.find("href=\"").unwrap() + "href=\"".len();
    let end = start + html[start..].find('"').unwrap();
    html[start..end].to_string()
}

#[test]
fn bases() {
    let based = |text| {
        html_with(text, |options| {
            options.base = Some("https://a.b/c/d?e".to_string())
        })
        .unwrap()
    };
    assert_eq!(
        based("[x](f) ![y](../g) [z](#h)"),
        "<p><a href=\"https://a.b/c/f\">x</a> <img src=\"https://a.b/g\" alt=\"y\" /> \
         <a href=\"#h\">z</a></p>\n"
    );
    assert_eq!(
        based("[x](javascript:f) <i@j.k>"),
        "<p><a href=\"\">x</a> <a href=\"mailto:i@j.k\">i@j.k</a></p>\n"
    );
    let script = html_with("[x](f)", |options| {
        options.base = Some("javascript:g".to_string())
    });
    assert_eq!(script.unwrap(), "<p><a href=\"\">x</a></p>\n");
}

/// The examples of RFC 3986, 5.4.1 and 5.4.2.
#[test]
fn urls_against_a_base() {
    let base = "http://a/b/c/d;p?q";
    for (url, wanted) in [
        ("irc:h", "irc:h"),
        ("g:h", ""),
        ("g", "http://a/b/c/g"),
        ("./g", "http://a/b/c/g"),
        ("g/", "http://a/b/c/g/"),
        ("/g", "http://a/g"),
        ("//g", "http://g"),
        ("?y", "http://a/b/c/d;p?y"),
        ("g?y", "http://a/b/c/g?y"),
        ("g#s", "http://a/b/c/g#s"),
        ("g?y#s", "http://a/b/c/g?y#s"),
        (";x", "http://a/b/c/;x"),
        ("g;x?y#s", "http://a/b/c/g;x?y#s"),
        (".", "http://a/b/c/"),
        ("./", "http://a/b/c/"),
        ("..", "http://a/b/"),
        ("../", "http://a/b/"),
        ("../g", "http://a/b/g"),
        ("../..", "http://a/"),
        ("../../g", "http://a/g"),
        ("../../../g", "http://a/g"),
        ("/./g", "http://a/g"),
        ("/../g", "http://a/g"),
        ("g.", "http://a/b/c/g."),
        (".g", "http://a/b/c/.g"),
        ("..g", "http://a/b/c/..g"),
        ("./../g", "http://a/b/g"),
        ("./g/.", "http://a/b/c/g/"),
        ("g/./h", "http://a/b/c/g/h"),
        ("g/../h", "http://a/b/c/h"),
        ("g;x=1/../y", "http://a/b/c/y"),
        ("g?y/../x", "http://a/b/c/g?y/../x"),
        ("http:g", "http:g"),
        ("", ""),
        ("#s", "#s"),
    ] {
        assert_eq!(resolved(base, url), wanted, "{url:?}");
    }
    assert_eq!(resolved("http://a", "g"), "http://a/g");
}

/// Against a base without an authority no path becomes a host, and none a scheme.
#[test]
fn urls_against_a_base_without_authority() {
    for (base, url, wanted) in [
        ("/docs/", "..//evil.com/", "/.//evil.com/"),
        ("/docs/", "../..//evil.com", "/.//evil.com"),
        ("/docs/", "/.//evil.com/", "/.//evil.com/"),
        ("/docs/", "./a:b", "/docs/a:b"),
        ("/docs/", "//a.b/c", "//a.b/c"),
        ("/docs/", "..", "/"),
        ("docs/", "..//evil.com/", ".//evil.com/"),
        ("docs/", "../a:b", "./a:b"),
        ("docs/", "..", "./"),
        ("docs/", "a/b:c", "docs/a/b:c"),
        ("", "./a:b", "./a:b"),
        ("", "a/..//evil.com", ".//evil.com"),
        ("", "?a:b", "?a:b"),
        ("", "a#b:c", "a#b:c"),
        ("1a:b", "?c", "./1a:b?c"),
        ("irc:/docs/", "..//evil.com/", "irc:/.//evil.com/"),
        ("irc:docs/", "..//evil.com/", "irc:.//evil.com/"),
        ("http://a/b/", "..//evil.com/", "http://a//evil.com/"),
        ("http://a/b/", "./c:d", "http://a/b/c:d"),
    ] {
        assert_eq!(resolved(base, url), wanted, "{base:?} {url:?}");
    }
    let based = |text, base: &str| {
        html_with(text, |options| options.base = Some(base.to_string())).unwrap()
    };
    let link = |url| format!("<p><a href=\"{url}\">x</a></p>\n");
    assert_eq!(based("[x](..//evil.com/)", "/docs/"), link("/.//evil.com/"));
    assert_eq!(based("[x](./a:b)", "docs"), link("./a:b"));
}
