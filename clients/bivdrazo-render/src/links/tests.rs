//! Targets of URLs.

use super::*;
use crate::skipped::Reason;

fn tree() -> Tree {
    let mut tree = Tree::default();
    let pages = [
        "index.md",
        "a.md",
        "a b.md",
        "a?#.md",
        "c/index.md",
        "c/d.md",
        "d.md",
        "d/index.md",
        "e/f.md",
        "r/README.md",
        "r/s/readme.md",
    ];
    tree.pages.extend(pages.map(PathBuf::from));
    let odd = OsStr::from_bytes(b"n\xff.md");
    tree.pages.insert(PathBuf::from(odd));
    let files = ["i.png", "c/i.png", "d.pdf", "g.html", "w/index.html", "h/x"];
    tree.files.extend(files.map(PathBuf::from));
    let folders = ["", "c", "d", "e", "h", "r", "r/s", "w"];
    tree.folders.extend(folders.map(PathBuf::from));
    tree.skipped.add(PathBuf::from("_x"), Reason::Underscore);
    tree.skipped.add(PathBuf::from("c/draft.md"), Reason::Draft);
    tree.settle();
    tree
}

/// Checks the targets of URLs in a source.
fn check(source: &str, wanted: &[(&str, Target)]) {
    for (url, target) in wanted {
        let found = super::target(url, Path::new(source), &tree());
        assert_eq!(found, *target, "{source}: {url}");
    }
}

fn page(url: &str) -> Target {
    Target::Page(url.to_string())
}

fn file(path: &str) -> Target {
    Target::File(PathBuf::from(path))
}

#[test]
fn pages() {
    check(
        "a.md",
        &[
            ("a.md", page("a.html")),
            ("./a.md#b", page("./a.html#b")),
            ("c/../a.md?q=.md#b", page("c/../a.html?q=.md#b")),
            ("c//d.md", page("c//d.html")),
            ("c/index.md", page("c/index.html")),
            ("a%20b.md", page("a%20b.html")),
            ("a b.md", page("a b.html")),
            ("a%3F%23.md", page("a%3F%23.html")),
            ("%61%2Emd", page("%61.html")),
            ("c/d.m%64#e", page("c/%64.html#e")),
            ("n%FF.md", page("n%FF.html")),
            ("c/%2e%2e/a.md", page("c/%2e%2e/a.html")),
            ("r/README.md#b", page("r/index.html#b")),
            ("r/s/%72eadme.m%64?c", page("r/s/index.html?c")),
        ],
    );
    check(
        "c/d.md",
        &[
            ("../a.md", page("../a.html")),
            ("../e/f.md#g", page("../e/f.html#g")),
            ("d.md", page("d.html")),
            ("../../a.md", Target::Nothing),
            ("a.md", Target::Nothing),
        ],
    );
}

#[test]
fn others() {
    for url in [
        "",
        "#a",
        "?b",
        "/a.md",
        "//a.md",
        "http://a.md",
        "mailto:a.md",
        "x:a.md",
        "a.html",
        "a%20b.html",
        "c",
        "c/",
        ".",
        "./",
        "c/d.html?b",
        "c/..",
        "d",
        "d/",
        "d.html",
        "e",
        "e/",
        "e/index.html#a",
        "r",
        "r/",
        "r/index.html",
        "r/s/",
    ] {
        check("a.md", &[(url, Target::Other)]);
    }
}

#[test]
fn nothing() {
    for url in [
        "b.md",
        "A.md",
        "a.md/",
        "a.md/.",
        "a.md/%2e",
        "..",
        "../a.md",
        "c%2Fd.md",
        "%2Fa.md",
        "g.md",
        "x.png",
        "i.png/",
        "a",
        "a%",
        "a%2",
        "a.md%00",
        "c/../../a.md",
        "-:a.md",
        "a%3A",
    ] {
        check("a.md", &[(url, Target::Nothing)]);
    }
}

#[test]
fn folders() {
    for url in ["h", "h/", "./h/?a#b", "c/../h/.", "%68"] {
        check("a.md", &[(url, Target::Folder)]);
    }
    check("h/f.md", &[(".", Target::Folder), ("../h", Target::Folder)]);
    check(
        "a.md",
        &[("w/", file("w/index.html")), ("w", Target::Other)],
    );
    check("r/README.md", &[("README.html", Target::Nothing)]);
}

#[test]
fn unpublished() {
    for url in ["_x", "_x/", "_x/a/b.md#c", "c/draft.md", "./c/../_x/d.png"] {
        check("a.md", &[(url, Target::Unpublished)]);
    }
    check("a.md", &[("x", Target::Nothing), ("c/_x", Target::Nothing)]);
}

#[test]
fn ways() {
    for (folder, file, url) in [
        ("", "a.html", "a.html"),
        ("b", "a.html", "../a.html"),
        ("b/c", "b/c/a.html", "a.html"),
        ("b/c", "b/d e/a&\".html", "../d%20e/a%26%22.html"),
        ("b", "bc/a.html", "../bc/a.html"),
        ("", "http:/x", "http%3A/x"),
    ] {
        assert_eq!(between(Path::new(folder), Path::new(file)), url);
    }
    assert_eq!(root(Path::new("")), "./");
    assert_eq!(root(Path::new("a/b")), "../../");
}

#[test]
fn files() {
    check(
        "a.md",
        &[("i.png", file("i.png")), ("g.html#a", file("g.html"))],
    );
    check(
        "c/d.md",
        &[("i.png?b", file("c/i.png")), ("../i.png", file("i.png"))],
    );
}

#[test]
fn anchors() {
    for (url, wanted) in [
        ("#a%20b", Some(("c/d.md", "a b"))),
        ("?q#a", Some(("c/d.md", "a"))),
        ("../a.md#%C3%A9", Some(("a.md", "\u{e9}"))),
        ("../a.html?q#b#c", Some(("a.md", "b#c"))),
        ("./#b", Some(("c/index.md", "b"))),
        (".#b", Some(("c/index.md", "b"))),
        ("../c/../#b", Some(("index.md", "b"))),
        ("..#b", Some(("index.md", "b"))),
        ("%2E%2e#b", Some(("index.md", "b"))),
        ("index.html#b", Some(("c/index.md", "b"))),
        ("../d/#b", Some(("d/index.md", "b"))),
        ("../d.md#b", Some(("d.md", "b"))),
        ("../d.html?q#b", Some(("d.md", "b"))),
        ("../d#b", None),
        ("../a/#b", None),
        ("../a#b", None),
        ("../a.md/#b", None),
        ("../a.html/#b", None),
        ("../d.pdf#b", None),
        ("../a.txt#b", None),
        ("../a.MD#b", None),
        ("../a.HTML#b", None),
        ("../e/#b", None),
        ("../r/#b", Some(("r/README.md", "b"))),
        ("../r/index.html#b", Some(("r/README.md", "b"))),
        ("../r/README.md#b", Some(("r/README.md", "b"))),
        ("#", None),
        ("#Top", None),
        ("../a.md", None),
        ("i.png#a", None),
        ("g.md#a", None),
        ("/a.md#a", None),
        ("https://x.org/a.md#a", None),
    ] {
        let found = anchor(url, Path::new("c/d.md"), &tree());
        let wanted = wanted.map(|(page, id)| (PathBuf::from(page), id.to_string()));
        assert_eq!(found, wanted, "{url}");
    }
}
