//! The order of pages, and the lists that they show.

use super::*;
use crate::links::between;

/// Documents with a weight; the title is the path in capitals.
struct Pages {
    tree: Tree,
    titles: Vec<(PathBuf, String, Option<f64>)>,
    names: HashMap<PathBuf, String>,
}

impl Pages {
    fn of(paths: &[(&str, Option<f64>)]) -> Pages {
        let mut tree = Tree::default();
        tree.pages
            .extend(paths.iter().map(|(path, _)| PathBuf::from(path)));
        tree.settle();
        let mut titles: Vec<_> = paths
            .iter()
            .map(|(path, weight)| (PathBuf::from(path), path.to_uppercase(), *weight))
            .collect();
        titles.sort_by(|one, other| one.0.cmp(&other.0));
        let names = tree
            .indexes
            .keys()
            .map(|path| (path.clone(), path.display().to_string()));
        let names = names.collect();
        Pages {
            tree,
            titles,
            names,
        }
    }

    fn cards(&self) -> Vec<Card<'_>> {
        let cards = self.titles.iter().map(|(source, title, weight)| Card {
            source,
            title,
            weight: *weight,
        });
        cards.collect()
    }
}

/// The paths of the pages, in order.
fn order(paths: &[(&str, Option<f64>)]) -> Vec<String> {
    let pages = Pages::of(paths);
    let cards = pages.cards();
    let nav = Nav::of(&cards, &pages.tree, &pages.names);
    nav.targets()
        .map(|path| path.display().to_string())
        .collect()
}

#[test]
fn orders() {
    let found = order(&[
        ("b.md", None),
        ("a.md", None),
        ("z.md", Some(2.0)),
        ("y.md", Some(-1.0)),
        ("x.md", Some(2.0)),
        ("c/README.md", Some(1.0)),
        ("c/d/e.md", None),
        ("aa/f.md", None),
        ("index.md", Some(9.0)),
    ]);
    let wanted = [
        "index.html",
        "y.html",
        "c/index.html",
        "c/d/index.html",
        "c/d/e.html",
        "x.html",
        "z.html",
        "a.html",
        "aa/index.html",
        "aa/f.html",
        "b.html",
    ];
    assert_eq!(found, wanted);
    assert!(order(&[]).is_empty());
}

#[test]
fn lists() {
    let pages = Pages::of(&[("a.md", None), ("b/README.md", None), ("b/c.md", None)]);
    let cards = pages.cards();
    let nav = Nav::of(&cards, &pages.tree, &pages.names);
    let ways = nav.ways(Path::new("b/c.md"));
    let wanted = "<ul>\n<li><a href=\"../index.html\"></a>\n\
                  <ul>\n<li><a href=\"index.html\">B/README.MD</a>\n\
                  <ul>\n<li><a aria-current=\"page\" href=\"c.html\">B/C.MD</a></li>\n</ul>\n\
                  </li>\n</ul>\n</li>\n</ul>\n";
    assert_eq!(ways.list.concat(), wanted);
    assert_eq!(
        ways.prev,
        "<a rel=\"prev\" href=\"index.html\">B/README.MD</a>"
    );
    assert_eq!((&*ways.next, &*ways.root), ("", "../"));
    assert_eq!(ways.up, "<a href=\"index.html\">B/README.MD</a>");
    let ways = nav.ways(Path::new("b/README.md"));
    let wanted = "<ul>\n<li><a href=\"../index.html\"></a>\n\
                  <ul>\n<li><a aria-current=\"page\" href=\"index.html\">B/README.MD</a>\n\
                  <ul>\n<li><a href=\"c.html\">B/C.MD</a></li>\n</ul>\n\
                  </li>\n</ul>\n</li>\n</ul>\n";
    assert_eq!(ways.list.concat(), wanted);
    assert_eq!(ways.prev, "<a rel=\"prev\" href=\"../a.html\">A.MD</a>");
    assert_eq!(ways.next, "<a rel=\"next\" href=\"c.html\">B/C.MD</a>");
    assert_eq!(ways.up, "<a href=\"../index.html\"></a>");
    let made: Vec<_> = nav.lists().collect();
    let (target, title, text, ways) = &made[0];
    assert_eq!(
        (made.len(), *target, *title),
        (1, Path::new("index.html"), "")
    );
    let wanted = "<ul>\n<li><a href=\"a.html\">A.MD</a></li>\n\
                  <li><a href=\"b/index.html\">B/README.MD</a></li>\n</ul>\n";
    assert_eq!(text, wanted);
    let wanted = "<ul>\n<li><a aria-current=\"page\" href=\"index.html\"></a>\n</li>\n</ul>\n";
    assert_eq!(ways.list.concat(), wanted);
    assert_eq!((&*ways.prev, &*ways.up, &*ways.root), ("", "", "./"));
}

/// Of many pages in a folder a page shows those around it, and the folder's page all.
#[test]
fn many() {
    let names: Vec<String> = (0..1000).map(|n| format!("b/{n:03}.md")).collect();
    let mut paths: Vec<(&str, Option<f64>)> = names.iter().map(|name| (&**name, None)).collect();
    paths.push(("b/index.md", None));
    let pages = Pages::of(&paths);
    let cards = pages.cards();
    let nav = Nav::of(&cards, &pages.tree, &pages.names);
    for (at, start, end) in [
        (0, 0, 200),
        (99, 0, 200),
        (101, 1, 201),
        (500, 400, 600),
        (999, 800, 1000),
    ] {
        let list = nav.ways(Path::new(&names[at])).list.concat();
        let shown: Vec<usize> = (0..1000)
            .filter(|n| list.contains(&format!("href=\"{n:03}.html\"")))
            .collect();
        assert_eq!(shown, (start..end).collect::<Vec<_>>(), "{at}");
        let own =
            format!("<li><a aria-current=\"page\" href=\"{at:03}.html\">B/{at:03}.MD</a></li>");
        assert_eq!(list.matches(CURRENT).count(), 1);
        assert!(list.contains(&own), "{at}");
        let cuts = usize::from(start > 0) + usize::from(end < 1000);
        assert_eq!(list.matches('\u{2026}').count(), cuts, "{at}");
    }
    let list = nav.ways(Path::new("b/index.md")).list.concat();
    assert_eq!(list.matches(".html\">B/").count(), 1001);
}

/// Each page is reached from the first one by the links of the lists.
#[test]
fn reached() {
    let mut names = vec!["a/b/c/d.md".to_string(), "e/README.md".to_string()];
    names.extend((0..250).map(|n| format!("a/{n}.md")));
    names.extend((0..5).map(|n| format!("f{n}/g/h.md")));
    let paths: Vec<(&str, Option<f64>)> = names.iter().map(|name| (&**name, None)).collect();
    let pages = Pages::of(&paths);
    let cards = pages.cards();
    let nav = Nav::of(&cards, &pages.tree, &pages.names);
    let mut texts: HashMap<PathBuf, String> = HashMap::new();
    for card in &cards {
        let list = nav.ways(card.source).list.concat();
        texts.insert(pages.tree.page_of(card.source), list);
    }
    for (target, _, text, ways) in nav.lists() {
        texts.insert(target.to_path_buf(), text + &ways.list.concat());
    }
    let mut left = vec![PathBuf::from("index.html")];
    let mut seen = std::collections::HashSet::new();
    while let Some(page) = left.pop() {
        if !seen.insert(page.clone()) {
            continue;
        }
        for other in texts.keys() {
            let url = between(folder_of(&page), other);
            if texts[&page].contains(&format!("href=\"{url}\"")) {
                left.push(other.clone());
            }
        }
    }
    assert_eq!(seen.len(), texts.len());
}
