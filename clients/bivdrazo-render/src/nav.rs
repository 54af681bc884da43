//! The ways from page to page of a site.
//!
//! The pages stand in a tree: a folder's page, and in it the folder's other pages and its folders,
//! by weight and then by name. A page shows the folders above it and at most `MOST` entries of its
//! own folder; a folder's page shows all entries. So lists are made once for each folder, and the
//! list of a page is pieces of that.

use crate::links;
use crate::tree::{folder_of, Index, Tree, INDEX_PAGE};
use std::cmp::Ordering;
use std::collections::{BTreeMap, HashMap};
use std::ffi::OsStr;
use std::path::{Path, PathBuf};

/// The most entries of its folder that a page shows.
const MOST: usize = 200;

/// What a link to the page itself has.
const CURRENT: &str = " aria-current=\"page\"";

/// The beginning of an entry, after which that goes.
const ENTRY: &str = "<li><a";

/// A document, as far as its place among others needs it.
pub struct Card<'a> {
    pub source: &'a Path,
    /// Its title, escaped.
    pub title: &'a str,
    pub weight: Option<f64>,
}

/// The tree of a site's pages, in the order of reading.
pub struct Nav<'a> {
    stops: Vec<Stop<'a>>,
    folders: Vec<Folder>,
    /// The place of each source among the stops.
    places: HashMap<&'a Path, usize>,
}

/// A page in the order of reading.
struct Stop<'a> {
    /// Its path from the site, and its title.
    target: PathBuf,
    title: &'a str,
    /// Its folder, and its place among the entries of that; the folder's page has none.
    folder: usize,
    entry: Option<usize>,
}

/// A folder with pages.
struct Folder {
    path: PathBuf,
    /// The folder above it, and the place of its page among the stops.
    parent: Option<usize>,
    stop: usize,
    /// Whether its page is a list.
    is_list: bool,
    /// The list of the folders above it up to `<a` of its own link, and the end of that list.
    above: String,
    below: String,
    /// Its own link after `<a`.
    link: String,
    /// Its entries, and where each begins, and where the last ends.
    items: String,
    starts: Vec<usize>,
}

/// The ways from a page; all are HTML, but `root` is a URL.
#[derive(Default)]
pub struct Ways<'a> {
    /// The title of the site's first page.
    pub home: &'a str,
    /// The list of pages, as texts to write one after another.
    pub list: Vec<&'a str>,
    /// Links to the page before, the page after and the page above; empty if there is none.
    pub prev: String,
    pub next: String,
    pub up: String,
    /// The way to the site's root, which ends in `/`.
    pub root: String,
}

/// A folder while the tree is built.
struct Node<'a> {
    /// Its title: that of its page's document, else its name.
    title: &'a str,
    weight: Option<f64>,
    /// The document of its page, if it was read.
    index: Option<&'a Card<'a>>,
    entries: Vec<Entry<'a>>,
}

/// An entry of a folder: a document, or a folder with its page.
struct Entry<'a> {
    weight: Option<f64>,
    name: &'a OsStr,
    what: What<'a>,
}

#[derive(Clone, Copy)]
enum What<'a> {
    Page(&'a Card<'a>),
    Folder(&'a Path),
}

type Nodes<'a> = BTreeMap<&'a Path, Node<'a>>;

impl<'a> Nav<'a> {
    /// The tree of these documents. `names` has the escaped names of the folders in which or below
    /// which they are.
    pub fn of(cards: &'a [Card<'a>], tree: &Tree, names: &'a HashMap<PathBuf, String>) -> Nav<'a> {
        let mut nav = Nav {
            stops: Vec::with_capacity(cards.len()),
            folders: Vec::new(),
            places: HashMap::with_capacity(cards.len()),
        };
        let nodes = nodes(cards, tree, names);
        let root = Path::new("");
        let mut left: Vec<_> = nodes
            .get(root)
            .map(|_| (What::Folder(root), None))
            .into_iter()
            .collect();
        while let Some((what, place)) = left.pop() {
            match (what, place) {
                (What::Page(card), Some((folder, entry))) => {
                    nav.add_page(card, tree, folder, entry)
                }
                (What::Page(_), None) => {}
                (What::Folder(path), _) => {
                    let folder = nav.add_folder(path, place.map(|(above, _)| above), &nodes, tree);
                    let entries = nodes[path].entries.iter().enumerate().rev();
                    left.extend(entries.map(|(place, entry)| (entry.what, Some((folder, place)))));
                }
            }
        }
        nav
    }

    fn add_page(&mut self, card: &'a Card<'a>, tree: &Tree, folder: usize, entry: usize) {
        self.places.insert(card.source, self.stops.len());
        self.stops.push(Stop {
            target: tree.page_of(card.source),
            title: card.title,
            folder,
            entry: Some(entry),
        });
    }

    /// Adds a folder and its page. Returns its place.
    fn add_folder(
        &mut self,
        path: &'a Path,
        parent: Option<usize>,
        nodes: &Nodes<'a>,
        tree: &Tree,
    ) -> usize {
        let node = &nodes[path];
        let (at, stop) = (self.folders.len(), self.stops.len());
        if let Some(card) = node.index {
            self.places.insert(card.source, stop);
        }
        self.stops.push(Stop {
            target: path.join(INDEX_PAGE),
            title: node.title,
            folder: at,
            entry: None,
        });
        let (above, depth) = self.above(path, parent);
        let (mut items, mut starts) = (String::new(), vec![0]);
        for entry in &node.entries {
            items.push_str(&entry.item(nodes, tree));
            starts.push(items.len());
        }
        self.folders.push(Folder {
            path: path.to_path_buf(),
            parent,
            stop,
            is_list: tree.indexes.get(path) == Some(&Index::List),
            above,
            below: "</li>\n</ul>\n".repeat(depth),
            link: format!(" href=\"{INDEX_PAGE}\">{}</a>\n", node.title),
            items,
            starts,
        });
        at
    }

    /// The list of the folders above a folder, up to `<a` of its own link, and how deep that is.
    fn above(&self, path: &Path, parent: Option<usize>) -> (String, usize) {
        let mut links = Vec::new();
        let mut next = parent;
        while let Some(folder) = next.map(|at| &self.folders[at]) {
            let page = &self.stops[folder.stop];
            let url = links::between(path, &page.target);
            links.push(format!("<ul>\n{ENTRY} href=\"{url}\">{}</a>\n", page.title));
            next = folder.parent;
        }
        links.reverse();
        (links.concat() + "<ul>\n" + ENTRY, links.len() + 1)
    }

    /// The ways from the page of a source.
    pub fn ways(&self, source: &Path) -> Ways<'_> {
        let place = self.places.get(source);
        place.map_or(Ways::default(), |&at| self.ways_at(at))
    }

    fn ways_at(&self, at: usize) -> Ways<'_> {
        let stop = &self.stops[at];
        let folder = &self.folders[stop.folder];
        let link = |rel: &str, at: Option<usize>| {
            let other = at.and_then(|at| self.stops.get(at));
            other.map_or(String::new(), |other| {
                let url = links::between(&folder.path, &other.target);
                ["<a", rel, " href=\"", &url, "\">", other.title, "</a>"].concat()
            })
        };
        let above = match stop.entry {
            Some(_) => Some(folder.stop),
            None => folder.parent.map(|parent| self.folders[parent].stop),
        };
        Ways {
            home: self.stops[0].title,
            list: folder.list(stop.entry),
            prev: link(" rel=\"prev\"", at.checked_sub(1)),
            next: link(" rel=\"next\"", Some(at + 1)),
            up: link("", above),
            root: links::root(&folder.path),
        }
    }

    /// The paths of the pages that are lists, each with its title, its text and the ways from it.
    pub fn lists(&self) -> impl Iterator<Item = (&Path, &str, String, Ways<'_>)> {
        let lists = self.folders.iter().filter(|folder| folder.is_list);
        lists.map(|folder| {
            let stop = &self.stops[folder.stop];
            let text = format!("<ul>\n{}</ul>\n", folder.items);
            (&*stop.target, stop.title, text, self.ways_at(folder.stop))
        })
    }

    /// The paths of all pages from the site, in order.
    pub fn targets(&self) -> impl Iterator<Item = &Path> {
        self.stops.iter().map(|stop| &*stop.target)
    }
}

impl Folder {
    /// The list of pages for an entry, or for the folder's page, as texts one after another.
    fn list(&self, entry: Option<usize>) -> Vec<&str> {
        let mut list = vec![&*self.above];
        let number = self.starts.len() - 1;
        let (start, end) = match entry {
            // The list is the page's own text.
            None if self.is_list => (0, 0),
            None => (0, number),
            Some(at) => {
                let start = at.saturating_sub(MOST / 2).min(number.saturating_sub(MOST));
                (start, number.min(start + MOST))
            }
        };
        list.extend(entry.is_none().then_some(CURRENT));
        list.push(&self.link);
        if start == end {
            list.push(&self.below);
            return list;
        }
        let cut = "<li><a href=\"index.html\">\u{2026}</a></li>\n";
        list.push("<ul>\n");
        list.extend((start > 0).then_some(cut));
        let (first, last) = (self.starts[start], self.starts[end]);
        match entry {
            None => list.push(&self.items[first..last]),
            Some(at) => {
                let own = self.starts[at] + ENTRY.len();
                list.extend([&self.items[first..own], CURRENT, &self.items[own..last]]);
            }
        }
        list.extend((end < number).then_some(cut));
        list.extend(["</ul>\n", &self.below]);
        list
    }
}

impl Entry<'_> {
    /// The order of entries: by weight, those without one last, and then by name.
    fn cmp(&self, other: &Self) -> Ordering {
        let weights = match (self.weight, other.weight) {
            (Some(one), Some(other)) => one.total_cmp(&other),
            (one, other) => one.is_none().cmp(&other.is_none()),
        };
        weights.then_with(|| self.name.cmp(other.name))
    }

    /// The entry in its folder's list.
    fn item(&self, nodes: &Nodes, tree: &Tree) -> String {
        let (target, title) = match self.what {
            What::Page(card) => (tree.page_of(card.source), card.title),
            What::Folder(path) => (path.join(INDEX_PAGE), nodes[path].title),
        };
        let folder = match self.what {
            What::Page(card) => folder_of(card.source),
            What::Folder(path) => folder_of(path),
        };
        let url = links::between(folder, &target);
        [ENTRY, " href=\"", &url, "\">", title, "</a></li>\n"].concat()
    }
}

/// The folders in which or below which documents are, with their entries in order.
fn nodes<'a>(cards: &'a [Card<'a>], tree: &Tree, names: &'a HashMap<PathBuf, String>) -> Nodes<'a> {
    let mut nodes = Nodes::new();
    for card in cards {
        for folder in card.source.ancestors().skip(1) {
            if nodes.contains_key(folder) {
                break;
            }
            let title = names.get(folder).map_or("", |name| &**name);
            let (weight, index, entries) = (None, None, Vec::new());
            nodes.insert(
                folder,
                Node {
                    title,
                    weight,
                    index,
                    entries,
                },
            );
        }
    }
    for card in cards {
        let node = nodes.get_mut(folder_of(card.source));
        match node {
            Some(node) if tree.is_index(card.source) => {
                node.title = card.title;
                node.weight = card.weight;
                node.index = Some(card);
            }
            Some(node) => node.entries.push(Entry {
                weight: card.weight,
                name: card.source.file_name().unwrap_or_default(),
                what: What::Page(card),
            }),
            None => {}
        }
    }
    let folders: Vec<(&Path, Option<f64>)> = nodes
        .iter()
        .map(|(path, node)| (*path, node.weight))
        .collect();
    for (path, weight) in folders {
        let name = path.file_name().unwrap_or_default();
        let above = path.parent().and_then(|above| nodes.get_mut(above));
        if let Some(above) = above {
            let what = What::Folder(path);
            above.entries.push(Entry { weight, name, what });
        }
    }
    for node in nodes.values_mut() {
        node.entries.sort_by(Entry::cmp);
    }
    nodes
}

#[cfg(test)]
mod tests;
