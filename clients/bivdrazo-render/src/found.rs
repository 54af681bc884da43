//! The targets of a page's links.

use crate::links::{self, Target};
use crate::tree::Tree;
use std::borrow::Cow;
use std::collections::hash_map::DefaultHasher;
use std::collections::HashMap;
use std::hash::{Hash, Hasher};
use std::mem;
use std::path::{Path, PathBuf};

/// The most characters of a URL that a warning shows.
const MOST_SHOWN: usize = 200;

/// Warnings about links.
const NO_TARGET: &str = "a link has no target";
const NO_INDEX: &str = "a link points to a folder without pages";
const UNPUBLISHED: &str = "a link points to what isn't published";
const NO_ID: &str = "a link points to a missing id";

/// The targets of a page's links: files, and URLs without a target. It is kept for each page until
/// all are read, so it is small: it has hashes of ids.
#[derive(Default)]
pub struct Found {
    files: Vec<PathBuf>,
    /// URLs without a target, each with its warning.
    lost: Vec<(String, &'static str)>,
    anchors: Vec<Anchor>,
    /// The ids of the page itself.
    ids: Vec<u64>,
    /// The errors in its front matter.
    faults: Vec<String>,
}

/// A URL with a fragment, and the id in the page of a source that it refers to.
struct Anchor {
    url: String,
    page: PathBuf,
    id: u64,
}

impl Found {
    /// No targets, for a document with these errors in its front matter.
    pub fn with_faults(faults: Vec<String>) -> Found {
        Found {
            faults,
            ..Found::default()
        }
    }

    /// Takes out the files that aren't rendered.
    pub fn take_files(&mut self) -> Vec<PathBuf> {
        mem::take(&mut self.files)
    }

    /// Adds the target of a URL in the page of that source. Returns the URL's replacement, if it
    /// has one.
    pub fn add(&mut self, url: &str, source: &Path, tree: &Tree) -> Option<String> {
        match links::target(url, source, tree) {
            Target::Page(url) => return Some(url),
            Target::File(path) => self.files.push(path),
            Target::Folder => self.lost.push((url.to_string(), NO_INDEX)),
            Target::Unpublished => self.lost.push((url.to_string(), UNPUBLISHED)),
            Target::Nothing => self.lost.push((url.to_string(), NO_TARGET)),
            Target::Other => {}
        }
        None
    }

    /// Adds the id that a URL refers to, if any.
    pub fn add_anchor(&mut self, url: &str, source: &Path, tree: &Tree) {
        if let Some((page, id)) = links::anchor(url, source, tree) {
            self.anchors.push(Anchor {
                url: url.to_string(),
                page,
                id: hash(&id),
            });
        }
    }

    /// Adds the ids of the page of that source, and drops its links to its own ids.
    pub fn add_ids<'a>(&mut self, ids: impl Iterator<Item = Cow<'a, str>>, source: &Path) {
        self.ids = ids.map(|id| hash(&id)).collect();
        self.ids.sort_unstable();
        let mut anchors = mem::take(&mut self.anchors);
        anchors.retain(|anchor| anchor.page != source || !self.has(anchor.id));
        self.anchors = anchors;
    }

    /// Sorts the targets, removes duplicates, and frees unused memory.
    pub fn in_order(mut self) -> Found {
        self.files.sort_unstable();
        self.files.dedup();
        self.lost.sort_unstable();
        self.lost.dedup();
        self.lost.shrink_to_fit();
        self.anchors.sort_unstable_by(|a, b| a.url.cmp(&b.url));
        self.anchors.dedup_by(|a, b| a.url == b.url);
        self.anchors.shrink_to_fit();
        self.ids.shrink_to_fit();
        self
    }

    /// The warnings about the page of that name, after these pages were read.
    pub fn warnings(&self, name: &str, read: &HashMap<&Path, &Found>) -> Vec<String> {
        let faults = self.faults.iter().map(|fault| format!("{name}: {fault}"));
        let lost = self.lost.iter().map(|(url, what)| (url, *what));
        let without = self.anchors.iter().filter(|anchor| {
            let page = read.get(&*anchor.page);
            page.map_or(false, |page| !page.has(anchor.id))
        });
        let without = without.map(|anchor| (&anchor.url, NO_ID));
        let lost = lost.chain(without);
        let lost = lost.map(|(url, what)| format!("{name}: {what}: {}", short(url)));
        faults.chain(lost).collect()
    }

    /// Whether the page has the id with that hash.
    fn has(&self, id: u64) -> bool {
        self.ids.binary_search(&id).is_ok()
    }
}

fn hash(id: &str) -> u64 {
    let mut hasher = DefaultHasher::new();
    id.hash(&mut hasher);
    hasher.finish()
}

/// A URL in a warning: cut if it is long.
fn short(url: &str) -> String {
    url.chars().take(MOST_SHOWN).collect()
}
