//! What a run will write to a site.

use crate::arguments::Arguments;
use crate::failures::{Failed, FAILED};
use crate::links::{self, Target};
use crate::page::Page;
use crate::sitemap;
use crate::tree::{folder_of, Index, Tree, INDEX_PAGE};
use std::collections::{BTreeMap, BTreeSet, HashMap, HashSet};
use std::os::unix::ffi::OsStrExt;
use std::path::{Path, PathBuf};

/// The files that a run will write, and what its template names in vain.
pub struct Plan<'a> {
    tree: &'a Tree,
    /// The files of the folder that are copied.
    pub copied: BTreeSet<PathBuf>,
    /// The files beside the template that are copied, by their paths from the site.
    pub extras: BTreeMap<PathBuf, PathBuf>,
    /// The template, and the URLs in it that have no target.
    template: PathBuf,
    lost: Vec<String>,
    has_sitemap: bool,
    /// The files that will be written: their paths from the site, and their origins.
    outputs: Vec<(PathBuf, Origin)>,
    targets: HashSet<PathBuf>,
}

/// What a file of the site is made from.
enum Origin {
    /// A file of the folder, or a folder whose page is a list.
    Inner(PathBuf),
    /// A file beside the template.
    Extra(PathBuf),
    Sitemap,
}

impl<'a> Plan<'a> {
    /// The plan for the documents of a tree, the files that these refer to, and a template.
    pub fn of(
        arguments: &Arguments,
        page: &Page,
        tree: &'a Tree,
        copied: BTreeSet<PathBuf>,
    ) -> Plan<'a> {
        let mut plan = Plan {
            tree,
            copied,
            extras: BTreeMap::new(),
            template: arguments.page_template.clone().unwrap_or_default(),
            lost: Vec::new(),
            has_sitemap: arguments.base.is_some(),
            outputs: Vec::new(),
            targets: HashSet::new(),
        };
        let indexes = tree.indexes.iter();
        for (folder, _) in indexes.filter(|(_, index)| **index == Index::File) {
            if tree.pages.iter().any(|page| page.starts_with(folder)) {
                plan.copied.insert(folder.join(INDEX_PAGE));
            }
        }
        page.named.iter().for_each(|url| plan.add_named(url));
        plan.outputs = plan.planned();
        let targets = plan.outputs.iter().map(|(target, _)| target.clone());
        plan.targets = targets.collect();
        plan
    }

    /// Adds the file of a URL that the template has after the place of the root: one of the folder,
    /// else one beside the template.
    fn add_named(&mut self, url: &str) {
        let is_sitemap = self.has_sitemap && url == sitemap::NAME;
        match links::target(url, Path::new(""), self.tree) {
            Target::Other => {}
            _ if is_sitemap => {}
            Target::File(file) => drop(self.copied.insert(file)),
            _ => match self.beside(url) {
                Some((target, source)) => drop(self.extras.insert(target, source)),
                None => self.lost.push(url.to_string()),
            },
        }
    }

    /// The path of a URL from the site, and the file of that path from the template's folder.
    fn beside(&self, url: &str) -> Option<(PathBuf, PathBuf)> {
        let target = links::read_from(Path::new(""), url)?;
        let is_hidden = target.iter().any(|name| name.as_bytes().starts_with(b"."));
        let source = folder_of(&self.template).join(&target);
        (!is_hidden && source.is_file()).then_some((target, source))
    }

    /// The files that will be written.
    fn planned(&self) -> Vec<(PathBuf, Origin)> {
        let inner = |path: &Path| Origin::Inner(path.to_path_buf());
        let sources = self.tree.sources().into_iter();
        let pages = sources.map(|page| (self.tree.page_of(page), inner(page)));
        let lists = self.tree.lists();
        let lists = lists.map(|at| (at.join(INDEX_PAGE), inner(at)));
        let copies = self.copied.iter();
        let copies = copies.map(|file| (file.clone(), inner(file)));
        let extras = self.extras.iter();
        let extras = extras.map(|(target, source)| (target.clone(), Origin::Extra(source.clone())));
        let sitemap = self.has_sitemap.then(|| (sitemap::path(), Origin::Sitemap));
        pages
            .chain(copies)
            .chain(extras)
            .chain(sitemap)
            .chain(lists)
            .collect()
    }

    /// Whether a file of this path from the site will be written.
    pub fn has(&self, target: &Path) -> bool {
        self.targets.contains(target)
    }

    /// The conflicts: two files with one target, a file where a folder is needed, and a target that
    /// is a file of the folder itself. Each place has one.
    pub fn collisions(&self, folder: &Path, site: &Path) -> Vec<Failed> {
        let mut collisions: BTreeMap<PathBuf, String> = BTreeMap::new();
        let mut taken: HashMap<&Path, &Origin> = HashMap::new();
        let both = |one: &Origin, other: &Origin, place: &Path| {
            let (one, other) = (one.name(folder), other.name(folder));
            format!(
                "{one} and {other} would both be written to {}",
                place.display()
            )
        };
        for (target, origin) in &self.outputs {
            let place = site.join(target);
            if self.tree.holds(&place) {
                let message = format!("{}: is a file of the folder itself", place.display());
                collisions.entry(place.clone()).or_insert(message);
            }
            if let Some(other) = taken.insert(target, origin) {
                let message = both(other, origin, &place);
                collisions.entry(place).or_insert(message);
            }
        }
        for (target, origin) in &self.outputs {
            for above in target.ancestors().skip(1) {
                if let Some(other) = taken.get(above) {
                    let place = site.join(above);
                    let message = both(other, origin, &place);
                    collisions.entry(place).or_insert(message);
                }
            }
        }
        let status = FAILED;
        let messages = collisions.into_values();
        messages.map(|message| Failed { message, status }).collect()
    }

    /// The warnings: files whose paths differ only by case, and what the template names in vain.
    pub fn warnings(&self, folder: &Path) -> Vec<String> {
        let template = self.template.display();
        let lost = self.lost.iter();
        let lost = lost.map(|url| format!("{template}: a link has no target: {url}"));
        let mut warnings: Vec<String> = lost.collect();
        let mut taken: HashMap<String, &Origin> = HashMap::new();
        for (target, origin) in &self.outputs {
            let lower = target.to_string_lossy().to_lowercase();
            if let Some(other) = taken.insert(lower, origin) {
                let (one, other) = (other.name(folder), origin.name(folder));
                warnings.push(format!(
                    "{one} and {other}: their names in the site differ only by case, which some \
                     servers don't tell apart"
                ));
            }
        }
        warnings
    }
}

impl Origin {
    /// The name in messages.
    fn name(&self, folder: &Path) -> String {
        match self {
            Origin::Inner(path) => folder.join(path).display().to_string(),
            Origin::Extra(path) => path.display().to_string(),
            Origin::Sitemap => sitemap::NAME.to_string(),
        }
    }
}
