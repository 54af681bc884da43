//! What of a folder isn't published.

use globset::{Glob, GlobSet, GlobSetBuilder};
use std::collections::HashSet;
use std::os::unix::ffi::OsStrExt;
use std::path::{Path, PathBuf};

/// The folder of packages that node installs.
const MODULES: &str = "node_modules";

/// What to leave out of a site.
#[derive(Debug, Default)]
pub struct Filter {
    excluded: GlobSet,
    /// Whether drafts and names that begin with `_` are published.
    pub has_drafts: bool,
}

/// Why a file or folder isn't published.
#[derive(Clone, Copy, Debug, Eq, PartialEq)]
pub enum Reason {
    /// Its front matter says so.
    Draft,
    /// Its name begins with `_`.
    Underscore,
    /// It is a folder `node_modules`.
    Modules,
    /// `--exclude` matches it.
    Excluded,
}

/// The files and folders that aren't published.
#[derive(Debug, Default)]
pub struct Skipped {
    paths: HashSet<PathBuf>,
    /// Why each source and folder isn't.
    reasons: Vec<Reason>,
}

impl Filter {
    /// The filter with these patterns.
    pub fn of(excluded: &[Glob], has_drafts: bool) -> Result<Filter, globset::Error> {
        let mut set = GlobSetBuilder::new();
        for glob in excluded {
            set.add(glob.clone());
        }
        Ok(Filter {
            excluded: set.build()?,
            has_drafts,
        })
    }

    /// Why a path from the folder isn't published, by its last name and the patterns.
    pub fn reason(&self, path: &Path, is_folder: bool) -> Option<Reason> {
        let name = path.file_name()?;
        match () {
            _ if is_folder && name == MODULES => Some(Reason::Modules),
            _ if self.excluded.is_match(path) => Some(Reason::Excluded),
            _ if name.as_bytes().starts_with(b"_") && !self.has_drafts => Some(Reason::Underscore),
            _ => None,
        }
    }
}

impl Skipped {
    /// Adds a source or a folder.
    pub fn add(&mut self, path: PathBuf, reason: Reason) {
        self.paths.insert(path);
        self.reasons.push(reason);
    }

    /// Adds another file, which isn't counted.
    pub fn add_file(&mut self, path: PathBuf) {
        self.paths.insert(path);
    }

    /// Whether a path is that of something that isn't published, or in such a folder.
    pub fn has(&self, path: &Path) -> bool {
        !self.paths.is_empty() && path.ancestors().any(|part| self.paths.contains(part))
    }

    /// How much isn't published, in one line; none if that is nothing.
    pub fn summary(&self) -> Option<String> {
        let words = [
            (Reason::Draft, "draft", "drafts"),
            (Reason::Underscore, "name with _", "names with _"),
            (Reason::Modules, "node_modules", "node_modules"),
            (Reason::Excluded, "excluded", "excluded"),
        ];
        let parts = words.iter().filter_map(|(reason, one, many)| {
            let number = self.reasons.iter().filter(|each| *each == reason).count();
            let word = if number == 1 { one } else { many };
            (number > 0).then(|| format!("{number} {word}"))
        });
        let parts: Vec<String> = parts.collect();
        (!parts.is_empty()).then(|| format!("not published: {}", parts.join(", ")))
    }
}
