//! The files of a folder.

use crate::failures::{Failed, Failure, FAILED};
use crate::skipped::{Filter, Reason, Skipped};
use std::collections::{HashMap, HashSet};
use std::ffi::OsStr;
use std::fmt::Display;
use std::fs::{self, DirEntry, File, OpenOptions};
use std::os::unix::ffi::OsStrExt;
use std::os::unix::fs::OpenOptionsExt;
use std::os::unix::io::AsRawFd;
use std::path::{Path, PathBuf};

/// The ending of a source, and that of a page.
pub const SOURCE_ENDING: &str = "md";
pub const PAGE_ENDING: &str = "html";

/// The source of a folder's page, the one in its place if there is none, in any case, and the page.
const INDEX: &str = "index.md";
const README: &str = "readme.md";
pub const INDEX_PAGE: &str = "index.html";

/// Opening a pipe doesn't wait for a writer (`O_NONBLOCK` of Linux).
const NO_WAIT: i32 = 0o4000;

/// The error of a source that is a symbolic link out of the folder, to a hidden file, or to
/// something else than a file.
pub const OUTSIDE: &str = "a symbolic link to no file of the folder";

/// The files of a folder and of its subfolders, by their paths from it. Hidden files aren't in it,
/// nor is the target of a symbolic link to a folder.
#[derive(Debug, Default)]
pub struct Tree {
    /// The sources, which are rendered.
    pub pages: HashSet<PathBuf>,
    /// The other files.
    pub files: HashSet<PathBuf>,
    /// The folders; the path of the outermost one is empty.
    pub folders: HashSet<PathBuf>,
    /// The pages of folders, by their paths: of each in which or below which a page is, and of each
    /// that has an index.html.
    pub indexes: HashMap<PathBuf, Index>,
    /// What isn't published.
    pub skipped: Skipped,
    /// The folders and sources that can't be read.
    pub unread: Vec<PathBuf>,
    /// The canonical path of the folder.
    root: PathBuf,
}

/// What the page of a folder is made from.
#[derive(Clone, Debug, Eq, PartialEq)]
pub enum Index {
    /// A source: `index.md`, or `README.md` in a folder without it.
    Source(PathBuf),
    /// The `index.html` of a folder without these, which is copied.
    File,
    /// The list of the folder's pages.
    List,
}

impl Tree {
    /// Lists a folder, without the site if that is in it, and without what isn't published. Returns
    /// also what can't be read, and the sources that are symbolic links to no file of the folder.
    pub fn of(folder: &Path, site: &Path, filter: &Filter) -> Result<(Tree, Vec<Failed>), Failure> {
        let root = fs::canonicalize(folder)?;
        let site = fs::canonicalize(site).ok();
        if site.as_ref() == Some(&root) {
            return Err("the pages can't be written to the folder itself".into());
        }
        let mut tree = Tree {
            root,
            ..Tree::default()
        };
        let (mut failed, mut unread) = (Vec::new(), Vec::new());
        let mut fail = |path: PathBuf, error: &dyn Display| {
            failed.push(Failed {
                message: format!("{}: {error}", folder.join(&path).display()),
                status: FAILED,
            });
            unread.push(path);
        };
        let mut left = vec![PathBuf::new()];
        while let Some(at) = left.pop() {
            let is_site = site
                .as_ref()
                .map_or(false, |site| *site == tree.root.join(&at));
            if is_site {
                continue;
            }
            let listed = fs::read_dir(tree.root.join(&at)).and_then(|mut entries| {
                entries.try_for_each(|entry| {
                    let entry = entry?;
                    if let Err(error) = tree.add(&at, &entry, filter, &mut left) {
                        fail(at.join(entry.file_name()), &error);
                    }
                    Ok(())
                })
            });
            if let Err(error) = listed {
                fail(at.clone(), &error);
            }
            tree.folders.insert(at);
        }
        tree.unread = unread;
        tree.settle();
        Ok((tree, failed))
    }

    /// Takes out sources that are drafts.
    pub fn take_out(&mut self, drafts: Vec<PathBuf>) {
        for draft in drafts {
            self.pages.remove(&draft);
            self.skipped.add(draft, Reason::Draft);
        }
        self.settle();
    }

    /// Finds the pages of folders, after the sources and files.
    pub fn settle(&mut self) {
        self.indexes.clear();
        for page in &self.pages {
            for folder in page.ancestors().skip(1) {
                if self.indexes.contains_key(folder) {
                    break;
                }
                self.indexes.insert(folder.to_path_buf(), Index::List);
            }
        }
        let files = self.files.iter();
        for file in files.filter(|file| file.file_name() == Some(OsStr::new(INDEX_PAGE))) {
            self.indexes
                .insert(folder_of(file).to_path_buf(), Index::File);
        }
        let is_readme = |name: &OsStr| name.eq_ignore_ascii_case(README);
        let named = |page: &&PathBuf| page.file_name().map_or(false, is_readme);
        let mut readmes: Vec<PathBuf> = self.pages.iter().filter(named).cloned().collect();
        readmes.sort_unstable();
        // In reverse order, so that of several the first one remains.
        for readme in readmes.into_iter().rev() {
            self.indexes
                .insert(folder_of(&readme).to_path_buf(), Index::Source(readme));
        }
        let pages = self.pages.iter();
        for index in pages.filter(|page| page.file_name() == Some(OsStr::new(INDEX))) {
            self.indexes
                .insert(folder_of(index).to_path_buf(), Index::Source(index.clone()));
        }
    }

    /// Whether a source is that of its folder's page.
    pub fn is_index(&self, source: &Path) -> bool {
        let index = self.indexes.get(folder_of(source));
        matches!(index, Some(Index::Source(index)) if index == source)
    }

    /// The path of a source's page.
    pub fn page_of(&self, source: &Path) -> PathBuf {
        match self.is_index(source) {
            true => source.with_file_name(INDEX_PAGE),
            false => source.with_extension(PAGE_ENDING),
        }
    }

    /// The folders whose pages are lists.
    pub fn lists(&self) -> impl Iterator<Item = &Path> {
        let lists = self
            .indexes
            .iter()
            .filter(|(_, index)| **index == Index::List);
        lists.map(|(folder, _)| &**folder)
    }

    /// Whether a page of this path, or a copy, is of something that can't be read.
    pub fn may_give(&self, target: &Path) -> bool {
        let mut unread = self.unread.iter();
        unread.any(|path| target.starts_with(path) || self.page_of(path) == target)
    }

    /// The canonical path of the folder.
    pub fn root(&self) -> &Path {
        &self.root
    }

    /// The sources, in the order of their bytes: to compare paths takes several times as long.
    pub fn sources(&self) -> Vec<&Path> {
        let mut sources: Vec<&Path> = self.pages.iter().map(|path| &**path).collect();
        sources.sort_unstable_by(|one, other| one.as_os_str().cmp(other.as_os_str()));
        sources
    }

    /// Adds an entry of a folder; pushes a subfolder to `left`.
    fn add(
        &mut self,
        at: &Path,
        entry: &DirEntry,
        filter: &Filter,
        left: &mut Vec<PathBuf>,
    ) -> Result<(), Failure> {
        let name = entry.file_name();
        if name.as_bytes().starts_with(b".") {
            return Ok(());
        }
        let path = at.join(name);
        let kind = entry.file_type()?;
        let is_source = path.extension() == Some(OsStr::new(SOURCE_ENDING));
        if let Some(reason) = filter.reason(&path, kind.is_dir()) {
            match kind.is_dir() || is_source {
                true => self.skipped.add(path, reason),
                false => self.skipped.add_file(path),
            }
            return Ok(());
        }
        if kind.is_dir() {
            left.push(path);
            return Ok(());
        }
        let is_file = match kind.is_symlink() {
            true => self.is_linked_file(&path, is_source)?,
            false => kind.is_file(),
        };
        match is_source {
            _ if !is_file => {}
            true => {
                self.pages.insert(path);
            }
            false => {
                self.files.insert(path);
            }
        }
        Ok(())
    }

    /// Whether a symbolic link points to a file of the folder. For a source anything else is an
    /// error, unless it is a folder.
    fn is_linked_file(&self, path: &Path, is_source: bool) -> Result<bool, Failure> {
        match fs::canonicalize(self.root.join(path)) {
            Ok(end) if end.is_dir() => Ok(false),
            Ok(end) if end.is_file() && self.is_inside(&end) => Ok(true),
            Ok(_) if is_source => Err(OUTSIDE.into()),
            Err(error) if is_source => Err(error.into()),
            _ => Ok(false),
        }
    }

    /// Opens a file of the tree. Since it was listed, a symbolic link may have replaced it or one of
    /// its folders: this fails if what was opened is no file of the folder.
    pub fn open(&self, path: &Path) -> Result<File, Failure> {
        let mut options = OpenOptions::new();
        options.read(true).custom_flags(NO_WAIT);
        let file = options.open(self.root.join(path))?;
        let link = format!("/proc/self/fd/{}", file.as_raw_fd());
        let end = fs::read_link(&link).map_err(|error| format!("{link}: {error}"))?;
        match file.metadata()?.is_file() && self.is_inside(&end) {
            true => Ok(file),
            false => Err(OUTSIDE.into()),
        }
    }

    /// Whether a canonical path is in the folder, and no part of it is hidden.
    fn is_inside(&self, end: &Path) -> bool {
        end.strip_prefix(&self.root).map_or(false, |path| {
            path.iter().all(|name| !name.as_bytes().starts_with(b"."))
        })
    }

    /// Whether a path is that of an existing file of the tree.
    pub fn holds(&self, path: &Path) -> bool {
        if fs::symlink_metadata(path).is_err() {
            return false;
        }
        let path = fs::canonicalize(path).unwrap_or_default();
        path.strip_prefix(&self.root).map_or(false, |path| {
            self.pages.contains(path) || self.files.contains(path)
        })
    }
}

/// The folder of a file of the tree.
pub fn folder_of(path: &Path) -> &Path {
    path.parent().unwrap_or_else(|| Path::new(""))
}

#[cfg(test)]
mod tests {
    use super::*;
    use std::env;
    use std::io::Read;
    use std::os::unix::fs::symlink;
    use std::process::{self, Command};

    /// The text of a file of the tree, or the message.
    fn text_of(tree: &Tree, path: &str) -> Result<String, String> {
        let mut file = tree
            .open(Path::new(path))
            .map_err(|error| error.to_string())?;
        let mut text = String::new();
        file.read_to_string(&mut text).unwrap();
        Ok(text)
    }

    /// After a folder was listed, its files and folders are replaced.
    #[test]
    fn replaced() {
        let all = env::temp_dir().join(format!("bivdrazo-tree-{}", process::id()));
        let folder = all.join("folder");
        for path in ["secret/sub", "folder/sub", "folder/.hidden"] {
            fs::create_dir_all(all.join(path)).unwrap();
        }
        let kept = ["in.md", "linked.md", "new.md"];
        let gone = ["out.md", "i.png", "hidden.md", "pipe.md", "sub/a.md"];
        for path in kept.iter().chain(&gone) {
            fs::write(folder.join(path), "public").unwrap();
        }
        for path in ["secret/sub/a.md", "folder/.hidden/a.md"] {
            fs::write(all.join(path), "secret").unwrap();
        }
        let (tree, failed) = Tree::of(&folder, &all.join("site"), &Filter::default()).unwrap();
        assert!(failed.is_empty());
        assert_eq!(tree.pages.len() + tree.files.len(), 8);
        for path in kept.iter().chain(&gone) {
            assert_eq!(text_of(&tree, path).as_deref(), Ok("public"), "{path}");
            fs::remove_file(folder.join(path)).unwrap();
        }
        fs::write(folder.join("in.md"), "public").unwrap();
        symlink("in.md", folder.join("linked.md")).unwrap();
        fs::write(folder.join("new.md"), "new").unwrap();
        for path in ["out.md", "i.png"] {
            symlink("../secret/sub/a.md", folder.join(path)).unwrap();
        }
        symlink(".hidden/a.md", folder.join("hidden.md")).unwrap();
        let pipe = folder.join("pipe.md");
        assert!(Command::new("mkfifo").arg(pipe).status().unwrap().success());
        fs::remove_dir(folder.join("sub")).unwrap();
        symlink("../secret/sub", folder.join("sub")).unwrap();
        assert_eq!(text_of(&tree, "in.md").as_deref(), Ok("public"));
        assert_eq!(text_of(&tree, "linked.md").as_deref(), Ok("public"));
        assert_eq!(text_of(&tree, "new.md").as_deref(), Ok("new"));
        for path in gone {
            assert_eq!(text_of(&tree, path).unwrap_err(), OUTSIDE, "{path}");
        }
        fs::remove_dir_all(all).unwrap();
    }
}
