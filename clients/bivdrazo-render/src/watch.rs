//! A site that is kept up to date with its folder.

use crate::arguments::Arguments;
use crate::failures::Failure;
use crate::files;
use crate::links::read_from;
use crate::page::Page;
use crate::site;
use crate::summary::Outcome;
use crate::tree::folder_of;
use notify::event::{AccessKind, AccessMode};
use notify::{recommended_watcher, Event, EventKind, RecommendedWatcher, RecursiveMode, Watcher};
use std::collections::HashSet;
use std::fs;
use std::os::unix::ffi::OsStrExt;
use std::path::{Path, PathBuf};
use std::sync::mpsc::{self, Receiver};
use std::time::{Duration, Instant};

/// Changes are rendered after a pause this long, or this long after the first one.
const PAUSE: Duration = Duration::from_millis(50);
const LONGEST: Duration = Duration::from_secs(1);

/// What changed: whether the folder did, and whether the template, the style or a file that the
/// template names did.
#[derive(Default)]
struct Changes {
    of_folder: bool,
    of_theme: bool,
}

/// What is watched.
struct Watched {
    watcher: RecommendedWatcher,
    /// The canonical paths of the folder and of the theme's files.
    root: PathBuf,
    theme: HashSet<PathBuf>,
    /// The folders of the theme that are watched beside the folder.
    folders: HashSet<PathBuf>,
}

/// Makes the pages of a folder, and makes them again when something changes. It returns only a
/// failure: the folder can't be watched, or is gone.
pub fn make(
    arguments: &Arguments,
    mut page: Page,
    folder: &Path,
    site: &Path,
) -> Result<Outcome, Failure> {
    let named = |error: &dyn ToString| -> Failure {
        format!("{}: {}", folder.display(), error.to_string()).into()
    };
    let root = fs::canonicalize(folder).map_err(|error| named(&error))?;
    let (send, events) = mpsc::channel();
    let watcher = recommended_watcher(send).map_err(|error| named(&error))?;
    let mut watched = Watched::of(watcher, root).map_err(|error| named(&error))?;
    watched.set_theme(arguments, &page);
    let first = site::make(arguments, &page, folder, site, false)?;
    let mut reported = report(&first, &HashSet::new());
    first.summary().iter().for_each(|line| files::report(line));
    loop {
        let site_now = fs::canonicalize(site).ok();
        let changed = watched.changes(&events, site_now.as_deref());
        let changed = changed.map_err(|error| named(&error))?;
        if changed.of_theme {
            match Page::of(arguments) {
                Ok(new) => page = new,
                Err(error) => {
                    files::report(&error.to_string());
                    continue;
                }
            }
            watched.set_theme(arguments, &page);
        }
        if changed.of_folder || changed.of_theme {
            let outcome = site::make(arguments, &page, folder, site, true)?;
            reported = report(&outcome, &reported);
        }
    }
}

/// Reports the warnings and failures that weren't reported before. Returns all of them.
fn report(outcome: &Outcome, before: &HashSet<String>) -> HashSet<String> {
    let failed = outcome.failed.iter().map(|each| &each.message);
    let all: Vec<&String> = outcome.warnings.iter().chain(failed).collect();
    let new = all.iter().filter(|each| !before.contains(**each));
    new.for_each(|each| files::report(each));
    all.into_iter().cloned().collect()
}

impl Watched {
    fn of(mut watcher: RecommendedWatcher, root: PathBuf) -> notify::Result<Watched> {
        watcher.watch(&root, RecursiveMode::Recursive)?;
        Ok(Watched {
            watcher,
            root,
            theme: HashSet::new(),
            folders: HashSet::new(),
        })
    }

    /// Watches the files of the theme, by their folders, since editors replace files. What can't be
    /// watched is reported.
    fn set_theme(&mut self, arguments: &Arguments, page: &Page) {
        let template = arguments.page_template.iter();
        let beside = template.clone().flat_map(|template| {
            let folder = folder_of(template).to_path_buf();
            let named = page
                .named
                .iter()
                .filter_map(|url| read_from(Path::new(""), url));
            named.map(move |path| folder.join(path))
        });
        let files = template.chain(&arguments.css).cloned().chain(beside);
        self.theme = files.filter_map(|file| canonical(&file)).collect();
        let folders: HashSet<PathBuf> = self
            .theme
            .iter()
            .map(|file| folder_of(file).to_path_buf())
            .collect();
        for folder in folders {
            if folder.starts_with(&self.root) || !self.folders.insert(folder.clone()) {
                continue;
            }
            if let Err(error) = self.watcher.watch(&folder, RecursiveMode::NonRecursive) {
                files::report(&format!("{}: {error}", folder.display()));
            }
        }
    }

    /// Waits for changes, except of hidden files and of the site.
    fn changes(
        &self,
        events: &Receiver<notify::Result<Event>>,
        site: Option<&Path>,
    ) -> notify::Result<Changes> {
        let mut changes = Changes::default();
        let ended = |_| notify::Error::generic("no more changes are reported");
        let mut event = events.recv().map_err(ended)??;
        let start = Instant::now();
        loop {
            changes.of_folder |= event.need_rescan();
            if is_change(event.kind) {
                for path in &event.paths {
                    let is_of_site = site.map_or(false, |site| path.starts_with(site));
                    let inner = path.strip_prefix(&self.root).ok();
                    changes.of_theme |= self.theme.contains(path);
                    changes.of_folder |= inner.map_or(false, |it| !is_of_site && !is_hidden(it));
                }
            }
            if start.elapsed() > LONGEST {
                return Ok(changes);
            }
            event = match events.recv_timeout(PAUSE) {
                Ok(next) => next?,
                Err(_) => return Ok(changes),
            };
        }
    }
}

/// The canonical path of a file, which itself may be a symbolic link or missing.
fn canonical(file: &Path) -> Option<PathBuf> {
    let folder = match folder_of(file) {
        folder if folder.as_os_str().is_empty() => Path::new("."),
        folder => folder,
    };
    Some(fs::canonicalize(folder).ok()?.join(file.file_name()?))
}

fn is_hidden(path: &Path) -> bool {
    path.iter().any(|name| name.as_bytes().starts_with(b"."))
}

/// Whether an event may be a change: reading isn't one.
fn is_change(kind: EventKind) -> bool {
    match kind {
        EventKind::Access(kind) => kind == AccessKind::Close(AccessMode::Write),
        _ => true,
    }
}
