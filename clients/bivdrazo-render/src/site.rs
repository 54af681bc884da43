//! The pages of a folder, and the files that they link to.

use crate::arguments::Arguments;
use crate::failures::{process, Failed, Failure, FAILED};
use crate::files::{self, Stamp};
use crate::found::Found;
use crate::front;
use crate::list::{List, Written};
use crate::nav::{Card, Nav, Ways};
use crate::page::{escaped, Page, Parts};
use crate::plan::Plan;
use crate::progress;
use crate::render;
use crate::sitemap;
use crate::skipped::Filter;
use crate::spool::{Place, Spool};
use crate::summary::{Done, Outcome};
use crate::text;
use crate::tree::Tree;
use indicatif::ProgressBar;
use rayon::prelude::*;
use std::collections::{HashMap, HashSet};
use std::fs::{self, File};
use std::io::{Read, Seek};
use std::path::{Path, PathBuf};
use std::sync::{Mutex, PoisonError};

/// The most bytes that are read to see whether a document begins with front matter.
const MARK: u64 = 6;

/// A folder, and the one that its pages are written to.
struct Site<'a> {
    arguments: &'a Arguments,
    page: &'a Page,
    folder: &'a Path,
    site: &'a Path,
    tree: &'a Tree,
    /// The texts of the documents that were read.
    spool: Spool,
    /// The title of `--page`, escaped.
    title: Option<String>,
    /// The folders that were made.
    made: Mutex<HashSet<PathBuf>>,
    /// Whether what is written and removed is reported.
    is_again: bool,
    bar: ProgressBar,
}

/// A document that was read. It is kept until all are, so its text is elsewhere.
struct Document<'a> {
    source: &'a Path,
    found: Found,
    /// Its own title, escaped.
    title: String,
    /// Whether that is of its front matter.
    is_titled: bool,
    weight: Option<f64>,
    has_h1: bool,
    toc: Place,
    html: Place,
}

/// What was written: its path from the site, what was done, and its stamp.
type Put = (PathBuf, Done, Stamp);

/// Makes the pages of a folder, and removes from the site what earlier runs wrote and the folder no
/// longer gives. All documents are read first; their texts wait in a file. Then it is checked that
/// no two files have the same target, and only then anything is written. A page whose bytes are
/// already there isn't.
///
/// With `is_again`, for a run that follows another one, what is written and removed is reported.
pub fn make(
    arguments: &Arguments,
    page: &Page,
    folder: &Path,
    site: &Path,
    is_again: bool,
) -> Result<Outcome, Failure> {
    let named = |error| -> Failure { format!("{}: {error}", folder.display()).into() };
    let filter = Filter::of(&arguments.exclude, arguments.drafts)?;
    let (mut tree, failed) = Tree::of(folder, site, &filter).map_err(named)?;
    if !arguments.drafts {
        tree.take_out(drafts(&tree));
    }
    let mut outcome = Outcome::of(failed);
    let site = Site::of(arguments, page, folder, site, &tree, is_again)?;
    let sources = tree.sources();
    let mut read = site.read_all(&sources, &mut outcome);
    let files = read.iter_mut().flat_map(|one| one.found.take_files());
    let plan = Plan::of(arguments, page, &tree, files.collect());
    let collisions = plan.collisions(folder, site.site);
    if !collisions.is_empty() {
        outcome.failed.extend(collisions);
        return Ok(outcome);
    }
    site.warn(&read, &mut outcome);
    outcome.warnings.extend(plan.warnings(folder));
    let list = site.take_back(&plan, &mut outcome);
    let written = site.write_all(&read, &plan, &mut outcome);
    if let Some(Err(message)) = list.map(|list| list.write(written)) {
        if !arguments.keep {
            let status = FAILED;
            outcome.failed.push(Failed { message, status });
        }
    }
    site.bar.finish_and_clear();
    outcome.skipped = tree.skipped.summary();
    outcome.is_summed = true;
    Ok(outcome)
}

/// The sources that aren't to be published, as their front matter says.
fn drafts(tree: &Tree) -> Vec<PathBuf> {
    let is_draft = |path: &&PathBuf| {
        let document = tree.open(path).ok().and_then(front_of);
        document.map_or(false, |document| front::front_matter(&document).is_draft)
    };
    tree.pages.par_iter().filter(is_draft).cloned().collect()
}

/// The text of a document that may be a draft; a character in place of what isn't UTF-8.
fn front_of(mut file: File) -> Option<String> {
    let mut bytes = Vec::new();
    (&mut file).take(MARK).read_to_end(&mut bytes).ok()?;
    if !front::is_marked(&bytes) {
        return None;
    }
    file.rewind().ok()?;
    bytes.clear();
    file.read_to_end(&mut bytes).ok()?;
    front::may_be_draft(&bytes).then(|| String::from_utf8_lossy(&bytes).into_owned())
}

impl<'a> Site<'a> {
    fn of(
        arguments: &'a Arguments,
        page: &'a Page,
        folder: &'a Path,
        site: &'a Path,
        tree: &'a Tree,
        is_again: bool,
    ) -> Result<Site<'a>, Failure> {
        let spool = Spool::beside(site).map_err(|error| format!("{}: {error}", site.display()))?;
        let title = arguments.page.as_deref().map(escaped).transpose()?;
        Ok(Site {
            arguments,
            page,
            folder,
            site,
            tree,
            spool,
            title,
            made: Mutex::default(),
            is_again,
            bar: progress::bar(2 * tree.pages.len()),
        })
    }

    /// Reads these documents on all processors. Returns those that could be read.
    fn read_all<'b>(&self, sources: &[&'b Path], outcome: &mut Outcome) -> Vec<Document<'b>> {
        let work = |&source: &&'b Path| {
            let read = process(|| self.name(source), || self.read(source));
            self.bar.inc(1);
            read
        };
        let all: Vec<Result<Option<Document>, Failed>> = sources.par_iter().map(work).collect();
        let mut add = |one: Result<_, Failed>| one.map_err(|failed| outcome.failed.push(failed));
        all.into_iter()
            .filter_map(|one| add(one).ok().flatten())
            .collect()
    }

    /// Reads a document, and changes its links to other documents into links to their pages. There
    /// is none if it has become a draft.
    fn read<'b>(&self, source: &'b Path) -> Result<Option<Document<'b>>, Failure> {
        let mut read = render::read(self.arguments, self.tree.open(source)?)?;
        if read.front.is_draft && !self.arguments.drafts {
            return Ok(None);
        }
        let is_asked = self.arguments.has_heading_ids();
        let mut found = Found::with_faults(std::mem::take(&mut read.front.faults));
        let read = read.with_urls(self.arguments, |url| {
            if is_asked {
                found.add_anchor(url, source, self.tree);
            }
            found.add(url, source, self.tree)
        })?;
        if is_asked {
            found.add_ids(read.ids(), source);
        }
        let toc = match self.page.has_toc {
            true => read.contents(self.arguments)?,
            false => String::new(),
        };
        Ok(Some(Document {
            source,
            found: found.in_order(),
            title: read.own_title(source)?,
            is_titled: read.front.title.is_some(),
            weight: read.front.weight,
            has_h1: text::has_h1(&read.html),
            toc: self.spool.put(&toc)?,
            html: self.spool.put(&read.html)?,
        }))
    }

    /// Adds the warnings about pages.
    fn warn(&self, read: &[Document], outcome: &mut Outcome) {
        let pages: HashMap<&Path, &Found> =
            read.iter().map(|one| (one.source, &one.found)).collect();
        for one in read {
            let name = self.name(one.source);
            let warnings = one.found.warnings(&name, &pages);
            outcome.warnings.extend(warnings);
        }
    }

    /// Removes what earlier runs wrote and isn't planned any more, and what killed runs left.
    /// Returns the list of what earlier runs wrote, if it can be read.
    fn take_back(&self, plan: &Plan, outcome: &mut Outcome) -> Option<List> {
        if !self.is_again {
            let folders = self.tree.folders.iter();
            folders.for_each(|folder| files::remove_parts(&self.site.join(folder)));
        }
        let read = List::read(self.site).map_err(|message| outcome.warnings.push(message));
        let mut list = read.ok()?;
        if self.arguments.keep {
            return Some(list);
        }
        let has_failed = !outcome.failed.is_empty();
        let removal = list.remove(self.site, |path| {
            let may_be_copied = has_failed && self.tree.files.contains(path);
            plan.has(path) || self.tree.may_give(path) || may_be_copied
        });
        for target in removal.removed {
            if self.is_again {
                files::report(&format!("{}: removed", target.display()));
            }
            outcome.add(Ok(Done::Removed));
        }
        let changed = removal.changed.iter().map(|target| target.display());
        let changed = changed.map(|target| {
            format!("{target}: was changed since it was written, so it isn't removed")
        });
        outcome.warnings.extend(changed);
        outcome.failed.extend(removal.failed);
        Some(list)
    }

    /// Writes the pages of these documents, the lists of folders, the copies and the sitemap.
    /// Returns what is there then.
    fn write_all(&self, read: &[Document], plan: &Plan, outcome: &mut Outcome) -> Written {
        let cards: Vec<Card> = read.iter().map(Document::card).collect();
        let names = self.names();
        let nav = Nav::of(&cards, self.tree, &names);
        let pages = read.par_iter().map(|one| {
            let done = process(|| self.name(one.source), || self.write(one, &nav));
            self.bar.inc(1);
            done
        });
        let mut done: Vec<Result<Put, Failed>> = pages.collect();
        let lists = nav.lists().map(|(target, title, text, ways)| {
            let write = || self.write_list(target, title, &text, &ways);
            process(|| self.name(target), write)
        });
        done.extend(lists);
        done.extend(self.copy_all(plan));
        let mut written = Written::new();
        for one in done {
            outcome.add(one.map(|(target, done, stamp)| {
                written.insert(target.into_os_string(), stamp);
                done
            }));
        }
        let base = self.arguments.base.as_deref();
        let name = || sitemap::NAME.to_string();
        let sitemap = base.map(|base| process(name, || self.write_sitemap(base, &nav)));
        match sitemap {
            Some(Ok((target, _, stamp))) => drop(written.insert(target.into_os_string(), stamp)),
            Some(Err(failed)) => outcome.failed.push(failed),
            None => {}
        }
        written
    }

    /// The names of the folders that have pages, escaped; that of the site itself is its title.
    fn names(&self) -> HashMap<PathBuf, String> {
        let folders = self.tree.indexes.keys();
        let named = folders.map(|path| {
            let whole = self.tree.root().join(path);
            let name = whole.file_name().unwrap_or_default().to_string_lossy();
            let name = match (&self.title, path.as_os_str().is_empty()) {
                (Some(title), true) => title.clone(),
                _ => escaped(&name).unwrap_or_default(),
            };
            (path.clone(), name)
        });
        named.collect()
    }

    /// Writes the page of a document.
    fn write(&self, document: &Document, nav: &Nav) -> Result<Put, Failure> {
        let toc = self.spool.take(document.toc)?;
        let content = self.spool.take(document.html)?;
        let title = match &self.title {
            Some(title) if !document.is_titled => title,
            _ => &document.title,
        };
        let parts = Parts {
            title,
            toc: &toc,
            content: &content,
            has_h1: document.has_h1,
            ways: &nav.ways(document.source),
        };
        let target = self.tree.page_of(document.source);
        self.put(target, &self.page.around(&parts))
    }

    /// Writes the page of a folder that is a list of its pages.
    fn write_list(
        &self,
        target: &Path,
        title: &str,
        text: &str,
        ways: &Ways,
    ) -> Result<Put, Failure> {
        let content = format!("<h1>{title}</h1>\n{text}");
        let parts = Parts {
            title,
            toc: "",
            content: &content,
            has_h1: true,
            ways,
        };
        self.put(target.to_path_buf(), &self.page.around(&parts))
    }

    fn write_sitemap(&self, base: &str, nav: &Nav) -> Result<Put, Failure> {
        let text = sitemap::text(base, nav.targets())?;
        self.put(sitemap::path(), &[&text])
    }

    /// Writes texts to a file of the site, unless it has these bytes.
    fn put(&self, target: PathBuf, texts: &[&str]) -> Result<Put, Failure> {
        let place = self.site.join(&target);
        let stamp = Stamp::of(texts);
        if files::holds(&place, texts) {
            return Ok((target, Done::Unchanged, stamp));
        }
        self.make_folder_of(&place)?;
        files::write(&place, texts, false)
            .map_err(|error| format!("{}: {error}", place.display()))?;
        self.report_written(&place);
        Ok((target, Done::Written, stamp))
    }

    /// Copies the planned files, on all processors.
    fn copy_all(&self, plan: &Plan) -> Vec<Result<Put, Failed>> {
        self.bar.inc_length(plan.copied.len() as u64);
        let copies = plan.copied.par_iter().map(|file| {
            let open = || self.copy(self.tree.open(file)?, file);
            let done = process(|| self.name(file), open);
            self.bar.inc(1);
            done
        });
        let mut done: Vec<Result<Put, Failed>> = copies.collect();
        let extras = plan.extras.iter().map(|(target, source)| {
            let open = || self.copy(File::open(source)?, target);
            process(|| source.display().to_string(), open)
        });
        done.extend(extras);
        done
    }

    /// Copies a file into the site, unless that has these bytes.
    fn copy(&self, mut source: File, target: &Path) -> Result<Put, Failure> {
        let place = self.site.join(target);
        let (stamp, is_same) = files::compare(&mut source, &place)?;
        let target = target.to_path_buf();
        if is_same {
            return Ok((target, Done::Kept, stamp));
        }
        self.make_folder_of(&place)?;
        files::copy(source, &place).map_err(|error| format!("{}: {error}", place.display()))?;
        self.report_written(&place);
        Ok((target, Done::Copied, stamp))
    }

    fn report_written(&self, place: &Path) {
        if self.is_again {
            files::report(&format!("{}: written", place.display()));
        }
    }

    /// Makes the folder of a file, once.
    fn make_folder_of(&self, target: &Path) -> Result<(), Failure> {
        let folder = target.parent().unwrap_or_else(|| Path::new("."));
        let made = || self.made.lock().unwrap_or_else(PoisonError::into_inner);
        if !made().contains(folder) {
            fs::create_dir_all(folder).map_err(|error| format!("{}: {error}", folder.display()))?;
            made().insert(folder.to_path_buf());
        }
        Ok(())
    }

    /// The name of a file of the folder in messages.
    fn name(&self, path: &Path) -> String {
        self.folder.join(path).display().to_string()
    }
}

impl Document<'_> {
    fn card(&self) -> Card<'_> {
        Card {
            source: self.source,
            title: &self.title,
            weight: self.weight,
        }
    }
}
