//! The list of what runs wrote to a site. It is a file beside the site, `.SITE.bivdrazo`.
//!
//! Its first line names the program. A line for each file has a sum of its bytes, its length and
//! its path from the site, percent-encoded. The last line has the number of files. A file counts as
//! written by the program only while it has this sum and this length.

use crate::failures::{Failed, FAILED};
use crate::files::{self, Stamp};
use crate::links;
use std::collections::BTreeMap;
use std::ffi::{OsStr, OsString};
use std::fmt::Write;
use std::fs;
use std::io;
use std::os::unix::ffi::OsStrExt;
use std::path::{Component, Path, PathBuf};

/// The first line, and the beginning of the last one.
const FIRST: &str = "bivdrazo-render site 1";
const LAST: &str = "end ";

/// What a run wrote, by its path from the site, in the order of bytes: to compare paths takes
/// several times as long.
pub type Written = BTreeMap<OsString, Stamp>;

/// A list that was read.
pub struct List {
    path: PathBuf,
    /// The text of the file, if there is one.
    text: Option<String>,
    files: Written,
}

/// What became of the files that a folder no longer gives.
#[derive(Default)]
pub struct Removal {
    /// The files that were removed.
    pub removed: Vec<PathBuf>,
    /// The files that somebody else changed, and which stay.
    pub changed: Vec<PathBuf>,
    /// The files that can't be removed.
    pub failed: Vec<Failed>,
}

impl List {
    /// Reads the list of a site; an empty one if there is none.
    pub fn read(site: &Path) -> Result<List, String> {
        let path = path_of(site)?;
        let named = |what: &dyn std::fmt::Display| {
            format!(
                "{}: {what}, so nothing is removed from the site",
                path.display()
            )
        };
        let text = match fs::read(&path) {
            Ok(bytes) => Some(bytes),
            Err(error) if error.kind() == io::ErrorKind::NotFound => None,
            Err(error) => return Err(named(&error)),
        };
        let text = text.map(|bytes| String::from_utf8(bytes).unwrap_or_default());
        let files = match &text {
            None => Written::new(),
            Some(text) => files_of(text).ok_or_else(|| named(&"is no list of this program"))?,
        };
        Ok(List { path, text, files })
    }

    /// Removes from a site the listed files for which `is_given` is false, and the folders that
    /// this leaves empty. A file that was changed since it was written stays, and is dropped from
    /// the list, as is one that is gone.
    pub fn remove(&mut self, site: &Path, is_given: impl Fn(&Path) -> bool) -> Removal {
        let mut removal = Removal::default();
        let gone: Vec<OsString> = self
            .files
            .keys()
            .filter(|path| !is_given(Path::new(path)))
            .cloned()
            .collect();
        for name in gone {
            let path = Path::new(&name);
            let target = site.join(path);
            let stamp = self.files.get(&name).copied();
            match is_own(site, path, stamp) {
                None => {}
                Some(false) => removal.changed.push(target),
                Some(true) => match fs::remove_file(&target) {
                    Ok(()) => {
                        remove_empty(site, path);
                        removal.removed.push(target);
                    }
                    Err(error) => {
                        let message = format!("{}: {error}", target.display());
                        let status = FAILED;
                        removal.failed.push(Failed { message, status });
                        continue;
                    }
                },
            }
            self.files.remove(&name);
        }
        removal
    }

    /// Writes the list with what a run wrote and with the files that stay in it.
    pub fn write(self, written: Written) -> Result<(), String> {
        let mut files = self.files;
        files.extend(written);
        let text = text_of(&files);
        if self.text.as_ref() == Some(&text) || (self.text.is_none() && files.is_empty()) {
            return Ok(());
        }
        let done = files::write(&self.path, &[&text], true);
        done.map_err(|error| {
            let path = self.path.display();
            format!("{path}: {error}: what is taken back later will stay in the site")
        })
    }
}

/// The path of a site's list.
fn path_of(site: &Path) -> Result<PathBuf, String> {
    let is_link = fs::symlink_metadata(site).map_or(false, |found| found.is_symlink());
    let site = match is_link || site.file_name().is_none() {
        true => fs::canonicalize(site).unwrap_or_else(|_| site.to_path_buf()),
        false => site.to_path_buf(),
    };
    let name = site.file_name().ok_or_else(|| {
        let site = site.display();
        format!("{site}: a list can't stand beside it, so nothing is removed from the site")
    })?;
    let list = [b".", name.as_bytes(), b".bivdrazo"].concat();
    Ok(site.with_file_name(OsStr::from_bytes(&list)))
}

/// The files of a list; none if the text is no whole list.
fn files_of(text: &str) -> Option<Written> {
    let text = text.strip_prefix(FIRST)?.strip_prefix('\n')?;
    let (lines, last) = match text.strip_suffix('\n')?.rsplit_once('\n') {
        Some((lines, last)) => (lines, last),
        None => ("", text.strip_suffix('\n')?),
    };
    let files: Option<Written> = lines.lines().map(file_of).collect();
    let number: usize = last.strip_prefix(LAST)?.parse().ok()?;
    files.filter(|files| files.len() == number && lines.lines().count() == number)
}

/// The file of a line. Its path stays in the site.
fn file_of(line: &str) -> Option<(OsString, Stamp)> {
    let mut words = line.split(' ');
    let sum = u32::from_str_radix(words.next()?, 16).ok()?;
    let length = words.next()?.parse().ok()?;
    let path = links::decoded(words.next()?);
    let path = PathBuf::from(OsStr::from_bytes(&path));
    let is_inner = path.components().all(|part| match part {
        Component::Normal(name) => !name.as_bytes().starts_with(b"."),
        _ => false,
    });
    let is_whole = words.next().is_none() && is_inner && path.file_name().is_some();
    let path: PathBuf = path.components().collect();
    is_whole.then_some((path.into_os_string(), Stamp { length, sum }))
}

fn text_of(files: &Written) -> String {
    let mut text = format!("{FIRST}\n");
    for (path, Stamp { length, sum }) in files {
        let _ = writeln!(
            text,
            "{sum:08x} {length} {}",
            links::encoded(Path::new(path))
        );
    }
    text + LAST + &files.len().to_string() + "\n"
}

/// Whether a file of a site is as the program wrote it; nothing if it is gone.
fn is_own(site: &Path, path: &Path, stamp: Option<Stamp>) -> Option<bool> {
    let target = site.join(path);
    let found = fs::symlink_metadata(&target).ok()?;
    // A folder of the path may have become a symbolic link.
    let folder = |site: &Path, path: &Path| fs::canonicalize(site.join(path.parent()?)).ok();
    let site = fs::canonicalize(site).ok()?;
    let is_there = folder(&site, path) == path.parent().map(|folder| site.join(folder));
    let is_same = || files::stamp_of(&target).ok() == stamp;
    Some(found.is_file() && is_there && is_same())
}

/// Removes the folders of a path from the innermost, as long as they are empty.
fn remove_empty(site: &Path, path: &Path) {
    let folders = path.ancestors().skip(1);
    for folder in folders.filter(|folder| !folder.as_os_str().is_empty()) {
        if fs::remove_dir(site.join(folder)).is_err() {
            return;
        }
    }
}

#[cfg(test)]
mod tests {
    use super::*;

    fn stamp(length: u64, sum: u32) -> Stamp {
        Stamp { length, sum }
    }

    #[test]
    fn texts() {
        let odd = OsStr::from_bytes(b"n\xff%\n/a b.html");
        let files: Written = [
            (OsString::from("index.html"), stamp(0, 0)),
            (odd.to_os_string(), stamp(u64::MAX, u32::MAX)),
        ]
        .into();
        let text = text_of(&files);
        let wanted = "bivdrazo-render site 1\n00000000 0 index.html\n\
                      ffffffff 18446744073709551615 n%FF%25%0A/a%20b.html\nend 2\n";
        assert_eq!(text, wanted);
        assert_eq!(files_of(&text), Some(files));
        assert_eq!(
            files_of("bivdrazo-render site 1\nend 0\n"),
            Some(Written::new())
        );
    }

    #[test]
    fn broken() {
        let line = "00000000 0 a.html\n";
        for text in [
            "",
            "bivdrazo-render site 1\n",
            "bivdrazo-render site 2\nend 0\n",
            "another site 1\nend 0\n",
            &format!("bivdrazo-render site 1\n{line}"),
            &format!("bivdrazo-render site 1\n{line}end 2\n"),
            &format!("bivdrazo-render site 1\n{line}end 1"),
            &format!("bivdrazo-render site 1\n{line}{line}end 2\n"),
            "bivdrazo-render site 1\n00000000 0 ../a.html\nend 1\n",
            "bivdrazo-render site 1\n00000000 0 /a.html\nend 1\n",
            "bivdrazo-render site 1\n00000000 0 .git/a\nend 1\n",
            "bivdrazo-render site 1\n00000000 0 \nend 1\n",
            "bivdrazo-render site 1\n0000000g 0 a\nend 1\n",
            "bivdrazo-render site 1\n00000000 a\nend 1\n",
        ] {
            assert_eq!(files_of(text), None, "{text}");
        }
    }
}
