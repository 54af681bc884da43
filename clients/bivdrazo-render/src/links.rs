//! Links between the files of a folder.

use crate::tree::{folder_of, Index, Tree, INDEX_PAGE, PAGE_ENDING, SOURCE_ENDING};
use std::ffi::OsStr;
use std::fmt::Write;
use std::os::unix::ffi::OsStrExt;
use std::path::{Path, PathBuf};

/// The target of a URL in a page.
#[derive(Clone, Debug, Eq, PartialEq)]
pub enum Target {
    /// A URL out of the site, a page by its own name, or a folder with a page.
    Other,
    /// The source of a page; this is the page's URL.
    Page(String),
    /// A file that isn't rendered.
    File(PathBuf),
    /// A folder without pages.
    Folder,
    /// A file that isn't published, or one in such a folder.
    Unpublished,
    /// Nothing.
    Nothing,
}

/// What the path of a URL names.
enum Named {
    /// The source of a page.
    Source(PathBuf),
    /// A page, by its own name or as that of a folder that ends in `/`; this is its source.
    Page(PathBuf),
    /// A file that isn't rendered.
    File(PathBuf),
    /// A folder's page that is a list; or a folder with a page, as a name without `/`: some servers
    /// serve another page there.
    Index,
    /// A folder without pages.
    Folder,
    /// A file that isn't published, or one in such a folder.
    Unpublished,
    /// Nothing.
    Nothing,
}

/// The target of a URL in the page of that source.
pub fn target(url: &str, source: &Path, tree: &Tree) -> Target {
    let end = url.find(&['?', '#'][..]).unwrap_or(url.len());
    let (path, rest) = url.split_at(end);
    if !is_relative(path) {
        return Target::Other;
    }
    match named(path, source, tree) {
        Named::Source(page) if tree.is_index(&page) => {
            let start = path.rfind('/').map_or(0, |last| last + 1);
            Target::Page(format!("{}{INDEX_PAGE}{rest}", &path[..start]))
        }
        Named::Source(_) => Target::Page(format!("{}.{PAGE_ENDING}{rest}", without_ending(path))),
        Named::Page(_) | Named::Index => Target::Other,
        Named::File(found) => Target::File(found),
        Named::Folder => Target::Folder,
        Named::Unpublished => Target::Unpublished,
        Named::Nothing => Target::Nothing,
    }
}

/// The page that a URL refers to, as its source, and the id in it, if the URL has both.
pub fn anchor(url: &str, source: &Path, tree: &Tree) -> Option<(PathBuf, String)> {
    let (before, fragment) = url.split_once('#')?;
    let path = before.split('?').next().unwrap_or("");
    let id = String::from_utf8_lossy(&decoded(fragment)).into_owned();
    if id.is_empty() || id.eq_ignore_ascii_case("top") {
        return None;
    }
    if path.is_empty() {
        return Some((source.to_path_buf(), id));
    }
    if !is_relative(path) {
        return None;
    }
    match named(path, source, tree) {
        Named::Source(page) | Named::Page(page) => Some((page, id)),
        _ => None,
    }
}

/// What a relative path in the page of that source names.
fn named(path: &str, source: &Path, tree: &Tree) -> Named {
    let found = match read_from(source.parent().unwrap_or_else(|| Path::new("")), path) {
        Some(found) => found,
        None => return Named::Nothing,
    };
    let last = decoded(path.rsplit('/').next().unwrap_or(""));
    if matches!(&last[..], b"" | b"." | b"..") {
        return folder(&found, tree);
    }
    if tree.pages.contains(&found) {
        return Named::Source(found);
    }
    if tree.files.contains(&found) {
        return Named::File(found);
    }
    if found.extension() == Some(OsStr::new(PAGE_ENDING)) {
        let at = folder_of(&found);
        if found.file_name() == Some(OsStr::new(INDEX_PAGE)) && tree.indexes.contains_key(at) {
            return folder(at, tree);
        }
        let page = found.with_extension(SOURCE_ENDING);
        if tree.pages.contains(&page) && !tree.is_index(&page) {
            return Named::Page(page);
        }
    }
    match folder(&found, tree) {
        Named::Page(_) | Named::File(_) => Named::Index,
        other => other,
    }
}

/// What the path of a folder names that ends in `/`.
fn folder(found: &Path, tree: &Tree) -> Named {
    match tree.indexes.get(found) {
        Some(Index::Source(source)) => Named::Page(source.clone()),
        Some(Index::File) => Named::File(found.join(INDEX_PAGE)),
        Some(Index::List) => Named::Index,
        None if tree.folders.contains(found) => Named::Folder,
        None if tree.skipped.has(found) => Named::Unpublished,
        None => Named::Nothing,
    }
}

/// Whether a path is relative: it isn't empty, and has no scheme and no `/` at its beginning.
fn is_relative(path: &str) -> bool {
    !path.is_empty() && !path.starts_with('/') && !has_scheme(path)
}

/// Whether a path begins with a scheme (RFC 3986, 3.1).
fn has_scheme(path: &str) -> bool {
    let is_part = |each: char| each.is_ascii_alphanumeric() || "+-.".contains(each);
    path.split_once(':').map_or(false, |(scheme, _)| {
        scheme.starts_with(|first: char| first.is_ascii_alphabetic()) && scheme.chars().all(is_part)
    })
}

/// The path of a URL relative to a folder; none if it points out of the tree.
pub fn read_from(folder: &Path, path: &str) -> Option<PathBuf> {
    let mut found = folder.to_path_buf();
    for part in path.split('/') {
        let name = decoded(part);
        match &name[..] {
            b"" | b"." => {}
            b".." => {
                if !found.pop() {
                    return None;
                }
            }
            name if name.contains(&b'/') => return None,
            name => found.push(OsStr::from_bytes(name)),
        }
    }
    Some(found)
}

/// The URL of a file of a site in a page of a folder.
pub fn between(folder: &Path, file: &Path) -> String {
    let (mut from, mut to) = (folder.iter().peekable(), file.iter().peekable());
    while from.peek().is_some() && from.peek() == to.peek() {
        from.next();
        to.next();
    }
    let mut url = "../".repeat(from.count());
    for (place, name) in to.enumerate() {
        if place > 0 {
            url.push('/');
        }
        encode(name.as_bytes(), &mut url);
    }
    url
}

/// The way from a folder to the root, which ends in `/`.
pub fn root(folder: &Path) -> String {
    match folder.iter().count() {
        0 => "./".to_string(),
        depth => "../".repeat(depth),
    }
}

/// A relative path as a URL.
pub fn encoded(path: &Path) -> String {
    between(Path::new(""), path)
}

/// Appends a name as a part of a URL.
fn encode(name: &[u8], url: &mut String) {
    for &byte in name {
        match byte.is_ascii_alphanumeric() || b"-._~".contains(&byte) {
            true => url.push(byte.into()),
            false => {
                let _ = write!(url, "%{byte:02X}");
            }
        }
    }
}

/// The bytes of a part of a path, with percent escapes decoded.
pub fn decoded(part: &str) -> Vec<u8> {
    let digit = |byte: Option<&u8>| byte.and_then(|&byte| char::from(byte).to_digit(16));
    let bytes = part.as_bytes();
    let mut found = Vec::with_capacity(bytes.len());
    let mut at = 0;
    while at < bytes.len() {
        match (
            bytes[at],
            digit(bytes.get(at + 1)),
            digit(bytes.get(at + 2)),
        ) {
            (b'%', Some(high), Some(low)) => {
                found.push((high * 16 + low) as u8);
                at += 3;
            }
            (byte, ..) => {
                found.push(byte);
                at += 1;
            }
        }
    }
    found
}

/// The path of a source without `.md`. If the ending is escaped, the whole name is escaped anew.
fn without_ending(path: &str) -> String {
    if let Some(stem) = path.strip_suffix(".md") {
        return stem.to_string();
    }
    let start = path.rfind('/').map_or(0, |last| last + 1);
    let name = decoded(&path[start..]);
    let stem = &name[..name.len().saturating_sub(".md".len())];
    let encoded = stem.iter().map(|byte| format!("%{byte:02X}"));
    format!("{}{}", &path[..start], encoded.collect::<String>())
}

#[cfg(test)]
mod tests;
