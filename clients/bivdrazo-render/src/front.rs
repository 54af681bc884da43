//! Front matter: the text between two lines of marks at the beginning of a document.
//!
//! The library finds the text between two lines of `---`. This module also finds YAML that ends
//! with a line `...`, and TOML between two lines `+++`. The keys are read by a library for YAML and
//! one for TOML. A title that can't be read is a fault, and so is front matter that can't be read.

mod keys;
mod toml;
mod yaml;

use crate::quiet::quietly;
use bivdrazo::front_matter_of;
use keys::Keys;

/// The first line of front matter in YAML, another one that ends it, and the lines around TOML.
const YAML: &str = "---";
const YAML_END: &str = "...";
const TOML: &str = "+++";

/// How many lines after the first one are searched for a key if front matter has no end.
const MOST_SEARCHED: usize = 20;

/// The most bytes of front matter that are read. The libraries are fast up to there.
const MOST_BYTES: usize = 1 << 16;

/// The most collections in one another, which bounds the stack.
const MOST_DEPTH: usize = 64;

/// The most characters of a library's message that a fault shows.
const MOST_SHOWN: usize = 200;

/// Faults.
const NO_END: &str = "the front matter has no end";
const EMPTY_TITLE: &str = "the title in the front matter is empty";

/// The front matter of a document.
#[derive(Debug, Default, PartialEq)]
pub struct Front {
    /// Its title, if it has one that can be read.
    pub title: Option<String>,
    /// Its length in bytes; 0 for a document without front matter, or if it has no end.
    pub end: usize,
    /// Whether the document isn't to be published: it is a draft, or says so.
    pub is_draft: bool,
    /// The place of its page among those of its folder.
    pub weight: Option<f64>,
    /// The errors in it.
    pub faults: Vec<String>,
}

/// The front matter that a document begins with.
pub fn front_matter(document: &str) -> Front {
    let text = document.strip_prefix('\u{feff}').unwrap_or(document);
    let (first, rest) = cut_line(text);
    let (inner, is_yaml) = match first.trim_end() {
        YAML => (
            before(rest, YAML_END, YAML).or_else(|| front_matter_of(document)),
            true,
        ),
        TOML => (before(rest, TOML, TOML), false),
        _ => return Front::default(),
    };
    match inner {
        Some(inner) => front_of(keys_of(inner, is_yaml), inner, end_after(inner, document)),
        // A line of marks with no key below it is a thematic break, or text.
        None => {
            let searched = first_lines(rest);
            let mut lines = searched.split(['\n', '\r']);
            let has_key = lines.any(|line| is_key(line.trim(), is_yaml));
            Front {
                is_draft: keys::looks_like_draft(searched),
                faults: has_key.then(|| NO_END.to_string()).into_iter().collect(),
                ..Front::default()
            }
        }
    }
}

/// Whether a document that begins with these bytes, at least six unless it is shorter, may have
/// front matter.
pub fn is_marked(start: &[u8]) -> bool {
    let start = start.strip_prefix(b"\xef\xbb\xbf").unwrap_or(start);
    [YAML, TOML]
        .iter()
        .any(|mark| start.starts_with(mark.as_bytes()))
}

/// Whether a document with these bytes may be one that isn't to be published; if not, its front
/// matter needs no reading for that.
pub fn may_be_draft(document: &[u8]) -> bool {
    is_marked(document) && keys::name_drafts(document)
}

/// The front matter with these keys, or with the error in it. If that hides the keys, a line that
/// looks like that of a draft counts.
fn front_of(keys: Result<Keys, String>, inner: &str, end: usize) -> Front {
    let mut front = Front {
        end,
        ..Front::default()
    };
    match keys {
        Ok(keys) => {
            front.is_draft = keys.is_draft(&mut front.faults);
            front.weight = keys.weight(&mut front.faults);
            match keys.title {
                Some(Ok(title)) => front.title = Some(title),
                Some(Err(fault)) => front.faults.insert(0, fault),
                None => {}
            }
        }
        Err(fault) => {
            front.is_draft = keys::looks_like_draft(inner);
            front.faults.push(fault);
        }
    }
    front
}

/// The keys of front matter; or the error in the front matter.
fn keys_of(inner: &str, is_yaml: bool) -> Result<Keys, String> {
    if inner.len() > MOST_BYTES {
        return Err(format!("the front matter has more than {MOST_BYTES} bytes"));
    }
    // The libraries count lines by line feeds.
    let inner = inner.replace("\r\n", "\n").replace('\r', "\n");
    let read = match is_yaml {
        true => quietly(|| yaml::keys(&inner)),
        false => quietly(|| toml::keys(&inner)),
    };
    let name = if is_yaml { "YAML" } else { "TOML" };
    let keys =
        read.unwrap_or_else(|| Err(format!("the reader of {name} failed: please report it")));
    keys.map(|mut keys| {
        keys.title = keys.title.map(|title| in_one_line(&title?));
        keys
    })
}

/// A title with a space for each run of spaces and line endings.
fn in_one_line(title: &str) -> Result<String, String> {
    let title = title.split_ascii_whitespace().collect::<Vec<_>>().join(" ");
    match title.is_empty() {
        true => Err(EMPTY_TITLE.to_string()),
        false => Ok(title),
    }
}

/// The fault of a title that is something else than a text.
fn no_text(what: &str) -> String {
    format!("the title in the front matter is {what}")
}

/// The fault of front matter that can't be read at a line, which counts from 1 in the front matter
/// without the line of marks.
fn unread_at(language: &str, text: &str, line: usize, why: &str) -> String {
    unread(language, &at_line(text, line, why))
}

/// The fault of front matter whose root isn't a map, at a line.
fn no_map(text: &str, line: usize, why: &str) -> String {
    let why = at_line(text, line, why);
    format!("the front matter isn't a map, so it isn't printed: {why}")
}

/// A reason with its line.
fn at_line(text: &str, line: usize, why: &str) -> String {
    let line = line.clamp(1, text.lines().count().max(1)) + 1;
    format!("line {line}: {why}")
}

/// The fault of front matter that the library for its language can't read: that library may refuse
/// what is valid.
fn unread(language: &str, why: &str) -> String {
    let why: String = why.chars().take(MOST_SHOWN).collect();
    let why = why.replace(char::is_control, "\u{fffd}");
    format!("the front matter can't be read as {language}: {why}")
}

fn too_deep() -> String {
    format!("the front matter nests deeper than {MOST_DEPTH}")
}

/// The first lines of a text, which are searched for a key.
fn first_lines(text: &str) -> &str {
    let mut rest = text;
    for _ in 0..MOST_SEARCHED {
        rest = cut_line(rest).1;
    }
    &text[..text.len() - rest.len()]
}

/// Whether a line looks like a key.
fn is_key(line: &str, is_yaml: bool) -> bool {
    match is_yaml {
        true => is_yaml_key(line),
        false => is_toml_key(line),
    }
}

/// Whether a line begins with a word and a colon, and a space or nothing follows.
fn is_yaml_key(line: &str) -> bool {
    line.split_once(':').map_or(false, |(key, value)| {
        is_word(key) && !value.starts_with(|first: char| !first.is_whitespace())
    })
}

/// Whether a line begins with words between dots and `=`, or is the name of a table.
fn is_toml_key(line: &str) -> bool {
    let table = line.strip_prefix('[').and_then(|line| {
        let (name, rest) = line.split_once(']')?;
        let rest = rest.trim_start_matches(']').trim_start();
        let is_all = rest.is_empty() || rest.starts_with('#');
        is_all.then(|| name.trim_start_matches('['))
    });
    let key = line.split_once('=').map(|(key, _)| key);
    let key = table.or(key).unwrap_or("");
    key.split('.').all(is_word)
}

/// Whether a part of a key is a word, in quotes or without.
fn is_word(part: &str) -> bool {
    let part = part.trim();
    let inner = |quote| part.strip_prefix(quote)?.strip_suffix(quote);
    let word = inner('"').or_else(|| inner('\'')).unwrap_or(part);
    let is_part = |each: char| each.is_alphanumeric() || "_-".contains(each);
    !word.is_empty() && word.chars().all(is_part)
}

/// A text's first line, and what follows it.
fn cut_line(text: &str) -> (&str, &str) {
    let end = match text.find(['\n', '\r']) {
        Some(at) if text[at..].starts_with("\r\n") => at + 2,
        Some(at) => at + 1,
        None => text.len(),
    };
    text.split_at(end)
}

/// The text before the first line that is `mark`; nothing if a line `other` comes first.
fn before<'a>(text: &'a str, mark: &str, other: &str) -> Option<&'a str> {
    let mut rest = text;
    while !rest.is_empty() {
        let (line, next) = cut_line(rest);
        match line.trim_end() {
            found if found == mark => return Some(&text[..text.len() - rest.len()]),
            found if found == other => return None,
            _ => rest = next,
        }
    }
    None
}

/// The end of the line after a part of a document.
fn end_after(part: &str, document: &str) -> usize {
    let start = part.as_ptr() as usize - document.as_ptr() as usize + part.len();
    start + cut_line(&document[start..]).0.len()
}

#[cfg(test)]
mod tests;
