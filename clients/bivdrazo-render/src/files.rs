//! Reading and writing.

use crate::failures::Failure;
use crc32fast::Hasher;
use std::collections::HashMap;
use std::fs::{self, DirEntry, File, Metadata, OpenOptions};
use std::io::{self, BufWriter, Read, Seek, Write};
use std::os::unix::ffi::OsStrExt;
use std::path::{Path, PathBuf};
use std::process;
use std::sync::atomic::{AtomicUsize, Ordering};
use std::time::Duration;

/// The most bytes of a text that are written at once.
const BUFFER: usize = 1 << 16;

/// A new file that isn't renamed after this time was left by a run that was killed.
const OLDEST_PART: Duration = Duration::from_secs(60 * 60);

/// Opens a file, or standard input.
pub fn open(path: &Path) -> io::Result<Box<dyn Read>> {
    Ok(match path.to_str() {
        Some("-") => Box::new(io::stdin()),
        _ => Box::new(File::open(path)?),
    })
}

/// The name of a file in messages.
pub fn name(path: &Path) -> String {
    match path.to_str() {
        Some("-") => "standard input".to_string(),
        _ => path.display().to_string(),
    }
}

/// Reads a text, which may have at most `limit` bytes.
pub fn read(mut input: impl Read, limit: Option<usize>) -> Result<String, Failure> {
    let mut bytes = Vec::new();
    match limit {
        Some(limit) => {
            input
                .take((limit as u64).saturating_add(1))
                .read_to_end(&mut bytes)?;
            if bytes.len() > limit {
                return Err(format!("more than {limit} bytes").into());
            }
        }
        None => {
            input.read_to_end(&mut bytes)?;
        }
    }
    String::from_utf8(bytes)
        .map_err(|error| format!("not UTF-8 at byte {}", error.utf8_error().valid_up_to()).into())
}

/// Writes texts to standard output, one after another.
pub fn print(texts: &[&str]) -> io::Result<()> {
    let mut output = io::stdout().lock();
    write_all(&mut output, texts)?;
    output.flush()
}

/// Prints a message on standard error, in one line; if that fails too, only the status reports it.
pub fn report(message: &str) {
    let line = format!("bivdrazo-render: {}\n", in_one_line(message));
    let _ = io::stderr().write_all(line.as_bytes());
}

/// A text with U+FFFD for each control character: the name of a file can have these.
pub fn in_one_line(text: &str) -> String {
    text.replace(char::is_control, "\u{fffd}")
}

fn write_all(output: &mut impl Write, texts: &[&str]) -> io::Result<()> {
    let mut texts = texts.iter();
    texts.try_for_each(|text| output.write_all(text.as_bytes()))
}

/// The path of each file's page in a folder, which is made if it doesn't exist.
pub fn targets(sources: &[PathBuf], folder: &Path) -> Result<Vec<PathBuf>, Failure> {
    let mut taken: HashMap<PathBuf, &Path> = HashMap::new();
    let mut targets = Vec::new();
    for source in sources {
        let stem = source
            .file_stem()
            .ok_or_else(|| format!("{}: no name of a file", source.display()))?;
        let mut name = stem.to_os_string();
        name.push(".html");
        let target = folder.join(name);
        if let Some(other) = taken.insert(target.clone(), source) {
            return Err(format!(
                "{} and {} would both be written to {}",
                other.display(),
                source.display(),
                target.display()
            )
            .into());
        }
        targets.push(target);
    }
    fs::create_dir_all(folder).map_err(|error| format!("{}: {error}", folder.display()))?;
    Ok(targets)
}

/// Whether both paths are those of one existing file.
pub fn is_same(source: &Path, target: &Path) -> bool {
    match (fs::canonicalize(source), fs::canonicalize(target)) {
        (Ok(source), Ok(target)) => source == target && source.is_file(),
        _ => false,
    }
}

/// Writes texts to a new file in the same folder and renames it, so that no file is ever written by
/// half. A path that isn't a file, such as a device, is opened and written to. With `is_synced` the
/// text is on the disk before the file gets its name.
pub fn write(path: &Path, texts: &[&str], is_synced: bool) -> io::Result<()> {
    fill(path, |file| {
        let length = texts.iter().map(|text| text.len()).sum();
        let mut output = BufWriter::with_capacity(BUFFER.min(length), &*file);
        write_all(&mut output, texts)?;
        output.flush()?;
        drop(output);
        match is_synced && file.metadata()?.is_file() {
            true => file.sync_all(),
            false => Ok(()),
        }
    })
}

/// What tells one content of a file from another, though not against intent: its length, and the
/// CRC-32 of its bytes.
#[derive(Clone, Copy, Debug, Eq, PartialEq)]
pub struct Stamp {
    pub length: u64,
    pub sum: u32,
}

impl Stamp {
    /// The stamp of texts, one after another.
    pub fn of(texts: &[&str]) -> Stamp {
        let mut hasher = Hasher::new();
        texts.iter().for_each(|text| hasher.update(text.as_bytes()));
        let length = texts.iter().map(|text| text.len() as u64).sum();
        let sum = hasher.finalize();
        Stamp { length, sum }
    }
}

/// The stamp of a file.
pub fn stamp_of(path: &Path) -> io::Result<Stamp> {
    compare(&mut File::open(path)?, Path::new("")).map(|(stamp, _)| stamp)
}

/// The stamp of an open file, and whether the file at a path has the same bytes.
pub fn compare(source: &mut File, target: &Path) -> io::Result<(Stamp, bool)> {
    let is_file = fs::metadata(target).map_or(false, |found| found.is_file());
    let mut target = is_file.then(|| File::open(target).ok()).flatten();
    let (mut bytes, mut others) = (vec![0; BUFFER], vec![0; BUFFER]);
    let mut hasher = Hasher::new();
    let mut length = 0;
    loop {
        let read = read_full(source, &mut bytes)?;
        hasher.update(&bytes[..read]);
        length += read as u64;
        if let Some(other) = &mut target {
            let is_same = read_full(other, &mut others).map_or(false, |count| count == read);
            if !is_same || bytes[..read] != others[..read] {
                target = None;
            }
        }
        if read < BUFFER {
            let sum = hasher.finalize();
            return Ok((Stamp { length, sum }, target.is_some()));
        }
    }
}

/// Reads until a buffer is full or the file ends. Returns how much was read.
fn read_full(file: &mut File, buffer: &mut [u8]) -> io::Result<usize> {
    let mut length = 0;
    while length < buffer.len() {
        match file.read(&mut buffer[length..])? {
            0 => break,
            read => length += read,
        }
    }
    Ok(length)
}

/// Whether a file has these texts and nothing else.
pub fn holds(path: &Path, texts: &[&str]) -> bool {
    let length: usize = texts.iter().map(|text| text.len()).sum();
    let found = fs::metadata(path).map(|found| found.is_file() && found.len() == length as u64);
    if !found.unwrap_or(false) {
        return false;
    }
    let bytes = fs::read(path).unwrap_or_default();
    let mut rest = &bytes[..];
    bytes.len() == length
        && texts.iter().all(|text| {
            let (first, after) = rest.split_at(text.len());
            rest = after;
            first == text.as_bytes()
        })
}

/// Copies an open file in the same way.
pub fn copy(mut source: File, target: &Path) -> io::Result<()> {
    source.rewind()?;
    fill(target, |file| io::copy(&mut source, file).map(drop))
}

fn fill(path: &Path, write: impl FnOnce(&mut File) -> io::Result<()>) -> io::Result<()> {
    let mut path = path.to_path_buf();
    let mut found = fs::symlink_metadata(&path);
    if matches!(&found, Ok(found) if found.is_symlink()) {
        path = fs::canonicalize(&path).unwrap_or(path);
        found = fs::metadata(&path);
    }
    if matches!(&found, Ok(found) if !found.is_file()) {
        return write(&mut OpenOptions::new().write(true).open(&path)?);
    }
    let (beside, mut file) = new_beside(&path)?;
    let written = write(&mut file)
        .and_then(|()| {
            found.map_or(Ok(()), |found| {
                fs::set_permissions(&beside, found.permissions())
            })
        })
        .and_then(|()| fs::rename(&beside, &path));
    if written.is_err() {
        let _ = fs::remove_file(&beside);
    }
    written
}

/// Removes the files of a folder that a killed run left: those with the name of a new file and old
/// enough that no run writes to them. What can't be removed stays.
pub fn remove_parts(folder: &Path) {
    let entries = fs::read_dir(folder).into_iter().flatten().flatten();
    let named = entries.filter(|entry| is_part(entry.file_name().as_bytes()));
    for entry in named.filter(is_old) {
        let _ = fs::remove_file(entry.path());
    }
}

/// Whether a name is a dot, digits, `-`, digits and `.part`, as `new_beside` makes it.
fn is_part(name: &[u8]) -> bool {
    let numbers = name
        .strip_prefix(b".")
        .and_then(|name| name.strip_suffix(b".part"));
    let mut parts = numbers.unwrap_or(b"").split(|&byte| byte == b'-');
    let mut is_number = || {
        parts.next().map_or(false, |part| {
            !part.is_empty() && part.iter().all(u8::is_ascii_digit)
        })
    };
    is_number() && is_number() && parts.next().is_none()
}

/// Whether a directory entry is a file that nobody wrote to for an hour.
fn is_old(entry: &DirEntry) -> bool {
    let found = entry.metadata().ok().filter(Metadata::is_file);
    let written = found.and_then(|found| found.modified().ok());
    let age = written.and_then(|written| written.elapsed().ok());
    age.map_or(false, |age| age > OLDEST_PART)
}

/// Makes a new file in the same folder, with a short name that `is_part` knows.
pub fn new_beside(path: &Path) -> io::Result<(PathBuf, File)> {
    static NUMBER: AtomicUsize = AtomicUsize::new(0);
    path.file_name().ok_or(io::ErrorKind::InvalidInput)?;
    loop {
        let number = NUMBER.fetch_add(1, Ordering::Relaxed);
        let beside = path.with_file_name(format!(".{}-{number}.part", process::id()));
        let mut options = OpenOptions::new();
        options.read(true).write(true).create_new(true);
        match options.open(&beside) {
            Err(error) if error.kind() == io::ErrorKind::AlreadyExists => {}
            made => return made.map(|file| (beside, file)),
        }
    }
}

#[cfg(test)]
mod tests {
    use super::*;

    #[test]
    fn parts() {
        for name in [".1-0.part", ".1332-980.part"] {
            assert!(is_part(name.as_bytes()), "{name}");
        }
        for name in [
            "",
            ".part",
            "1-0.part",
            ".1.part",
            ".-.part",
            ".1-.part",
            ".-1.part",
            ".1-0-2.part",
            ".1-a.part",
            ".1-0.part.html",
            ".1-0.PART",
            "..1-0.part",
        ] {
            assert!(!is_part(name.as_bytes()), "{name}");
        }
    }
}
