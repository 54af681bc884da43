//! Texts that wait in a file until all are there, so that memory doesn't grow with them.

use crate::files;
use std::fs::{self, File};
use std::io;
use std::os::unix::fs::FileExt;
use std::path::Path;
use std::sync::atomic::{AtomicU64, Ordering};

/// A file without a name: it is gone when the program ends, however it does.
pub struct Spool {
    file: File,
    end: AtomicU64,
}

/// The place of a text.
#[derive(Clone, Copy, Debug)]
pub struct Place {
    at: u64,
    length: usize,
}

impl Spool {
    /// A spool on the disk of a folder, which need not exist.
    pub fn beside(folder: &Path) -> io::Result<Spool> {
        let mut above = folder.ancestors();
        let near = above.find(|above| above.is_dir());
        let near = near.unwrap_or_else(|| Path::new("."));
        let (path, file) = files::new_beside(&near.join("spool"))?;
        fs::remove_file(path)?;
        let end = AtomicU64::new(0);
        Ok(Spool { file, end })
    }

    /// Stores a text. Several threads may do so at once.
    pub fn put(&self, text: &str) -> io::Result<Place> {
        let length = text.len();
        let at = self.end.fetch_add(length as u64, Ordering::Relaxed);
        self.file.write_all_at(text.as_bytes(), at)?;
        Ok(Place { at, length })
    }

    /// Reads a text that was stored.
    pub fn take(&self, place: Place) -> io::Result<String> {
        let mut bytes = vec![0; place.length];
        self.file.read_exact_at(&mut bytes, place.at)?;
        String::from_utf8(bytes).map_err(|error| io::Error::new(io::ErrorKind::InvalidData, error))
    }
}

#[cfg(test)]
mod tests {
    use super::*;
    use rayon::prelude::*;
    use std::env;

    /// Texts that several threads store are those that are read.
    #[test]
    fn texts() {
        let spool = Spool::beside(&env::temp_dir().join("none/at all")).unwrap();
        let texts: Vec<String> = (0..1000).map(|n| format!("\u{e9}{n}").repeat(n)).collect();
        let put = |text: &String| spool.put(text).unwrap();
        let places: Vec<Place> = texts.par_iter().map(put).collect();
        for (text, place) in texts.iter().zip(places) {
            assert_eq!(spool.take(place).unwrap(), *text);
        }
    }
}
