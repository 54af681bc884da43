//! Compares the work of documents with the default limit.

use bivdrazo::{default_work, markdown_to_html, Error, MarkdownOptions};
use std::fs;
use std::io::{self, BufRead};

/// Measures the files that standard input names, one a line. Prints their number, the one whose
/// work is the greatest part of the default limit, and the one with most work for each byte.
/// Ignores files that can't be read or aren't UTF-8.
pub fn measure() -> Result<(), Box<dyn std::error::Error>> {
    let (mut count, mut bytes) = (0, 0);
    let (mut of_limit, mut of_bytes) = Default::default();
    for path in io::stdin().lock().lines() {
        let path = path?;
        if let Ok(text) = fs::read_to_string(&path) {
            let work = work_of(&text)?;
            count += 1;
            bytes += text.len();
            keep(&mut of_limit, work, default_work(text.len()), &path);
            keep(&mut of_bytes, work, text.len().max(1), &path);
        }
    }
    println!("{count} files, {bytes} bytes");
    println!("of the limit at most {:.4}: {}", of_limit.0, of_limit.1);
    println!("for each byte at most {:.4}: {}", of_bytes.0, of_bytes.1);
    Ok(())
}

/// Keeps the greater part, with the file that has it.
fn keep(most: &mut (f64, String), work: usize, whole: usize, path: &str) {
    let part = work as f64 / whole as f64;
    if part > most.0 {
        *most = (part, path.to_string());
    }
}

/// The least limit on the work with which a document has a text.
fn work_of(text: &str) -> Result<usize, Error> {
    let (mut low, mut high) = (0, default_work(text.len()));
    while low < high {
        let middle = low + (high - low) / 2;
        let mut options = MarkdownOptions::default();
        options.max_work = Some(middle);
        match markdown_to_html(text, &options) {
            Ok(_) => high = middle,
            Err(Error::TooMuchWork { .. }) => low = middle + 1,
            Err(other) => return Err(other),
        }
    }
    Ok(low)
}
