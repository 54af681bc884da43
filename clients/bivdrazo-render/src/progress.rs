//! A progress bar for many files, on a terminal.

use indicatif::{ProgressBar, ProgressStyle};
use std::env;

/// A bar on standard error for this number of files. It is drawn only for several files, and only
/// if standard error is a terminal that can rewrite a line.
pub fn bar(files: usize) -> ProgressBar {
    let is_plain = env::var_os("TERM").map_or(true, |term| term.is_empty() || term == "dumb");
    if files < 2 || is_plain {
        return ProgressBar::hidden();
    }
    let bar = ProgressBar::new(files as u64);
    match ProgressStyle::with_template("{bar:40} {pos} of {len} files") {
        Ok(style) => bar.with_style(style),
        Err(_) => bar,
    }
}
