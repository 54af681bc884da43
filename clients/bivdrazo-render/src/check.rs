//! Checking whether files are safe HTML.

use crate::arguments::Arguments;
use crate::failures::{process, Failed, Failure};
use crate::files;
use bivdrazo::SafeHtml;
use std::path::Path;

/// Reads each file as HTML, and returns those that aren't safe or can't be read.
pub fn failed(arguments: &Arguments) -> Vec<Failed> {
    let check = |source: &&Path| process(|| files::name(source), || check(arguments, source)).err();
    arguments.sources().iter().filter_map(check).collect()
}

/// Reads a file, which fails if it isn't safe HTML.
fn check(arguments: &Arguments, source: &Path) -> Result<(), Failure> {
    let text = files::read(files::open(source)?, arguments.max_input)?;
    SafeHtml::from_checked(text)?;
    Ok(())
}
