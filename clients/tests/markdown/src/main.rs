//! Checks of `markdown_to_html`, and of `events_of`.
//!
//!     bivdrazo-tests compare LIST [--write] < DOCUMENTS
//!         compares `events_of` with pulldown-cmark's own renderer
//!     bivdrazo-tests shapes FOLDER [SIZE]
//!         writes shapes of Markdown that make parsers slow or large
//!     bivdrazo-tests render < MARKDOWN
//!         writes the HTML of `markdown_to_html` for a document
//!     bivdrazo-tests plain < MARKDOWN
//!         writes the HTML of pulldown-cmark's own renderer for it
//!     bivdrazo-tests work < FILES
//!         prints the file with the most work, by the default limit
//!
//! DOCUMENTS are frames: a count of bytes in decimal digits, a line feed, the document. The
//! comparison ends with status 1 for a difference that isn't permitted, another count than LIST
//! has, or a refusal.

mod changes;
mod compare;
mod footnotes;
mod hostile;
mod html_blocks;
mod judge;
mod parts;
mod work;

use std::env;
use std::process::ExitCode;

const USAGE: &str = "usage: bivdrazo-tests compare LIST [--write] | shapes FOLDER [SIZE] | \
                     render | plain | work";

fn main() -> ExitCode {
    let arguments: Vec<String> = env::args().skip(1).collect();
    let arguments: Vec<&str> = arguments.iter().map(String::as_str).collect();
    let is_right = match arguments[..] {
        ["compare", list] => compare::run(list, false),
        ["compare", list, "--write"] => compare::run(list, true),
        ["shapes", folder] => hostile::write(folder, "1048576").map(|()| true),
        ["shapes", folder, size] => hostile::write(folder, size).map(|()| true),
        ["render"] => parts::render().map(|()| true),
        ["plain"] => parts::plain().map(|()| true),
        ["work"] => work::measure().map(|()| true),
        _ => Err(USAGE.into()),
    };
    match is_right {
        Ok(true) => ExitCode::SUCCESS,
        Ok(false) => ExitCode::FAILURE,
        Err(error) => {
            eprintln!("bivdrazo-tests: {error}");
            ExitCode::from(2)
        }
    }
}
