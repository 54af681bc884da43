//! Renders comments of untrusted users for one page: each file is a comment.
//!
//!     cargo run --example comments FILE..
//!
//! Each comment has limits, and its own prefixes, so that no two comments share an id of a footnote
//! or of a heading, except `footnote-label`; no search engine follows its links.

use bivdrazo::{markdown_to_html, DocumentHtml, MarkdownOptions};
use std::{env, error, fs};

fn main() -> Result<(), Box<dyn error::Error>> {
    for (number, path) in env::args().skip(1).enumerate() {
        let options = MarkdownOptions::default()
            .with_footnote_prefix(format!("comment-{number}-"))
            .with_number_ids(true)
            .with_rel("nofollow ugc")
            .with_heading_ids(format!("comment-{number}-part-"))
            .with_hard_breaks(true)
            .with_html(DocumentHtml::LeftOut)
            .with_max_input(10_000)
            .with_max_output(100_000)
            .with_max_work(50_000);
        match markdown_to_html(&fs::read_to_string(&path)?, &options) {
            Ok(html) => println!("<article id=\"comment-{number}\">\n{html}</article>"),
            Err(error) => eprintln!("{path}: {error}"),
        }
    }
    Ok(())
}
