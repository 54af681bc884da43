//! Renders documents by one way:
//!
//!     bivdrazo-speed bivdrazo|pulldown-cmark|ammonia|bivdrazo-clean|ammonia-clean
//!
//! Reads frames from standard input: a count of bytes in decimal digits, a line feed, the document.
//! What `ammonia` cleans is what pulldown-cmark makes; the last two ways clean HTML.

use bivdrazo::{clean, markdown_to_html, CleanOptions, MarkdownOptions};
use pulldown_cmark::{html, Options, Parser};
use std::env;
use std::error::Error;
use std::io::{self, BufWriter, Read, Write};

fn main() -> Result<(), Box<dyn Error>> {
    let way = env::args().nth(1).unwrap_or_default();
    let options = MarkdownOptions::default();
    let render = |document: &str| -> Result<String, Box<dyn Error>> {
        match &way[..] {
            "bivdrazo" => Ok(markdown_to_html(document, &options)?.into_string()),
            "pulldown-cmark" => Ok(plain(document)),
            "ammonia" => Ok(ammonia::clean(&plain(document))),
            "bivdrazo-clean" => Ok(clean(document, &CleanOptions::default())?.into_string()),
            "ammonia-clean" => Ok(ammonia::clean(document)),
            _ => Err("bivdrazo-speed: there is no such way".into()),
        }
    };
    let mut frames = String::new();
    io::stdin().read_to_string(&mut frames)?;
    let mut output = BufWriter::new(io::stdout());
    let mut rest = &frames[..];
    while let Some((count, documents)) = rest.split_once('\n') {
        let (document, more) = documents.split_at(count.parse()?);
        output.write_all(render(document)?.as_bytes())?;
        rest = more;
    }
    Ok(output.flush()?)
}

/// What pulldown-cmark's own renderer makes of a document.
fn plain(document: &str) -> String {
    let options = Options::ENABLE_TABLES
        | Options::ENABLE_FOOTNOTES
        | Options::ENABLE_STRIKETHROUGH
        | Options::ENABLE_TASKLISTS;
    let mut text = String::new();
    html::push_html(&mut text, Parser::new_ext(document, options));
    text
}
