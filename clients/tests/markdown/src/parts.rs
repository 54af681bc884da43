//! Renders one document, as a separate program whose time and memory can be measured.

use crate::judge;
use bivdrazo::{markdown_to_html, MarkdownOptions};
use pulldown_cmark::{html, Parser};
use std::error::Error;
use std::io::{self, Read, Write};

/// Writes the HTML of `markdown_to_html` for the document on standard input.
pub fn render() -> Result<(), Box<dyn Error>> {
    write(&markdown_to_html(&read()?, &MarkdownOptions::default())?)
}

/// Writes the HTML of pulldown-cmark's own renderer for the document on standard input.
pub fn plain() -> Result<(), Box<dyn Error>> {
    let document = read()?;
    let mut text = String::new();
    html::push_html(&mut text, Parser::new_ext(&document, judge::options()));
    write(&text)
}

fn read() -> io::Result<String> {
    let mut document = String::new();
    io::stdin().read_to_string(&mut document)?;
    Ok(document)
}

fn write(text: &str) -> Result<(), Box<dyn Error>> {
    Ok(io::stdout().write_all(text.as_bytes())?)
}
