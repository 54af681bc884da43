//! The events of a Markdown document as an event script, which mdevents reads: what the
//! library is handed.
//!
//!     cargo run --example events < MARKDOWN

use bivdrazo::pulldown_cmark::{Options, Parser};
use bivdrazo::{events_of, Kind, Name};
use std::io::{self, BufWriter, Read, Write};

fn main() -> io::Result<()> {
    let mut markdown = String::new();
    io::stdin().read_to_string(&mut markdown)?;
    let options = Options::ENABLE_TABLES
        | Options::ENABLE_FOOTNOTES
        | Options::ENABLE_STRIKETHROUGH
        | Options::ENABLE_TASKLISTS;
    let document = events_of(Parser::new_ext(&markdown, options).into_offset_iter());
    let mut script = BufWriter::new(io::stdout().lock());
    for event in &document.events {
        let sign = if event.kind == Kind::Enter { '+' } else { '-' };
        match event.name {
            Name::Other(number) => writeln!(script, "{sign}Other{number} {}", event.index)?,
            name => writeln!(script, "{sign}{name:?} {}", event.index)?,
        }
    }
    script.write_all(b"--\n")?;
    script.write_all(&document.bytes)?;
    script.flush()
}
