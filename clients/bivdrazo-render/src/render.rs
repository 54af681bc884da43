//! Rendering a document: from a file to a page.

use crate::arguments::{Arguments, ParserName};
use crate::failures::Failure;
use crate::front::{front_matter, Front};
use crate::nav::Ways;
use crate::page::{escaped, Page, Parts};
use crate::parser::{self, ParserError};
use crate::{files, text};
use bivdrazo::{clean, contents, markdown_with_headings, Attributes, Error, Heading};
use std::borrow::Cow;
use std::io;
use std::path::Path;

/// A document that was read.
pub struct Read {
    /// Its HTML.
    pub html: String,
    /// Its headings with an id.
    headings: Vec<Heading>,
    /// Its front matter.
    pub front: Front,
}

/// Reads and compiles a document, with the chosen parser.
pub fn read(arguments: &Arguments, source: impl io::Read) -> Result<Read, Failure> {
    let text = files::read(source, arguments.max_input)?;
    if arguments.clean_html {
        return Ok(Read {
            html: clean(&text, &arguments.clean_options())?.into_string(),
            headings: Vec::new(),
            front: Front::default(),
        });
    }
    let front = match arguments.has_front_matter() {
        true => front_matter(&text),
        false => Front::default(),
    };
    let rest = &text[front.end..];
    let (html, headings) = match arguments.parser {
        ParserName::Bivdrazo => {
            let made = markdown_with_headings(rest, &arguments.options())?;
            (made.html.into_string(), made.headings)
        }
        ParserName::CmarkGfm => (by_cmark_gfm(arguments, rest.to_string())?, Vec::new()),
    };
    Ok(Read {
        html,
        headings,
        front,
    })
}

/// The HTML of a document that cmark-gfm's parser reads.
fn by_cmark_gfm(arguments: &Arguments, text: String) -> Result<String, Failure> {
    let limits = arguments.limits(text.len());
    let document = parser::events_of(text, arguments.parser_limits())?;
    let (options, attributes) = (arguments.library_options(), arguments.attributes());
    let made = match attributes == Attributes::default() {
        true => document.compile_within(&options, limits),
        false => document
            .compile_attributed(&options, &attributes, limits)
            .map(|made| made.html.into_string()),
    };
    made.map_err(|error| match error {
        Error::Refused { .. } => ParserError::Refused(error).into(),
        _ => error.into(),
    })
}

impl Read {
    /// Replaces the URLs of links and images for which `made` returns another one.
    pub fn with_urls(
        self,
        arguments: &Arguments,
        made: impl FnMut(&str) -> Option<String>,
    ) -> Result<Read, Error> {
        let html = match text::with_urls(&self.html, made) {
            Cow::Borrowed(_) => return Ok(self),
            Cow::Owned(html) => html,
        };
        match arguments.max_output {
            Some(limit) if html.len() > limit => Err(Error::OutputTooLong { limit }),
            _ => Ok(Read { html, ..self }),
        }
    }

    /// Writes the document's page, to standard output without a target.
    pub fn write(
        &self,
        arguments: &Arguments,
        page: &Page,
        source: &Path,
        target: Option<&Path>,
    ) -> Result<(), Failure> {
        let title = match page.has_title {
            true => self.title(arguments, source)?,
            false => String::new(),
        };
        let toc = match page.has_toc {
            true => self.contents(arguments)?,
            false => String::new(),
        };
        let ways = Ways::default();
        let texts = page.around(&Parts {
            title: &title,
            toc: &toc,
            content: &self.html,
            has_h1: true,
            ways: &ways,
        });
        match target {
            Some(target) => files::write(target, &texts, arguments.out_dir.is_none())
                .map_err(|error| format!("{}: {error}", target.display()).into()),
            None => print(&texts),
        }
    }

    /// The table of contents; empty without headings.
    pub fn contents(&self, arguments: &Arguments) -> Result<String, Error> {
        let depth = arguments.toc_depth();
        let is_shown = |heading: &&Heading| heading.level <= depth;
        let made = match self.headings.iter().all(|heading| is_shown(&heading)) {
            true => contents(&self.headings)?,
            false => {
                let shown: Vec<Heading> = self.headings.iter().filter(is_shown).cloned().collect();
                contents(&shown)?
            }
        };
        Ok(made.into_string())
    }

    /// The ids of the text, to which a fragment of a URL can refer.
    pub fn ids(&self) -> impl Iterator<Item = Cow<'_, str>> {
        text::ids(&self.html)
    }

    /// The title of the document's page, escaped.
    fn title(&self, arguments: &Arguments, source: &Path) -> Result<String, Error> {
        match (&self.front.title, &arguments.page) {
            (None, Some(given)) => escaped(given),
            _ => self.own_title(source),
        }
    }

    /// The title that the document gives itself, escaped: that of the front matter, of the first
    /// heading, or its name.
    pub fn own_title(&self, source: &Path) -> Result<String, Error> {
        if let Some(title) = &self.front.title {
            return escaped(title);
        }
        match text::heading(&self.html) {
            Some(heading) => Ok(heading),
            None => escaped(&source.file_stem().unwrap_or_default().to_string_lossy()),
        }
    }
}

/// Writes texts to standard output, one after another.
pub fn print(texts: &[&str]) -> Result<(), Failure> {
    files::print(texts).map_err(|error| format!("standard output: {error}").into())
}
