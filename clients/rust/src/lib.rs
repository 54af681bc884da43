//! Markdown to safe HTML: it is proved that the HTML is safe, and that the parser ends for every
//! document and refuses none. That it reads Markdown as GFM says is only tested.
//!
//! ```
//! use bivdrazo::{markdown_to_html, MarkdownOptions};
//!
//! let html = markdown_to_html("**a** <b>", &MarkdownOptions::default())?;
//! assert_eq!(html, "<p><strong>a</strong> &lt;b&gt;</p>\n");
//! # Ok::<(), bivdrazo::Error>(())
//! ```
//!
//! The library also takes the events of any other parser, which reports a document as a list of
//! them: a paragraph begins at byte 0, a text runs from there to byte 6, the paragraph ends.
//! [`compile`] makes HTML from such a list. Nothing is assumed about the events: they are refused,
//! or give a text that, under the default options, has one reading as HTML, in which links and
//! images have no protocol or a permitted one.
//!
//! ```
//! use bivdrazo::{compile, Event, Name, Options};
//!
//! let events = [
//!     Event::enter(Name::Paragraph, 0),
//!     Event::enter(Name::Data, 0),
//!     Event::exit(Name::Data, 6),
//!     Event::exit(Name::Paragraph, 6),
//! ];
//! let html = compile(&events, b"Hi <b>", &Options::default(), &[])?;
//! assert_eq!(html, "<p>Hi &lt;b&gt;</p>");
//! # Ok::<(), bivdrazo::Error>(())
//! ```
//!
//! There is no state between calls: any number of threads may call at once.

#![warn(missing_docs)]

mod cleaning;
mod document;
mod errors;
mod ffi;
mod layouts;
mod markdown;
mod markdown_numbers;
mod numbers;
mod options;
#[cfg(feature = "pulldown-cmark")]
mod pulldown;
mod references;
mod safe;
mod setters;
mod values;

#[cfg(feature = "pulldown-cmark")]
pub use pulldown::events_of;
/// The version of pulldown-cmark whose events [`events_of`] takes.
#[cfg(feature = "pulldown-cmark")]
pub use pulldown_cmark;

pub use cleaning::{clean, CleanOptions, CLEAN_PROTOCOLS, CLEAN_TAGS};
pub use document::Document;
pub use errors::Error;
pub use markdown::{
    contents, default_work, front_matter_of, markdown_to_html, markdown_with_headings,
    DocumentHtml, MarkdownOptions, ParseDocumentHtmlError,
};
pub use numbers::{Name, Rule, VERSION, VERSION_TEXT};
pub use references::REFERENCES;
pub use safe::{is_safe_html, SafeHtml, UnsafeHtml};
pub use values::{Attributes, Event, Heading, Kind, Limits, LineEnding, Options, Rendered};

/// Compiles a list of events over a document's bytes to HTML.
///
/// `names` are the named character references that a document may use, each with its text; of two
/// with the same name the first counts. HTML's are [`REFERENCES`]. The bytes must be UTF-8 only
/// where events refer to them as text.
///
/// # Errors
///
/// [`Error::Refused`] if the events are refused, and [`Error::Memory`].
///
/// ```
/// use bivdrazo::{compile, Error, Event, Name, Options, Rule};
///
/// let open = [Event::enter(Name::Paragraph, 0)];
/// let refused = Error::Refused { index: 1, rule: Rule::Order };
/// assert_eq!(compile(&open, b"", &Options::default(), &[]), Err(refused));
/// ```
pub fn compile(
    events: &[Event],
    bytes: &[u8],
    options: &Options,
    names: &[(&str, &str)],
) -> Result<String, Error> {
    ffi::compile(events, bytes, options, names)
}

/// Compiles events as [`compile`] does, under safe options and without a link in a link: then the
/// HTML Standard's tree construction builds the tree of the text's reading.
///
/// Autolinks, except literal ones, and calls of footnotes are links too; a link in an image doesn't
/// count.
///
/// # Errors
///
/// Those of [`compile`], [`Error::Nested`] for a link in a link, and [`Error::Unsafe`] if the
/// options aren't safe.
///
/// ```
/// use bivdrazo::{compile_unnested, Error, Event, Name, Options};
///
/// let events = [Event::enter(Name::Data, 0), Event::exit(Name::Data, 6)];
/// let html = compile_unnested(&events, b"Hi <b>", &Options::default(), &[])?;
/// assert_eq!(html, "Hi &lt;b&gt;");
/// let options = Options::default().with_allow_any_img_src(true);
/// assert_eq!(compile_unnested(&events, b"Hi <b>", &options, &[]), Err(Error::Unsafe));
/// # Ok::<(), Error>(())
/// ```
pub fn compile_unnested(
    events: &[Event],
    bytes: &[u8],
    options: &Options,
    names: &[(&str, &str)],
) -> Result<SafeHtml, Error> {
    ffi::compile_unnested(events, bytes, options, names).map(SafeHtml::made)
}

/// Whether the events of a document have a link in a link. Nothing is compiled.
///
/// Links are those that [`compile_unnested`] counts.
///
/// # Errors
///
/// [`Error::Memory`].
///
/// ```
/// use bivdrazo::{has_nested_link, Event, Name};
///
/// let events = [Event::enter(Name::Link, 0), Event::exit(Name::Link, 0)];
/// assert_eq!(has_nested_link(&events), Ok(false));
/// ```
pub fn has_nested_link(events: &[Event]) -> Result<bool, Error> {
    ffi::has_nested_link(events)
}

/// Compiles events as [`compile`] does, within limits on the text, the work and the nesting.
///
/// # Errors
///
/// Those of [`compile`]. Unless the library runs out of memory: [`Error::TooDeep`] if the events
/// nest too deep, and otherwise [`Error::TooMuchWork`] if there is too much work; both even if the
/// events aren't a document's. For a document's events [`Error::OutputTooLong`] if the text is too
/// long.
///
/// ```
/// use bivdrazo::{compile_within, Error, Event, Limits, Name, Options};
///
/// let events = [
///     Event::enter(Name::Data, 0),
///     Event::exit(Name::Data, 6),
/// ];
/// let within = |text, work| {
///     let limits = Limits::default().with_text(text).with_work(work);
///     compile_within(&events, b"Hi <b>", &Options::default(), &[], limits)
/// };
/// assert_eq!(within(12, 6)?, "Hi &lt;b&gt;");
/// assert_eq!(within(11, 6), Err(Error::OutputTooLong { limit: 11 }));
/// assert_eq!(within(12, 5), Err(Error::TooMuchWork { limit: 5 }));
/// let nested = [Event::enter(Name::BlockQuote, 0); 3];
/// let limits = Limits::default().with_depth(2);
/// let refused = compile_within(&nested, b"", &Options::default(), &[], limits);
/// assert_eq!(refused, Err(Error::TooDeep { limit: 2 }));
/// # Ok::<(), Error>(())
/// ```
pub fn compile_within(
    events: &[Event],
    bytes: &[u8],
    options: &Options,
    names: &[(&str, &str)],
    limits: Limits,
) -> Result<String, Error> {
    ffi::compile_within(events, bytes, options, names, limits)
}

/// Compiles events as [`compile`] does, adds attributes to the tags of the text, and returns also
/// the headings that got an `id`.
///
/// # Errors
///
/// Those of [`compile`], and [`Error::Unsafe`] if the options aren't safe.
///
/// ```
/// use bivdrazo::{compile_attributed, Attributes, Event, Name, Options};
///
/// let events = [
///     Event::enter(Name::HeadingAtx, 0),
///     Event::enter(Name::HeadingAtxSequence, 0),
///     Event::exit(Name::HeadingAtxSequence, 1),
///     Event::enter(Name::HeadingAtxText, 2),
///     Event::enter(Name::Data, 2),
///     Event::exit(Name::Data, 3),
///     Event::exit(Name::HeadingAtxText, 3),
///     Event::exit(Name::HeadingAtx, 3),
/// ];
/// let attributes = Attributes::default().with_heading_ids("part-");
/// let made = compile_attributed(&events, b"# a", &Options::default(), &[], &attributes)?;
/// assert_eq!(made.html, "<h1 id=\"part-1\">a</h1>");
/// assert_eq!((made.headings[0].level, made.headings[0].text.as_str()), (1, "a"));
/// # Ok::<(), bivdrazo::Error>(())
/// ```
pub fn compile_attributed(
    events: &[Event],
    bytes: &[u8],
    options: &Options,
    names: &[(&str, &str)],
    attributes: &Attributes,
) -> Result<Rendered, Error> {
    let limits = Limits::default();
    ffi::compile_attributed(events, bytes, options, names, attributes, limits)
}

/// Compiles an event script: lines of options and events, a line `--`, the document. The script
/// sets its own options, so the HTML may be unsafe.
///
/// # Errors
///
/// [`Error::Line`] if a line can't be read, [`Error::Refused`] if the events are refused, and
/// [`Error::Memory`].
///
/// ```
/// let script = b"+ThematicBreak 0\n-ThematicBreak 3\n--\n***";
/// assert_eq!(bivdrazo::run(script), Ok("<hr />".to_string()));
/// assert_eq!(bivdrazo::run(b""), Err(bivdrazo::Error::Line(1)));
/// ```
pub fn run(script: &[u8]) -> Result<String, Error> {
    ffi::run(script)
}

/// The number of the library's interface, which must be [`VERSION`].
///
/// ```
/// assert_eq!(bivdrazo::library_version(), bivdrazo::VERSION);
/// ```
pub fn library_version() -> u32 {
    ffi::version()
}

/// So that the page's example is run.
#[cfg(doctest)]
#[doc = include_str!("../README.md")]
struct Readme;

#[cfg(test)]
mod tests;
