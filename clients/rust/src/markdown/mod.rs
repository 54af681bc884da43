//! The calls that read Markdown by the library's own parser.

mod call;
mod contents;
mod setters;

pub use call::front_matter_of;
pub use contents::contents;
pub(crate) use contents::unescaped;

use crate::markdown_numbers::{
    HTML_KEPT, HTML_KEPT_OR_TEXT, HTML_LEFT_OUT, HTML_TEXT, HTML_WITHOUT_COMMENTS,
};
use crate::{Error, Rendered, SafeHtml};
use std::error;
use std::fmt;
use std::str::FromStr;

/// The default limit on the work: a constant, and an addend for each byte of the document.
const LEAST_WORK: usize = 1 << 20;
const WORK_OF_A_BYTE: usize = 64;

/// How to treat HTML in a document. With the first three choices none of it is HTML in the text.
///
/// It is parsed from `text`, `left-out`, `without-comments`, `kept` or `kept-or-text`, and printed
/// as that.
///
/// ```
/// use bivdrazo::{markdown_to_html, DocumentHtml, MarkdownOptions};
///
/// assert_eq!("left-out".parse(), Ok(DocumentHtml::LeftOut));
/// assert!("other".parse::<DocumentHtml>().is_err());
/// let options = MarkdownOptions::default().with_html(DocumentHtml::Kept);
/// let html = markdown_to_html("H<sub>2</sub>O <b onclick='f()'>a</b> <i>b", &options)?;
/// assert_eq!(html, "<p>H<sub>2</sub>O <b>a</b> b</p>\n");
/// # Ok::<(), bivdrazo::Error>(())
/// ```
#[derive(Clone, Copy, Debug, Default, Eq, Hash, PartialEq)]
#[non_exhaustive]
pub enum DocumentHtml {
    /// Print it as text: `<b>` as `&lt;b&gt;`.
    #[default]
    Text,
    /// Leave it out. The text between two tags stays.
    LeftOut,
    /// Leave out comments, and print the rest as text.
    WithoutComments,
    /// Keep the tags that authors may write, as [`clean`](crate::clean) does, where the content
    /// model allows them, and leave out all other HTML.
    Kept,
    /// Keep these tags, and print the rest as text, without comments.
    KeptOrText,
}

impl DocumentHtml {
    /// All choices.
    const ALL: [DocumentHtml; 5] = [
        DocumentHtml::Text,
        DocumentHtml::LeftOut,
        DocumentHtml::WithoutComments,
        DocumentHtml::Kept,
        DocumentHtml::KeptOrText,
    ];

    /// Its number in C.
    fn number(self) -> u8 {
        match self {
            DocumentHtml::Text => HTML_TEXT,
            DocumentHtml::LeftOut => HTML_LEFT_OUT,
            DocumentHtml::WithoutComments => HTML_WITHOUT_COMMENTS,
            DocumentHtml::Kept => HTML_KEPT,
            DocumentHtml::KeptOrText => HTML_KEPT_OR_TEXT,
        }
    }
}

impl fmt::Display for DocumentHtml {
    fn fmt(&self, formatter: &mut fmt::Formatter) -> fmt::Result {
        formatter.pad(match self {
            DocumentHtml::Text => "text",
            DocumentHtml::LeftOut => "left-out",
            DocumentHtml::WithoutComments => "without-comments",
            DocumentHtml::Kept => "kept",
            DocumentHtml::KeptOrText => "kept-or-text",
        })
    }
}

impl FromStr for DocumentHtml {
    type Err = ParseDocumentHtmlError;

    fn from_str(text: &str) -> Result<DocumentHtml, ParseDocumentHtmlError> {
        let found = DocumentHtml::ALL.into_iter();
        let mut found = found.filter(|choice| choice.to_string() == text);
        found.next().ok_or(ParseDocumentHtmlError(()))
    }
}

/// The error of a text that is no [`DocumentHtml`].
#[derive(Clone, Copy, Debug, Eq, PartialEq)]
pub struct ParseDocumentHtmlError(());

impl fmt::Display for ParseDocumentHtmlError {
    fn fmt(&self, formatter: &mut fmt::Formatter) -> fmt::Result {
        formatter.write_str("expected text, left-out, without-comments, kept or kept-or-text")
    }
}

impl error::Error for ParseDocumentHtmlError {}

/// The options of [`markdown_to_html`]. The text is safe under all of them.
///
/// ```
/// use bivdrazo::{markdown_to_html, MarkdownOptions};
///
/// let options = MarkdownOptions::default().with_hard_breaks(true);
/// assert_eq!(markdown_to_html("a\nb", &options)?, "<p>a<br />\nb</p>\n");
/// # Ok::<(), bivdrazo::Error>(())
/// ```
#[derive(Clone, Debug, Eq, PartialEq)]
#[non_exhaustive]
pub struct MarkdownOptions {
    /// Read math: `$a$`, `$$a$$`, and blocks between lines of `$$`. It is written unchanged, as
    /// code with the class `language-math`.
    pub math: bool,
    /// Leave out front matter between lines of `---`. [`front_matter_of`] returns it.
    pub front_matter: bool,
    /// Read footnotes: `[^a]`, and `[^a]: text`. This is on by default.
    pub footnotes: bool,
    /// Read tables. This is on by default.
    pub tables: bool,
    /// The prefix of the ids of footnotes; by default `user-content-`. Each document of a page
    /// needs a different one.
    pub footnote_prefix: Option<String>,
    /// Use numbers in the ids of footnotes: then no two ids of the text are equal.
    pub number_ids: bool,
    /// The heading of the footnotes; by default `Footnotes`.
    pub footnote_label: Option<String>,
    /// The `aria-label` of the link back from a footnote; by default `Back to content`.
    pub footnote_back_label: Option<String>,
    /// Write a line break, `<br />`, for each soft break of the document.
    pub hard_breaks: bool,
    /// Make links of bare URLs (`https://..`, `www...`) and of addresses. This is on by default.
    pub bare_links: bool,
    /// How to treat HTML in the document.
    pub html: DocumentHtml,
    /// The base URL of relative URLs in links and images (RFC 3986). An empty URL stays as it is,
    /// and so does one that begins with `#`.
    pub base: Option<String>,
    /// The `rel` of each link whose URL isn't empty and doesn't begin with `#`: any text.
    pub rel: Option<String>,
    /// The prefix of the `id` of each heading; its number, from 1, follows. These ids are distinct
    /// from one another, and from all others if no other begins with this prefix. The others are
    /// those of footnotes: `footnote-label`, and those that begin with `footnote_prefix` and `fn`.
    pub heading_ids: Option<String>,
    /// Make the `id` of each heading from its text, nearly as GitHub does: in lower case, with a
    /// hyphen for each space, and only of letters, marks, numbers, connectors and hyphens. If
    /// `heading_ids` is set, each id begins with that. An id that exists already gets a hyphen and
    /// a number: these ids are distinct from one another and from all others, if the others are
    /// distinct, as with `number_ids`.
    pub heading_slugs: bool,
    /// The limit on the length of the document in bytes; by default none.
    pub max_input: Option<usize>,
    /// The limit on the length of the text in bytes; by default none.
    pub max_output: Option<usize>,
    /// The limit on the work: how much there is to read and to print in the parser's events, as
    /// [`Limits`](crate::Limits) counts it; by default [`default_work`]. `usize::MAX` is no limit.
    pub max_work: Option<usize>,
    /// The limit on the number of open nodes: a document that nests deeper is shown as it is
    /// written, as one paragraph. By default, and with 0, there is no limit.
    pub max_depth: Option<usize>,
}

impl Default for MarkdownOptions {
    fn default() -> MarkdownOptions {
        MarkdownOptions {
            math: false,
            front_matter: false,
            footnotes: true,
            tables: true,
            footnote_prefix: None,
            number_ids: false,
            footnote_label: None,
            footnote_back_label: None,
            hard_breaks: false,
            bare_links: true,
            html: DocumentHtml::Text,
            base: None,
            rel: None,
            heading_ids: None,
            heading_slugs: false,
            max_input: None,
            max_output: None,
            max_work: None,
            max_depth: None,
        }
    }
}

/// The default of [`max_work`](MarkdownOptions::max_work) for a document of this length: 2^20, and
/// 64 for each byte.
///
/// ```
/// assert_eq!(bivdrazo::default_work(1000), 1_112_576);
/// ```
pub fn default_work(input_len: usize) -> usize {
    input_len
        .saturating_mul(WORK_OF_A_BYTE)
        .saturating_add(LEAST_WORK)
}

/// Renders a Markdown document, with tables, strikethrough, tasks, footnotes and bare links. A byte
/// order mark at its beginning is ignored.
///
/// # Errors
///
/// [`Error::InputTooLong`], [`Error::OutputTooLong`] and [`Error::TooMuchWork`] if the document
/// exceeds a limit of the options, and [`Error::Memory`] if the library runs out of memory. No
/// document is refused.
///
/// ```
/// use bivdrazo::{markdown_to_html, MarkdownOptions};
///
/// let html = markdown_to_html("**a** <b>", &MarkdownOptions::default())?;
/// assert_eq!(html, "<p><strong>a</strong> &lt;b&gt;</p>\n");
/// # Ok::<(), bivdrazo::Error>(())
/// ```
pub fn markdown_to_html(text: &str, options: &MarkdownOptions) -> Result<SafeHtml, Error> {
    call::html(text, options)
}

/// Renders a document as [`markdown_to_html`] does, and returns also the headings that got an `id`,
/// for a table of contents. There are none without [`heading_ids`](MarkdownOptions::heading_ids) or
/// [`heading_slugs`](MarkdownOptions::heading_slugs).
///
/// # Errors
///
/// The same as for [`markdown_to_html`].
///
/// ```
/// use bivdrazo::{markdown_with_headings, MarkdownOptions};
///
/// let options = MarkdownOptions::default().with_heading_ids("part-");
/// let made = markdown_with_headings("## a *b*", &options)?;
/// assert_eq!(made.html, "<h2 id=\"part-1\">a <em>b</em></h2>\n");
/// let heading = &made.headings[0];
/// assert_eq!((heading.level, heading.number, heading.text.as_str()), (2, 1, "a b"));
/// assert_eq!(heading.id, "part-1");
///
/// let options = MarkdownOptions::default().with_heading_slugs(true);
/// let made = markdown_with_headings("# A *b*\n# a b", &options)?;
/// let ids: Vec<&str> = made.headings.iter().map(|heading| &*heading.id).collect();
/// assert_eq!(ids, ["a-b", "a-b-1"]);
/// # Ok::<(), bivdrazo::Error>(())
/// ```
pub fn markdown_with_headings(text: &str, options: &MarkdownOptions) -> Result<Rendered, Error> {
    call::rendered(text, options)
}

#[cfg(test)]
mod tests;
