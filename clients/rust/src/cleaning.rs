//! Safe HTML from any HTML.

use crate::errors::error_of;
use crate::ffi::buffer_of;
use crate::layouts::{bivdrazo_clean_into, c_text, CAnswer, CCleanOptions};
use crate::markdown_numbers::{MARKDOWN_VERSION, STATUS_INPUT_TOO_LONG, STATUS_OUTPUT_TOO_LONG};
use crate::numbers::{STATUS_NO_OPTION, STATUS_OK, STATUS_TOO_SHORT};
use crate::setters::setters;
use crate::{Error, SafeHtml};

/// The names of the elements that [`clean`] may keep.
pub const CLEAN_TAGS: [&str; 48] = [
    "a",
    "abbr",
    "b",
    "blockquote",
    "br",
    "cite",
    "code",
    "del",
    "details",
    "dfn",
    "div",
    "em",
    "figcaption",
    "figure",
    "h1",
    "h2",
    "h3",
    "h4",
    "h5",
    "h6",
    "hr",
    "i",
    "img",
    "ins",
    "kbd",
    "li",
    "mark",
    "ol",
    "p",
    "pre",
    "q",
    "s",
    "samp",
    "small",
    "span",
    "strong",
    "sub",
    "summary",
    "sup",
    "table",
    "tbody",
    "td",
    "tfoot",
    "th",
    "thead",
    "tr",
    "u",
    "ul",
];

/// The protocols that [`clean`] may leave in URLs.
pub const CLEAN_PROTOCOLS: [&str; 6] = ["http", "https", "irc", "ircs", "mailto", "xmpp"];

/// The options of [`clean`]. The text is safe under all of them.
///
/// ```
/// use bivdrazo::{clean, CleanOptions};
///
/// let options = CleanOptions::default().with_tags(["p", "ul"]);
/// let html = clean("<ul><li><b>one</b></ul>", &options)?;
/// assert_eq!(html, "<ul><li>one</li></ul>");
/// # Ok::<(), bivdrazo::Error>(())
/// ```
#[derive(Clone, Debug, Default, Eq, PartialEq)]
#[non_exhaustive]
pub struct CleanOptions {
    /// The names of the elements that stay, with a space between two, some of [`CLEAN_TAGS`]; by
    /// default all of them. `table` brings the elements that a table needs, `ul` and `ol` bring
    /// `li`, and `pre` brings `code`. The text of an element that doesn't stay does.
    pub tags: Option<String>,
    /// The protocols that URLs may have, with a space between two, some of [`CLEAN_PROTOCOLS`]; by
    /// default all of them. Images have `http` and `https` at most. A URL without a protocol stays.
    pub protocols: Option<String>,
    /// The limit on the length of the input in bytes; by default none.
    pub max_input: Option<usize>,
    /// The limit on the length of the text in bytes; by default none.
    pub max_output: Option<usize>,
}

setters! { CleanOptions:
    with_tags(tags: impl IntoIterator<Item = impl AsRef<str>>) = Some(joined(tags));
    with_protocols(protocols: impl IntoIterator<Item = impl AsRef<str>>) =
        Some(joined(protocols));
    with_max_input(max_input: usize) = Some(max_input);
    with_max_output(max_output: usize) = Some(max_output);
}

/// Names with a space between two.
fn joined(names: impl IntoIterator<Item = impl AsRef<str>>) -> String {
    let mut text = String::new();
    for name in names {
        if !text.is_empty() {
            text.push(' ');
        }
        text.push_str(name.as_ref());
    }
    text
}

/// Makes safe HTML of any HTML: what is listed of its elements and attributes stays, the rest is
/// left out, and text stays, except for that of `script`, `style` and others.
///
/// [`is_safe_html`](crate::is_safe_html) is true of the text, whatever `html` is.
///
/// # Errors
///
/// [`Error::InputTooLong`] and [`Error::OutputTooLong`] if a length exceeds a limit of the options,
/// [`Error::CleanName`] for a name that isn't in [`CLEAN_TAGS`] or [`CLEAN_PROTOCOLS`], and
/// [`Error::Memory`] if the library runs out of memory.
///
/// ```
/// use bivdrazo::{clean, CleanOptions};
///
/// let html = clean("<p onclick=f()>one<script>f()</script><p>two", &CleanOptions::default())?;
/// assert_eq!(html, "<p>one</p><p>two</p>");
/// # Ok::<(), bivdrazo::Error>(())
/// ```
pub fn clean(html: &str, options: &CleanOptions) -> Result<SafeHtml, Error> {
    let given = CCleanOptions {
        version: MARKDOWN_VERSION,
        unused: [0; 4],
        tags: c_text(&options.tags),
        protocols: c_text(&options.protocols),
        max_input: options.max_input.unwrap_or(usize::MAX),
        max_output: options.max_output.unwrap_or(usize::MAX),
    };
    let call = |buffer: &mut Vec<u8>| {
        // SAFETY: the pointers are those of a string, of a struct that refers to strings of the
        // caller, and of a buffer that nothing else refers to; each has its own length and isn't
        // null.
        unsafe {
            bivdrazo_clean_into(
                html.as_ptr(),
                html.len(),
                &given,
                buffer.as_mut_ptr(),
                buffer.capacity(),
            )
        }
    };
    let mut buffer = buffer_of(html.len().saturating_mul(2).saturating_add(1024))?;
    let mut answer = call(&mut buffer);
    if answer.status == STATUS_TOO_SHORT {
        buffer = buffer_of(answer.length)?;
        answer = call(&mut buffer);
    }
    if answer.status != STATUS_OK || answer.length > buffer.capacity() {
        return Err(error_under(&answer, options));
    }
    // SAFETY: under this status the library wrote the buffer's first `length` bytes.
    unsafe { buffer.set_len(answer.length) };
    let text = String::from_utf8(buffer).map_err(|_| Error::Unknown)?;
    Ok(SafeHtml::made(text))
}

/// The error for an answer.
fn error_under(answer: &CAnswer, options: &CleanOptions) -> Error {
    match answer.status {
        STATUS_INPUT_TOO_LONG => Error::InputTooLong {
            length: answer.length,
            limit: options.max_input.unwrap_or(usize::MAX),
        },
        STATUS_OUTPUT_TOO_LONG => Error::OutputTooLong {
            limit: options.max_output.unwrap_or(usize::MAX),
        },
        STATUS_NO_OPTION => Error::CleanName {
            is_protocol: answer.index == 1,
        },
        _ => error_of(answer),
    }
}
