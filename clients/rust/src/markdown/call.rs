//! The library's C functions for Markdown.

use super::{default_work, MarkdownOptions};
use crate::errors::error_of;
use crate::ffi::{buffer_of, rendered_of};
use crate::layouts::{
    bivdrazo_front_matter, bivdrazo_markdown_into, bivdrazo_markdown_slugs_into, c_text, CAnswer,
    CMarkdownOptions,
};
use crate::markdown_numbers::{
    MARKDOWN_VERSION, STATUS_INPUT_TOO_LONG, STATUS_OUTPUT_TOO_LONG, STATUS_TOO_MUCH_WORK,
};
use crate::numbers::{STATUS_NO_OPTION, STATUS_OK, STATUS_TOO_SHORT};
use crate::{Error, Rendered, SafeHtml};

/// The value of `max_work` in C for a limit that depends on the length of the Markdown.
const WORK_BY_LENGTH: usize = usize::MAX - 1;

/// As `crate::markdown_to_html`.
pub(super) fn html(text: &str, options: &MarkdownOptions) -> Result<SafeHtml, Error> {
    let (mut whole, end) = whole_of(text, options)?;
    whole.truncate(end);
    let html = String::from_utf8(whole).map_err(|_| Error::Unknown)?;
    Ok(SafeHtml::made(html))
}

/// As `crate::markdown_with_headings`.
pub(super) fn rendered(text: &str, options: &MarkdownOptions) -> Result<Rendered, Error> {
    let (whole, end) = whole_of(text, options)?;
    let prefix = options.heading_ids.as_deref().unwrap_or("");
    rendered_of(whole, end, prefix).ok_or(Error::Unknown)
}

/// The front matter of a document: the text between a line of `---` at its beginning and the next
/// one, without these two lines. With [`front_matter`](MarkdownOptions::front_matter) it isn't
/// printed.
///
/// ```
/// use bivdrazo::front_matter_of;
///
/// assert_eq!(front_matter_of("---\na: b\n---\n# c\n"), Some("a: b\n"));
/// assert_eq!(front_matter_of("# c\n"), None);
/// ```
pub fn front_matter_of(text: &str) -> Option<&str> {
    // SAFETY: the pointer and the length are those of a string.
    let answer = unsafe { bivdrazo_front_matter(text.as_ptr(), text.len()) };
    // Front matter begins after a line, so never at the document's first byte.
    let start = Some(answer.index).filter(|&start| answer.status == STATUS_OK && start > 0)?;
    text.get(start..start.checked_add(answer.length)?)
}

/// Calls the library. Returns the HTML, followed by the list of headings, and where the HTML ends.
/// If the first buffer is too short, there is a second call.
fn whole_of(text: &str, options: &MarkdownOptions) -> Result<(Vec<u8>, usize), Error> {
    let given = c_options(options);
    let into = match options.heading_slugs {
        true => bivdrazo_markdown_slugs_into,
        false => bivdrazo_markdown_into,
    };
    let call = |buffer: &mut Vec<u8>| {
        // SAFETY: the pointers are those of a string, of a struct that refers to strings of the
        // caller, and of a buffer that nothing else refers to; each has its own length and isn't
        // null.
        unsafe {
            into(
                text.as_ptr(),
                text.len(),
                &given,
                buffer.as_mut_ptr(),
                buffer.capacity(),
            )
        }
    };
    let mut buffer = buffer_of(first_size(text.len()))?;
    let mut answer = call(&mut buffer);
    if answer.status == STATUS_TOO_SHORT {
        buffer = buffer_of(answer.length)?;
        answer = call(&mut buffer);
    }
    if answer.status != STATUS_OK || answer.length > buffer.capacity() {
        return Err(error_under(&answer, text.len(), options));
    }
    // SAFETY: under this status the library wrote the buffer's first `length` bytes.
    unsafe { buffer.set_len(answer.length) };
    Ok((buffer, answer.index))
}

/// A first size of the buffer for a document of this length. Of 20,242 documents and paragraphs it
/// was too short for none, and with a `rel` for one.
fn first_size(bytes: usize) -> usize {
    bytes.saturating_mul(2).saturating_add(1024)
}

/// The error for an answer, for a document of this length.
fn error_under(answer: &CAnswer, length: usize, options: &MarkdownOptions) -> Error {
    match answer.status {
        STATUS_INPUT_TOO_LONG => Error::InputTooLong {
            length: answer.length,
            limit: options.max_input.unwrap_or(usize::MAX),
        },
        STATUS_OUTPUT_TOO_LONG => Error::OutputTooLong {
            limit: options.max_output.unwrap_or(usize::MAX),
        },
        STATUS_TOO_MUCH_WORK => Error::TooMuchWork {
            limit: options.max_work.unwrap_or_else(|| default_work(length)),
        },
        STATUS_NO_OPTION => Error::Unknown,
        _ => error_of(answer),
    }
}

/// The options in C; they refer to the texts of `options`.
fn c_options(options: &MarkdownOptions) -> CMarkdownOptions {
    CMarkdownOptions {
        version: MARKDOWN_VERSION,
        number_ids: u8::from(options.number_ids),
        hard_breaks: u8::from(options.hard_breaks),
        bare_links: u8::from(options.bare_links),
        html: options.html.number(),
        math: u8::from(options.math),
        front_matter: u8::from(options.front_matter),
        footnotes: u8::from(options.footnotes),
        tables: u8::from(options.tables),
        unused: [0; 4],
        footnote_prefix: c_text(&options.footnote_prefix),
        footnote_label: c_text(&options.footnote_label),
        footnote_back_label: c_text(&options.footnote_back_label),
        base: c_text(&options.base),
        rel: c_text(&options.rel),
        heading_ids: c_text(&options.heading_ids),
        max_input: options.max_input.unwrap_or(usize::MAX),
        max_output: options.max_output.unwrap_or(usize::MAX),
        max_work: match options.max_work {
            None => WORK_BY_LENGTH,
            Some(WORK_BY_LENGTH) => usize::MAX,
            Some(work) => work,
        },
        max_depth: options.max_depth.unwrap_or(0),
    }
}

#[cfg(test)]
mod tests {
    use super::*;

    #[test]
    fn errors() {
        let options = MarkdownOptions::default()
            .with_max_input(1)
            .with_max_output(2);
        let of = |status, options| {
            let answer = CAnswer {
                status,
                rule: 1,
                index: 0,
                length: 3,
            };
            error_under(&answer, 3, options)
        };
        let too_long = Error::InputTooLong {
            length: 3,
            limit: 1,
        };
        assert_eq!(of(STATUS_INPUT_TOO_LONG, &options), too_long);
        let too_long = Error::OutputTooLong { limit: 2 };
        assert_eq!(of(STATUS_OUTPUT_TOO_LONG, &options), too_long);
        let limit = default_work(3);
        let too_much = Error::TooMuchWork { limit };
        assert_eq!(of(STATUS_TOO_MUCH_WORK, &options), too_much);
        for status in [STATUS_NO_OPTION, 34, 35, 36] {
            assert_eq!(of(status, &options), Error::Unknown);
        }
    }

    #[test]
    fn work() {
        let of = |work| {
            let mut options = MarkdownOptions::default();
            options.max_work = work;
            c_options(&options).max_work
        };
        assert_eq!(of(None), WORK_BY_LENGTH);
        assert_eq!(of(Some(7)), 7);
        assert_eq!(of(Some(usize::MAX - 1)), usize::MAX);
        assert_eq!(of(Some(usize::MAX)), usize::MAX);
    }

    #[test]
    fn depth() {
        let of = |depth| {
            let mut options = MarkdownOptions::default();
            options.max_depth = depth;
            c_options(&options).max_depth
        };
        assert_eq!([of(None), of(Some(0)), of(Some(7))], [0, 0, 7]);
    }
}
