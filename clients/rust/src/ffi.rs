//! The calls of the library's C functions.

use crate::errors::{error_of, error_within};
use crate::layouts::{
    bivdrazo_compile, bivdrazo_compile_attributed, bivdrazo_compile_unnested,
    bivdrazo_compile_within, bivdrazo_has_nested_link, bivdrazo_is_safe_html, bivdrazo_run,
    bivdrazo_version, c_event, c_reference, c_text, CAnswer, CAttributes, CLimits,
};
use crate::markdown::unescaped;
use crate::numbers::{STATUS_NESTED, STATUS_OK, STATUS_TOO_SHORT};
use crate::options::c_options;
use crate::{Attributes, Error, Event, Heading, Limits, Options, Rendered, SafeHtml};
use std::str;

/// As `crate::compile`.
pub(crate) fn compile(
    events: &[Event],
    bytes: &[u8],
    options: &Options,
    names: &[(&str, &str)],
) -> Result<String, Error> {
    let events = collect(events.iter().map(c_event))?;
    let names = collect(names.iter().map(c_reference))?;
    let options = c_options(options);
    let room = first_size(events.len(), bytes.len());
    into_text(room, Limits::default(), |buffer| {
        // SAFETY: the pointers are those of slices, of a struct that refers to strings of the
        // caller, and of a buffer that nothing else refers to; each has its own length and isn't
        // null.
        unsafe {
            bivdrazo_compile(
                events.as_ptr(),
                events.len(),
                bytes.as_ptr(),
                bytes.len(),
                &options,
                names.as_ptr(),
                names.len(),
                buffer.as_mut_ptr(),
                buffer.capacity(),
            )
        }
    })
}

/// As `crate::compile_unnested`.
pub(crate) fn compile_unnested(
    events: &[Event],
    bytes: &[u8],
    options: &Options,
    names: &[(&str, &str)],
) -> Result<String, Error> {
    let events = collect(events.iter().map(c_event))?;
    let names = collect(names.iter().map(c_reference))?;
    let options = c_options(options);
    let room = first_size(events.len(), bytes.len());
    into_text(room, Limits::default(), |buffer| {
        // SAFETY: as of the call in `compile`.
        unsafe {
            bivdrazo_compile_unnested(
                events.as_ptr(),
                events.len(),
                bytes.as_ptr(),
                bytes.len(),
                &options,
                names.as_ptr(),
                names.len(),
                buffer.as_mut_ptr(),
                buffer.capacity(),
            )
        }
    })
}

/// As `crate::has_nested_link`.
pub(crate) fn has_nested_link(events: &[Event]) -> Result<bool, Error> {
    let events = collect(events.iter().map(c_event))?;
    // SAFETY: the pointer is that of a vector, goes with its length and isn't null.
    let answer = unsafe { bivdrazo_has_nested_link(events.as_ptr(), events.len()) };
    match answer.status {
        STATUS_OK => Ok(false),
        STATUS_NESTED => Ok(true),
        _ => Err(error_of(&answer)),
    }
}

/// As `crate::is_safe_html`.
pub(crate) fn is_safe_html(text: &str) -> bool {
    // SAFETY: the pointer and the length are those of a string.
    unsafe { bivdrazo_is_safe_html(text.as_ptr(), text.len()) == 1 }
}

/// As `crate::compile_within`.
pub(crate) fn compile_within(
    events: &[Event],
    bytes: &[u8],
    options: &Options,
    names: &[(&str, &str)],
    limits: Limits,
) -> Result<String, Error> {
    let events = collect(events.iter().map(c_event))?;
    let names = collect(names.iter().map(c_reference))?;
    let options = c_options(options);
    let c_limits = CLimits {
        text: limits.text,
        work: limits.work,
        depth: limits.depth,
    };
    let room = first_size(events.len(), bytes.len());
    into_text(room, limits, |buffer| {
        // SAFETY: the pointers are those of slices, of structs of which one refers to strings of
        // the caller's, and of a buffer that nothing else refers to; each goes with its own length
        // and isn't null.
        unsafe {
            bivdrazo_compile_within(
                events.as_ptr(),
                events.len(),
                bytes.as_ptr(),
                bytes.len(),
                &options,
                names.as_ptr(),
                names.len(),
                &c_limits,
                buffer.as_mut_ptr(),
                buffer.capacity(),
            )
        }
    })
}

/// As `crate::compile_attributed`, within limits. If there are any, the text without attributes is
/// made first, within them; a text with attributes is never shorter.
pub(crate) fn compile_attributed(
    events: &[Event],
    bytes: &[u8],
    options: &Options,
    names: &[(&str, &str)],
    attributes: &Attributes,
    limits: Limits,
) -> Result<Rendered, Error> {
    if limits != Limits::default() {
        compile_within(events, bytes, options, names, limits)?;
    }
    let events = collect(events.iter().map(c_event))?;
    let names = collect(names.iter().map(c_reference))?;
    let options = c_options(options);
    let prefix = attributes.heading_ids.as_deref().unwrap_or("");
    let attributes = CAttributes {
        rel: c_text(&attributes.rel),
        heading_ids: c_text(&attributes.heading_ids),
    };
    let room = first_size(events.len(), bytes.len());
    let call = |buffer: &mut Vec<u8>| {
        // SAFETY: the pointers are those of slices, of structs that refer to strings of the
        // caller's, and of a buffer that nothing else refers to; each goes with its own
        // length and isn't null.
        unsafe {
            bivdrazo_compile_attributed(
                events.as_ptr(),
                events.len(),
                bytes.as_ptr(),
                bytes.len(),
                &options,
                names.as_ptr(),
                names.len(),
                &attributes,
                buffer.as_mut_ptr(),
                buffer.capacity(),
            )
        }
    };
    let (whole, start) = into_bytes(room, limits, |answer| answer.index, call)?;
    rendered_of(whole, start, prefix).ok_or(Error::Unknown)
}

/// A text up to that byte, followed by the list of its headings, with a NUL before each. Their ids
/// follow, with a NUL and `#` before each; otherwise the ids are that prefix and a number.
pub(crate) fn rendered_of(mut whole: Vec<u8>, start: usize, prefix: &str) -> Option<Rendered> {
    let list = str::from_utf8(whole.get(start..)?).ok()?;
    let (ids, lines): (Vec<&str>, Vec<&str>) = list
        .split('\0')
        .skip(1)
        .partition(|line| line.starts_with('#'));
    let headings = lines.iter().enumerate().map(|(index, line)| {
        let id = ids.get(index).map(|id| unescaped(&id[1..]));
        heading_of(line, id, prefix)
    });
    let headings = headings.collect::<Option<_>>()?;
    whole.truncate(start);
    let html = SafeHtml::made(String::from_utf8(whole).ok()?);
    Some(Rendered { html, headings })
}

/// A heading: its level, a space, its number, a space, and its text.
fn heading_of(line: &str, id: Option<String>, prefix: &str) -> Option<Heading> {
    let (level, rest) = line.split_once(' ')?;
    let (number, text) = rest.split_once(' ')?;
    Some(Heading {
        level: level.parse().ok()?,
        number: number.parse().ok()?,
        text: SafeHtml::made(text.to_string()),
        id: id.unwrap_or_else(|| format!("{prefix}{number}")),
    })
}

/// As `crate::run`.
pub(crate) fn run(script: &[u8]) -> Result<String, Error> {
    into_text(first_size(0, script.len()), Limits::default(), |buffer| {
        // SAFETY: the pointers are those of a slice and of a buffer that nothing else refers to,
        // with their lengths.
        unsafe {
            bivdrazo_run(
                script.as_ptr(),
                script.len(),
                buffer.as_mut_ptr(),
                buffer.capacity(),
            )
        }
    })
}

/// As `crate::library_version`.
pub(crate) fn version() -> u32 {
    // SAFETY: the call takes nothing and reads nothing.
    unsafe { bivdrazo_version() }
}

/// A first size of the buffer that most texts fit into.
pub(crate) fn first_size(events: usize, bytes: usize) -> usize {
    events
        .saturating_mul(8)
        .saturating_add(bytes.saturating_mul(2))
        .saturating_add(64)
}

/// The text that a call writes into a buffer, within the limit on its length.
fn into_text(
    room: usize,
    limits: Limits,
    call: impl Fn(&mut Vec<u8>) -> CAnswer,
) -> Result<String, Error> {
    let (text, _) = into_bytes(room, limits, |answer| answer.length, call)?;
    String::from_utf8(text).map_err(|_| Error::Unknown)
}

/// The bytes that a call writes into a buffer, with a second call if the first buffer is too short;
/// and the length that `measure` returns for the answer, which is within the limit.
fn into_bytes(
    room: usize,
    limits: Limits,
    measure: impl Fn(&CAnswer) -> usize,
    call: impl Fn(&mut Vec<u8>) -> CAnswer,
) -> Result<(Vec<u8>, usize), Error> {
    let limit = limits.text;
    let mut buffer = buffer_of(room.min(limit))?;
    let mut answer = call(&mut buffer);
    if matches!(answer.status, STATUS_OK | STATUS_TOO_SHORT) && measure(&answer) > limit {
        return Err(Error::OutputTooLong { limit });
    }
    if answer.status == STATUS_TOO_SHORT {
        buffer = buffer_of(answer.length)?;
        answer = call(&mut buffer);
    }
    if answer.status != STATUS_OK || answer.length > buffer.capacity() {
        return Err(error_within(&answer, limits));
    }
    // SAFETY: under this status the library wrote the buffer's first `length` bytes.
    unsafe { buffer.set_len(answer.length) };
    Ok((buffer, measure(&answer)))
}

/// An empty buffer with room for this number of bytes.
pub(crate) fn buffer_of(room: usize) -> Result<Vec<u8>, Error> {
    let mut buffer = Vec::new();
    buffer.try_reserve_exact(room).map_err(|_| Error::Memory)?;
    Ok(buffer)
}

/// The elements in a vector, unless memory runs out.
fn collect<T>(elements: impl ExactSizeIterator<Item = T>) -> Result<Vec<T>, Error> {
    let mut collected = Vec::new();
    collected
        .try_reserve_exact(elements.len())
        .map_err(|_| Error::Memory)?;
    collected.extend(elements);
    Ok(collected)
}
