//! Joins pieces of text and of HTML that a parser reports one by one.

use pulldown_cmark::{CowStr, Event};
use std::borrow::Cow;
use std::iter::Peekable;
use std::ops::Range;

/// A text with the texts that follow it directly in the document, where it ends before `end`.
pub(super) fn whole_text<'a, P>(
    first: CowStr<'a>,
    mut end: usize,
    rest: &mut Peekable<P>,
) -> Cow<'a, str>
where
    P: Iterator<Item = (Event<'a>, Range<usize>)>,
{
    let mut whole = Cow::from(first);
    while let Some((Event::Text(next), range)) =
        rest.next_if(|(event, range)| matches!(event, Event::Text(_)) && range.start == end)
    {
        whole.to_mut().push_str(&next);
        end = range.end;
    }
    whole
}

/// A line of HTML with the lines that follow it, and with the rests of tabs before them.
pub(super) fn whole_html<'a, P>(first: &str, rest: &mut Peekable<P>) -> String
where
    P: Iterator<Item = (Event<'a>, Range<usize>)>,
{
    let mut whole = first.to_string();
    let is_next = |event: &Event| match event {
        Event::Html(_) => true,
        Event::Text(text) => is_spaces(text),
        _ => false,
    };
    while let Some((Event::Html(next) | Event::Text(next), _)) =
        rest.next_if(|(event, _)| is_next(event))
    {
        whole.push_str(&next);
    }
    whole
}

/// Whether a text is the rest of a tab of which some columns are used.
pub(super) fn is_spaces(text: &str) -> bool {
    text.bytes().all(|byte| byte == b' ')
}
