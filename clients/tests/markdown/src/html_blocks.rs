//! HTML as text, and spans that end before blocks, in the events of pulldown-cmark.

use crate::judge::{Events, NEEDED};
use pulldown_cmark::{Event, Tag};

/// HTML of the document becomes text. A block of it begins a line, and has no line endings at its
/// end but one.
pub fn changed_html(events: Events) -> Events {
    let mut changed = Events::new();
    let mut open = Vec::new();
    let mut events = events.into_iter().peekable();
    while let Some(event) = events.next() {
        let is_between = is_between_blocks(changed.last());
        let mut whole = match event {
            Event::Html(html) => html.to_string(),
            Event::Text(text) if is_between && is_left_of_tab(&text, events.peek()) => {
                text.to_string()
            }
            other => {
                keep_open(&mut open, &other);
                changed.push(other);
                continue;
            }
        };
        if is_block(open.last(), &whole, events.peek()) {
            while let Some(Event::Html(next) | Event::Text(next)) = events.next_if(is_more_html) {
                whole.push_str(&next);
            }
            whole.truncate(whole.trim_end_matches(['\r', '\n']).len());
            whole = format!("{NEEDED}{whole}\n");
        }
        changed.push(Event::Text(whole.into()));
    }
    changed
}

/// A tag that is open; of an item, whether its list is known to be loose.
struct Open {
    is_flow: bool,
    is_item: bool,
    is_loose: bool,
}

/// Keeps the tags that are open. A list is loose where an item of it holds a paragraph.
fn keep_open(open: &mut Vec<Open>, event: &Event) {
    match event {
        Event::Start(tag) => {
            if let ([.., list, item], Tag::Paragraph) = (&mut open[..], tag) {
                list.is_loose |= item.is_item;
                item.is_loose |= item.is_item;
            }
            let is_item = matches!(tag, Tag::Item);
            let is_flow = matches!(tag, Tag::BlockQuote | Tag::FootnoteDefinition(_));
            let is_loose = is_item && open.last().map_or(false, |list| list.is_loose);
            open.push(Open {
                is_flow,
                is_item,
                is_loose,
            });
        }
        Event::End(_) => drop(open.pop()),
        _ => {}
    }
}

/// Whether the text after an event isn't that of a paragraph without events.
fn is_between_blocks(before: Option<&Event>) -> bool {
    match before {
        None | Some(Event::Rule | Event::TaskListMarker(_)) => true,
        Some(Event::Start(tag)) => matches!(
            tag,
            Tag::BlockQuote | Tag::FootnoteDefinition(_) | Tag::Item
        ),
        Some(Event::End(tag)) => !is_span(tag),
        _ => false,
    }
}

/// Whether a text is the rest of a tab before a block of HTML.
fn is_left_of_tab(text: &str, next: Option<&Event>) -> bool {
    text.bytes().all(|byte| byte == b' ') && matches!(next, Some(Event::Html(_)))
}

/// Whether HTML in a tag is a block: in an item of a tight list, where it ends its line.
fn is_block(tag: Option<&Open>, html: &str, next: Option<&Event>) -> bool {
    match tag {
        None => true,
        Some(tag) if tag.is_flow || tag.is_loose => true,
        Some(tag) if tag.is_item => {
            let is_next = matches!(next, Some(Event::Html(next)) if next.starts_with(['\r', '\n']));
            is_next || html.ends_with(['\r', '\n']) || html.starts_with(' ')
        }
        _ => false,
    }
}

/// No span is around a block, as some are in a tight list's item: each ends before the block.
pub fn with_ended_spans(events: Events) -> Events {
    let mut changed = Events::new();
    let mut spans: Vec<(Tag, bool)> = Vec::new();
    for event in events {
        match &event {
            Event::Start(tag) if is_span(tag) => spans.push((tag.clone(), false)),
            Event::End(tag) if is_span(tag) => {
                if matches!(spans.pop(), Some((_, true))) {
                    continue;
                }
            }
            Event::Start(_) | Event::Rule => {
                for (tag, is_ended) in spans.iter_mut().rev().filter(|(_, is_ended)| !is_ended) {
                    *is_ended = true;
                    changed.push(Event::End(tag.clone()));
                }
            }
            _ => {}
        }
        changed.push(event);
    }
    changed
}

fn is_span(tag: &Tag) -> bool {
    matches!(
        tag,
        Tag::Emphasis | Tag::Strong | Tag::Strikethrough | Tag::Link(..) | Tag::Image(..)
    )
}

/// Whether an event belongs to the block of HTML before it; the parser tells as text what
/// is left of a tab.
fn is_more_html(event: &Event) -> bool {
    match event {
        Event::Html(_) => true,
        Event::Text(text) => text.bytes().all(|byte| byte == b' '),
        _ => false,
    }
}
