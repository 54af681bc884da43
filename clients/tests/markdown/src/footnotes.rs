//! Footnotes as they are here: calls, and a section at the end.

use crate::judge::{rendered, Events, NEEDED};
use pulldown_cmark::{Event, Tag};
use std::collections::HashMap;

/// Footnotes by their labels, folded: each with its events, as the first definition
/// to end has them.
type Definitions<'a> = HashMap<String, Events<'a>>;

/// The calls of footnotes so far: their labels in the order of first calls, and how many each has.
#[derive(Default)]
struct Calls {
    labels: Vec<String>,
    counts: HashMap<String, usize>,
    /// How many images are around: in these, calls print nothing.
    images: usize,
}

impl Calls {
    /// Counts a call: the footnote's number, and the number of this call of it.
    fn add(&mut self, label: &str) -> (usize, usize) {
        let count = self.counts.entry(label.to_string()).or_insert(0);
        *count += 1;
        if *count == 1 {
            self.labels.push(label.to_string());
        }
        let number = self
            .labels
            .iter()
            .position(|each| each == label)
            .map_or(0, |place| place + 1);
        (number, *count)
    }
}

/// Footnotes with the ids and attributes that they have here, in a section at the end.
pub fn with_footnotes(events: Events) -> Events {
    let labels: Vec<String> = events.iter().filter_map(defined).collect();
    let mut calls = Calls::default();
    let events = events
        .into_iter()
        .map(|event| with_call(event, &labels, &mut calls))
        .collect();
    let (mut events, definitions) = parted(events);
    if !calls.labels.is_empty() {
        events.push(Event::Html(section(&calls, &definitions).into()));
    }
    events
}

/// The label of the definition that begins.
fn defined(event: &Event) -> Option<String> {
    match event {
        Event::Start(Tag::FootnoteDefinition(label)) => Some(folded(label)),
        _ => None,
    }
}

fn folded(label: &str) -> String {
    let words: Vec<&str> = label.split_ascii_whitespace().collect();
    words.join(" ").to_lowercase()
}

/// An event; a call as it is written here, or its text where nothing defines its footnote.
fn with_call<'a>(event: Event<'a>, labels: &[String], calls: &mut Calls) -> Event<'a> {
    let label = match event {
        Event::FootnoteReference(label) => label,
        other => {
            calls.images += usize::from(matches!(other, Event::Start(Tag::Image(..))));
            calls.images -= usize::from(matches!(other, Event::End(Tag::Image(..))));
            return other;
        }
    };
    let name = folded(&label);
    if !labels.contains(&name) {
        return Event::Text(format!("[^{label}]").into());
    }
    let (number, time) = calls.add(&name);
    if calls.images > 0 {
        return Event::Text("".into());
    }
    let id = id(&name);
    let again = if time > 1 {
        format!("-{time}")
    } else {
        String::new()
    };
    Event::Html(
        format!(
            "<sup><a href=\"#user-content-fn-{id}\" id=\"user-content-fnref-{id}{again}\" \
             data-footnote-ref=\"\" aria-describedby=\"footnote-label\">{number}</a></sup>"
        )
        .into(),
    )
}

/// A label in an id: a URL, escaped.
fn id(label: &str) -> String {
    let mut text = String::new();
    let url = crate::changes::normalized(label);
    pulldown_cmark::escape::escape_href(&mut text, &url).expect("a text takes all");
    text
}

/// The events without definitions, and these.
fn parted(events: Events) -> (Events, Definitions) {
    let mut definitions = Definitions::new();
    let mut open = vec![Events::new()];
    for event in events {
        match event {
            Event::Start(Tag::FootnoteDefinition(_)) => open.push(Events::new()),
            Event::End(Tag::FootnoteDefinition(label)) => {
                let own = open.pop().unwrap_or_default();
                definitions.entry(folded(&label)).or_insert(own);
            }
            other => open.last_mut().expect("the document is open").push(other),
        }
    }
    (open.swap_remove(0), definitions)
}

fn section(calls: &Calls, definitions: &Definitions) -> String {
    let items: String = calls
        .labels
        .iter()
        .map(|label| item(label, calls.counts[label], &definitions[label]))
        .collect();
    format!(
        "{NEEDED}<section data-footnotes=\"\" class=\"footnotes\">\
         <h2 id=\"footnote-label\" class=\"sr-only\">Footnotes</h2>\n\
         <ol>\n{items}</ol>\n</section>\n"
    )
}

/// A footnote with its ways back: in the paragraph that ends it, or on a line of their own.
fn item(label: &str, count: usize, events: &[Event]) -> String {
    let id = id(label);
    let text = rendered(events);
    let text = text.trim_end_matches('\n');
    let back: Vec<String> = (1..=count).map(|time| way_back(&id, time)).collect();
    let back = back.join(" ");
    let text = match text.strip_suffix("</p>") {
        Some(before) => format!("{before} {back}</p>"),
        None if text.is_empty() => back,
        None => format!("{text}\n{back}"),
    };
    format!("<li id=\"user-content-fn-{id}\">\n{text}\n</li>\n")
}

fn way_back(id: &str, time: usize) -> String {
    let (again, shown) = if time > 1 {
        (format!("-{time}"), format!("<sup>{time}</sup>"))
    } else {
        Default::default()
    };
    format!(
        "<a href=\"#user-content-fnref-{id}{again}\" data-footnote-backref=\"\" \
         aria-label=\"Back to content\" class=\"data-footnote-backref\">\u{21a9}{shown}</a>"
    )
}
