//! The HTML of pulldown-cmark's own renderer for a document, and the same with the permitted
//! differences.
//!
//! The judge is that renderer. Before it runs, the events are changed by the permitted differences,
//! one class after another, and at the end the text. A class counts if it changes the text. So each
//! difference is defined exactly: the result must be equal byte for byte.

use crate::changes::{
    normalized, with_code_ends, with_infos, with_pipes, with_tables, with_tasks, with_urls,
    without_empty_tables, without_protocol,
};
use crate::footnotes::with_footnotes;
use crate::html_blocks::{changed_html, with_ended_spans};
use pulldown_cmark::{html, Event, Options, Parser};

/// The HTML of pulldown-cmark, the expected HTML, and the classes of differences between the two.
pub struct Judged {
    pub plain: String,
    pub wanted: String,
    pub classes: Vec<&'static str>,
}

/// The events of a document.
pub type Events<'a> = Vec<Event<'a>>;

/// A class of differences that changes the events.
type Change = for<'a> fn(Events<'a>) -> Events<'a>;

/// The classes that change the events, in the order in which they do.
const CHANGES: [(&str, Change); 11] = [
    ("html", changed_html),
    ("span", with_ended_spans),
    ("protocol", |events| with_urls(events, without_protocol)),
    ("url", |events| {
        with_urls(events, |url, _| normalized(&url.replace('\0', "\u{fffd}")))
    }),
    ("info", with_infos),
    ("code", with_code_ends),
    ("columns", without_empty_tables),
    ("pipe", with_pipes),
    ("task", with_tasks),
    ("table", with_tables),
    ("footnote", with_footnotes),
];

/// The classes that change the text, after these.
const TEXT_CHANGES: [(&str, fn(&str) -> String); 2] = [
    ("apostrophe", |text| text.replace("&#x27;", "'")),
    ("nul", |text| text.replace('\0', "\u{fffd}")),
];

/// What the parser reads.
pub fn options() -> Options {
    Options::ENABLE_TABLES
        | Options::ENABLE_FOOTNOTES
        | Options::ENABLE_STRIKETHROUGH
        | Options::ENABLE_TASKLISTS
}

/// A line ending that is needed: none at the beginning of a line.
pub const NEEDED: char = '\u{f8ff}';

/// The HTML of pulldown-cmark's renderer for events.
pub fn rendered(events: &[Event]) -> String {
    let mut text = String::new();
    html::push_html(&mut text, events.iter().cloned());
    let begun = format!("\n{NEEDED}");
    let text = text.trim_start_matches(NEEDED).replace(&begun, "\n");
    text.replace(NEEDED, "\n")
}

/// The HTML of pulldown-cmark for a document, and the expected one.
pub fn judge(document: &str) -> Judged {
    let mut events: Events = Parser::new_ext(document, options()).collect();
    let plain = rendered(&events);
    let mut wanted = plain.clone();
    let mut classes = Vec::new();
    let mut add = |name, text: String, wanted: &mut String| {
        if text != *wanted {
            classes.push(name);
            *wanted = text;
        }
    };
    for (name, change) in CHANGES {
        events = change(events);
        add(name, rendered(&events), &mut wanted);
    }
    for (name, change) in TEXT_CHANGES {
        add(name, change(&wanted), &mut wanted);
    }
    Judged {
        plain,
        wanted,
        classes,
    }
}
