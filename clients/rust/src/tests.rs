//! Each call, each error, and calls from many threads.

use crate::ffi::first_size;
use crate::{
    compile, compile_attributed, compile_unnested, compile_within, has_nested_link, run,
    Attributes, Error, Event, Limits, LineEnding, Name, Options, Rendered, Rule, REFERENCES,
    VERSION_TEXT,
};
use std::thread;

mod cleaning;
mod errors;
mod limits;
mod names;
mod safe;
pub(crate) mod setters;

/// The events of a node over some bytes, with other events in it.
fn node(name: Name, start: usize, end: usize, children: &[Event]) -> Vec<Event> {
    let mut events = vec![Event::enter(name, start)];
    events.extend_from_slice(children);
    events.push(Event::exit(name, end));
    events
}

/// The events of a paragraph over this number of bytes.
fn paragraph(length: usize) -> Vec<Event> {
    node(
        Name::Paragraph,
        0,
        length,
        &node(Name::Data, 0, length, &[]),
    )
}

fn with_defaults(events: &[Event], bytes: &[u8]) -> Result<String, Error> {
    compile(events, bytes, &Options::default(), &[])
}

#[test]
fn attributes_under_unsafe_options() {
    let options = Options {
        allow_dangerous_html: true,
        ..Options::default()
    };
    let told = compile_attributed(&[], b"", &options, &[], &Attributes::default());
    assert_eq!(told, Err(Error::Unsafe));
    let made = compile_attributed(&[], b"", &Options::default(), &[], &Attributes::default());
    assert_eq!(made, Ok(Rendered::default()));
}

#[test]
fn version_is_the_packages() {
    assert_eq!(VERSION_TEXT, env!("CARGO_PKG_VERSION"));
}

#[test]
fn texts() {
    assert_eq!(
        with_defaults(&paragraph(6), b"Hi <b>").unwrap(),
        "<p>Hi &lt;b&gt;</p>"
    );
    assert_eq!(with_defaults(&[], b"").unwrap(), "");
}

#[test]
fn first_buffers() {
    assert_eq!(first_size(0, 0), 64);
    assert_eq!(first_size(10, 100), 344);
    assert_eq!(first_size(usize::MAX, 1), usize::MAX);
}

#[test]
fn texts_past_the_first_buffer() {
    let wanted = format!("<p>{}</p>", "&quot;".repeat(1000));
    assert_eq!(
        with_defaults(&paragraph(1000), &[b'"'; 1000]).unwrap(),
        wanted
    );
}

#[test]
fn options() {
    let html = node(Name::HtmlFlow, 0, 8, &node(Name::HtmlFlowData, 0, 8, &[]));
    let mut options = Options {
        allow_dangerous_html: true,
        ..Options::default()
    };
    assert_eq!(
        compile(&html, b"<script>", &options, &[]).unwrap(),
        "<script>"
    );
    options.gfm_tagfilter = true;
    assert_eq!(
        compile(&html, b"<script>", &options, &[]).unwrap(),
        "&lt;script>"
    );
    assert_eq!(with_defaults(&html, b"<script>").unwrap(), "&lt;script&gt;");
}

#[test]
fn line_endings() {
    let mut breaks = node(Name::ThematicBreak, 0, 3, &[]);
    breaks.extend(node(Name::ThematicBreak, 3, 6, &[]));
    for (ending, text) in [
        (LineEnding::default(), "\n"),
        (LineEnding::LineFeed, "\n"),
        (LineEnding::CarriageReturn, "\r"),
        (LineEnding::CarriageReturnLineFeed, "\r\n"),
    ] {
        let options = Options {
            default_line_ending: ending,
            ..Options::default()
        };
        let wanted = format!("<hr />{text}<hr />");
        assert_eq!(compile(&breaks, b"******", &options, &[]), Ok(wanted));
    }
}

#[test]
fn texts_of_options() {
    let label = node(Name::LabelText, 0, 1, &[]);
    let mut events = node(
        Name::GfmFootnoteCall,
        0,
        1,
        &node(Name::Label, 0, 1, &label),
    );
    let string = node(Name::GfmFootnoteDefinitionLabelString, 0, 1, &[]);
    let prefix = node(Name::GfmFootnoteDefinitionPrefix, 0, 1, &string);
    events.extend(node(Name::GfmFootnoteDefinition, 0, 1, &prefix));
    let mut options = Options {
        default_line_ending: LineEnding::CarriageReturn,
        gfm_footnote_clobber_prefix: Some(String::new()),
        gfm_footnote_label: Some("é<".to_string()),
        ..Options::default()
    };
    let text = compile(&events, b"a", &options, &[]).unwrap();
    assert!(text.contains("<a href=\"#fn-a\" id=\"fnref-a\""), "{text}");
    assert!(
        text.contains("class=\"sr-only\">é&lt;</h2>\r<ol>\r<li id=\"fn-a\">"),
        "{text}"
    );
    options.gfm_footnote_number_ids = true;
    let text = compile(&events, b"a", &options, &[]).unwrap();
    assert!(
        text.contains("<a href=\"#fn-1\" id=\"fnref-1-1\""),
        "{text}"
    );
}

#[test]
fn refusals() {
    let refused = Error::Refused {
        index: 2,
        rule: Rule::Place,
    };
    assert_eq!(with_defaults(&paragraph(2), b"a"), Err(refused));
    assert_eq!(run(b"+Paragraph 0\n"), Err(Error::Line(2)));
    assert_eq!(
        refused.to_string(),
        "event 2: a place that is read doesn't fit the bytes, or isn't UTF-8"
    );
}

#[test]
fn threads() {
    let work = |number: usize| {
        let text = number.to_string();
        let wanted = format!("<p>{text}</p>");
        (0..500)
            .all(|_| with_defaults(&paragraph(text.len()), text.as_bytes()) == Ok(wanted.clone()))
    };
    let threads: Vec<_> = (0..8)
        .map(|number| thread::spawn(move || work(number)))
        .collect();
    assert!(threads.into_iter().all(|thread| thread.join().unwrap()));
}
