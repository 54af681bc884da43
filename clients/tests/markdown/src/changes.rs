//! The other permitted changes of the events of pulldown-cmark, except those of footnotes.

use crate::judge::{Events, NEEDED};
use pulldown_cmark::{Alignment, CodeBlockKind, CowStr, Event, LinkType, Tag};
use std::borrow::Cow;

/// Each URL of a link or an image becomes what `change` makes of it and of the permitted protocols.
pub fn with_urls<'a>(events: Events<'a>, change: fn(&str, &[&str]) -> String) -> Events<'a> {
    let changed = |url: &CowStr, protocols: &[&str]| CowStr::from(change(url, protocols));
    let tag = |tag| match tag {
        Tag::Link(LinkType::Email, url, title) => {
            let whole = change(&format!("mailto:{url}"), &["mailto"]);
            let url = whole.strip_prefix("mailto:").unwrap_or(&whole).to_string();
            Tag::Link(LinkType::Email, url.into(), title)
        }
        Tag::Link(kind, url, title) => Tag::Link(
            kind,
            changed(&url, &["http", "https", "irc", "ircs", "mailto", "xmpp"]),
            title,
        ),
        Tag::Image(kind, url, title) => Tag::Image(kind, changed(&url, &["http", "https"]), title),
        other => other,
    };
    let event = |event| match event {
        Event::Start(start) => Event::Start(tag(start)),
        Event::End(end) => Event::End(tag(end)),
        other => other,
    };
    events.into_iter().map(event).collect()
}

/// No URL, where its protocol isn't permitted.
pub fn without_protocol(url: &str, protocols: &[&str]) -> String {
    let is_permitted = match url.find([':', '/', '?', '#']) {
        Some(end) if url[end..].starts_with(':') => {
            protocols.contains(&&*url[..end].to_ascii_lowercase())
        }
        _ => true,
    };
    if is_permitted {
        url.to_string()
    } else {
        String::new()
    }
}

/// A URL in which all bytes are escaped that are so here; the others the renderer
/// leaves as they are.
pub fn normalized(url: &str) -> String {
    let bytes = url.as_bytes();
    let is_escape = |at: usize| {
        bytes[at + 1..]
            .iter()
            .take(2)
            .filter(|each| each.is_ascii_hexdigit())
            .count()
            == 2
    };
    let escaped = bytes.iter().enumerate().map(|(at, &byte)| match byte {
        b'%' if is_escape(at) => Cow::from("%"),
        b'%' => Cow::from("%25"),
        b'[' | b'\\' | b']' | b'^' | b'`' => Cow::from(format!("%{byte:02X}")),
        _ if byte.is_ascii() => Cow::from((byte as char).to_string()),
        _ => Cow::from(format!("%{byte:02X}")),
    });
    escaped.collect()
}

/// The language of code is the first word of the info, where any space ends a word.
pub fn with_infos(events: Events) -> Events {
    let event = |event| match event {
        Event::Start(Tag::CodeBlock(CodeBlockKind::Fenced(info))) => {
            let language = info
                .split_ascii_whitespace()
                .next()
                .unwrap_or("")
                .to_string();
            Event::Start(Tag::CodeBlock(CodeBlockKind::Fenced(language.into())))
        }
        other => other,
    };
    events.into_iter().map(event).collect()
}

/// A block of code that isn't empty ends with a line ending.
pub fn with_code_ends(events: Events) -> Events {
    let mut changed = Events::new();
    for event in events {
        let is_end = matches!(event, Event::End(Tag::CodeBlock(_)));
        match changed.last() {
            Some(Event::Text(text)) if is_end && !text.ends_with(['\r', '\n']) => {
                changed.push(Event::Text("\n".into()));
            }
            _ => {}
        }
        changed.push(event);
    }
    changed
}

/// The cells of a table without columns are paragraphs.
pub fn without_empty_tables(events: Events) -> Events {
    let mut is_empty = false;
    let mut event = |event| match event {
        Event::Start(Tag::Table(alignments)) if alignments.is_empty() => {
            is_empty = true;
            None
        }
        Event::End(Tag::Table(_)) if is_empty => {
            is_empty = false;
            None
        }
        Event::Start(Tag::TableHead | Tag::TableRow)
        | Event::End(Tag::TableHead | Tag::TableRow)
            if is_empty =>
        {
            None
        }
        Event::Start(Tag::TableCell) if is_empty => Some(Event::Start(Tag::Paragraph)),
        Event::End(Tag::TableCell) if is_empty => Some(Event::End(Tag::Paragraph)),
        other => Some(other),
    };
    events.into_iter().filter_map(&mut event).collect()
}

/// Code in a table has no backslash before a pipe.
pub fn with_pipes(events: Events) -> Events {
    let mut is_in_table = false;
    let mut event = |event| match event {
        Event::Code(code) if is_in_table => Event::Code(code.replace("\\|", "|").into()),
        other => {
            is_in_table |= matches!(other, Event::Start(Tag::Table(_)));
            is_in_table &= !matches!(other, Event::End(Tag::Table(_)));
            other
        }
    };
    events.into_iter().map(&mut event).collect()
}

/// The box of a task with its attributes in another order, and a space after it.
pub fn with_tasks(events: Events) -> Events {
    let event = |event| match event {
        Event::TaskListMarker(is_checked) => {
            let checked = if is_checked { " checked=\"\"" } else { "" };
            Event::Html(format!("<input type=\"checkbox\" disabled=\"\"{checked} /> ").into())
        }
        other => other,
    };
    events.into_iter().map(event).collect()
}

/// Tables with each tag on its own line, and `align` in place of `style`; a body where
/// there are rows alone.
pub fn with_tables(events: Events) -> Events {
    let mut alignments = Vec::new();
    let mut column = 0;
    let mut cell = "th";
    let mut has_body = false;
    let mut event = |event| {
        let html = match event {
            Event::Start(Tag::Table(own)) => {
                alignments = own;
                has_body = false;
                format!("{NEEDED}<table>\n")
            }
            Event::End(Tag::Table(_)) if has_body => "</tbody>\n</table>\n".to_string(),
            Event::End(Tag::Table(_)) => "</table>\n".to_string(),
            Event::Start(Tag::TableHead) => {
                (cell, column) = ("th", 0);
                "<thead>\n<tr>\n".to_string()
            }
            Event::End(Tag::TableHead) => "</tr>\n</thead>\n".to_string(),
            Event::Start(Tag::TableRow) => {
                (cell, column) = ("td", 0);
                let body = if has_body { "" } else { "<tbody>\n" };
                has_body = true;
                format!("{body}<tr>\n")
            }
            Event::End(Tag::TableRow) => "</tr>\n".to_string(),
            Event::Start(Tag::TableCell) => {
                column += 1;
                format!("<{cell}{}>", alignment(alignments.get(column - 1)))
            }
            Event::End(Tag::TableCell) => format!("</{cell}>\n"),
            other => return other,
        };
        Event::Html(html.into())
    };
    events.into_iter().map(&mut event).collect()
}

fn alignment(alignment: Option<&Alignment>) -> &'static str {
    match alignment {
        Some(Alignment::Left) => " align=\"left\"",
        Some(Alignment::Center) => " align=\"center\"",
        Some(Alignment::Right) => " align=\"right\"",
        _ => "",
    }
}
