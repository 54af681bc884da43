//! The page around a text.

use crate::arguments::Arguments;
use crate::failures::Failure;
use crate::nav::Ways;
use bivdrazo::{compile, Event, Name, Options};
use std::fs;
use std::path::Path;

/// The default style. Its colours are those of the reader's browser, light or dark.
const STYLE: &str = "\
:root { color-scheme: light dark; }
body { max-width: 45em; margin: 2em auto; padding: 0 1em; font-family: sans-serif; \
line-height: 1.5; overflow-wrap: break-word; }
img { max-width: 100%; height: auto; }
code { padding: 0.1em 0.3em; border-radius: 0.2em; background: #8882; }
pre { overflow: auto; padding: 0.5em; background: #8882; }
pre code { padding: 0; background: none; }
blockquote { margin-left: 0; padding-left: 1em; border-left: 0.2em solid #8886; }
table { display: block; width: max-content; max-width: 100%; overflow-x: auto; \
border-collapse: collapse; }
th, td { padding: 0.2em 0.5em; border: 1px solid #8888; }
.footnotes { margin-top: 2em; border-top: 1px solid #8888; }
";

/// What is added to it for the pages of a site. On a wide screen the list of pages stands at the
/// left and the table of contents at the right, unfolded where the browser knows how; on a narrow
/// one both are folded. What is wider than the text scrolls by itself.
const SITE_STYLE: &str = "\
main { overflow-x: auto; }
nav { overflow-x: auto; }
nav ul { margin: 0; padding-left: 1em; }
nav > ul, nav > details > ul { padding-left: 0; }
nav li { list-style: none; margin: 0.2em 0; }
nav summary { font-weight: bold; cursor: pointer; }
nav [aria-current] { font-weight: bold; color: inherit; text-decoration: none; }
.around { display: flex; flex-wrap: wrap; justify-content: space-between; gap: 0.5em 2em; \
margin-top: 2em; padding-top: 1em; border-top: 1px solid #8888; }
.around [rel=prev]::before { content: \"\\2190\\20\"; }
.around [rel=next]::after { content: \"\\20\\2192\"; }
.around a:not([rel])::before { content: \"\\2191\\20\"; }
@media (min-width: 64em) {
body { display: grid; max-width: 80em; grid-template: auto 1fr / 15em minmax(0, 1fr) 13em; \
column-gap: 2em; align-items: start; }
.pages, .contents { grid-row: 1 / 3; position: sticky; top: 1em; max-height: calc(100vh - 2em); \
overflow: auto; font-size: 0.9em; }
.pages { grid-column: 1; }
.contents { grid-column: 3; }
main, .around { grid-column: 2; }
main { grid-row: 1; }
main > :first-child { margin-top: 0; }
@supports selector(::details-content) {
nav summary { display: none; }
nav details::details-content { content-visibility: visible; }
}
}
";

/// A page as a list of pieces.
pub struct Page {
    pieces: Vec<Piece>,
    /// Whether it has a place for the title.
    pub has_title: bool,
    /// Whether it has a place for the table of contents.
    pub has_toc: bool,
    /// The URLs that the template has after `{{root}}`.
    pub named: Vec<String>,
}

/// The parts of a page that depend on the document; all are HTML.
pub struct Parts<'a> {
    pub title: &'a str,
    pub toc: &'a str,
    pub content: &'a str,
    /// Whether the content has a heading of the first level.
    pub has_h1: bool,
    pub ways: &'a Ways<'a>,
}

/// A piece of a page: a text that each page has, or the place of a part.
#[derive(Clone, Debug, Eq, PartialEq)]
enum Piece {
    Text(String),
    Title,
    Toc,
    /// The table of contents in an element `nav`, without that if there are no headings.
    Contents,
    /// The title as a heading, if the content has none of the first level.
    Heading,
    Content,
    /// The title of the site's first page.
    Home,
    Nav,
    Prev,
    Next,
    Up,
    Root,
}

impl Page {
    /// The page that the arguments ask for: without a page, only the text.
    pub fn of(arguments: &Arguments) -> Result<Page, Failure> {
        let lang = escaped(arguments.lang.as_deref().unwrap_or(""))?;
        let pieces = match &arguments.page_template {
            Some(path) => {
                let template = read(path)?;
                pieces_of(&template, &lang, &style_of(arguments)?, place)
                    .map_err(|error| format!("{}: {error}", path.display()))?
            }
            None if arguments.wants_page() => {
                let own = own(&lang, arguments.folder().is_some(), arguments.toc);
                pieces_of(&own, &lang, &style_of(arguments)?, own_place)?
            }
            None if arguments.toc => vec![Piece::Toc, Piece::Content],
            None => vec![Piece::Content],
        };
        Page::made_of(pieces, arguments)
    }

    /// A page of these pieces. It fails if `--toc` and the place for it don't come together, and
    /// for a place that only the pages of a folder have.
    fn made_of(pieces: Vec<Piece>, arguments: &Arguments) -> Result<Page, Failure> {
        let has = |piece| pieces.contains(piece);
        let has_toc = has(&Piece::Toc) || has(&Piece::Contents);
        let of_folder = pieces.iter().find_map(Piece::of_folder);
        match (has_toc, arguments.toc, of_folder) {
            (true, false, _) => Err("the place {{toc}} needs --toc".into()),
            (false, true, _) => Err("--toc needs the place {{toc}}".into()),
            (.., Some(place)) if arguments.folder().is_none() => {
                Err(format!("the place {{{{{place}}}}} needs a folder").into())
            }
            _ => Ok(Page {
                has_title: has(&Piece::Title),
                has_toc,
                named: named(&pieces),
                pieces,
            }),
        }
    }

    /// The page with these parts, as texts to write one after another.
    pub fn around<'a>(&'a self, parts: &Parts<'a>) -> Vec<&'a str> {
        let mut texts = Vec::with_capacity(self.pieces.len() + 16);
        let ways = parts.ways;
        for piece in &self.pieces {
            match piece {
                Piece::Text(text) => texts.push(&**text),
                Piece::Title => texts.push(parts.title),
                Piece::Contents if parts.toc.is_empty() => {}
                Piece::Contents => {
                    texts.extend(["<nav class=\"contents\"><details><summary>", parts.title]);
                    texts.extend(["</summary>", parts.toc, "</details></nav>"]);
                }
                Piece::Toc => texts.push(parts.toc),
                Piece::Heading if parts.has_h1 => {}
                Piece::Heading => texts.extend(["<h1>", parts.title, "</h1>\n"]),
                Piece::Content => texts.push(parts.content),
                Piece::Home => texts.push(ways.home),
                Piece::Nav => texts.extend(&ways.list),
                Piece::Prev => texts.push(&ways.prev),
                Piece::Next => texts.push(&ways.next),
                Piece::Up => texts.push(&ways.up),
                Piece::Root => texts.push(&ways.root),
            }
        }
        texts
    }
}

impl Piece {
    /// The name of a place that only the pages of a folder have.
    fn of_folder(&self) -> Option<&'static str> {
        match self {
            Piece::Nav => Some("nav"),
            Piece::Prev => Some("prev"),
            Piece::Next => Some("next"),
            Piece::Up => Some("up"),
            Piece::Root => Some("root"),
            _ => None,
        }
    }
}

/// The URLs that directly follow the places of the root, without query and fragment.
fn named(pieces: &[Piece]) -> Vec<String> {
    let pairs = pieces.windows(2);
    let named = pairs.filter_map(|pair| match pair {
        [Piece::Root, Piece::Text(text)] => {
            let is_end = |each: char| each.is_whitespace() || "\"'<>()?#`".contains(each);
            text.split(is_end).next().filter(|url| !url.is_empty())
        }
        _ => None,
    });
    named.map(str::to_string).collect()
}

/// The default template; in a site it has the ways to other pages.
fn own(lang: &str, is_site: bool, has_toc: bool) -> String {
    let lang = match lang {
        "" => "",
        _ => " lang=\"{{lang}}\"",
    };
    let head = "<head><meta charset=\"utf-8\" /><meta name=\"viewport\" \
                content=\"width=device-width, initial-scale=1\" />\
                <title>{{title}}</title>{{style}}</head>";
    let contents = if has_toc { "{{contents}}" } else { "" };
    let body = match is_site {
        true => format!(
            "<nav class=\"pages\"><details><summary>{{{{home}}}}</summary>\n\
             {{{{nav}}}}</details></nav>\
             {contents}<main>{{{{heading}}}}{{{{content}}}}</main>\
             <nav class=\"around\">{{{{prev}}}}{{{{up}}}}{{{{next}}}}</nav>"
        ),
        false => format!("{contents}{{{{content}}}}"),
    };
    format!("<!doctype html>\n<html{lang}>{head}<body>{body}</body></html>\n")
}

/// The place of a name in a template.
fn place(name: &str) -> Option<Piece> {
    Some(match name {
        "title" => Piece::Title,
        "content" => Piece::Content,
        "toc" => Piece::Toc,
        "nav" => Piece::Nav,
        "prev" => Piece::Prev,
        "next" => Piece::Next,
        "up" => Piece::Up,
        "root" => Piece::Root,
        _ => return None,
    })
}

/// The place of a name in the default template.
fn own_place(name: &str) -> Option<Piece> {
    match name {
        "home" => Some(Piece::Home),
        "heading" => Some(Piece::Heading),
        "contents" => Some(Piece::Contents),
        other => place(other),
    }
}

/// The pieces of a template, with this language and style, and with the places that `place` knows.
fn pieces_of(
    template: &str,
    lang: &str,
    style: &str,
    place: impl Fn(&str) -> Option<Piece>,
) -> Result<Vec<Piece>, String> {
    let mut pieces = Vec::new();
    let mut rest = template;
    while let Some((before, after)) = rest.split_once("{{") {
        let (name, after) = after
            .split_once("}}")
            .ok_or("after the last {{ there is no }}")?;
        pieces.push(Piece::Text(before.to_string()));
        let name = name.trim();
        pieces.push(match name {
            "lang" => Piece::Text(lang.to_string()),
            "style" => Piece::Text(style.to_string()),
            _ => place(name).ok_or_else(|| {
                let name: String = name.chars().take(40).collect();
                let name = name.replace(char::is_control, "\u{fffd}");
                format!("there is no place {{{{{name}}}}}")
            })?,
        });
        rest = after;
    }
    pieces.push(Piece::Text(rest.to_string()));
    // A second text would have the same ids.
    match pieces
        .iter()
        .filter(|piece| **piece == Piece::Content)
        .count()
    {
        0 => Err("the place {{content}} is missing".to_string()),
        1 => Ok(pieces),
        _ => Err("the place {{content}} is used twice".to_string()),
    }
}

/// A text as that of an element or an attribute, escaped by the library.
pub fn escaped(text: &str) -> Result<String, bivdrazo::Error> {
    let events = [
        Event::enter(Name::Data, 0),
        Event::exit(Name::Data, text.len()),
    ];
    compile(&events, text.as_bytes(), &Options::default(), &[])
}

/// The element with the style.
fn style_of(arguments: &Arguments) -> Result<String, Failure> {
    let style = match &arguments.css {
        None if arguments.folder().is_some() => STYLE.to_string() + SITE_STYLE,
        None => STYLE.to_string(),
        Some(path) if path.as_os_str() == "none" => return Ok(String::new()),
        Some(path) => read(path)?,
    };
    if style.to_ascii_lowercase().contains("</style") {
        return Err("a style can't hold </style".into());
    }
    Ok(format!("<style>\n{style}</style>"))
}

fn read(path: &Path) -> Result<String, Failure> {
    fs::read_to_string(path).map_err(|error| format!("{}: {error}", path.display()).into())
}

#[cfg(test)]
mod tests {
    use super::*;

    /// A page of a template.
    fn page(template: &str, place: fn(&str) -> Option<Piece>) -> Page {
        let pieces = pieces_of(template, "l", "s", place).unwrap();
        Page {
            named: named(&pieces),
            pieces,
            has_title: true,
            has_toc: true,
        }
    }

    fn around(page: &Page, toc: &str, has_h1: bool) -> String {
        let ways = Ways {
            home: "h",
            list: vec!["<ul>", "</ul>"],
            prev: "{{next}}".to_string(),
            next: "n".to_string(),
            up: "u".to_string(),
            root: "../".to_string(),
        };
        let parts = Parts {
            title: "{{content}}",
            toc,
            content: "{{title}} {{none}}",
            has_h1,
            ways: &ways,
        };
        page.around(&parts).concat()
    }

    #[test]
    fn templates() {
        let made = page(
            "{{lang}}a{{ title }}{{content}}{{style}}{{title}}{{toc}}\
             {{nav}}{{prev}}{{next}}{{up}}{{root}}x",
            place,
        );
        let wanted = "la{{content}}{{title}} {{none}}s{{content}}{{t}}<ul></ul>{{next}}nu../x";
        assert_eq!(around(&made, "{{t}}", false), wanted);
        for (template, error) in [
            ("", "the place {{content}} is missing"),
            ("{{title}} {content}", "the place {{content}} is missing"),
            (
                "{{content}}{{title}}{{ content }}",
                "the place {{content}} is used twice",
            ),
            ("{{content}} {{a\nb}}", "there is no place {{a\u{fffd}b}}"),
            ("{{content}} {{}}", "there is no place {{}}"),
            ("{{content}} {{home}}", "there is no place {{home}}"),
            ("{{content}} {{{title}}}", "there is no place {{{title}}"),
            ("{{content}} {{title}", "after the last {{ there is no }}"),
        ] {
            let made = pieces_of(template, "", "", place);
            assert_eq!(made.unwrap_err(), error, "{template}");
        }
    }

    #[test]
    fn own_places() {
        let made = page("{{contents}}[{{heading}}{{content}}]{{home}}", own_place);
        let with =
            "<nav class=\"contents\"><details><summary>{{content}}</summary>t</details></nav>";
        let heading = "<h1>{{content}}</h1>\n";
        let content = "{{title}} {{none}}";
        assert_eq!(around(&made, "t", true), format!("{with}[{content}]h"));
        assert_eq!(around(&made, "", true), format!("[{content}]h"));
        assert_eq!(around(&made, "", false), format!("[{heading}{content}]h"));
    }

    #[test]
    fn roots() {
        let template =
            "<a href='{{root}}a%20b.css?c'>{{ root }}{{root}}d/e.js#f\"{{content}}{{root}}";
        assert_eq!(page(template, place).named, ["a%20b.css", "d/e.js"]);
    }
}
