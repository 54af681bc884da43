//! The keys of front matter that is YAML, from the events of yaml-rust.
//!
//! Events come one by one, so that nesting takes no stack, and an alias isn't expanded: a value may
//! be an alias of a text, and lists and maps aren't looked at.

use super::keys::{known, Keys, Others, TITLE};
use super::{no_map, no_text, too_deep, unread_at, EMPTY_TITLE, MOST_DEPTH};
use std::borrow::Cow;
use std::collections::{HashMap, HashSet};
use std::rc::Rc;
use std::str::Chars;
use yaml_rust::parser::{Event, Parser};
use yaml_rust::scanner::{Marker, ScanError, TScalarStyle, TokenType};

/// The key by which YAML 1.1 merges another mapping.
const MERGE: &str = "<<";

const NO_END: &str = "the reader of YAML finds no end: please report it";

/// What yaml-rust says of `a: b: c`, what a writer can do about it, and what such a line has twice.
/// yaml-rust says the same of wrong indentation.
pub const MANY_COLONS: &str = "mapping values are not allowed in this context";
pub const QUOTE_IT: &str = "a value with a colon and a space needs quotes";
const COLON: &str = ": ";

/// The escape in double quotes that yaml-rust doesn't know, and what it reads instead: a character
/// that front matter can't have is in the place of the backslash.
const ESCAPED_SLASH: &str = "\\/";
const MARKED_SLASH: &str = "\u{ffff}/";

/// Why front matter isn't a map.
const ONLY_COMMENTS: &str = "only comments, which begin with #";
const NO_KEY: &str = "no key, such as title:";

/// What yaml-rust accepts, though YAML doesn't: it makes a tab part of the key that follows.
pub const TAB: &str = "a tab in the indentation";

/// The cause of a title without a value, if a comment follows its key.
const QUOTE_MARK: &str = "a value that begins with # needs quotes";

/// The tags that a text may have: none, or those of a string.
const STRINGS: [(&str, &str); 3] = [("!!", "str"), ("", "tag:yaml.org,2002:str"), ("", "!")];

/// A value, as far as a key needs it.
#[derive(Clone, Debug)]
enum Value {
    Text(Rc<str>),
    /// No value.
    Nothing,
    /// A null that is written.
    Null,
    /// What yaml-rust has for no value, and for `~` at this place.
    Tilde(Marker),
    /// A text with the tag of another type.
    Tagged,
    List,
    Map,
}

struct Reader<'a> {
    text: &'a str,
    /// The same text.
    chars: Vec<char>,
    parser: Parser<Chars<'a>>,
    /// The values with an anchor, by the number of that.
    anchors: HashMap<usize, Value>,
    /// How many events may follow: a text has fewer than four for each byte.
    left: usize,
    /// The lines that begin in a quoted scalar or in a block scalar, from 1.
    inner: HashSet<usize>,
    /// The line of a block scalar's mark, until the next event shows where the scalar ends.
    block: Option<usize>,
}

/// The keys in a text.
pub fn keys(text: &str) -> Result<Keys, String> {
    if let Some(at) = text.find(is_unprintable) {
        let line = text[..at].matches('\n').count() + 1;
        return Err(unread_at("YAML", text, line, "a control character"));
    }
    let text = &*with_marked_slashes(text);
    let mut reader = Reader {
        text,
        chars: text.chars().collect(),
        parser: Parser::new(text.chars()),
        anchors: HashMap::new(),
        left: 4 * text.len() + 16,
        inner: HashSet::new(),
        block: None,
    };
    reader.document()
}

/// Whether YAML doesn't allow a character; yaml-rust takes NUL for the end.
fn is_unprintable(each: char) -> bool {
    (each.is_control() && !matches!(each, '\t' | '\n' | '\u{85}'))
        || matches!(each, '\u{fffe}' | '\u{ffff}')
}

/// A text with a mark in the place of each backslash that escapes a slash in double quotes, and of
/// each that would do so there.
fn with_marked_slashes(text: &str) -> Cow<'_, str> {
    if !text.contains(ESCAPED_SLASH) {
        return text.into();
    }
    let mut marked = String::with_capacity(2 * text.len());
    let mut is_escape = false;
    for each in text.chars() {
        if is_escape && each == '/' {
            marked.pop();
            marked.push_str(MARKED_SLASH);
        } else {
            marked.push(each);
        }
        is_escape = each == '\\' && !is_escape;
    }
    marked.into()
}

impl Reader<'_> {
    /// The keys of the only document.
    fn document(&mut self) -> Result<Keys, String> {
        self.next()?;
        if self.next()?.0 == Event::StreamEnd {
            let mut lines = self.text.lines();
            let comment = lines.position(|line| !line.trim().is_empty());
            let comments = |line| no_map(self.text, line + 1, ONLY_COMMENTS);
            return comment.map_or(Ok(Keys::default()), |line| Err(comments(line)));
        }
        let (event, start) = self.next()?;
        if !matches!(event, Event::MappingStart(_)) {
            self.check_tab(start)?;
            return Err(no_map(self.text, start.line(), NO_KEY));
        }
        let is_block = !self.is_at(start, '{');
        let (found, others) = self.mapping(is_block)?;
        loop {
            match self.next()? {
                (Event::StreamEnd, _) => break,
                (Event::DocumentStart, mark) => return Err(self.error(mark, "a second document")),
                _ => {}
            }
        }
        if is_block {
            self.check_tabs()?;
        }
        let title = found.map(|(value, at)| self.title(value, at));
        Ok(Keys { title, others })
    }

    /// The title with a value, whose key ends at or after this place; or its fault.
    fn title(&self, value: Value, at: usize) -> Result<String, String> {
        match value {
            Value::Text(title) => Ok(title.to_string()),
            Value::Tilde(mark) if self.is_at(mark, '~') => Err(no_text("null")),
            Value::Nothing | Value::Tilde(_) => Err(self.empty(at)),
            Value::Null => Err(no_text("null")),
            Value::Tagged => Err(no_text("of a type that isn't known")),
            Value::List => Err(no_text("a list")),
            Value::Map => Err(no_text("a map")),
        }
    }

    /// The error of a title without a value, whose key ends at or after this place.
    fn empty(&self, key: usize) -> String {
        let line = self.chars[key..].iter().take_while(|&&each| each != '\n');
        let line: String = line.collect();
        let value = line.split_once(':').map_or("", |(_, value)| value);
        match value.trim_start().starts_with('#') {
            true => format!("{EMPTY_TITLE}: {QUOTE_MARK}"),
            false => EMPTY_TITLE.to_string(),
        }
    }

    /// The title in the outermost mapping, whose start was read, with the place of its key; and the
    /// other keys that are known.
    fn mapping(&mut self, is_block: bool) -> Result<(Option<(Value, usize)>, Others), String> {
        let (mut found, mut others) = (None, Vec::new());
        let mut merged = None;
        loop {
            let (event, mark) = self.next()?;
            if event == Event::MappingEnd {
                break;
            }
            let key = self.value(event, mark)?;
            let (event, at) = self.next()?;
            // yaml-rust accepts this, though YAML doesn't.
            if is_block && at.line() > mark.line() && at.col() == 0 && self.is_there(&event, at) {
                return Err(self.error(at, "a value without indentation"));
            }
            let value = self.value(event, at)?;
            let key = match key {
                Value::Text(key) => key,
                _ => continue,
            };
            match &*key {
                TITLE => {
                    if found.replace((value, mark.index())).is_some() {
                        return Err(self.error(mark, "a second title"));
                    }
                }
                MERGE => merged = Some(mark),
                key => others.extend(known(key).and_then(|key| Some((key, given(value)?)))),
            }
        }
        match merged {
            Some(mark) if found.is_none() => {
                Err(self.error(mark, "a merge key (<<), which isn't supported"))
            }
            _ => Ok((found, others)),
        }
    }

    /// The value that begins with an event, read to its end.
    fn value(&mut self, event: Event, mark: Marker) -> Result<Value, String> {
        let (anchor, value) = match event {
            Event::Alias(anchor) => {
                let value = self.anchors.get(&anchor).cloned();
                return value
                    .ok_or_else(|| self.error(mark, "an alias of a value that contains it"));
            }
            Event::Scalar(text, style, anchor, tag) => {
                (anchor, scalar(&text, style, tag.as_ref(), mark))
            }
            Event::SequenceStart(anchor) => (anchor, Value::List),
            Event::MappingStart(anchor) => (anchor, Value::Map),
            _ => return Err(self.error(mark, "no value")),
        };
        if matches!(value, Value::List | Value::Map) {
            self.skip_collection()?;
        }
        if anchor > 0 {
            self.anchors.insert(anchor, value.clone());
        }
        Ok(value)
    }

    /// Reads the rest of a list or map; the anchors in it count too.
    fn skip_collection(&mut self) -> Result<(), String> {
        let mut open = vec![None];
        while !open.is_empty() {
            if open.len() > MOST_DEPTH {
                return Err(too_deep());
            }
            let (event, mark) = self.next()?;
            let (anchor, value) = match event {
                Event::SequenceStart(anchor) => {
                    open.push(Some((anchor, Value::List)));
                    continue;
                }
                Event::MappingStart(anchor) => {
                    open.push(Some((anchor, Value::Map)));
                    continue;
                }
                Event::SequenceEnd | Event::MappingEnd => match open.pop().flatten() {
                    Some(ended) => ended,
                    None => continue,
                },
                Event::Scalar(text, style, anchor, tag) => {
                    (anchor, scalar(&text, style, tag.as_ref(), mark))
                }
                Event::Alias(_) => continue,
                _ => return Err(self.error(mark, "a collection without an end")),
            };
            if anchor > 0 {
                self.anchors.insert(anchor, value);
            }
        }
        Ok(())
    }

    /// Whether a character is at a place.
    fn is_at(&self, mark: Marker, wanted: char) -> bool {
        self.chars.get(mark.index()) == Some(&wanted)
    }

    /// Whether an event is a scalar in a line, and not a value that is missing.
    fn is_there(&self, event: &Event, mark: Marker) -> bool {
        match event {
            Event::Scalar(_, TScalarStyle::Literal | TScalarStyle::Foled, ..) => false,
            Event::Scalar(text, TScalarStyle::Plain, ..) if text == "~" => self.is_at(mark, '~'),
            Event::Scalar(text, TScalarStyle::Plain, ..) => !text.is_empty(),
            Event::Scalar(..) => true,
            _ => false,
        }
    }

    /// The next event.
    fn next(&mut self) -> Result<(Event, Marker), String> {
        self.left = self.left.checked_sub(1).ok_or(NO_END)?;
        let next = self.parser.next();
        let (event, mark) = next.map_err(|error| {
            let line = error.marker().line();
            let why = reason(&error, self.line(line));
            unread_at("YAML", self.text, line, &why)
        })?;
        if let Some(line) = self.block.take() {
            let is_end = mark.index() >= self.chars.len();
            self.inner
                .extend(line + 1..mark.line() + usize::from(is_end));
        }
        match event {
            Event::Scalar(_, TScalarStyle::Literal | TScalarStyle::Foled, ..) => {
                self.block = Some(mark.line());
            }
            Event::Scalar(_, TScalarStyle::SingleQuoted | TScalarStyle::DoubleQuoted, ..) => {
                let breaks = self.breaks_in_quotes(mark);
                self.inner.extend(mark.line() + 1..=mark.line() + breaks);
            }
            _ => {}
        }
        Ok((event, mark))
    }

    /// How many line endings a quoted scalar has that begins at a place.
    fn breaks_in_quotes(&self, mark: Marker) -> usize {
        let mut rest = self.chars[mark.index()..].iter().peekable();
        let quote = rest.next();
        let mut breaks = 0;
        while let Some(each) = rest.next() {
            match each {
                '\n' => breaks += 1,
                '\\' if quote == Some(&'"') => {
                    breaks += usize::from(rest.next() == Some(&'\n'));
                }
                // Two single quotes are one in the scalar.
                '\'' if quote == Some(&'\'') && rest.next_if_eq(&&'\'').is_some() => {}
                _ if Some(each) == quote => break,
                _ => {}
            }
        }
        breaks
    }

    /// Fails if a line begins with white space that holds a tab, unless it begins in a scalar in
    /// which white space isn't indentation.
    fn check_tabs(&self) -> Result<(), String> {
        let mut numbered = (1..).zip(self.text.lines());
        match numbered.find(|(number, line)| self.has_tab(*number, line)) {
            Some((number, _)) => Err(unread_at("YAML", self.text, number, TAB)),
            None => Ok(()),
        }
    }

    /// Fails if the line of that place does.
    fn check_tab(&self, mark: Marker) -> Result<(), String> {
        let number = mark.line();
        match self.has_tab(number, self.line(number)) {
            true => Err(unread_at("YAML", self.text, number, TAB)),
            false => Ok(()),
        }
    }

    fn has_tab(&self, number: usize, line: &str) -> bool {
        let rest = line.trim_start_matches(' ');
        rest.starts_with('\t') && !self.inner.contains(&number)
    }

    /// The line with a number, from 1.
    fn line(&self, number: usize) -> &str {
        let line = self.text.lines().nth(number.saturating_sub(1));
        line.unwrap_or("")
    }

    fn error(&self, mark: Marker, why: &str) -> String {
        match self.check_tab(mark) {
            Err(tab) => tab,
            Ok(()) => unread_at("YAML", self.text, mark.line(), why),
        }
    }
}

/// The text of a value, nothing inside if it is none; and nothing for a value that isn't there.
fn given(value: Value) -> Option<Option<String>> {
    match value {
        Value::Text(text) => Some(Some(text.to_string())),
        Value::Nothing | Value::Null | Value::Tilde(_) => None,
        Value::Tagged | Value::List | Value::Map => Some(None),
    }
}

/// The value of a scalar. A plain number, date or truth value is its text as it is written.
fn scalar(text: &str, style: TScalarStyle, tag: Option<&TokenType>, mark: Marker) -> Value {
    let is_string = match tag {
        Some(TokenType::Tag(handle, suffix)) => STRINGS.contains(&(handle, suffix)),
        _ => false,
    };
    let slash = match style {
        TScalarStyle::DoubleQuoted => "/",
        _ => ESCAPED_SLASH,
    };
    let text = &*text.replace(MARKED_SLASH, slash);
    match text {
        _ if tag.is_some() && !is_string => Value::Tagged,
        _ if is_string || style != TScalarStyle::Plain => Value::Text(text.into()),
        "" => Value::Nothing,
        "~" => Value::Tilde(mark),
        "null" | "Null" | "NULL" => Value::Null,
        _ => Value::Text(text.into()),
    }
}

/// The reason of an error at a line, without the place that its text ends with.
fn reason(error: &ScanError, line: &str) -> String {
    let text = error.to_string();
    let reason = text
        .rsplit_once(" at line ")
        .map_or(&*text, |(reason, _)| reason);
    match reason {
        MANY_COLONS if line.matches(COLON).count() > 1 => QUOTE_IT.to_string(),
        _ => reason.to_string(),
    }
}
