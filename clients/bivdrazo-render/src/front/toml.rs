//! The keys of front matter that is TOML, read by the crate toml.
//!
//! That crate nests calls as its input nests brackets and dots in keys, so these are counted first.

use super::keys::{known, Keys, TITLE};
use super::{no_text, too_deep, unread, unread_at, MOST_DEPTH};
use std::iter::Peekable;
use std::str::Chars;
use toml::Value;

/// The most dots outside of strings, in all keys and numbers together.
const MOST_DOTS: usize = 500;

/// The beginning of the error for a duplicate key.
const DUPLICATE: &str = "duplicate key";

/// The keys in a text: in TOML before any table.
pub fn keys(text: &str) -> Result<Keys, String> {
    let nesting = Nesting::of(text);
    if nesting.brackets > MOST_DEPTH {
        return Err(too_deep());
    }
    if nesting.dots > MOST_DOTS {
        return Err(format!(
            "the front matter has more than {MOST_DOTS} dots in keys and numbers"
        ));
    }
    let front: Value = toml::from_str(text).map_err(|error| fault(&error, text))?;
    let title = front.get(TITLE).map(|title| match title {
        Value::String(title) => Ok(title.clone()),
        Value::Integer(_) | Value::Float(_) => Err(no_text("a number without quotes")),
        Value::Datetime(_) => Err(no_text("a date without quotes")),
        Value::Boolean(_) => Err(no_text("a truth value without quotes")),
        Value::Array(_) => Err(no_text("a list")),
        Value::Table(_) => Err(no_text("a table")),
    });
    let table = front.as_table().into_iter().flatten();
    let others = table.filter_map(|(key, value)| Some((known(key)?, scalar(value))));
    Ok(Keys {
        title,
        others: others.collect(),
    })
}

/// The text of a value that is neither a list nor a table.
fn scalar(value: &Value) -> Option<String> {
    match value {
        Value::String(text) => Some(text.clone()),
        Value::Array(_) | Value::Table(_) => None,
        other => Some(other.to_string()),
    }
}

/// The fault of a text that the crate can't read.
fn fault(error: &toml::de::Error, text: &str) -> String {
    let reason = error.to_string();
    let reason = reason
        .rsplit_once(" at line ")
        .map_or(&*reason, |(reason, _)| reason);
    match error.line_col() {
        // The place of a second key is that of its table.
        Some((line, _)) if !reason.starts_with(DUPLICATE) => {
            unread_at("TOML", text, line + 1, reason)
        }
        _ => unread("TOML", reason),
    }
}

/// How much a text can nest.
#[derive(Default)]
struct Nesting {
    /// The most brackets and braces that are open at once outside of strings and comments.
    brackets: usize,
    /// All dots outside of strings and comments.
    dots: usize,
}

impl Nesting {
    /// This of a text, up to its first error.
    fn of(text: &str) -> Nesting {
        let mut found = Nesting::default();
        let mut open = 0_usize;
        let mut rest = text.chars().peekable();
        while let Some(each) = rest.next() {
            match each {
                '"' | '\'' => skip_string(each, &mut rest),
                '#' => while rest.next_if(|&each| each != '\n').is_some() {},
                '[' | '{' => open += 1,
                ']' | '}' => open = open.saturating_sub(1),
                '.' => found.dots += 1,
                _ => {}
            }
            found.brackets = found.brackets.max(open);
        }
        found
    }
}

/// Skips the rest of a string that begins with a quote: three of them begin one of many lines.
fn skip_string(quote: char, rest: &mut Peekable<Chars>) {
    if rest.next_if_eq(&quote).is_some() {
        if rest.next_if_eq(&quote).is_some() {
            skip_lines(quote, rest);
        }
        return;
    }
    while let Some(each) = rest.next() {
        match each {
            '\\' if quote == '"' => drop(rest.next()),
            '\n' => return,
            _ if each == quote => return,
            _ => {}
        }
    }
}

/// Skips a string of many lines up to three quotes, and up to two more that belong to its text.
fn skip_lines(quote: char, rest: &mut Peekable<Chars>) {
    let mut quotes = 0;
    while quotes < 3 {
        match rest.next() {
            None => return,
            Some('\\') if quote == '"' => {
                rest.next();
                quotes = 0;
            }
            Some(each) if each == quote => quotes += 1,
            Some(_) => quotes = 0,
        }
    }
    if rest.next_if_eq(&quote).is_some() {
        rest.next_if_eq(&quote);
    }
}
