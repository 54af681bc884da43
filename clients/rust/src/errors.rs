//! Errors.

use crate::layouts::CAnswer;
use crate::numbers::{
    self, Rule, STATUS_MEMORY, STATUS_NESTED, STATUS_NO_ATTRIBUTE, STATUS_NO_EVENT, STATUS_NO_LINE,
    STATUS_NO_NAME, STATUS_NO_OPTION, STATUS_REFUSED, STATUS_TOO_DEEP, STATUS_TOO_LONG,
    STATUS_TOO_MUCH, STATUS_UNSAFE,
};
use crate::values::Limits;
use std::error;
use std::fmt;

/// Why a call returns no text.
#[derive(Clone, Copy, Debug, Eq, PartialEq)]
#[non_exhaustive]
pub enum Error {
    /// The events are refused, by `rule`, at `index` (the number of events if a node is open at the
    /// end).
    Refused {
        /// The index of the event.
        index: usize,
        /// The rule that it breaks.
        rule: Rule,
    },
    /// The event at this index is invalid; this crate passes no such event.
    Event(usize),
    /// The character reference at this index isn't UTF-8; this crate passes no such one.
    Name(usize),
    /// The option with this number is invalid; this crate passes no such option.
    Option(usize),
    /// The line with this number, from 1, of a script can't be read.
    Line(usize),
    /// The library is out of memory.
    Memory,
    /// The call requires safe options, and these aren't safe.
    Unsafe,
    /// A link is in a link.
    Nested,
    /// The attribute with this number is invalid; this crate passes no such attribute.
    Attribute(usize),
    /// The options of [`clean`](crate::clean) have a name that isn't known.
    CleanName {
        /// Whether it is one of the protocols, not of the tags.
        is_protocol: bool,
    },
    /// The input exceeds the limit on its length.
    InputTooLong {
        /// Its length in bytes.
        length: usize,
        /// The limit in bytes.
        limit: usize,
    },
    /// The text would exceed the limit on its length.
    OutputTooLong {
        /// The limit in bytes.
        limit: usize,
    },
    /// The document or the events exceed the limit on the work.
    TooMuchWork {
        /// The limit.
        limit: usize,
    },
    /// The events exceed the limit on the nesting.
    TooDeep {
        /// The limit on the number of open nodes.
        limit: usize,
    },
    /// The library returned an unknown status: it has another version.
    Unknown,
}

impl fmt::Display for Error {
    fn fmt(&self, formatter: &mut fmt::Formatter) -> fmt::Result {
        match self {
            Error::Refused { index, rule } => write!(formatter, "event {index}: {}", rule.text()),
            Error::Event(index) => write!(formatter, "event {index}: no such kind or name"),
            Error::Name(index) => write!(formatter, "character reference {index}: not UTF-8"),
            Error::Option(number) => {
                let name = numbers::OPTIONS.get(*number).unwrap_or(&"unknown");
                write!(formatter, "option {name}: no such value")
            }
            Error::Line(number) => write!(formatter, "line {number}: unreadable"),
            Error::Memory => write!(formatter, "out of memory"),
            Error::CleanName { is_protocol: true } => write!(formatter, "an unknown protocol"),
            Error::CleanName { is_protocol: false } => write!(formatter, "an unknown element"),
            Error::Unsafe => write!(formatter, "the options aren't safe"),
            Error::Nested => write!(formatter, "a link in a link"),
            Error::Attribute(number) => write!(formatter, "attribute {number}: no such value"),
            Error::InputTooLong { length, limit } => {
                write!(
                    formatter,
                    "the Markdown has {length} bytes, of {limit} at most"
                )
            }
            Error::OutputTooLong { limit } => {
                write!(formatter, "the text has more than {limit} bytes")
            }
            Error::TooMuchWork { limit } => {
                write!(formatter, "there is more work than {limit}")
            }
            Error::TooDeep { limit } => {
                write!(formatter, "the events nest deeper than {limit}")
            }
            Error::Unknown => write!(formatter, "a library of another version"),
        }
    }
}

impl error::Error for Error {}

/// The error for an answer of a call within limits.
pub(crate) fn error_within(answer: &CAnswer, limits: Limits) -> Error {
    match answer.status {
        STATUS_TOO_LONG => Error::OutputTooLong { limit: limits.text },
        STATUS_TOO_MUCH => Error::TooMuchWork { limit: limits.work },
        STATUS_TOO_DEEP => Error::TooDeep {
            limit: limits.depth,
        },
        _ => error_of(answer),
    }
}

/// The error for an answer of another call.
pub(crate) fn error_of(answer: &CAnswer) -> Error {
    match answer.status {
        STATUS_REFUSED => match Rule::from_number(answer.rule) {
            Some(rule) => Error::Refused {
                index: answer.index,
                rule,
            },
            None => Error::Unknown,
        },
        STATUS_NO_EVENT => Error::Event(answer.index),
        STATUS_NO_NAME => Error::Name(answer.index),
        STATUS_NO_OPTION => Error::Option(answer.index),
        STATUS_NO_LINE => Error::Line(answer.index),
        STATUS_MEMORY => Error::Memory,
        STATUS_UNSAFE => Error::Unsafe,
        STATUS_NESTED => Error::Nested,
        STATUS_NO_ATTRIBUTE => Error::Attribute(answer.index),
        _ => Error::Unknown,
    }
}
