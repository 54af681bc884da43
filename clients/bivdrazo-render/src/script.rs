//! The events that a parser in another process writes: an event script without options.
//!
//! A line is `+` (enter) or `-` (exit), a name, a space and an offset in decimal digits. The bytes
//! follow the line `--`.

use bivdrazo::{Document, Event, Name};
use std::fmt;
use std::io::{self, BufRead, Read};
use std::mem::size_of;
use std::str;

/// The most bytes of a line.
const LONGEST_LINE: u64 = 128;

/// Why a script can't be read.
#[derive(Debug)]
pub enum ScriptError {
    /// Reading failed.
    Read(io::Error),
    /// The line with this number, from 1, isn't valid.
    Line(usize),
    /// The events and the bytes take more than this number of bytes of memory.
    TooLong(usize),
}

impl fmt::Display for ScriptError {
    fn fmt(&self, formatter: &mut fmt::Formatter) -> fmt::Result {
        match self {
            ScriptError::Read(error) => write!(formatter, "its events can't be read: {error}"),
            ScriptError::Line(number) => {
                write!(formatter, "its events can't be read, at line {number}")
            }
            ScriptError::TooLong(room) => {
                write!(formatter, "its events take more than {room} bytes")
            }
        }
    }
}

impl From<io::Error> for ScriptError {
    fn from(error: io::Error) -> ScriptError {
        ScriptError::Read(error)
    }
}

/// Reads the document in a script, which may take `room` bytes of memory.
pub fn read(mut script: impl BufRead, room: usize) -> Result<Document, ScriptError> {
    let mut document = Document::default();
    let mut line = Vec::new();
    for number in 1.. {
        line.clear();
        script
            .by_ref()
            .take(LONGEST_LINE)
            .read_until(b'\n', &mut line)?;
        if line == b"--\n" {
            break;
        }
        let event = event_of(&line).ok_or(ScriptError::Line(number))?;
        if (document.events.len() + 1) * size_of::<Event>() > room {
            return Err(ScriptError::TooLong(room));
        }
        document.events.push(event);
    }
    let left = room - document.events.len() * size_of::<Event>();
    script
        .take((left as u64).saturating_add(1))
        .read_to_end(&mut document.bytes)?;
    match document.bytes.len() > left {
        true => Err(ScriptError::TooLong(room)),
        false => Ok(document),
    }
}

/// The event of a line.
fn event_of(line: &[u8]) -> Option<Event> {
    let line = str::from_utf8(line).ok()?.strip_suffix('\n')?;
    let (name, digits) = line.get(1..)?.split_once(' ')?;
    let name = Name::from_text(name)?;
    if !digits.bytes().all(|byte| byte.is_ascii_digit()) {
        return None;
    }
    let index = digits.parse().ok()?;
    match line.as_bytes()[0] {
        b'+' => Some(Event::enter(name, index)),
        b'-' => Some(Event::exit(name, index)),
        _ => None,
    }
}

#[cfg(test)]
mod tests {
    use super::*;

    fn of(script: &str, room: usize) -> Result<Document, String> {
        read(script.as_bytes(), room).map_err(|error| error.to_string())
    }

    #[test]
    fn scripts() {
        let document = of("+Data 0\n-Data 3\n--\na\n--", 1000).unwrap();
        assert_eq!(
            document.events,
            [Event::enter(Name::Data, 0), Event::exit(Name::Data, 3)]
        );
        assert_eq!(document.bytes, b"a\n--");
        assert_eq!(of("--\n", 0), Ok(Document::default()));
    }

    #[test]
    fn lines_that_are_none() {
        let longest = format!("+Data {}\n--\n", "0".repeat(200));
        for line in [
            "",
            "\n",
            "+\n",
            "--",
            "+Data 0",
            "+Data\n",
            "+Data \n",
            "+Data +0\n",
            "+Data 0 \n",
            " Data 0\n",
            "+data 0\n",
            "+Other 0\n",
            "!gfm_tagfilter\n",
            "+Data 0.1\n",
            "\u{e9}Data 0\n",
            &longest,
            "+Data 99999999999999999999\n",
        ] {
            let script = format!("+Data 0\n{line}");
            assert_eq!(
                of(&script, 1000),
                Err("its events can't be read, at line 2".to_string()),
                "{line:?}"
            );
        }
    }

    #[test]
    fn rooms() {
        let script = "+Data 0\n-Data 3\n--\nabc";
        let least = 2 * size_of::<Event>() + 3;
        assert!(of(script, least).is_ok());
        for room in [0, size_of::<Event>(), least - 1] {
            let answer = read(script.as_bytes(), room);
            assert!(matches!(answer, Err(ScriptError::TooLong(limit)) if limit == room));
        }
    }
}
