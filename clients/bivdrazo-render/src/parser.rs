//! cmark-gfm's parser, in a separate process.
//!
//! It is written in C: an error in it can't corrupt the memory of the library. It has limits of
//! time and memory, and its events are checked like any others.

use crate::script::{self, ScriptError};
use bivdrazo::Document;
use std::env;
use std::error::Error;
use std::fmt;
use std::io::{self, BufReader, Read, Write};
use std::os::unix::process::ExitStatusExt;
use std::path::PathBuf;
use std::process::{Child, Command, ExitStatus, Stdio};
use std::sync::mpsc::{self, Receiver};
use std::thread;
use std::time::{Duration, Instant};

/// The program, in the same folder as this one.
const PROGRAM: &str = "bivdrazo-render-cmark";

/// A shell sets the limits and becomes the parser, so that no code of ours runs between fork and
/// exec, which would be unsafe. The first limit of processor time sends the parser a signal, and
/// the second kills it.
const LIMITED: &str = concat!(
    r#"ulimit -c 0 && ulimit -v "$1" && ulimit -S -t "$2" && ulimit -H -t "$3" && "#,
    r#"exec "$0" --events"#
);

/// The signals of Linux that are reported by their cause, and the parser's status when it is out of
/// memory.
const ABORTED: i32 = 6;
const BROKEN_PIPE: i32 = 13;
const PROCESSOR_TIME: i32 = 24;
const NO_MEMORY: i32 = 3;

/// How long a parser may take to end after its events are rejected, and to print its error.
const GRACE: Duration = Duration::from_secs(1);

/// The most bytes of the parser's error message that are reported.
const MOST_SHOWN: u64 = 500;

/// The limits of the parser.
#[derive(Clone, Copy, Debug)]
pub struct ParserLimits {
    /// Seconds of processor time; the limit of elapsed time is three times as long.
    pub seconds: u32,
    /// Megabytes of address space; its events may take as much memory in this process.
    pub megabytes: u32,
}

impl ParserLimits {
    /// The limit of elapsed time.
    fn time(self) -> Duration {
        Duration::from_secs(3 * u64::from(self.seconds))
    }

    /// The limit of memory for the events.
    fn room(self) -> usize {
        (self.megabytes as usize) << 20
    }
}

/// Why there are no events.
#[derive(Debug)]
pub enum ParserError {
    /// The parser is missing.
    Missing(PathBuf, io::Error),
    /// Starting it or waiting for it failed.
    Failed(io::Error),
    /// It exceeded the limit of elapsed time.
    Time(Duration),
    /// It exceeded the limit of processor time.
    ProcessorTime(u32),
    /// It exceeded the limit of memory.
    Memory(u32),
    /// It failed, with this message.
    Ended(ExitStatus, String),
    /// Its output isn't an event script.
    Script(ScriptError),
    /// The library refuses its events.
    Refused(bivdrazo::Error),
}

impl fmt::Display for ParserError {
    fn fmt(&self, formatter: &mut fmt::Formatter) -> fmt::Result {
        write!(formatter, "cmark-gfm's parser: ")?;
        match self {
            ParserError::Missing(path, error) => write!(formatter, "{}: {error}", path.display()),
            ParserError::Failed(error) => write!(formatter, "{error}"),
            ParserError::Time(time) => {
                write!(
                    formatter,
                    "over its limit: {} s of elapsed time",
                    time.as_secs()
                )
            }
            ParserError::ProcessorTime(seconds) => {
                write!(formatter, "over its limit: {seconds} s of processor time")
            }
            ParserError::Memory(megabytes) => {
                write!(formatter, "over its limit: {megabytes} megabytes of memory")
            }
            ParserError::Ended(status, message) if message.is_empty() => {
                write!(formatter, "ended with {status}")
            }
            ParserError::Ended(status, message) => {
                write!(formatter, "ended with {status}: {message}")
            }
            ParserError::Script(error) => write!(formatter, "{error}"),
            ParserError::Refused(error) => write!(formatter, "its events are refused: {error}"),
        }
    }
}

impl Error for ParserError {}

impl From<io::Error> for ParserError {
    fn from(error: io::Error) -> ParserError {
        ParserError::Failed(error)
    }
}

/// The events of a Markdown text.
pub fn events_of(text: String, limits: ParserLimits) -> Result<Document, ParserError> {
    let end = Instant::now() + limits.time();
    let mut child = start(limits)?;
    let mut input = pipe(child.stdin.take())?;
    let output = BufReader::new(pipe(child.stdout.take())?);
    let errors = pipe(child.stderr.take())?;
    in_background(move || input.write_all(text.as_bytes()));
    let message = in_background(move || first_line(errors));
    let read = in_background(move || script::read(output, limits.room()));
    let read = read.recv_timeout(limits.time()).ok();
    let end = match &read {
        Some(Err(_)) => end.min(Instant::now() + GRACE),
        _ => end,
    };
    let ended = wait_until(&mut child, end)?;
    match (read, ended) {
        (Some(Ok(document)), Some(status)) if status.success() => Ok(document),
        (Some(Err(error)), status) if status.map_or(true, is_plain) => {
            Err(ParserError::Script(error))
        }
        (None, _) | (_, None) => Err(ParserError::Time(limits.time())),
        (_, Some(status)) => Err(cause_of(
            status,
            message.recv_timeout(GRACE).unwrap_or_default(),
            limits,
        )),
    }
}

/// Starts the parser under its limits.
fn start(limits: ParserLimits) -> Result<Child, ParserError> {
    let program = env::current_exe()?.with_file_name(PROGRAM);
    if let Err(error) = program.metadata() {
        return Err(ParserError::Missing(program, error));
    }
    let kibibytes = u64::from(limits.megabytes) << 10;
    let seconds = u64::from(limits.seconds);
    let child = Command::new("/bin/sh")
        .args(["-c", LIMITED])
        .arg(program)
        .args([kibibytes, seconds, seconds + 1].map(|limit| limit.to_string()))
        .stdin(Stdio::piped())
        .stdout(Stdio::piped())
        .stderr(Stdio::piped())
        .spawn()?;
    Ok(child)
}

/// A pipe to or from the parser.
fn pipe<T>(pipe: Option<T>) -> io::Result<T> {
    pipe.ok_or_else(|| io::ErrorKind::BrokenPipe.into())
}

/// Starts work in a thread, and returns a receiver of its result. Nobody waits for the thread to
/// end: it reads or writes a pipe, which a child of the parser could keep open.
fn in_background<T: Send + 'static>(work: impl FnOnce() -> T + Send + 'static) -> Receiver<T> {
    let (sender, receiver) = mpsc::channel();
    thread::spawn(move || sender.send(work()));
    receiver
}

/// The first line of the parser's error message, without control characters.
fn first_line(errors: impl Read) -> String {
    let mut message = Vec::new();
    let _ = errors.take(MOST_SHOWN).read_to_end(&mut message);
    let message = String::from_utf8_lossy(&message);
    let line = message.lines().next().unwrap_or_default();
    line.replace(char::is_control, "\u{fffd}")
}

/// The status of the parser; none if it was still running at the end and was killed.
fn wait_until(child: &mut Child, end: Instant) -> io::Result<Option<ExitStatus>> {
    loop {
        if let Some(status) = child.try_wait()? {
            return Ok(Some(status));
        }
        if Instant::now() >= end {
            child.kill()?;
            child.wait()?;
            return Ok(None);
        }
        thread::sleep(Duration::from_millis(1));
    }
}

/// Whether a parser with this status didn't fail: it was done, or its output was no longer read.
fn is_plain(status: ExitStatus) -> bool {
    status.success() || status.signal() == Some(BROKEN_PIPE)
}

/// The cause of a status, with the parser's message.
fn cause_of(status: ExitStatus, message: String, limits: ParserLimits) -> ParserError {
    match (status.code(), status.signal()) {
        (_, Some(PROCESSOR_TIME)) => ParserError::ProcessorTime(limits.seconds),
        (Some(NO_MEMORY), _) => ParserError::Memory(limits.megabytes),
        (_, Some(ABORTED)) if message.contains("returned null pointer") => {
            ParserError::Memory(limits.megabytes)
        }
        _ => ParserError::Ended(status, message),
    }
}
