//! Failures, and the status that each gives the program.

use crate::quiet::quietly;
use std::error::Error;

/// The statuses if a file isn't rendered: for a text that is too long, for too much work, for HTML
/// that isn't safe, and for any other cause.
const TOO_LONG: u8 = 5;
const TOO_MUCH: u8 = 6;
const UNSAFE: u8 = 7;
pub const FAILED: u8 = 1;

/// Why a file isn't rendered.
pub type Failure = Box<dyn Error + Send + Sync>;

/// A file that isn't rendered: the error message, and the program's status if it is the only one.
#[derive(Debug)]
pub struct Failed {
    pub message: String,
    pub status: u8,
}

/// The status of the program: that of all failures if they have the same one.
pub fn status_of(failed: &[Failed]) -> u8 {
    let mut statuses = failed.iter().map(|each| each.status);
    match statuses.next() {
        None => 0,
        Some(first) if statuses.all(|other| other == first) => first,
        Some(_) => FAILED,
    }
}

/// Does the work on the file of that name. A failure is reported with the name, and so is a panic,
/// so that the other files are written.
pub fn process<T>(
    name: impl FnOnce() -> String,
    work: impl FnOnce() -> Result<T, Failure>,
) -> Result<T, Failed> {
    let done = quietly(work).unwrap_or_else(|| Err("the program failed: please report it".into()));
    done.map_err(|error| Failed {
        message: format!("{}: {error}", name()),
        status: match error.downcast_ref() {
            Some(bivdrazo::Error::OutputTooLong { .. }) => TOO_LONG,
            Some(bivdrazo::Error::TooMuchWork { .. }) => TOO_MUCH,
            _ if error.is::<bivdrazo::UnsafeHtml>() => UNSAFE,
            _ => FAILED,
        },
    })
}

#[cfg(test)]
mod tests {
    use super::*;
    use rayon::prelude::*;

    /// A panic for one of several files is reported with its name, and the others are done.
    #[test]
    fn panics() {
        let names = ["a.md", "b.md", "c.md"];
        let done = names.par_iter().map(|&name| {
            let work = || match name {
                "b.md" => panic!("the text of a document"),
                _ => Ok(()),
            };
            process(|| name.to_string(), work)
        });
        let failed: Vec<Failed> = done.filter_map(Result::err).collect();
        let texts: Vec<&str> = failed.iter().map(|each| &*each.message).collect();
        assert_eq!(texts, ["b.md: the program failed: please report it"]);
        assert_eq!(status_of(&failed), FAILED);
    }
}
