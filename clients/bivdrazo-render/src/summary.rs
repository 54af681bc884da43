//! The result for each file, and the summary of all in one line.

use crate::failures::Failed;

/// The result for a file that didn't fail.
#[derive(Clone, Copy, Debug, Eq, PartialEq)]
pub enum Done {
    /// A page was written.
    Written,
    /// A page was there already.
    Unchanged,
    /// A file was copied.
    Copied,
    /// A copy was there already.
    Kept,
    /// A page or a copy was removed.
    Removed,
}

/// The results for all files.
#[derive(Debug, Default)]
pub struct Outcome {
    done: Vec<Done>,
    /// The files that failed.
    pub failed: Vec<Failed>,
    /// Warnings about pages that were written: links without a target, errors in front matter.
    pub warnings: Vec<String>,
    /// A line about what isn't published.
    pub skipped: Option<String>,
    /// Whether there is a summary: for several files, and for a folder.
    pub is_summed: bool,
}

impl Outcome {
    /// An outcome with these failures.
    pub fn of(failed: Vec<Failed>) -> Outcome {
        Outcome {
            failed,
            ..Outcome::default()
        }
    }

    /// Adds the result for a file.
    pub fn add(&mut self, one: Result<Done, Failed>) {
        match one {
            Ok(done) => self.done.push(done),
            Err(failed) => self.failed.push(failed),
        }
    }

    /// The summary, in one line or two; none for a file that is named alone.
    pub fn summary(&self) -> Vec<String> {
        if !self.is_summed {
            return Vec::new();
        }
        let count = |wanted| self.done.iter().filter(|&&done| done == wanted).count();
        let (unchanged, copied) = (count(Done::Unchanged), count(Done::Copied));
        let (removed, failed) = (count(Done::Removed), self.failed.len());
        let parts = [
            (unchanged, format!("{unchanged} unchanged")),
            (copied, format!("{} copied", counted(copied, "file"))),
            (removed, format!("{removed} removed")),
            (failed, format!("{failed} failed")),
        ];
        let mut line = format!("{} written", counted(count(Done::Written), "page"));
        for (_, part) in parts.iter().filter(|(number, _)| *number > 0) {
            line.extend([", ", part]);
        }
        self.skipped.iter().cloned().chain([line]).collect()
    }
}

fn counted(number: usize, what: &str) -> String {
    match number {
        1 => format!("1 {what}"),
        _ => format!("{number} {what}s"),
    }
}

#[cfg(test)]
mod tests {
    use super::*;

    #[test]
    fn lines() {
        let mut outcome = Outcome::default();
        assert!(outcome.summary().is_empty());
        outcome.is_summed = true;
        assert_eq!(outcome.summary(), ["0 pages written"]);
        outcome.add(Ok(Done::Kept));
        outcome.add(Ok(Done::Copied));
        outcome.add(Ok(Done::Written));
        assert_eq!(outcome.summary(), ["1 page written, 1 file copied"]);
        outcome.add(Ok(Done::Unchanged));
        outcome.add(Ok(Done::Copied));
        outcome.add(Ok(Done::Written));
        outcome.add(Ok(Done::Removed));
        outcome.skipped = Some("not published: 1 draft".to_string());
        outcome.add(Err(Failed {
            message: String::new(),
            status: 1,
        }));
        let line = "2 pages written, 1 unchanged, 2 files copied, 1 removed, 1 failed";
        assert_eq!(outcome.summary(), ["not published: 1 draft", line]);
    }
}
