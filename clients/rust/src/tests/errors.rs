//! The errors of statuses, and their texts.

use super::*;
use crate::errors::error_of;
use crate::layouts::CAnswer;

fn error(status: u32, rule: u32, index: usize) -> Error {
    error_of(&CAnswer {
        status,
        rule,
        index,
        length: 0,
    })
}

#[test]
fn statuses() {
    assert_eq!(error(2, 11, 0), Error::Unknown);
    assert_eq!(error(3, 0, 4), Error::Event(4));
    assert_eq!(error(4, 0, 5), Error::Name(5));
    assert_eq!(
        error(5, 0, 6).to_string(),
        "option gfm_footnote_back_label: no such value"
    );
    assert_eq!(
        error(5, 0, 11).to_string(),
        "option gfm_footnote_number_ids: no such value"
    );
    assert_eq!(error(7, 0, 0), Error::Memory);
    assert_eq!(error(8, 0, 0), Error::Unsafe);
    assert_eq!(error(9, 0, 1), Error::Attribute(1));
    assert_eq!(error(12, 0, 0), Error::Nested);
    assert_eq!(error(99, 0, 0), Error::Unknown);
}

#[test]
fn texts_of_errors() {
    let refused = |rule| Error::Refused { index: 3, rule };
    for (number, name) in [(1, "allow_dangerous_html"), (12, "unknown")] {
        let wanted = format!("option {name}: no such value");
        assert_eq!(Error::Option(number).to_string(), wanted);
    }
    for (error, text) in [
        (
            refused(Rule::Order),
            "event 3: no tree has events that begin so, or a node or a group is open at the end",
        ),
        (refused(Rule::Mdx), "event 3: a name of MDX"),
        (
            refused(Rule::Target),
            "event 3: a link or an image has no target",
        ),
        (Error::Event(4), "event 4: no such kind or name"),
        (Error::Name(5), "character reference 5: not UTF-8"),
        (Error::Line(6), "line 6: unreadable"),
        (Error::Memory, "out of memory"),
        (Error::Unsafe, "the options aren't safe"),
        (Error::Nested, "a link in a link"),
        (Error::Attribute(1), "attribute 1: no such value"),
        (
            Error::OutputTooLong { limit: 7 },
            "the text has more than 7 bytes",
        ),
        (Error::TooMuchWork { limit: 8 }, "there is more work than 8"),
        (Error::Unknown, "a library of another version"),
    ] {
        assert_eq!(error.to_string(), text);
    }
}
