//! The limits, and documents that are long, wide or deep.

use super::*;
use crate::default_work;
use std::time::{Duration, Instant};

#[test]
fn bounds() {
    let within = |input, output| {
        html_with("**a** <b>", |options| {
            options.max_input = input;
            options.max_output = output;
        })
    };
    let length = html("**a** <b>").len();
    assert!(within(Some(9), Some(length)).is_ok());
    assert_eq!(
        within(Some(8), None),
        Err(Error::InputTooLong {
            length: 9,
            limit: 8
        })
    );
    let limit = length - 1;
    assert_eq!(
        within(None, Some(limit)),
        Err(Error::OutputTooLong { limit })
    );
    assert_eq!(
        within(None, Some(0)),
        Err(Error::OutputTooLong { limit: 0 })
    );
    assert_eq!(
        html_with("", |options| options.max_output = Some(0)),
        Ok(String::new())
    );
}

/// Work: four letters, two line endings, and five for each of four cells of two rows, of which
/// nobody wrote two.
#[test]
fn work() {
    let table = "| a | b |\n|---|---|\n| c |\n| d |\n";
    for rel in [None, Some("nofollow".to_string())] {
        let with = |work, output| {
            html_with(table, |options| {
                options.rel = rel.clone();
                options.max_work = Some(work);
                options.max_output = output;
            })
        };
        assert_eq!(with(26, None), Ok(html(table)));
        assert_eq!(with(26, Some(html(table).len())), Ok(html(table)));
        assert_eq!(with(25, None), Err(Error::TooMuchWork { limit: 25 }));
        assert_eq!(with(0, Some(0)), Err(Error::TooMuchWork { limit: 0 }));
        let limit = html(table).len() - 1;
        assert_eq!(with(26, Some(limit)), Err(Error::OutputTooLong { limit }));
    }
}

/// A text that is much longer than its limit isn't made, with attributes either.
#[test]
fn long_texts_with_attributes() {
    let text = format!(
        "[a]: b '{}'\n\n{}",
        "\"".repeat(100_000),
        "[a] ".repeat(600)
    );
    let start = Instant::now();
    let limit = 100_000;
    for rel in [None, Some("nofollow".to_string())] {
        let html = html_with(&text, |options| {
            options.rel = rel.clone();
            options.max_work = Some(usize::MAX);
            options.max_output = Some(limit);
        });
        assert_eq!(html, Err(Error::OutputTooLong { limit }));
    }
    assert!(start.elapsed() < Duration::from_secs(10));
}

/// The default limit of the work depends on the document's length.
#[test]
fn default_limit_of_work() {
    let text = |uses| format!("[a]: {}\n\n{}", "b".repeat(10_000), "[a] ".repeat(uses));
    let with = |work| html_with(&text(1000), |options| options.max_work = work);
    let limit = default_work(text(1000).len());
    assert_eq!(limit, (1 << 20) + 64 * 14_007);
    assert_eq!(with(None), Err(Error::TooMuchWork { limit }));
    assert!(with(Some(usize::MAX)).unwrap().len() > 10_000_000);
    assert!(html(&text(100)).len() > 1_000_000);
    assert_eq!(default_work(usize::MAX), usize::MAX);
}

/// A destination that is used often, also one with references, is too much work.
#[test]
fn long_destinations_with_references() {
    let text = |uses, length| {
        format!(
            "{}\n\n[a]: /&amp;{} 'c\\*d'\n",
            "[A] ![b][a] ".repeat(uses),
            "b".repeat(length)
        )
    };
    assert!(html(&text(1000, 100)).contains("href=\"/&amp;bbb"));
    let long = text(25_000, 300_000);
    let limit = default_work(long.len());
    assert_eq!(html_with(&long, |_| ()), Err(Error::TooMuchWork { limit }));
    let url = format!("/&amp;{}", "b".repeat(20_000));
    let link = format!("<a href=\"{url}\" title=\"c*d\">A</a> ");
    let image = format!("<img src=\"{url}\" alt=\"b\" title=\"c*d\" /> ");
    for uses in [1, 50] {
        let links = (link.clone() + &image).repeat(uses);
        let wanted = format!("<p>{}</p>\n", links.trim_end());
        assert!(html(&text(uses, 20_000)) == wanted, "{uses}");
    }
}

/// Neither the links in another definition count, nor the targets in an image's description.
#[test]
fn what_is_not_printed() {
    let defined = format!("[a]: /&amp;{}\n\n", "b".repeat(50_000));
    let text = format!("{defined}{}", "[x](y) ".repeat(6000));
    for bound in [None, Some(1_000_000)] {
        let html = html_with(&text, |options| options.max_output = bound).unwrap();
        assert_eq!(html.matches("<a href=\"y\">x</a>").count(), 6000);
    }
    let text = format!("![[a](http://b.c/{})](y)", "d".repeat(400));
    let html = html_with(&text, |options| options.max_output = Some(200));
    assert_eq!(html.as_deref(), Ok("<p><img src=\"y\" alt=\"a\" /></p>\n"));
}

/// A row that is too short is filled with cells, up to a limit on the added ones.
#[test]
fn wide_tables() {
    let table = |columns, rows| {
        let (head, marks) = ("|a".repeat(columns), "|-".repeat(columns));
        format!("{head}\n{marks}\n{}", "b\n".repeat(rows))
    };
    let whole = |html: &str| html.matches("<td>").count();
    assert_eq!(whole(&html(&table(10, 10))), 100);
    let wide = html_with(&table(2000, 1000), |options| {
        options.max_work = Some(usize::MAX);
    });
    let cells = whole(&wide.unwrap());
    assert!(((1 << 19) - 2000..=1 << 19).contains(&cells), "{cells}");
}

/// A document that nests deeper than its limit is shown as it is written.
#[test]
fn depth() {
    let quotes = "> > > > *a*";
    let shown = "<p>&gt; &gt; &gt; &gt; *a*</p>";
    for (limit, is_shown) in [(1, true), (4, true), (40, false), (0, false)] {
        let made = html_with(quotes, |options| options.max_depth = Some(limit));
        let wanted = match is_shown {
            true => shown.to_string(),
            false => html(quotes),
        };
        assert_eq!(made, Ok(wanted), "{limit}");
    }
    assert_eq!(html(quotes).matches("<blockquote>").count(), 4);
    let limit = shown.len() - 1;
    let made = html_with(quotes, |options| {
        options.max_depth = Some(4);
        options.max_output = Some(limit);
    });
    assert_eq!(made, Err(Error::OutputTooLong { limit }));
}

/// A mark is text if too many quotes, lists and items are open.
#[test]
fn nests() {
    let deep = html(&("> ".repeat(40_000) + "a"));
    let quotes = deep.matches("<blockquote>").count();
    assert_eq!(quotes, 96);
    assert!(deep.contains("<p>&gt; &gt; ") && deep.contains("&gt; a</p>"));
    let items = format!("{}a\n{}\\b", "- ".repeat(1000), "\n".repeat(100_000));
    assert_eq!(html(&items).matches("<li>").count(), 48);
}
