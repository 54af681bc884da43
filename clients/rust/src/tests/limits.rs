//! Limits of the text, of the work and of the nesting.

use super::*;

fn within(events: &[Event], bytes: &[u8], text: usize, work: usize) -> Result<String, Error> {
    compile_within(
        events,
        bytes,
        &Options::default(),
        &[],
        Limits::default().with_text(text).with_work(work),
    )
}

#[test]
fn limits() {
    let most = usize::MAX;
    let text = "<p>Hi &lt;b&gt;</p>".to_string();
    let of = |limit, work| within(&paragraph(6), b"Hi <b>", limit, work);
    assert_eq!(
        Limits::default(),
        Limits {
            text: most,
            work: most,
            depth: 0
        }
    );
    assert_eq!(of(most, most), Ok(text.clone()));
    assert_eq!(of(text.len(), 6), Ok(text.clone()));
    let limit = text.len() - 1;
    assert_eq!(of(limit, 6), Err(Error::OutputTooLong { limit }));
    assert_eq!(of(0, most), Err(Error::OutputTooLong { limit: 0 }));
    assert_eq!(of(most, 5), Err(Error::TooMuchWork { limit: 5 }));
    assert_eq!(of(0, 0), Err(Error::TooMuchWork { limit: 0 }));
    assert_eq!(within(&[], b"", 0, 0), Ok(String::new()));
}

#[test]
fn nesting() {
    let deep = |levels, depth| {
        let events = (0..levels).fold(Vec::new(), |events, _| {
            node(Name::BlockQuote, 0, 0, &events)
        });
        let limits = Limits::default().with_depth(depth);
        compile_within(&events, b"", &Options::default(), &[], limits).map(|_| ())
    };
    assert_eq!(deep(9, 9), Ok(()));
    assert_eq!(deep(9, 0), Ok(()));
    assert_eq!(deep(9, 8), Err(Error::TooDeep { limit: 8 }));
    let open = vec![Event::enter(Name::Paragraph, 0); 2];
    let limits = Limits::default().with_work(0).with_depth(1);
    assert_eq!(
        compile_within(&open, b"", &Options::default(), &[], limits),
        Err(Error::TooDeep { limit: 1 })
    );
}

#[test]
fn limits_past_the_first_buffer() {
    let text = format!("<p>{}</p>", "&quot;".repeat(1000));
    let of = |limit| within(&paragraph(1000), &[b'"'; 1000], limit, 1000);
    assert_eq!(of(text.len()), Ok(text.clone()));
    let limit = text.len() - 1;
    assert_eq!(of(limit), Err(Error::OutputTooLong { limit }));
}

#[test]
fn limits_over_what_is_refused() {
    let open = &paragraph(1)[..3];
    let refused = Error::Refused {
        index: 3,
        rule: Rule::Order,
    };
    assert_eq!(within(open, b"a", 0, 1), Err(refused));
    assert_eq!(
        within(open, b"a", 0, 0),
        Err(Error::TooMuchWork { limit: 0 })
    );
}
