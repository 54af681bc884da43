//! Names of events and of references, and numbers.

use super::*;
use crate::numbers::NAMES;

#[test]
fn names_of_references() {
    let mut events = node(Name::CharacterReferenceMarker, 0, 1, &[]);
    events.extend(node(Name::CharacterReferenceValue, 1, 2, &[]));
    let names = [("x", "<"), ("x", "y")];
    assert_eq!(
        compile(&events, b"&x;", &Options::default(), &names).unwrap(),
        "&lt;"
    );
}

/// Each of HTML's names has its text.
#[test]
fn references() {
    assert_eq!(REFERENCES.len(), 2125);
    for (name, text) in REFERENCES {
        let mut events = node(Name::CharacterReferenceMarker, 0, 0, &[]);
        events.extend(node(Name::CharacterReferenceValue, 0, name.len(), &[]));
        let html = compile(&events, name.as_bytes(), &Options::default(), REFERENCES).unwrap();
        let read = html
            .replace("&lt;", "<")
            .replace("&gt;", ">")
            .replace("&quot;", "\"");
        assert_eq!(read.replace("&amp;", "&"), *text, "{name}");
    }
}

/// A link in a link is an error in the calls that check for it.
#[test]
fn nested_links() {
    let around = |inner: &[Event]| {
        let text = node(Name::LabelText, 0, 0, inner);
        let resource = node(Name::Resource, 0, 0, &[]);
        let parts = [node(Name::Label, 0, 0, &text), resource].concat();
        node(Name::Link, 0, 0, &parts)
    };
    let unnested = |events: &[Event]| compile_unnested(events, b"", &Options::default(), &[]);
    let nested = around(&around(&[]));
    assert_eq!(unnested(&around(&[])).unwrap(), "<a href=\"\"></a>");
    assert_eq!(unnested(&nested), Err(Error::Nested));
    assert_eq!(has_nested_link(&nested), Ok(true));
    assert_eq!(has_nested_link(&around(&[])), Ok(false));
    assert!(with_defaults(&nested, b"").is_ok());
}

#[test]
fn numbers_of_rules() {
    assert_eq!(Rule::from_number(Rule::Target.number()), Some(Rule::Target));
    assert_eq!((Rule::Order.number(), Rule::from_number(0)), (1, None));
}

#[test]
fn other_names() {
    let inner = node(Name::ThematicBreak, 0, 0, &[]);
    assert_eq!(
        with_defaults(&node(Name::Other(7), 0, 0, &inner), b"").unwrap(),
        "<hr />"
    );
    let mut events = node(Name::Other(7), 0, 0, &[]);
    events[1].name = Name::Other(8);
    let refused = Error::Refused {
        index: 1,
        rule: Rule::Order,
    };
    assert_eq!(with_defaults(&events, b""), Err(refused));
}

#[test]
fn numbers_of_names() {
    let numbers: Vec<u16> = NAMES.iter().map(|name| name.numbers().0).collect();
    let in_order: Vec<u16> = (1..=86).collect();
    assert_eq!(numbers, in_order);
    assert_eq!(Name::Other(3).numbers(), (65535, 3));
}

#[test]
fn texts_of_names() {
    for &name in NAMES {
        assert_eq!(Name::from_text(&format!("{name:?}")), Some(name));
    }
    assert_eq!(Name::from_text("Other3"), Some(Name::Other(3)));
    assert_eq!(Name::from_text("Other65535"), Some(Name::Other(65535)));
    for text in ["data", "", "Other", "Other+3", "Other65536", "Other000003"] {
        assert_eq!(Name::from_text(text), None, "{text}");
    }
}
