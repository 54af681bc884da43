//! Titles, drafts, weights, and faults.

use super::yaml::{MANY_COLONS, QUOTE_IT, TAB};
use super::*;
use std::time::{Duration, Instant};

/// The title, and the rest of the document.
fn of(document: &str) -> (Option<String>, &str) {
    let front = front_matter(document);
    (front.title, &document[front.end..])
}

fn title_of(text: &str, is_yaml: bool) -> Result<Option<String>, String> {
    keys_of(text, is_yaml)?.title.transpose()
}

/// The title of front matter in YAML and in TOML, or its fault.
fn yaml(text: &str) -> Result<Option<String>, String> {
    title_of(text, true)
}

fn toml(text: &str) -> Result<Option<String>, String> {
    title_of(text, false)
}

fn all_say(read: fn(&str) -> Result<Option<String>, String>, wanted: &[(&str, &str)]) {
    for (text, title) in wanted {
        assert_eq!(read(text), Ok(Some(title.to_string())), "{text:?}");
    }
}

#[test]
fn languages() {
    let title = Some("A".to_string());
    for document in [
        "---\ntitle: A\n---\nb\n",
        "---\ntitle: A\n...\nb\n",
        "--- \r\ntitle: A\r\n---\r\nb\n",
        "\u{feff}---\ntitle: A\n---\nb\n",
        "---\n\ndate: c\ntitle: A # d\ne: f\n---\nb\n",
        "---\ntitle: A\r---\rb\n",
        "---\rtitle: A\r\n...\r\nb\n",
        "---\ndate: c\rtitle: A\re: f\r---\nb\n",
        "+++\ntitle = \"A\"\n+++\nb\n",
        "+++\r\ntitle = \"A\"\r\n+++\r\nb\n",
        "+++\ntitle='A'\n[c]\ntitle = \"d\"\n+++\nb\n",
    ] {
        assert_eq!(of(document), (title.clone(), "b\n"), "{document:?}");
    }
    assert_eq!(of("---\n---\nb"), (None, "b"));
    assert_eq!(of("+++\n[c]\ntitle = \"d\"\n+++\nb"), (None, "b"));
    assert_eq!(of("---\ntitle: A\n---"), (title, ""));
}

#[test]
fn none() {
    for document in [
        "",
        "---",
        "---\ntitle: A\n",
        "---\ntitle: A\n+++\nb\n",
        "+++\ntitle = \"A\"\n---\nb\n",
        "\n---\ntitle: A\n---\n",
        "----\ntitle: A\n---\n",
        " ---\ntitle: A\n---\n",
    ] {
        assert_eq!(of(document), (None, document));
    }
}

#[test]
fn ends() {
    for (document, fault) in [
        ("---\ntitle: A\n", Some(NO_END)),
        ("---\n\"title\": A\n", Some(NO_END)),
        ("+++\ntitle = \"A\"\n", Some(NO_END)),
        ("---\n\nA: b\n", Some(NO_END)),
        ("---\nA b: c\n\n'd-e_f' :\n", Some(NO_END)),
        ("---\r# a\r  b: c", Some(NO_END)),
        ("---\n- a\r\n\tb:\r\n", Some(NO_END)),
        ("+++\n\n\"a\" . b-c=1\n", Some(NO_END)),
        ("+++\n# a\n[b.'c'] # d\n", Some(NO_END)),
        ("+++\n[[b]]\n", Some(NO_END)),
        ("---\nA b: c\n", None),
        ("---\n: c\n'': c\nhttp://a.b\n[a]\na = b\n", None),
        ("+++\na: b\na b = c\n= d\na. = d\n[a b]\n[]\n[a](b)\n", None),
        ("---\n", None),
        ("---\ntitle:\n---\n", Some(EMPTY_TITLE)),
        ("---\nb: c\n---\n", None),
        ("A: b\n", None),
        ("---\n\n\n---\na\n", None),
        ("---\n\nText: with colon.\n\n---\na\n", None),
        ("---\n\nA text: with colon.\n\n---\na\n", None),
    ] {
        assert_eq!(
            front_matter(document).faults.first().map(String::as_str),
            fault,
            "{document:?}"
        );
    }
}

/// Only the first lines are searched for a key.
#[test]
fn searched() {
    let fault = |lines| front_matter(&format!("---\n{}a: b\n", "c\n".repeat(lines))).faults;
    assert_eq!(fault(19), [NO_END]);
    assert!(fault(20).is_empty());
}

/// What isn't a map is reported, since it isn't printed.
#[test]
fn no_maps() {
    for (inner, line, why) in [
        ("# Title\n\n", 2, "only comments, which begin with #"),
        ("\n  # a\n# b\n", 3, "only comments, which begin with #"),
        ("\nA text.\n\n", 3, "no key, such as title:"),
        ("- a: b\n", 2, "no key, such as title:"),
        ("~\n", 2, "no key, such as title:"),
        ("[a]\n", 2, "no key, such as title:"),
        ("'a: b'\n", 2, "no key, such as title:"),
    ] {
        for end in ["---", "..."] {
            let front = front_matter(&format!("---\n{inner}{end}\nc\n"));
            let fault = format!("the front matter isn't a map, so it isn't printed: line {line}: ");
            assert_eq!(front.faults, [fault + why], "{inner:?}");
            assert_eq!(front.end, inner.len() + 8);
        }
    }
}

#[test]
fn broken() {
    let front = front_matter("---\na: b\ntitle: \"A\n---\nc\n");
    assert_eq!((front.title, front.end), (None, 23));
    let why = "while scanning a quoted scalar, found unexpected end of stream";
    let fault = format!("the front matter can't be read as YAML: line 3: {why}");
    assert_eq!(front.faults, [fault]);
    let front = front_matter("+++\na = 1\ntitle = 'A\n+++\nc\n");
    assert_eq!((front.title, front.end), (None, 25));
    let fault = "the front matter can't be read as TOML: line 3: newline in string found";
    assert_eq!(front.faults.first().map(String::as_str), Some(fault));
}

#[test]
fn yaml_titles() {
    all_say(
        yaml,
        &[
            ("title:   a   b ", "a b"),
            ("title: c#", "c#"),
            ("title: c # d", "c"),
            ("title:\ta", "a"),
            ("title: a:b", "a:b"),
            (
                "title: \"a \\\"b\\\" \\\\ \\u00e9\\x41\\U0001F600\" # c",
                "a \"b\" \\ éA\u{1f600}",
            ),
            ("title: 'it''s \\x' # c", "it's \\x"),
            ("title: \"a\\/b \\\\/ \\\\\\/ \\\"\\/\"", "a/b \\/ \\/ \"/"),
            ("title: a\\/b \"c\\/\"", "a\\/b \"c\\/\""),
            ("title: '\\/a\\\\/'", "\\/a\\\\/"),
            ("title: |\n  a\\/b", "a\\/b"),
            ("{\"url\":\"\\/\",\"ti\\u0074le\":\"<\\/a>\"}", "</a>"),
            ("title: a\n  b\n\n  c\nd: e", "a b c"),
            ("title:\n  a\n  b", "a b"),
            ("title: \"a\n  b \\\n  c\"", "a b c"),
            ("title: 'a\n\n  b'", "a b"),
            ("title: >\n  a\n  b\n\nc: d", "a b"),
            ("title: >-\n  a: \"b\"\nc: d", "a: \"b\""),
            ("title: |\n  a\n  # b\nc: d", "a # b"),
            ("\"title\": a", "a"),
            ("'title' : a", "a"),
            ("? title\n: a", "a"),
            ("abc: d\n? title\n: a", "a"),
            ("  b:\n  c:\n  title:\n    a", "a"),
            ("b:\n- c\n? d\n:\n  e\ntitle: a", "a"),
            ("{b: c,\ntitle:\na}", "a"),
            ("{date: b, title: a}", "a"),
            ("{\"title\":\"a\"}", "a"),
            ("title: &b a", "a"),
            ("b: &b a\ntitle: *b", "a"),
            ("c: [d, {e: &b a}]\ntitle: *b", "a"),
            ("b: &b title\n*b : a", "a"),
            ("title: !!str 7", "7"),
            ("title: ! 7", "7"),
            ("title: !<tag:yaml.org,2002:str> a", "a"),
            ("title: 2024", "2024"),
            ("title: 0x1F", "0x1F"),
            ("title: 1.50", "1.50"),
            ("title: 2024-01-02", "2024-01-02"),
            ("title: yes", "yes"),
            ("title: True", "True"),
            ("title: \"null\"", "null"),
            ("title: '~'", "~"),
            ("title: null and void", "null and void"),
            ("title: a\u{a0}b \u{e9}", "a\u{a0}b \u{e9}"),
            ("a: &a {title: b}\n<<: *a\ntitle: c", "c"),
            ("a: {title: b}\ntitle: c\nd:\n- title: e", "c"),
        ],
    );
    for text in [
        "",
        "\n \n",
        "titles: a",
        "Title: a",
        "a: {title: b}",
        "a: b\n\n# c\n",
    ] {
        assert_eq!(yaml(text), Ok(None), "{text:?}");
    }
}

#[test]
fn yaml_faults() {
    let at =
        |line, why: &str| format!("the front matter can't be read as YAML: line {line}: {why}");
    let is = |what: &str| format!("the title in the front matter is {what}");
    let begins_with_mark = is("empty: a value that begins with # needs quotes");
    for (text, fault) in [
        ("title: [a]", is("a list")),
        ("title:\n- a", is("a list")),
        ("title: {a: b}", is("a map")),
        ("title:\n  a: b", is("a map")),
        ("a: &a [b]\ntitle: *a", is("a list")),
        ("a: &a\n  b: c\ntitle: *a", is("a map")),
        ("title: ~", is("null")),
        ("title: null", is("null")),
        ("title: !!int 7", is("of a type that isn't known")),
        ("title: !a b", is("of a type that isn't known")),
        ("title: ''", is("empty")),
        ("title:", is("empty")),
        ("title: \na: b", is("empty")),
        ("title:\na: '#'", is("empty")),
        ("title: !!str", is("empty")),
        ("title: &a", is("empty")),
        ("title: &a # b", is("empty")),
        ("a: &a\ntitle: *a", is("empty")),
        ("? title", is("empty")),
        ("? title\n:", is("empty")),
        ("{title: , a: b}", is("empty")),
        ("{title, a: b}", is("empty")),
        ("title: # a", begins_with_mark.clone()),
        ("a: b\n\"title\" : #1 in the charts", begins_with_mark),
        ("title: \" \\n\"", is("empty")),
        ("title: a\nb: c\n\"title\": d", at(4, "a second title")),
        ("title: a\ntitle:", at(3, "a second title")),
        ("title: a: b", at(2, QUOTE_IT)),
        ("title: a\n  b: c: d", at(3, QUOTE_IT)),
        ("title: a\n  b: c", at(3, MANY_COLONS)),
        ("x: 1\n title: y", at(3, MANY_COLONS)),
        (
            "title: \"\\q\"",
            at(
                2,
                "while parsing a quoted scalar, found unknown escape character",
            ),
        ),
        (
            "title: 'a' b",
            at(
                2,
                "while parsing a block mapping, did not find expected key",
            ),
        ),
        (
            "a: b\ntitle: *c",
            at(3, "while parsing node, found unknown anchor"),
        ),
        (
            "a: &a {title: b}\n<<: *a",
            at(3, "a merge key (<<), which isn't supported"),
        ),
        ("title: a\n--- b", at(3, "a second document")),
        ("a: b\ntitle: c\0d", at(3, "a control character")),
        ("title: &a [*a]", is("a list")),
        ("title:\nb c\n", at(3, "a value without indentation")),
        (
            "a:\n  b\ntitle: # c\n\n'd'",
            at(6, "a value without indentation"),
        ),
    ] {
        assert_eq!(yaml(text), Err(fault), "{text:?}");
    }
}

/// A tab isn't indentation, but may begin a line in a scalar, and in a map in braces.
#[test]
fn yaml_tabs() {
    all_say(
        yaml,
        &[
            ("title: \"a\n\tb\"\nc: d", "a b"),
            ("title: \"a \\\"\n\tb\\\n\tc\"\nd: e", "a \" bc"),
            ("title: 'a''\n\tb'\nc: d", "a' b"),
            ("title: a\nb: &c \"d\n\te\"", "a"),
            ("title: a\nb: 'c\n\td\n\n\te'\n", "a"),
            ("title: |\n  a\n  \tb\nc: d", "a b"),
            ("title: >-\n  a\n  \tb", "a b"),
            ("title:\ta\nb:\n-\tc\nd: e\t", "a"),
            ("{\n\t\"title\": \"a\",\n\t\"b\": [\n\t\t\"c\"\n\t]\n}", "a"),
        ],
    );
    assert_eq!(yaml("b: |\n  c\n  \td\n"), Ok(None));
    let at = |line| format!("the front matter can't be read as YAML: line {line}: {TAB}");
    for (text, line) in [
        ("\ttitle: a", 2),
        (" \ttitle: a", 2),
        ("\t# a\ntitle: b", 2),
        ("\t\ntitle: b", 2),
        ("title:\n\ta: 1", 3),
        ("title: a\nb:\n\tc: 1", 4),
        ("title: a\nb:\n\t- c", 4),
        ("title: a\n \tb", 3),
        ("title: a\nb: [\n\tc\n]", 4),
        ("title: \"a\n\tb\"\n\tc: d", 4),
        ("title: 'a'\n\tb: 'c'", 3),
        ("title: |\n  a\nb:\n\tc: d", 5),
    ] {
        assert_eq!(yaml(text), Err(at(line)), "{text:?}");
    }
}

#[test]
fn toml_titles() {
    all_say(
        toml,
        &[
            (
                "title = \"a\\u00e9 \\\"b\\\"\\t\\U0001F600\"",
                "aé \"b\" \u{1f600}",
            ),
            ("title = 'a\\x'", "a\\x"),
            ("title = \"\"\"\na\nb \\\n  c\"\"\"", "a b c"),
            ("title = '''a\n'b' ''''", "a 'b' '"),
            ("\"title\" = 'a'", "a"),
            ("'title'='a' # b", "a"),
            ("a = [\n'b', # c\n]\ntitle = 'd'", "d"),
            (
                "a.title = 'b'\ntitle = 'c'\n[d]\ntitle = 'e'\n[[f]]\ntitle = 'g'",
                "c",
            ),
        ],
    );
    for text in ["", "# a", "a = 1", "[a]\ntitle = 'b'", "Title = 'a'"] {
        assert_eq!(toml(text), Ok(None), "{text:?}");
    }
}

#[test]
fn toml_faults() {
    let at =
        |line, why: &str| format!("the front matter can't be read as TOML: line {line}: {why}");
    let is = |what: &str| format!("the title in the front matter is {what}");
    let duplicate = "the front matter can't be read as TOML: duplicate key: `title`".to_string();
    for (text, fault) in [
        ("title = 2024", is("a number without quotes")),
        ("title = 1.5", is("a number without quotes")),
        ("title = 2024-01-02", is("a date without quotes")),
        ("title = true", is("a truth value without quotes")),
        ("title = ['a']", is("a list")),
        ("title.a = 'b'", is("a table")),
        ("[title]\na = 'b'", is("a table")),
        ("title = ''", is("empty")),
        (
            "a = 1\ntitle = a",
            at(
                3,
                "invalid TOML value, did you mean to use a quoted string?",
            ),
        ),
        ("title: a", at(2, "expected an equals, found a colon")),
        ("title = 'a'\ntitle = 'b'", duplicate),
        (
            "[a]\nb = 1\n[a]",
            at(4, "redefinition of table `a` for key `a`"),
        ),
        (
            "title = \"\\x41\"",
            at(2, "invalid escape character in string: `x`"),
        ),
        (
            "title = 'a' b",
            at(2, "expected newline, found an identifier"),
        ),
    ] {
        assert_eq!(toml(text), Err(fault), "{text:?}");
    }
}

/// A message is one line, however the front matter is.
#[test]
fn messages() {
    for (text, read) in [
        (
            "\"a\\u001b\\n\" = 1\n\"a\\u001b\\n\" = 2",
            toml as fn(&str) -> _,
        ),
        ("\"\\u001b\": *a", yaml),
    ] {
        let fault: String = read(text).unwrap_err();
        assert!(!fault.contains(char::is_control), "{fault:?}");
    }
    let long = format!("{} = 1\n{} = 2", "a".repeat(9999), "a".repeat(9999));
    assert!(toml(&long).unwrap_err().len() < 300);
}

/// What nests deep, or has aliases of aliases, takes little time, memory and stack.
#[test]
fn bombs() {
    let million = 1_000_000;
    let aliases: String = (1..million / 90)
        .map(|n| {
            format!(
                "a{n}: &a{n} [{}]\n",
                vec![format!("*a{}", n - 1); 9].join(",")
            )
        })
        .collect();
    let aliases = format!("a0: &a0 [b]\n{aliases}title: c\n");
    let wide: String = (0..million / 12).map(|n| format!("[a.b{n}]\n")).collect();
    let shapes = [
        ("[".repeat(million), true),
        ("{a: ".repeat(million / 4), true),
        ("- ".repeat(million / 2), true),
        ("? ".repeat(million / 2), true),
        ("a:\n".to_string() + &"-\n".repeat(million / 2), true),
        ((0..1400).map(|n| " ".repeat(n) + "a:\n").collect(), true),
        ("*a ".repeat(million / 3), true),
        (aliases, true),
        ("a: |\n".to_string() + &" b\n".repeat(million / 3), true),
        ("a: \"".to_string() + &"\\\n".repeat(million / 2), true),
        ("a: \"".to_string() + &"\\/".repeat(million / 2), true),
        (
            "a:\n".to_string() + &"- \"\n\t\"\n".repeat(million / 7),
            true,
        ),
        (
            "a:\n".to_string() + &"- |\n  \t\n".repeat(million / 8),
            true,
        ),
        ("&a ".repeat(million / 3), true),
        ("[a,".repeat(million / 3), true),
        ("a: b\n".repeat(million / 5), true),
        (format!("a = {}", "[".repeat(million)), false),
        (format!("a = {}", "[\n".repeat(million / 2)), false),
        (format!("a = {}", "{a=".repeat(million / 3)), false),
        (format!("a{} = 1", ".a".repeat(million / 2)), false),
        (format!("[a{}]", ".a".repeat(million / 2)), false),
        (format!("a = [{}]", "{a.a=1},".repeat(million / 8)), false),
        ("[[a]]\n".repeat(million / 6), false),
        (wide, false),
        (
            (0..million / 9).map(|n| format!("a{n}=1\n")).collect(),
            false,
        ),
        (
            "a = \"\"\"".to_string() + &"\\\n".repeat(million / 2),
            false,
        ),
    ];
    for (whole, is_yaml) in shapes {
        for size in [1000, MOST_BYTES - 7, whole.len()] {
            let text = &whole[..size.min(whole.len())];
            let start = Instant::now();
            let title = title_of(text, is_yaml);
            let shown = &text[..20];
            assert!(
                start.elapsed() < Duration::from_secs(1),
                "{shown:?}: {size}"
            );
            if text.len() > MOST_BYTES {
                let fault = format!("the front matter has more than {MOST_BYTES} bytes");
                assert_eq!(title, Err(fault), "{shown:?}");
            }
        }
    }
    let deepest = format!("a: {}{}\ntitle: b", "[".repeat(60), "]".repeat(60));
    assert_eq!(yaml(&deepest), Ok(Some("b".to_string())));
    assert_eq!(yaml(&format!("a: {}", "[".repeat(100))), Err(too_deep()));
    assert_eq!(yaml(&format!("a:\n{}b", "- ".repeat(100))), Err(too_deep()));
    let deepest = format!("a = {}{}\ntitle = 'b'", "[".repeat(64), "]".repeat(64));
    assert_eq!(toml(&deepest), Ok(Some("b".to_string())));
    assert_eq!(toml(&format!("a = {}", "[".repeat(65))), Err(too_deep()));
    let dots = toml(&format!("a{} = 1", ".a".repeat(501))).unwrap_err();
    assert!(dots.contains("more than 500 dots"), "{dots}");
}

/// Whether a document is a draft, and its faults.
fn draft(document: &str) -> (bool, Vec<String>) {
    let front = front_matter(document);
    (front.is_draft, front.faults)
}

#[test]
fn drafts() {
    for (inner, is_draft) in [
        ("draft: true", true),
        ("Draft: TRUE # a", true),
        ("\"draft\": yes", true),
        ("draft: 'true'", true),
        ("a: &x on\ndraft: *x", true),
        ("{title: a, draft: true}", true),
        ("published: false", true),
        ("published: off\ndraft: false", true),
        ("published: false\npublished: true", true),
        ("draft: false", false),
        ("draft:", false),
        ("draft: ~", false),
        ("published: true", false),
        ("published: 2026-11-01", false),
        ("published: [false]", false),
        ("a:\n  draft: true", false),
        ("title: draft", false),
        ("drafts: true", false),
    ] {
        let document = format!("---\n{inner}\n---\nb\n");
        assert_eq!(draft(&document), (is_draft, vec![]), "{inner}");
        let is_marked = may_be_draft(document.as_bytes());
        assert!(is_marked || !is_draft, "{inner}");
    }
    assert!(draft("+++\ndraft = true\n+++\n").0);
    assert!(draft("+++\ndraft = \"true\"\n+++\n").0);
    assert!(draft("+++\npublished = false\n+++\n").0);
    assert!(!draft("+++\ndraft = false\n[a]\ndraft = true\n+++\n").0);
    assert!(!may_be_draft(b"draft: true\n"));
    assert!(may_be_draft(b"\xef\xbb\xbf+++\nDRAFT = true\n"));
}

/// A draft stays one if something is wrong with it or with the front matter.
#[test]
fn faulty_drafts() {
    let no_truth = "the draft in the front matter is no truth value";
    for value in ["maybe", "[true]", "{a: b}", "!!bool true", "1"] {
        let front = draft(&format!("---\ndraft: {value}\n---\n"));
        assert_eq!(front, (true, vec![no_truth.to_string()]), "{value}");
    }
    for document in [
        "---\ntitle: a: b\ndraft: true\n---\n",
        "---\ndraft: true\n\ta: b\n---\n",
        "---\n  'published' : False  # a\n- b\n---\n",
        "+++\ntitle = a\ndraft = true\n+++\n",
        "---\ntitle: a\ndraft: true\n\ntext\n",
        "---\rtitle: a\rdraft: true\r\rtext\r",
    ] {
        let (is_draft, faults) = draft(document);
        assert!(is_draft && faults.len() == 1, "{document:?}: {faults:?}");
        assert!(may_be_draft(document.as_bytes()), "{document:?}");
    }
    let long = format!("---\ndraft: true\na: {}\n---\n", "b".repeat(MOST_BYTES));
    assert!(draft(&long).0);
    assert!(!draft("---\ntitle: a: b\ndraft: false\n---\n").0);
}

#[test]
fn weights() {
    let weight = |inner: &str| front_matter(&format!("---\n{inner}\n---\n")).weight;
    for (inner, wanted) in [
        ("weight: 10", Some(10.0)),
        ("weight: -1.5", Some(-1.5)),
        ("nav_order: '3'", Some(3.0)),
        ("nav_order: 3\nWeight: 2", Some(2.0)),
        ("weight:\nnav_order: 4", Some(4.0)),
        ("title: a", None),
    ] {
        assert_eq!(weight(inner), wanted, "{inner}");
        let document = format!("---\n{inner}\n---\n");
        assert!(front_matter(&document).faults.is_empty(), "{inner}");
    }
    assert_eq!(front_matter("+++\nweight = 7\n+++\n").weight, Some(7.0));
    assert_eq!(front_matter("+++\nweight = 7.5\n+++\n").weight, Some(7.5));
    for value in ["first", "inf", ".nan", "[1]", "1 2", "\"\""] {
        let front = front_matter(&format!("---\nweight: {value}\nnav_order: 5\n---\n"));
        let fault = "the weight in the front matter is no number";
        assert_eq!(
            (front.weight, front.faults),
            (Some(5.0), vec![fault.to_string()]),
            "{value}"
        );
    }
}
