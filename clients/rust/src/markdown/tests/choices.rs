//! Each option by itself.

use super::*;

#[test]
fn hard_breaks() {
    assert_eq!(
        html_with("a\nb ![c\nd](e)", |options| options.hard_breaks = true).unwrap(),
        "<p>a<br />\nb <img src=\"e\" alt=\"c\nd\" /></p>\n"
    );
}

#[test]
fn html_as_text() {
    assert_eq!(
        html("a <b>c</b>\n\n<div>\n<!-- d -->\n"),
        "<p>a &lt;b&gt;c&lt;/b&gt;</p>\n&lt;div&gt;\n&lt;!-- d --&gt;\n"
    );
}

#[test]
fn html_left_out() {
    let left_out = |text| html_with(text, |options| options.html = DocumentHtml::LeftOut).unwrap();
    assert_eq!(left_out("a <b>c</b>\n\n<div>\nd\n"), "<p>a c</p>\n");
    assert_eq!(
        left_out("- <b>\n- <div>\n\n> <p>\n"),
        "<ul>\n<li></li>\n<li></li>\n</ul>\n<blockquote>\n</blockquote>\n"
    );
    assert_eq!(
        left_out("`<b>` \\<b> &lt;b>"),
        "<p><code>&lt;b&gt;</code> &lt;b&gt; &lt;b&gt;</p>\n"
    );
}

#[test]
fn html_without_comments() {
    let without =
        |text| html_with(text, |options| options.html = DocumentHtml::WithoutComments).unwrap();
    assert_eq!(without("a<!-- b --> <i>c"), "<p>a &lt;i&gt;c</p>\n");
    assert_eq!(
        without("> <!-- a\n> b\n> -->\n\nc"),
        "<blockquote>\n</blockquote>\n<p>c</p>\n"
    );
    assert_eq!(
        without("<div><!-- a --></div>\n"),
        "&lt;div&gt;&lt;/div&gt;\n"
    );
    assert_eq!(without("<!-- a\n\nb"), "");
    let left_of_tabs = without(">\t<!-- a\n>\tb -->\n");
    assert_eq!(left_of_tabs, "<blockquote>\n</blockquote>\n");
}

#[test]
fn html_kept() {
    for (text, kept, kept_or_text) in [
        ("H<sub>2</sub>O", "H<sub>2</sub>O", "H<sub>2</sub>O"),
        ("a <font>b</font>", "a b", "a &lt;font&gt;b&lt;/font&gt;"),
        (
            "<b>a <i>b</b> c</i>",
            "<b>a b</b> c",
            "<b>a &lt;i&gt;b</b> c&lt;/i&gt;",
        ),
        ("a<!-- b -->", "a", "a"),
        (
            "a <script>b</script>",
            "a b",
            "a &lt;script&gt;b&lt;/script&gt;",
        ),
        (
            "<a href='javascript:b' onclick='c'>d</a>",
            "<a>d</a>",
            "<a>d</a>",
        ),
        ("a < b", "a &lt; b", "a &lt; b"),
    ] {
        for (choice, wanted) in [
            (DocumentHtml::Kept, kept),
            (DocumentHtml::KeptOrText, kept_or_text),
        ] {
            let html = html_with(text, |options| options.html = choice);
            assert_eq!(html, Ok(format!("<p>{wanted}</p>\n")), "{text:?}, {choice}");
        }
    }
}

#[test]
fn kept_html_with_other_options() {
    let mut options = MarkdownOptions::default().with_html(DocumentHtml::Kept);
    options.rel = Some("ugc".to_string());
    options.heading_slugs = true;
    let text = "<h2>A <a href='b'>c</a></h2>\n\n# A c\n";
    let made = markdown_with_headings(text, &options).unwrap();
    assert_eq!(
        made.html,
        "<h2 id=\"a-c\">A <a href=\"b\" rel=\"ugc\">c</a></h2>\n<h1 id=\"a-c-1\">A c</h1>\n"
    );
    assert_eq!(made.headings.len(), 2);
    options.max_output = Some(made.html.len());
    assert!(markdown_to_html(text, &options).is_ok());
    let limit = made.html.len() - 1;
    options.max_output = Some(limit);
    let error = markdown_to_html(text, &options).unwrap_err();
    assert_eq!(error, Error::OutputTooLong { limit });
    let (length, limit) = (text.len(), text.len() - 1);
    options.max_input = Some(limit);
    let error = markdown_to_html(text, &options).unwrap_err();
    assert_eq!(error, Error::InputTooLong { length, limit });
    options = MarkdownOptions::default().with_html(DocumentHtml::KeptOrText);
    options.max_work = Some(1);
    assert!(markdown_to_html(text, &options).is_err());
}

#[test]
fn comments() {
    for (html, wanted) in [
        ("a<!--b-->c<!-- d", "ac"),
        ("<!-->a<!--->b", "ab"),
        ("<!-- - -- -> --> <!- a ->", " <!- a ->"),
        ("<!---->", ""),
    ] {
        let without = html_with(&format!("<div>{html}"), |options| {
            options.html = DocumentHtml::WithoutComments;
        });
        let wanted = wanted.replace('<', "&lt;").replace('>', "&gt;");
        assert_eq!(without, Ok(format!("&lt;div&gt;{wanted}\n")), "{html:?}");
    }
}

#[test]
fn attributes() {
    let with = |text, rel: &str| html_with(text, |options| options.rel = Some(rel.to_string()));
    let link = "<p><a href=\"b\" title=\"c\" rel=\"ugc\">a</a> <a href=\"#d\">e</a></p>\n";
    assert_eq!(with("[a](b 'c') [e](#d)", "ugc").as_deref(), Ok(link));
    let image = "<p><a href=\"b\" rel=\"\"><img src=\"c\" alt=\"a\" /></a></p>\n";
    assert_eq!(with("[![a](c)](b)", "").as_deref(), Ok(image));
    let mut options = MarkdownOptions::default();
    options.heading_ids = Some("<".to_string());
    let made = markdown_with_headings("> a\n> b\n> ===\n\n- ## c *d*\n", &options).unwrap();
    assert!(
        made.html.contains("<h1 id=\"&lt;1\">a\nb</h1>"),
        "{}",
        made.html
    );
    let told: Vec<_> = made
        .headings
        .iter()
        .map(|it| (it.level, it.number, &it.text[..]))
        .collect();
    assert_eq!(told, [(1, 1, "a\nb"), (2, 2, "c d")]);
    options.max_output = Some(made.html.len());
    assert!(markdown_with_headings("> a\n> b\n> ===\n\n- ## c *d*\n", &options).is_ok());
    options.max_output = Some(made.html.len() - 1);
    let limit = made.html.len() - 1;
    let told = markdown_with_headings("> a\n> b\n> ===\n\n- ## c *d*\n", &options);
    assert_eq!(told, Err(Error::OutputTooLong { limit }));
}

#[test]
fn bare_links_in_a_document() {
    let link = "<a href=\"https://a.org/b_c_d\">https://a.org/b_c_d</a>";
    assert_eq!(
        html("*https://a.org/b_c_d*"),
        format!("<p><em>{link}</em></p>\n")
    );
    assert_eq!(
        html("[https://a.org](x) `https://a.org`"),
        "<p><a href=\"x\">https://a.org</a> <code>https://a.org</code></p>\n"
    );
    assert_eq!(
        html("![www.a.org](x)"),
        "<p><img src=\"x\" alt=\"www.a.org\" /></p>\n"
    );
    let own = |url: &str, text: &str| format!("<a href=\"{url}\">{text}</a>");
    assert_eq!(
        html("a@b.mailto:c@d.ee xmpp:a@b.cd ftp://a.org"),
        format!(
            "<p>{}:{} {} ftp://a.org</p>\n",
            own("mailto:a@b.mailto", "a@b.mailto"),
            own("mailto:c@d.ee", "c@d.ee"),
            own("xmpp:a@b.cd", "xmpp:a@b.cd")
        )
    );
    assert_eq!(
        html_with("https://a.org", |options| options.bare_links = false).unwrap(),
        "<p>https://a.org</p>\n"
    );
}

#[test]
fn names_of_html() {
    for (name, choice) in [
        ("text", DocumentHtml::Text),
        ("left-out", DocumentHtml::LeftOut),
        ("without-comments", DocumentHtml::WithoutComments),
        ("kept", DocumentHtml::Kept),
        ("kept-or-text", DocumentHtml::KeptOrText),
    ] {
        assert_eq!(name.parse(), Ok(choice));
        assert_eq!(choice.to_string(), name);
    }
    for name in ["", "Text", "text ", "left_out"] {
        let error = name.parse::<DocumentHtml>().unwrap_err();
        let wanted = "expected text, left-out, without-comments, kept or kept-or-text";
        assert_eq!(error.to_string(), wanted, "{name}");
    }
}
