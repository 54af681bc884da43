"""Tests of SafeHtml: the calls that return it, templates, and texts made from it."""

import contextlib
import copy
import doctest
import html
import io
import json
import pathlib
import pickle
import re
import sqlite3
import unittest

import bivdrazo
from bivdrazo import Event, Name, SafeHtml, UnsafeHtml, compile, compile_within, is_safe_html
from bivdrazo import markdown_to_html, markdown_with_headings, run

try:
    import jinja2
    from markupsafe import Markup
    WHY_NO_JINJA = None
except ImportError:
    WHY_NO_JINJA = "Jinja is missing"
PAGE = pathlib.Path(__file__).resolve().parents[3] / "docs" / "use" / "PYTHON.md"
EVENTS = (Event.enter(Name.DATA, 0), Event.exit(Name.DATA, 6))
UNSAFE = ({"allow_any_img_src": True}, {"allow_dangerous_html": True},
          {"allow_dangerous_protocol": True}, {"gfm_footnote_label_attributes": ""},
          {"gfm_footnote_label_tag_name": "h3"})
SAFE = ({}, {"gfm_task_list_item_checkable": True}, {"gfm_tagfilter": True},
        {"gfm_footnote_label": "a"}, {"gfm_footnote_back_label": "b"},
        {"gfm_footnote_clobber_prefix": ""}, {"gfm_footnote_number_ids": True},
        {"allow_dangerous_html": False, "gfm_footnote_label_tag_name": None})


def escaped(value):
    """A value after Django's or MarkupSafe's escaping."""
    return value.__html__() if hasattr(value, "__html__") else html.escape(value)


class Answers(unittest.TestCase):
    """The calls that return it are those whose text is safe."""

    def test_compile(self):
        for call in (compile, compile_within):
            for options in SAFE:
                made = call(EVENTS, b"Hi <b>", **options)
                self.assertIs(type(made), SafeHtml, options)
                self.assertEqual(escaped(made), "Hi &lt;b&gt;")
            for options in UNSAFE:
                made = call(EVENTS, b"Hi <b>", **options)
                self.assertIs(type(made), str, options)
                self.assertEqual(escaped(made), "Hi &amp;lt;b&amp;gt;")

    def test_run(self):
        self.assertIs(type(run(b"+Data 0\n-Data 1\n--\na")), str)

    def test_markdown(self):
        for text in ("", "a", "\u00e9" * 100_000):
            self.assertIs(type(markdown_to_html(text)), SafeHtml)
        for choice in ("text", "left-out", "without-comments", "kept", "kept-or-text"):
            made, headings = markdown_with_headings("# a <b>", "p-", html=choice)
            self.assertIs(type(made), SafeHtml)
            self.assertIs(type(headings[0].text), SafeHtml)
            self.assertEqual(escaped(headings[0].text), headings[0].text)

    def test_examples(self):
        self.assertEqual(doctest.testmod(bivdrazo.calls).failed, 0)
        self.assertEqual(doctest.testmod(bivdrazo.safe).failed, 0)


class Values(unittest.TestCase):
    """It is a str, and texts made from it are plain ones."""

    MADE = SafeHtml("<p>a</p>\n")

    def test_as_a_str(self):
        plain = "<p>a</p>\n"
        self.assertEqual(self.MADE, plain)
        self.assertEqual(hash(self.MADE), hash(plain))
        self.assertEqual({plain: 1}[self.MADE], 1)
        self.assertLess("<", self.MADE)
        self.assertEqual(repr(self.MADE), repr(plain))
        self.assertEqual(json.dumps(self.MADE), json.dumps(plain))
        self.assertIs(self.MADE.__html__(), self.MADE)
        self.assertFalse(hasattr(self.MADE, "__dict__"))

    def test_pickles(self):
        for protocol in range(pickle.HIGHEST_PROTOCOL + 1):
            again = pickle.loads(pickle.dumps(self.MADE, protocol))
            self.assertEqual((type(again), again), (SafeHtml, self.MADE))
        self.assertIs(type(copy.deepcopy(self.MADE)), SafeHtml)

    def test_what_is_made_of_it(self):
        made = self.MADE
        for each in (made[:], made[0:], made[1:], made[0], made + "", "" + made, made + made,
                     made * 1, 1 * made, made * 2, str(made), f"{made}", format(made), "%s" % made,
                     "{}".format(made), "".join([made]), made.join(["a"]), made.join(["a", "b"]),
                     made.strip(), made.strip("!"), made.replace("!", ""), made.lower(),
                     made.translate({}), made.ljust(0), made.zfill(0), made.expandtabs(),
                     made.removeprefix("!"), made.split("!")[0], made.splitlines(True)[0],
                     made.casefold(), made.partition("<")[2], SafeHtml("{}").format("<"),
                     SafeHtml("%s") % "<"):
            self.assertIs(type(each), str, each)
        # These may return the text itself if nothing in it changes.
        for each in (made.format(), made % (), made.partition("!")[0]):
            self.assertTrue(each is made or type(each) is str)


class Checked(unittest.TestCase):
    """Texts of others become SafeHtml if they are safe."""

    ATTACKS = (
        "<script>alert(1)</script>",
        "<ScRiPt>alert(1)</sCrIpT>",
        '<p onclick="alert(1)">a</p>',
        '<img src="a" onerror="alert(1)" />',
        "<img src=a onerror=alert(1)>",
        '<a href="javascript:alert(1)">a</a>',
        '<a href="JaVaScRiPt:alert(1)">a</a>',
        '<a href="java&#115;cript:alert(1)">a</a>',
        '<a href="javascript&colon;alert(1)">a</a>',
        '<a href="data:text/html,a">a</a>',
        '<img src="data:image/svg+xml,a" alt="b" />',
        '<a href="a" href="javascript:alert(1)">a</a>',
        '<svg onload="alert(1)"></svg>',
        '<iframe src="https://a.b"></iframe>',
        '<form action="https://a.b"></form>',
        "<style>body { display: none }</style>",
        '<p style="position: fixed">a</p>',
        "</div></div><p>a</p>",
        "<p>a",
        "a <!-- b",
        '<a href="a"><a href="b">c</a></a>',
        "<p title='</p><script>alert(1)</script>'>a</p>",
        "<plaintext>a",
        "a\0b",
        "a\ud800",
        "\udfff",
    )
    DOCUMENT = "# a <b>\n\n- [x] *c* [d](e \"f\")\n\n|g|\n|-|\n|h[^i]|\n\n[^i]: \U0001fa90\n"

    def test_safe(self):
        for text in ("", "a", "\U0001fa90", "<p>a &amp; <em>b</em></p>\n", "<p>a</p>" * 100_000,
                     SafeHtml("<p>a</p>")):
            self.assertIs(is_safe_html(text), True)
            made = SafeHtml.from_checked(text)
            self.assertIs(type(made), SafeHtml)
            self.assertEqual(made, text)

    def test_unsafe(self):
        for text in (*self.ATTACKS, "<blockquote>" * 100_000):
            self.assertIs(is_safe_html(text), False, text[:100])
            with self.assertRaises(UnsafeHtml) as caught:
                SafeHtml.from_checked(text)
            self.assertIsInstance(caught.exception, ValueError)
            again = pickle.loads(pickle.dumps(caught.exception))
            self.assertEqual((type(again), str(again)), (UnsafeHtml, "the text isn't safe HTML"))

    def test_types(self):
        for value in (None, 7, b"a", ["a"]):
            self.assertRaises(TypeError, is_safe_html, value)
            self.assertRaises(TypeError, SafeHtml.from_checked, value)

    def test_a_subclass_changes_nothing(self):
        class Text(str):
            def encode(self, *_):
                return b"<p>a</p>"

            def __str__(self):
                return "<script>"

        self.assertRaises(UnsafeHtml, SafeHtml.from_checked, Text("<script>"))
        self.assertEqual(SafeHtml.from_checked(Text("<p>b</p>")), "<p>b</p>")

    def test_a_database(self):
        database = sqlite3.connect(":memory:")
        database.execute("CREATE TABLE comments (html TEXT)")
        made = markdown_to_html(self.DOCUMENT, rel="nofollow ugc")
        self.assertIn('rel="nofollow ugc"', made)
        database.execute("INSERT INTO comments VALUES (?)", (str(made),))
        database.execute("INSERT INTO comments VALUES (?)", (made + "<script>",))
        (stored,), (changed,) = database.execute("SELECT html FROM comments ORDER BY rowid")
        database.close()
        self.assertIs(type(stored), str)
        self.assertEqual(escaped(SafeHtml.from_checked(stored)), made)
        self.assertRaises(UnsafeHtml, SafeHtml.from_checked, changed)

    def test_parts(self):
        made = markdown_to_html(self.DOCUMENT)
        start, end = made.rindex("<section"), len(made.rstrip())
        for cut in range(start, len(made)):
            self.assertIs(is_safe_html(made[start:cut]), cut == start or cut >= end)


class Templates(unittest.TestCase):
    """Templates insert it without escaping it."""

    @unittest.skipIf(WHY_NO_JINJA, WHY_NO_JINJA)
    def test_jinja(self):
        made = markdown_to_html("**a** <b>")
        page = jinja2.Environment(autoescape=True).from_string("{{ a }}{{ a[3:] }}{{ a + b }}")
        self.assertEqual(page.render(a=made, b="<i>"),
                         made + html.escape(made[3:]) + html.escape(made + "<i>"))

    @unittest.skipIf(WHY_NO_JINJA, WHY_NO_JINJA)
    def test_markup(self):
        made = markdown_to_html("**a** <b>")
        for text in (Markup("<p>{}</p>").format(made), Markup("<p>%s</p>") % made,
                     Markup("<p>") + made + Markup("</p>"),
                     Markup("").join([Markup("<p>"), made, Markup("</p>")])):
            self.assertEqual(text, f"<p>{made}</p>")
        self.assertEqual(Markup("{}").format(made + "<i>"), html.escape(made + "<i>"))

    @unittest.skipIf(WHY_NO_JINJA, WHY_NO_JINJA)
    def test_example_of_jinja(self):
        blocks = re.findall(r"```python\n(.*?)```\n", PAGE.read_text("utf-8"), re.DOTALL)
        code, = (block for block in blocks if "import Environment" in block)
        printed = io.StringIO()
        with contextlib.redirect_stdout(printed):
            exec(code, {})
        self.assertEqual(printed.getvalue(),
                         "<h1>&lt;i&gt;</h1><p><strong>a</strong> &lt;b&gt;</p>\n\n")


if __name__ == "__main__":
    unittest.main()
