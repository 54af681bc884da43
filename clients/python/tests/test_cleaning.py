"""Tests of cleaning HTML.

Expected texts are written by hand from the HTML Standard and from what docs/use/CLEAN.md says is
left out.
"""

import html.parser
import unittest

import bivdrazo
from bivdrazo import PROTOCOLS, TAGS, SafeHtml, TooLong, clean, is_safe_html

CLEANED = {
    "": "",
    "a & b < c": "a &amp; b &lt; c",
    "<p onclick=f()>one<script>f()</script><p>two": "<p>one</p><p>two</p>",
    "<b>1<p>2</b>3": "<b>1</b><p><b>2</b>3</p>",
    "<IMG SRC='a' ALT=b ONERROR=alert(1)>": '<img src="a" alt="b" />',
    "<a href=' javascript:alert(1)'>a</a>": "<a>a</a>",
    "<a href=http://a.b>c<a href=d>e": '<a href="http://a.b">c</a><a href="d">e</a>',
    "<table><tr><td>1<td>2": "<table><tbody><tr><td>1</td><td>2</td></tr></tbody></table>",
    "<font color=red>a</font>": "a",
    "<h1 class=a id=b>\u00e9\U0001fa90</h1>": "<h1>\u00e9\U0001fa90</h1>",
}
ATTACKS = (
    "<svg><style><img title=\"</style><img src=x onerror=alert(1)>\">",
    "<noscript><p title=\"</noscript><img src=x onerror=alert(1)>\">",
    "<math><mtext></form><form><mglyph><style></math><img src onerror=alert(1)>",
    "<a href=\"java&#115;cript:alert(1)\">a</a>",
    "<a href=\"java\tscript:alert(1)\">a</a>",
    "<img src=`javascript:alert(1)`>",
    "a<!--b-->c<![CDATA[<script>alert(1)</script>]]>",
    "<<script>alert(1);//<</script>",
    "<blockquote>" * 100_000,
    "<b>" * 100_000 + "x",
    "a\0b",
)


class Tags(html.parser.HTMLParser):
    """The tags of a text, by Python's own parser."""

    def __init__(self):
        super().__init__()
        self.found = []

    def handle_starttag(self, tag, attrs):
        self.found.append((tag, attrs))


class Cleaning(unittest.TestCase):
    """Any HTML is cleaned."""

    def test_texts(self):
        for text, wanted in CLEANED.items():
            made = clean(text)
            self.assertEqual(made, wanted)
            self.assertIs(type(made), SafeHtml)
            self.assertEqual(clean(made), made)

    def test_attacks(self):
        for text in ATTACKS:
            made = clean(text)
            self.assertTrue(is_safe_html(made))
            tags = Tags()
            tags.feed(made)
            for name, attributes in tags.found:
                self.assertIn(name, TAGS)
                for attribute, value in attributes:
                    self.assertIn(attribute, ("href", "src", "title"))
                    self.assertTrue(attribute == "title" or ":" not in value)

    def test_tags(self):
        text = "<p>a <b>b</b></p><ul><li>c</ul><table><tr><td>d</table><pre>e</pre>"
        for tags, wanted in (
            (["p"], "<p>a b</p>c\nd\ne"),
            ((), "a b\nc\nd\ne"),
            ({"b", "ul"}, "a <b>b</b><ul><li>c</li></ul>d\ne"),
            (("table", "pre"), "a b\nc<table><tbody><tr><td>d</td></tr></tbody></table>"
                               "<pre><code>e</code></pre>"),
            (TAGS, clean(text)),
            (None, clean(text)),
        ):
            made = clean(text, tags=tags)
            self.assertEqual(made, wanted)
            self.assertTrue(is_safe_html(made))
        self.assertEqual(clean("a<br>b<hr>c", tags=["p"]), "a\nb\nc")
        self.assertEqual(clean("<script>a</script>b", tags=["p"]), "b")

    def test_protocols(self):
        text = "<a href=http://a>b</a><a href=MAILTO:c>d</a><a href=/e>f</a><img src=https://g>"
        self.assertEqual(
            clean(text, protocols=["http"]),
            '<a href="http://a">b</a><a>d</a><a href="/e">f</a><img />')
        self.assertEqual(
            clean(text, protocols=[]), '<a>b</a><a>d</a><a href="/e">f</a><img />')
        self.assertEqual(clean(text, protocols=PROTOCOLS), clean(text))

    def test_unknown_names(self):
        for options in ({"tags": ["p", "font"]}, {"tags": ["script"]}, {"tags": ["P"]},
                        {"tags": ["p b"]}, {"tags": [""]}, {"protocols": ["javascript"]},
                        {"protocols": ["tel"]}):
            self.assertRaises(ValueError, clean, "a", **options)
        self.assertRaisesRegex(ValueError, "tags: can't keep 'font'", clean, "a", tags=["font"])

    def test_limits(self):
        self.assertEqual(clean("<p>\u00e9", max_input=5, max_output=9), "<p>\u00e9</p>")
        with self.assertRaises(TooLong) as caught:
            clean("<p>\u00e9", max_input=4)
        self.assertEqual((caught.exception.what, caught.exception.limit), ("input", 4))
        with self.assertRaises(TooLong) as caught:
            clean("<p>\u00e9", max_output=8)
        self.assertEqual((caught.exception.what, caught.exception.limit), ("output", 8))
        self.assertEqual(clean('"' * 10_000), "&quot;" * 10_000)
        self.assertRaises(ValueError, clean, "a", max_input=-1)

    def test_types(self):
        for value in (None, 7, b"a", ["a"]):
            self.assertRaises(TypeError, clean, value)
        for options in ({"tags": "p"}, {"tags": [7]}, {"tags": 7}, {"protocols": b"http"},
                        {"max_input": True}, {"other": 1}):
            self.assertRaises(TypeError, clean, "a", **options)
        self.assertRaises(UnicodeEncodeError, clean, "a\ud800")
        self.assertRaises(ValueError, clean, "a", tags=["\ud800"])

    def test_names(self):
        self.assertEqual(len(TAGS), 48)
        for name in TAGS:
            self.assertTrue(is_safe_html(clean(f"<{name}>x</{name}>", tags=[name])))
        self.assertTrue({"clean", "TAGS", "PROTOCOLS"} <= set(bivdrazo.__all__))


if __name__ == "__main__":
    unittest.main()
