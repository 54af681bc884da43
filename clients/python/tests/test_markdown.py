"""Tests of markdown_to_html: each option by itself, each error, and calls from many threads."""

import ctypes
import doctest
import functools
import html.entities
import itertools
import pickle
import re
import threading
import time
import unittest

import bivdrazo
from bivdrazo import REFERENCES, Event, Heading, Invalid, Name, Refused, Rule, TooLong
from bivdrazo import TooMuchWork, Unreadable, compile, contents, front_matter_of
from bivdrazo import markdown_to_html, markdown_with_headings
from bivdrazo.markdown import KEPT, KEPT_SIZE, markdown_error_of, taken
from bivdrazo.library import CAnswer, CMarkdownOptions
from bivdrazo.numbers import DocumentHtml

NOTE = "a[^b]\n\n[^b]: c\n"


class Texts(unittest.TestCase):
    """Where there is a text."""

    def test_texts(self):
        self.assertEqual(markdown_to_html("**a** <b>"), "<p><strong>a</strong> &lt;b&gt;</p>\n")
        self.assertEqual(markdown_to_html(""), "")
        self.assertEqual(markdown_to_html("a\0\U0001fa90"), "<p>a\ufffd\U0001fa90</p>\n")

    def test_footnotes(self):
        self.assertIn('<li id="user-content-fn-b">', markdown_to_html(NOTE))
        self.assertIn('<li id="x-fn-b">', markdown_to_html(NOTE, footnote_prefix="x-"))
        self.assertIn('<li id="fn-b">', markdown_to_html(NOTE, footnote_prefix=""))
        self.assertIn('<li id="user-content-fn-1">', markdown_to_html(NOTE, number_ids=True))
        self.assertIn(">\u00c9&lt;</h2>", markdown_to_html(NOTE, footnote_label="\u00c9<"))
        self.assertIn('aria-label="Up"', markdown_to_html(NOTE, footnote_back_label="Up"))

    def test_breaks_and_links(self):
        self.assertEqual(markdown_to_html("a\nb", hard_breaks=True), "<p>a<br />\nb</p>\n")
        self.assertEqual(markdown_to_html("a@b.org"),
                         '<p><a href="mailto:a@b.org">a@b.org</a></p>\n')
        self.assertEqual(markdown_to_html("a@b.org", bare_links=False), "<p>a@b.org</p>\n")
        self.assertEqual(markdown_to_html("[a](b)", base="https://c.d"),
                         '<p><a href="https://c.d/b">a</a></p>\n')

    def test_readings(self):
        table, front = "|a|\n|-|\n", "---\na: b\n---\nc\n"
        self.assertEqual(markdown_to_html("$a$"), "<p>$a$</p>\n")
        self.assertIn("math-inline", markdown_to_html("$a$", math=True))
        self.assertIn("<table>", markdown_to_html(table))
        self.assertEqual(markdown_to_html(table, tables=False), "<p>|a|\n|-|</p>\n")
        self.assertEqual(markdown_to_html(NOTE, footnotes=False),
                         '<p>a<a href="c">^b</a></p>\n')
        self.assertIn("<h2>a: b</h2>", markdown_to_html(front))
        self.assertEqual(markdown_to_html(front, front_matter=True), "<p>c</p>\n")

    def test_front_matter(self):
        for text, wanted in [("", None), ("a", None), ("---\na: \u00e9\n---\nc", "a: \u00e9\n"),
                             ("---\n---\n", ""), ("\ufeff---\r\na\r\n---\r\n", "a\r\n"),
                             ("---\na\n", None), ("a\n---\nb\n---\n", None)]:
            with self.subTest(text=text):
                self.assertEqual(front_matter_of(text), wanted)
        with self.assertRaisesRegex(TypeError, "^text: "):
            front_matter_of(b"")

    def test_buffers(self):
        for count in (1, 1000, KEPT_SIZE, 4 * KEPT_SIZE, 1):
            for text, wanted in [("a", "a"), ("<", "&lt;")]:
                self.assertEqual(markdown_to_html(text * count), f"<p>{wanted * count}</p>\n")
        kept = KEPT.buffer
        self.assertEqual(len(kept), KEPT_SIZE)
        buffer = taken(1)
        self.assertIs(buffer, kept)
        self.assertIsNot(taken(1), kept)
        self.assertEqual(markdown_to_html("a"), "<p>a</p>\n")
        kept = KEPT.buffer
        self.assertIsNot(kept, buffer)
        with self.assertRaises(TooLong):
            markdown_to_html("a", max_output=1)
        self.assertEqual(markdown_to_html("&" * 60_000), f"<p>{'&amp;' * 60_000}</p>\n")
        self.assertIs(KEPT.buffer, kept)

    def test_attributes(self):
        link = ('<p><a href="b" rel="&quot;&lt;\ufffd">a</a> <a href="#c">d</a> '
                '<a href="">e</a></p>\n')
        self.assertEqual(markdown_to_html("[a](b) [d](#c) [e](f:)", rel='"<\0'), link)
        self.assertEqual(markdown_to_html("# a\n## b", heading_ids=""),
                         '<h1 id="1">a</h1>\n<h2 id="2">b</h2>\n')
        self.assertNotIn('<h2 id="x', markdown_to_html(NOTE, heading_ids="x"))

    def test_headings(self):
        html, headings = markdown_with_headings("# a *b* <\n\n> c\n> d\n> ---\n", "p-",
                                                hard_breaks=True)
        self.assertEqual(headings, [Heading(1, 1, "a b &lt;", "p-1"),
                                    Heading(2, 2, "c d", "p-2")])
        self.assertIn('<h2 id="p-2">c<br />', html)
        self.assertEqual(markdown_with_headings(NOTE, "p-")[1], [])
        self.assertEqual(markdown_with_headings("", "p-"), ("", []))

    def test_slugs(self):
        text = "# A *b* & C\n\n# a b  c\n# a b  c-1\n# É_ü.\n# ?\n## footnote label\n" + NOTE
        html, headings = markdown_with_headings(text, heading_slugs=True)
        ids = ["a-b--c", "a-b--c-1", "a-b--c-1-1", "é_ü", "section", "footnote-label-1"]
        self.assertEqual([heading.id for heading in headings], ids)
        for name in ids:
            self.assertIn(f' id="{name}">', html)
        html, headings = markdown_with_headings("# a\n# a\n", 'p"', heading_slugs=True)
        self.assertEqual([heading.id for heading in headings], ['p"a', 'p"a-1'])
        self.assertIn('<h1 id="p&quot;a-1">', html)
        self.assertEqual(markdown_to_html("# a b", heading_slugs=True),
                         '<h1 id="a-b">a b</h1>\n')
        self.assertRaises(TypeError, markdown_to_html, "", heading_slugs=1)

    def test_contents(self):
        text = "# a\n### b & *c*\n## d](e)\n# www.f.org\n"
        html = contents(markdown_with_headings(text, heading_slugs=True)[1])
        self.assertEqual(html, '<ul>\n<li><a href="#a">a</a>\n<ul>\n'
                         '<li><a href="#b--c">b &amp; c</a></li>\n'
                         '<li><a href="#de">d](e)</a></li>\n</ul>\n</li>\n'
                         '<li><a href="#wwwforg">www.f.org</a></li>\n</ul>\n')
        self.assertEqual(contents([]), "")

    def test_ids_of_two_documents(self):
        ids = functools.partial(re.findall, ' id="([^"]*)"')

        def ids_of(prefix, text="# a\n" * 120):
            return set(ids(markdown_to_html(text, heading_ids=prefix, number_ids=True,
                                            footnote_prefix=f"{prefix}-")))

        prefixes = ["s", "s1", "s10", "s0", "s01", "s1-", "s-", "t", "1", "11", ""]
        for one, other in itertools.combinations(prefixes, 2):
            is_shared = any(re.fullmatch(re.escape(short) + "[1-9][0-9]*", long)
                            for short, long in [(one, other), (other, one)])
            with self.subTest(one=one, other=other):
                self.assertEqual(bool(ids_of(one) & ids_of(other)), is_shared)
        self.assertIn("s11", ids_of("s") & ids_of("s1"))
        found = [ids_of(f"comment-{number}-part-", NOTE + "# a\n" * 120) for number in (1, 7, 71)]
        for one, other in itertools.combinations(found, 2):
            self.assertEqual(one & other, {"footnote-label"})

    def test_html(self):
        text = "<b>a<!-- c -->"
        self.assertEqual(markdown_to_html(text, html="text"), "<p>&lt;b&gt;a&lt;!-- c --&gt;</p>\n")
        self.assertEqual(markdown_to_html(text, html="left-out"), "<p>a</p>\n")
        self.assertEqual(markdown_to_html(text, html="without-comments"), "<p>&lt;b&gt;a</p>\n")
        self.assertEqual(len(bivdrazo.markdown.HTML), len(DocumentHtml))

    def test_kept_html(self):
        for text, kept, kept_or_text in [
                ("H<sub>2</sub>O", "H<sub>2</sub>O", "H<sub>2</sub>O"),
                ("a <font>b</font>", "a b", "a &lt;font&gt;b&lt;/font&gt;"),
                ("<b>a <i>b</b> c</i>", "<b>a b</b> c", "<b>a &lt;i&gt;b</b> c&lt;/i&gt;"),
                ("a<!-- b -->", "a", "a"),
                ("a <script>b</script>", "a b", "a &lt;script&gt;b&lt;/script&gt;"),
                ("<a href='javascript:b' onclick='c'>d</a>", "<a>d</a>", "<a>d</a>"),
                ('<a href="b">*[c](d)*</a> <b>e</b>', '<em><a href="d">c</a></em> <b>e</b>',
                 '&lt;a href=&quot;b&quot;&gt;<em><a href="d">c</a></em>&lt;/a&gt; <b>e</b>'),
                ("a < b", "a &lt; b", "a &lt; b")]:
            with self.subTest(text=text):
                self.assertEqual(markdown_to_html(text, html="kept"), f"<p>{kept}</p>\n")
                self.assertEqual(markdown_to_html(text, html="kept-or-text"),
                                 f"<p>{kept_or_text}</p>\n")
        self.assertTrue(bivdrazo.is_safe_html(markdown_to_html("<b>a</b>", html="kept")))
        text = "<ul></i><li>a</li></ul>\n\n<b>c</b>\n"
        self.assertEqual(markdown_to_html(text, html="kept"),
                         "<ul><li>a</li></ul>\n<p><b>c</b></p>\n")
        self.assertEqual(markdown_to_html(text, html="kept-or-text"),
                         "&lt;ul&gt;&lt;/i&gt;&lt;li&gt;a&lt;/li&gt;&lt;/ul&gt;\n<p><b>c</b></p>\n")

    def test_kept_html_with_other_options(self):
        text = "<h2>A <a href='b'>c</a></h2>\n\n# A c\n"
        call = functools.partial(markdown_to_html, text, html="kept", rel="ugc",
                                 heading_slugs=True)
        wanted = ('<h2 id="a-c">A <a href="b" rel="ugc">c</a></h2>\n'
                  '<h1 id="a-c-1">A c</h1>\n')
        self.assertEqual(call(max_input=len(text), max_output=len(wanted)), wanted)
        for bounds in {"max_input": len(text) - 1}, {"max_output": len(wanted) - 1}:
            with self.subTest(bounds=bounds), self.assertRaises(TooLong):
                call(**bounds)
        with self.assertRaises(TooMuchWork):
            call(max_work=1)

    def test_bounds(self):
        self.assertEqual(markdown_to_html("\u00e9", max_input=2, max_output=10), "<p>\u00e9</p>\n")
        for bounds, what, limit in [({"max_input": 1}, "input", 1),
                                    ({"max_output": 9}, "output", 9)]:
            with self.subTest(what=what), self.assertRaises(TooLong) as caught:
                markdown_to_html("\u00e9", **bounds)
            self.assertEqual((caught.exception.what, caught.exception.limit), (what, limit))
        self.assertEqual(markdown_to_html("a", max_input=1 << 70), "<p>a</p>\n")

    def test_work(self):
        for options in ({}, {"rel": "b"}, {"heading_ids": "c"}):
            for work in (4, 1 << 70):
                self.assertEqual(markdown_to_html("abc", max_work=work, **options), "<p>abc</p>\n")
            for work in (3, 0):
                with self.assertRaises(TooMuchWork) as caught:
                    markdown_to_html("abc", max_work=work, **options)
                self.assertEqual(caught.exception.limit, work)

    def test_default_work(self):
        text = f"[a]: {'b' * 10_000}\n\n{'[a] ' * 1000}"
        for options in ({}, {"rel": "b"}, {"max_work": None}):
            with self.subTest(options=options), self.assertRaises(TooMuchWork) as caught:
                markdown_to_html(text, **options)
            self.assertEqual(caught.exception.limit, (1 << 20) + 64 * len(text))
        self.assertGreater(len(markdown_to_html(text, max_work=1 << 64)), 10_000_000)

    def test_depth(self):
        text = "> > > > *a*"
        quotes = markdown_to_html(text)
        self.assertEqual(quotes.count("<blockquote>"), 4)
        for depth in (None, 0, 40, 1 << 70):
            with self.subTest(depth=depth):
                self.assertEqual(markdown_to_html(text, max_depth=depth), quotes)
        for depth in (1, 4):
            with self.subTest(depth=depth):
                self.assertEqual(markdown_to_html(text, max_depth=depth),
                                 "<p>&gt; &gt; &gt; &gt; *a*</p>")
        self.assertEqual(markdown_with_headings("> > > # a", max_depth=3),
                         ("<p>&gt; &gt; &gt; # a</p>", []))


class Errors(unittest.TestCase):
    """What is passed has another type or value."""

    def test_types(self):
        values = {
            "footnote_prefix": b"x", "footnote_label": 1, "footnote_back_label": b"", "base": 2,
            "number_ids": 1, "math": 1, "front_matter": None, "footnotes": "", "tables": 0,
            "rel": b"", "heading_ids": 3,
            "hard_breaks": None, "bare_links": "yes", "html": 0, "max_input": 1.5,
            "max_output": True, "max_work": "1", "max_depth": False,
        }
        for name, value in values.items():
            with self.subTest(name=name), self.assertRaisesRegex(TypeError, f"^{name}: "):
                markdown_to_html("a", **{name: value})
        for text in (b"a", None, 1):
            with self.subTest(text=text), self.assertRaisesRegex(TypeError,
                                                                 "^text: expected str, not "):
                markdown_to_html(text)

    def test_values(self):
        for name, value in {"html": "no", "max_input": -1, "max_output": -2,
                            "max_work": -3, "max_depth": -4}.items():
            with self.subTest(name=name), self.assertRaisesRegex(ValueError, f"^{name}: "):
                markdown_to_html("a", **{name: value})
        with self.assertRaisesRegex(TypeError, "^heading_ids: "):
            markdown_with_headings("a", None)
        with self.assertRaises(UnicodeEncodeError):
            markdown_to_html("\ud800")

    def test_each_status(self):
        def told(status, index=0, rule=0):
            answer = CAnswer(status, rule, index, 0)
            return repr(markdown_error_of(answer, CMarkdownOptions(max_work=6), 3))

        self.assertEqual(told(2, 3, 1), "Refused('event 3: ORDER')")
        self.assertEqual(told(5, 7), "ValueError('base: no such value')")
        self.assertEqual(told(7), "MemoryError('out of memory')")
        self.assertEqual(told(35), "RuntimeError('the options are of an unknown version')")
        self.assertEqual(told(37), "TooMuchWork('there is more work than 6')")


class Interface(unittest.TestCase):
    """What holds of the module as a whole."""

    def test_pickles(self):
        errors = [Refused(3, Rule.PLACE), Invalid("event", 4), Unreadable(5), TooLong("input", 6)]
        for error in errors:
            again = pickle.loads(pickle.dumps(error))
            self.assertEqual((type(again), str(again), vars(again)),
                             (type(error), str(error), vars(error)))
        call = functools.partial(markdown_to_html, html="left-out", max_input=7)
        self.assertEqual(pickle.loads(pickle.dumps(call)).keywords, call.keywords)

    def test_references(self):
        wanted = {name[:-1]: text for name, text in html.entities.html5.items()
                  if name.endswith(";")}
        self.assertEqual(REFERENCES, wanted)
        self.assertEqual(len(REFERENCES), 2125)
        for name in ("amp", "copy", "NotEqualTilde", "zwnj"):
            end = len(name) + 1
            events = [
                Event.enter(Name.CHARACTER_REFERENCE_MARKER, 0),
                Event.exit(Name.CHARACTER_REFERENCE_MARKER, 1),
                Event.enter(Name.CHARACTER_REFERENCE_VALUE, 1),
                Event.exit(Name.CHARACTER_REFERENCE_VALUE, end),
            ]
            text = compile(events, f"&{name};".encode(), names=REFERENCES)
            self.assertEqual(text, REFERENCES[name].replace("&", "&amp;"))

    def test_examples(self):
        self.assertEqual(doctest.testmod(bivdrazo.markdown).failed, 0)
        self.assertEqual(doctest.testmod(bivdrazo).failed, 0)

    def test_threads(self):
        wrong = []

        def work(number):
            texts = [markdown_to_html(f"- {number}") for _ in range(300)]
            wrong.extend(text for text in texts if text != f"<ul>\n<li>{number}</li>\n</ul>\n")

        threads = [threading.Thread(target=work, args=(number,)) for number in range(8)]
        for thread in threads:
            thread.start()
        for thread in threads:
            thread.join()
        self.assertEqual(wrong, [])

    def test_other_threads_run(self):
        long = "a *b* [c](d) " * 200_000
        thread = threading.Thread(target=markdown_to_html, args=(long,))
        thread.start()
        turns = 0
        while thread.is_alive():
            turns += 1
            time.sleep(0.001)
        self.assertGreater(turns, 20)


if __name__ == "__main__":
    unittest.main()
