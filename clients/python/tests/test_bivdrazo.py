"""Tests of the Python module: each call, each error, and calls from many threads."""

import ctypes
import pickle
import threading
import unittest

import bivdrazo
from bivdrazo import (
    Event,
    Invalid,
    LineEnding,
    Name,
    Nested,
    Refused,
    Rule,
    SafeHtml,
    TooDeep,
    TooLong,
    TooMuchWork,
    Unreadable,
    compile,
    compile_unnested,
    compile_within,
    has_nested_link,
    run,
)
from bivdrazo.errors import error_of
from bivdrazo.library import CAnswer, CEvent, CLimits, COptions, CReference, CText


def paragraph(length):
    """The events of a paragraph over this number of bytes."""
    return [
        Event.enter(Name.PARAGRAPH, 0),
        Event.enter(Name.DATA, 0),
        Event.exit(Name.DATA, length),
        Event.exit(Name.PARAGRAPH, length),
    ]


def node(name, *children, start=0, end=0):
    """The events of a node over some bytes."""
    return [Event.enter(name, start), *sum(children, []), Event.exit(name, end)]


class Texts(unittest.TestCase):
    """Where there is a text."""

    def test_paragraph(self):
        self.assertEqual(compile(paragraph(6), b"Hi <b>"), "<p>Hi &lt;b&gt;</p>")

    def test_nothing(self):
        self.assertEqual(compile([], b""), "")

    def test_bytes_that_may_change(self):
        self.assertEqual(compile(iter(paragraph(1)), bytearray(b"a")), "<p>a</p>")
        self.assertEqual(compile(tuple(paragraph(1)), memoryview(b"a")), "<p>a</p>")

    def test_text_past_the_first_buffer(self):
        self.assertEqual(compile(paragraph(1000), b'"' * 1000), "<p>" + "&quot;" * 1000 + "</p>")

    def test_characters(self):
        self.assertEqual(compile(paragraph(4), "\U0001fa90".encode()), "<p>\U0001fa90</p>")

    def test_options(self):
        html = node(Name.HTML_FLOW, node(Name.HTML_FLOW_DATA, end=8), end=8)
        self.assertEqual(compile(html, b"<script>"), "&lt;script&gt;")
        self.assertEqual(compile(html, b"<script>", allow_dangerous_html=True), "<script>")
        self.assertEqual(compile(html, b"<script>", allow_dangerous_html=True, gfm_tagfilter=True),
                         "&lt;script>")

    def test_line_endings(self):
        breaks = node(Name.THEMATIC_BREAK, end=3) + node(Name.THEMATIC_BREAK, start=3, end=6)
        self.assertEqual(compile(breaks, b"******"), "<hr />\n<hr />")
        endings = {
            LineEnding.LINE_FEED: "\n",
            LineEnding.CARRIAGE_RETURN: "\r",
            LineEnding.CARRIAGE_RETURN_LINE_FEED: "\r\n",
        }
        self.assertEqual(set(endings), set(LineEnding))
        for ending, text in endings.items():
            self.assertEqual(compile(breaks, b"******", default_line_ending=ending),
                             f"<hr />{text}<hr />")

    def test_links_and_images(self):
        def medium(name, length):
            label = node(Name.LABEL, node(Name.LABEL_TEXT))
            string = node(Name.RESOURCE_DESTINATION_STRING, node(Name.DATA, end=length))
            return node(name, label, node(Name.RESOURCE, string))

        link, image = medium(Name.LINK, 12), medium(Name.IMAGE, 6)
        self.assertEqual(compile(link, b"javascript:b"), '<a href=""></a>')
        self.assertEqual(compile(link, b"javascript:b", allow_any_img_src=True), '<a href=""></a>')
        self.assertEqual(
            compile(link, b"javascript:b", allow_dangerous_protocol=True),
            '<a href="javascript:b"></a>'
        )
        self.assertEqual(compile(image, b"data:b"), '<img src="" alt="" />')
        self.assertEqual(compile(image, b"data:b", allow_any_img_src=True),
                         '<img src="data:b" alt="" />')

    def test_texts_of_options(self):
        call = node(Name.GFM_FOOTNOTE_CALL, node(Name.LABEL, node(Name.LABEL_TEXT, end=1)))
        prefix = node(
            Name.GFM_FOOTNOTE_DEFINITION_PREFIX,
            node(Name.GFM_FOOTNOTE_DEFINITION_LABEL_STRING, end=1)
        )
        events = call + node(Name.GFM_FOOTNOTE_DEFINITION, prefix)
        text = compile(
            events,
            b"a",
            gfm_footnote_label="\u00e9<",
            gfm_footnote_clobber_prefix="",
            default_line_ending=LineEnding.CARRIAGE_RETURN,
        )
        self.assertIn('<a href="#fn-a" id="fnref-a"', text)
        self.assertIn('class="sr-only">\u00e9&lt;</h2>\r<ol>\r<li id="fn-a">', text)
        text = compile(events, b"a", gfm_footnote_number_ids=True)
        self.assertIn('<a href="#user-content-fn-1" id="user-content-fnref-1-1"', text)

    def test_names(self):
        reference = node(Name.CHARACTER_REFERENCE_MARKER,
                         end=1) + node(Name.CHARACTER_REFERENCE_VALUE, start=1, end=2)
        self.assertEqual(compile(reference, b"&x;", names={"x": "<"}), "&lt;")
        self.assertEqual(compile(reference, b"&x;", names=[("x", "y"), ("x", "z")]), "y")

    def test_other_names(self):
        inner = node(Name.THEMATIC_BREAK)
        events = [Event(1, Name.OTHER, 0, other=7), *inner, Event(2, Name.OTHER, 0, other=7)]
        self.assertEqual(compile(events, b""), "<hr />")

    def test_columns(self):
        chunk = [Event(1, Name.CODE_FLOW_CHUNK, 0, columns=2),
                 Event(2, Name.CODE_FLOW_CHUNK, 2, columns=3)]
        events = [Event.enter(Name.CODE_INDENTED, 0), *chunk, Event.exit(Name.CODE_INDENTED, 3)]
        self.assertEqual(compile(events, b"\ta\t"), "<pre><code>  a\t  \n</code></pre>")

    def test_script(self):
        self.assertEqual(run(b"+ThematicBreak 0\n-ThematicBreak 3\n--\n***"), "<hr />")


class Limits(unittest.TestCase):
    """A text within limits, and the errors of one that exceeds them."""

    TEXT = "<p>Hi &lt;b&gt;</p>"

    def within(self, **bounds):
        return compile_within(paragraph(6), b"Hi <b>", **bounds)

    def test_texts(self):
        for bounds in [{}, {"max_output": 19}, {"max_work": 6},
                       {"max_output": 1 << 70, "max_work": 1 << 70}]:
            self.assertEqual(self.within(**bounds), self.TEXT)
        self.assertEqual(compile_within([], b"", max_output=0, max_work=0), "")
        long = compile_within(paragraph(1000), b'"' * 1000, max_output=6007, max_work=1000)
        self.assertEqual(len(long), 6007)

    def test_options(self):
        html = node(Name.HTML_FLOW, node(Name.HTML_FLOW_DATA, end=8), end=8)
        self.assertEqual(compile_within(html, b"<script>", max_output=8, allow_dangerous_html=True),
                         "<script>")
        reference = node(Name.CHARACTER_REFERENCE_MARKER,
                         end=1) + node(Name.CHARACTER_REFERENCE_VALUE, start=1, end=2)
        self.assertEqual(compile_within(reference, b"&x;", names={"x": "y"}), "y")
        with self.assertRaises(TypeError):
            self.within(max_input=1)

    def test_too_long(self):
        for limit in [18, 1, 0]:
            with self.assertRaises(TooLong) as caught:
                self.within(max_output=limit, max_work=6)
            self.assertEqual((caught.exception.what, caught.exception.limit), ("output", limit))
        with self.assertRaises(TooLong):
            compile_within(paragraph(1000), b'"' * 1000, max_output=6006)

    def test_too_much_work(self):
        for limit in [5, 0]:
            with self.assertRaises(TooMuchWork) as caught:
                self.within(max_output=0, max_work=limit)
            self.assertEqual(str(caught.exception), f"there is more work than {limit}")
            copy = pickle.loads(pickle.dumps(caught.exception))
            self.assertEqual((type(copy), copy.limit), (TooMuchWork, limit))
        with self.assertRaises(TooMuchWork):
            compile_within(paragraph(6)[:3], b"Hi <b>", max_work=5)

    def test_too_deep(self):
        deep = []
        for _ in range(9):
            deep = node(Name.BLOCK_QUOTE, deep)
        texts = {compile_within(deep, b"", max_depth=bound) for bound in (9, 0, None, 1 << 70)}
        self.assertEqual(len(texts), 1)
        for events in (deep, deep[:9]):
            with self.assertRaises(TooDeep) as caught:
                compile_within(events, b"", max_work=0, max_depth=8)
            self.assertEqual(str(caught.exception), "the events nest deeper than 8")
            copy = pickle.loads(pickle.dumps(caught.exception))
            self.assertEqual((type(copy), copy.limit), (TooDeep, 8))

    def test_work_of_references(self):
        def over(name, start, end, *children):
            return node(name, *children, start=start, end=end)

        string = over(Name.DEFINITION_DESTINATION_STRING, 5, 8, over(Name.DATA, 5, 8))
        definition = over(Name.DEFINITION, 0, 8, over(Name.DEFINITION_LABEL_STRING, 1, 2), string)
        label = over(Name.LABEL_TEXT, 11, 12, over(Name.DATA, 11, 12))
        link = over(Name.LINK, 10, 13, over(Name.LABEL, 10, 13, label))
        for links in [0, 1, 2, 10]:
            # A label and a destination, and of each link its label and its text; behind the check
            # for each link the definition's label and destination, and its six events.
            work = max(4 + links * 2, links * 10)
            events, data = definition + links * link, b"[a]: bcd\n\n[a]"
            text = compile_within(events, data, max_work=work)
            self.assertEqual(text, links * '<a href="bcd">a</a>')
            with self.assertRaises(TooMuchWork):
                compile_within(events, data, max_work=work - 1)

    def test_refused(self):
        with self.assertRaises(Refused):
            compile_within(paragraph(6)[:3], b"Hi <b>", max_output=0, max_work=6)

    def test_bounds_that_are_none(self):
        for bound, error in [(-1, ValueError), (True, TypeError), ("1", TypeError)]:
            with self.subTest(bound=bound), self.assertRaises(error):
                self.within(max_work=bound)
            with self.subTest(bound=bound), self.assertRaises(error):
                self.within(max_depth=bound)


class Unnested(unittest.TestCase):
    """No link is in a link."""

    @staticmethod
    def link(name):
        """A link around a node of that name."""
        within = [(Name.LINK, 0, 6), (Name.LABEL, 0, 3), (Name.LABEL_TEXT, 1, 2), (name, 1, 2)]
        events = [Event.enter(each, start) for each, start, _ in within]
        events += [Event.exit(each, end) for each, _, end in reversed(within[1:])]
        url = [(Name.RESOURCE, 3, 6), (Name.RESOURCE_DESTINATION_STRING, 4, 5), (Name.DATA, 4, 5)]
        events += [Event.enter(each, start) for each, start, _ in url]
        events += [Event.exit(each, end) for each, _, end in reversed(url)]
        return [*events, Event.exit(Name.LINK, 6)]

    def test_texts(self):
        text = compile_unnested(self.link(Name.DATA), b"[a](b)")
        self.assertEqual((text, type(text)), ('<a href="b">a</a>', SafeHtml))
        self.assertEqual(text, compile(self.link(Name.DATA), b"[a](b)"))

    def test_errors(self):
        nested = self.link(Name.AUTOLINK_PROTOCOL)
        self.assertIn("<a", compile(nested, b"[a](b)"))
        with self.assertRaises(Nested):
            compile_unnested(nested, b"[a](b)")
        self.assertTrue(has_nested_link(nested))
        self.assertFalse(has_nested_link(self.link(Name.DATA)))
        self.assertFalse(has_nested_link([]))
        with self.assertRaises(Invalid) as invalid:
            has_nested_link([*nested, Event(3, Name.DATA, 0)])
        self.assertEqual(invalid.exception.index, len(nested))
        with self.assertRaises(ValueError) as caught:
            compile_unnested([], b"", allow_dangerous_html=True)
        self.assertNotIsInstance(caught.exception, Nested)
        with self.assertRaises(Refused):
            compile_unnested(nested[:3], b"[a](b)")


class Errors(unittest.TestCase):
    """Where there is no text."""

    def test_refused(self):
        with self.assertRaises(Refused) as caught:
            compile(paragraph(2), b"a")
        self.assertEqual((caught.exception.index, caught.exception.rule), (2, Rule.PLACE))

    def test_other_numbers_differ(self):
        events = [Event(1, Name.OTHER, 0, other=7), Event(2, Name.OTHER, 0, other=8)]
        with self.assertRaises(Refused) as caught:
            compile(events, b"")
        self.assertEqual((caught.exception.index, caught.exception.rule), (1, Rule.ORDER))

    def test_no_event(self):
        numbers = [(3, 1, 0), (1, 0, 0), (1, 87, 0), (0, 1, 0)]
        past_their_fields = [(1, 1 << 16, 0), (1, 1, -1), (1, 1, 1 << 64), (1, 1, 0, 256)]
        for event in numbers + past_their_fields:
            with self.subTest(event=event), self.assertRaises(Invalid) as caught:
                compile([*paragraph(0), Event(*event)], b"")
            self.assertEqual((caught.exception.what, caught.exception.index), ("event", 4))

    def test_no_line_ending(self):
        with self.assertRaises(ValueError):
            compile([], b"", default_line_ending=3)

    def test_text_that_is_none(self):
        with self.assertRaises(ValueError):
            compile([], b"", gfm_footnote_label="\ud800")
        with self.assertRaises(ValueError):
            compile([], b"", names={"\ud800": ""})

    def test_unreadable(self):
        with self.assertRaises(Unreadable) as caught:
            run(b"+Paragraph 0\n")
        self.assertEqual(caught.exception.line, 2)

    def test_refused_script(self):
        with self.assertRaises(Refused) as caught:
            run(b"+Paragraph 0\n--")
        self.assertEqual(str(caught.exception), "event 1: ORDER")

    def test_each_status(self):
        self.assertEqual(str(error_of(3, 4, 0)), "event 4: no such value")
        self.assertEqual(str(error_of(4, 5, 0)), "name 5: no such value")
        self.assertEqual(str(error_of(5, 8, 0)), "option gfm_footnote_label: no such value")
        self.assertEqual(str(error_of(5, 11, 0)), "option gfm_footnote_number_ids: no such value")
        self.assertEqual(str(error_of(2, 6, 3)), "event 6: PLACE")
        self.assertEqual(str(error_of(6, 7, 0)), "line 7: unreadable")
        self.assertEqual(repr(error_of(7, 0, 0)), "MemoryError('out of memory')")
        self.assertEqual(repr(error_of(12, 0, 0)), "Nested('a link is in a link')")
        self.assertEqual(repr(error_of(99, 0, 0)),
                         "RuntimeError('the library returned the unknown status 99')")


class Interface(unittest.TestCase):
    """What holds of the module as a whole."""

    def test_sizes(self):
        sizes = [(CAnswer, 24), (CEvent, 16), (CText, 24), (CReference, 32), (COptions, 128),
                 (CLimits, 24)]
        self.assertEqual([ctypes.sizeof(type_) for type_, _ in sizes], [size for _, size in sizes])

    def test_threads(self):
        wrong = []

        def work(number):
            wanted = f"<p>{number}</p>"
            texts = [compile(paragraph(len(str(number))), str(number).encode()) for _ in range(300)]
            wrong.extend(text for text in texts if text != wanted)

        threads = [threading.Thread(target=work, args=(number,)) for number in range(8)]
        for thread in threads:
            thread.start()
        for thread in threads:
            thread.join()
        self.assertEqual(wrong, [])


if __name__ == "__main__":
    unittest.main()
