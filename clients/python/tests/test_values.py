"""Tests of what is handed to C and read there: subclasses that lie about their bytes, options that
are made once, and texts of statuses.
"""

import ctypes
import threading
import unittest
import unittest.mock

from bivdrazo import Event, Name, compile, compile_within, markdown_to_html, run
from bivdrazo import markdown_with_headings
from bivdrazo.calls import text_of
from bivdrazo.errors import TEXTS, error_of, text_of_status
from bivdrazo.library import CAnswer, CMarkdownOptions
from bivdrazo.markdown import known_choices, markdown_error_of
from bivdrazo.markdown import TEXTS as NAMES
from bivdrazo.markdown import options_of
from bivdrazo.numbers import MarkdownStatus, Status
from bivdrazo.values import text_in


class LongBytes(bytes):
    """Bytes that say that they are more than they are, by the NUL that Python keeps after them."""

    def __len__(self):
        return super().__len__() + 1

    def __bytes__(self):
        return self


class LongText(str):
    """A text that says that it is longer than it is, and that it has other bytes."""

    def __len__(self):
        return super().__len__() + 1

    def encode(self, *_):
        return LongBytes(b"x")


class EqualText(str):
    """A text that says that it is equal to every other one."""

    def __eq__(self, _):
        return True

    def __hash__(self):
        return hash("c")


class Lies(unittest.TestCase):
    """No subclass has a say in how much C reads."""

    EVENTS = (Event.enter(Name.DATA, 0), Event.exit(Name.DATA, 1))
    PAST = (Event.enter(Name.DATA, 0), Event.exit(Name.DATA, 2))

    def test_documents(self):
        self.assertEqual(compile(self.EVENTS, LongBytes(b"a")), "a")
        self.assertEqual(compile_within(self.EVENTS, LongBytes(b"a"), max_work=1), "a")
        for call in (compile, compile_within):
            with self.assertRaisesRegex(ValueError, "^event 1: PLACE$"):
                call(self.PAST, LongBytes(b"a"))
        self.assertEqual(run(LongBytes(b"+Data 0\n-Data 1\n--\na")), "a")
        with self.assertRaisesRegex(ValueError, "^event 1: PLACE$"):
            run(LongBytes(b"+Data 0\n-Data 2\n--\na"))

    def test_texts(self):
        for made in (text_of("label", LongText("ab")), text_of("label", "ab")):
            self.assertEqual((made.bytes, made.length, made.is_set), (b"ab", 2, 1))
        reference = [Event.enter(Name.CHARACTER_REFERENCE_MARKER, 0),
                     Event.exit(Name.CHARACTER_REFERENCE_MARKER, 1),
                     Event.enter(Name.CHARACTER_REFERENCE_VALUE, 1),
                     Event.exit(Name.CHARACTER_REFERENCE_VALUE, 2)]
        self.assertEqual(compile(reference, b"&x;", names={LongText("x"): LongText("yz")}), "yz")

    def test_no_buffers(self):
        for data in ("a", 5, [1, 2], None):
            with self.subTest(data=data), \
                    self.assertRaisesRegex(TypeError, "^data: expected bytes, not "):
                compile(self.EVENTS, data)
        with self.assertRaisesRegex(TypeError, "^script: expected bytes, not str$"):
            run("--")
        with self.assertRaisesRegex(TypeError, "^names: expected str, not bytes$"):
            compile([], b"", names={b"x": "y"})
        with self.assertRaisesRegex(TypeError, "^gfm_footnote_label: expected str, not int$"):
            compile([], b"", gfm_footnote_label=1)

    def test_markdown(self):
        self.assertEqual(markdown_to_html(LongText("*a*")), "<p><em>a</em></p>\n")
        self.assertEqual(markdown_to_html("[a](b)", rel=LongText("c")),
                         '<p><a href="b" rel="c">a</a></p>\n')
        html, headings = markdown_with_headings(LongText("# a"), LongText("p-"))
        self.assertEqual((html, len(headings)), ('<h1 id="p-1">a</h1>\n', 1))


class Options(unittest.TestCase):
    """Options without texts are made once for equal ones, and only for these."""

    def setUp(self):
        known_choices.cache_clear()

    def test_once(self):
        self.assertIs(options_of(html="text", max_input=3), options_of(max_input=3))
        self.assertIsNot(options_of(max_input=3), options_of(max_output=3))
        self.assertIsNot(options_of(max_input=3), options_of(max_input=4))
        for number in range(100):
            options_of(max_input=number)
        self.assertEqual(known_choices.cache_info().currsize, 16)

    def test_objects_of_the_latest_call(self):
        number, same, other = int("1000"), int("1000"), int("1001")
        made = options_of(max_input=number)
        for given in number, same, number:
            self.assertIs(options_of(max_input=given), made)
        self.assertEqual(options_of(max_input=other).max_input, 1001)
        self.assertEqual(options_of(max_output=number).max_output, 1000)
        self.assertIs(options_of(max_input=number), made)

    def test_texts_in_a_copy(self):
        for name in NAMES:
            made = options_of(**{name: "c"}, max_input=3)
            for each in NAMES:
                text = getattr(made, each)
                wanted = (b"c", 1, 1) if each == name else (b"", 0, 0)
                self.assertEqual((text.bytes, text.length, text.is_set), wanted)
                self.assertFalse(getattr(options_of(max_input=3), each).is_set)
            self.assertEqual((made.max_input, made.bare_links, made.html), (3, 1, 0))

    def test_texts_are_kept(self):
        made = options_of(rel="c" * 1000, base="d" * 1000)
        taken = [str(number) * 1000 for number in range(1000)]
        self.assertEqual((made.rel.bytes, made.base.bytes), (b"c" * 1000, b"d" * 1000))
        self.assertEqual(len(taken), 1000)

    def test_equal_values_of_other_types(self):
        for good, bad in [({"number_ids": True}, {"number_ids": 1}),
                          ({"hard_breaks": False}, {"hard_breaks": 0}),
                          ({"bare_links": True}, {"bare_links": 1.0}),
                          ({"math": True}, {"math": 1}), ({"tables": False}, {"tables": 0}),
                          ({"max_input": 1}, {"max_input": True}),
                          ({"max_output": 8}, {"max_output": 8.0}),
                          ({"max_work": 0}, {"max_work": False}), ({}, {"rel": []})]:
            for _ in range(2):
                options_of(**good)
                with self.assertRaisesRegex(TypeError, f"^{next(iter(bad))}: "):
                    markdown_to_html("", **bad)

    def test_texts_that_say_that_they_are_equal(self):
        for rel in ("c", EqualText("d"), EqualText("e"), "c"):
            self.assertEqual(markdown_to_html("[a](b)", rel=rel),
                             f'<p><a href="b" rel="{str.__str__(rel)}">a</a></p>\n')

    def test_threads(self):
        wrong = []

        def work(number):
            for turn in range(300):
                rel = f"{number}-{turn % 7}"
                html = markdown_to_html("[a](b)", rel=rel)
                if html != f'<p><a href="b" rel="{rel}">a</a></p>\n':
                    wrong.append((rel, html))

        threads = [threading.Thread(target=work, args=(number,)) for number in range(8)]
        for thread in threads:
            thread.start()
        for thread in threads:
            thread.join()
        self.assertEqual(wrong, [])


class Read(unittest.TestCase):
    """What is read of a buffer."""

    def test_lengths(self):
        for length in (0, 1, 1 << 16, 1 << 20):
            buffer = ctypes.create_string_buffer(b"a" * length + b"bc")
            self.assertEqual(text_in(buffer, 0, length), "a" * length)
            self.assertEqual(text_in(buffer, length, length + 1), "b")

    def test_no_second_copy(self):
        text = "\u00e9" * (1 << 16)
        buffer = ctypes.create_string_buffer(text.encode())
        with unittest.mock.patch("ctypes.string_at", side_effect=AssertionError):
            self.assertEqual(text_in(buffer, 0, 2 << 16), text)


class Statuses(unittest.TestCase):
    """Each status has its words."""

    def test_texts(self):
        self.assertEqual(set(TEXTS), {*Status, *MarkdownStatus})
        self.assertEqual(text_of_status(99), "the library returned the unknown status 99")

    def test_errors(self):
        for status in [*Status, *MarkdownStatus]:
            answer = CAnswer(status, 1, 0, 0)
            told = markdown_error_of(answer, CMarkdownOptions(), 0)
            for error in (error_of(status, 0, 1), told):
                with self.subTest(status=status):
                    self.assertNotRegex(str(error), "status|unknown$")
                    self.assertNotEqual(str(error), "")
        answer = CAnswer(MarkdownStatus.NOT_UTF8, 0, 1, 0)
        told = markdown_error_of(answer, CMarkdownOptions(), 2)
        self.assertEqual(repr(told), "RuntimeError(\"the input isn't UTF-8\")")

    def test_size(self):
        self.assertEqual(ctypes.sizeof(CMarkdownOptions), 192)


if __name__ == "__main__":
    unittest.main()
