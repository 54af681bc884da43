"""Tests that the reader finds the faults."""

import unittest

import reading

BAD = {
    b"<script>a</script>": "the element script",
    b"<p>a<svg></svg></p>": "the element {http://www.w3.org/2000/svg}svg",
    b"<!-- a -->": "the element",
    b'<p id="a">b</p>': "the attribute id of p",
    b'<a href="b" onclick="c">d</a>': "the attribute onclick of a",
    b'<a href="javascript:a">b</a>': "the protocol of href: javascript:a",
    b'<a href=" java\tscript:a">b</a>': "the protocol of href",
    b'<a href="\x01VBSCRIPT:a">b</a>': "the protocol of href",
    b'<img src="data:image/png;a">': "the protocol of src",
    b'<img src="mailto:a">': "the protocol of src",
    b"<ul><li><p><em><b>a</b></em></p></li></ul>": "the element b",
}
GOOD = (
    b"",
    b"<p>a &lt;script&gt;</p>",
    b'<a href="/a:b">c</a>',
    b'<a href="HTTPS://a" title="b">c</a>',
    b'<img src="http://a" alt="javascript:b" />',
    b'<ul>\n<li><input type="checkbox" disabled="" checked="" /> a</li>\n</ul>',
)


class Reading(unittest.TestCase):
    """Texts that are bad and texts that are good."""

    def test_bad(self):
        for text, fault in BAD.items():
            with self.subTest(text=text):
                self.assertTrue(reading.faults(text)[0].startswith(fault), reading.faults(text))

    def test_good(self):
        for text in GOOD:
            with self.subTest(text=text):
                self.assertEqual(reading.faults(text), [])


if __name__ == "__main__":
    unittest.main()
