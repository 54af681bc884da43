"""The results of html5lib's tokenizer and of node's `URL`."""

import json
import subprocess

from html5lib import HTMLParser, _tokenizer
from html5lib.constants import tokenTypes

_noted = []
_plain = _tokenizer.HTMLTokenizer.__iter__


def _token(token):
    """A token as compare.py writes it."""
    kind, name = token["type"], token.get("name")
    if kind in (tokenTypes["StartTag"], tokenTypes["EmptyTag"]):
        values = [(attribute.encode(), value.encode())
                  for attribute, value in token["data"].items()]
        return ("start", name.encode(), values, bool(token["selfClosing"]))
    if kind == tokenTypes["EndTag"]:
        return ("end", name.encode())
    if (kind == tokenTypes["Doctype"] and token["correct"] and token["publicId"] is None
        and token["systemId"] is None):
        return ("doctype", name.encode())
    return ("other", token)


def _noting(self):
    """The tokenizer of a whole parser, so that tree construction switches its state; it
    records each token.
    """
    for token in _plain(self):
        if token["type"] in (tokenTypes["Characters"], tokenTypes["SpaceCharacters"]):
            _noted.extend(("char", byte) for byte in token["data"].encode())
        elif token["type"] != tokenTypes["ParseError"]:
            _noted.append(_token(token))
        yield token


_tokenizer.HTMLTokenizer.__iter__ = _noting


def tokens(text, is_fragment):
    """The tokens that html5lib emits for a text, which is a document, or a fragment in a `div`.
    """
    _noted.clear()
    if is_fragment:
        HTMLParser().parseFragment(text, container="div")
    else:
        HTMLParser().parse(text)
    return [*_noted, ("eof",)]


# A URL's own scheme is the one that it has on two bases with different schemes; on neither it is
# one that node refuses.
_NODE = """
const told = (url, base) => { try { return new URL(url, base).protocol } catch { return null } }
for (const line of require('fs').readFileSync(0, 'utf8').split('\\n').filter((line) => line)) {
  const url = JSON.parse(line), one = told(url, 'http://h/'), other = told(url, 'ftp://h/')
  console.log(JSON.stringify(
    one === null || other === null ? '?' : one === other ? one.slice(0, -1) : ''))
}
"""


def schemes(urls):
    """The scheme that node finds in each URL, empty if there is none, `?` if node rejects
    the URL.
    """
    lines = "".join(json.dumps(url) + "\n" for url in urls)
    ran = subprocess.run(["node", "-e", _NODE], input=lines, text=True, capture_output=True,
                         check=True)
    return [json.loads(line) for line in ran.stdout.splitlines()]
