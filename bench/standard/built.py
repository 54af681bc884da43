"""The trees of documents in one form: construction.py's, html5lib's and chromium's."""

import json
import pathlib
import subprocess
import tempfile

import construction
import html5lib


def read(node):
    """A node with sorted attributes; each byte of a text is a character."""
    if isinstance(node, str):
        return node
    return node[0], sorted(node[1]), [read(child) for child in node[2]]


def bytewise(text):
    return text.encode().decode("latin-1")


def read_own(node):
    """A document's own tree in the same form."""
    if isinstance(node, str):
        return bytewise(node)
    return node[0], sorted((n, bytewise(v)) for n, v in node[1]), [read_own(child)
                                                                   for child in node[2]]


def constructed(tokens, fragment=False):
    """The result of construction.py for the tokens of tokenizer.py: a doctype's name and a root."""
    given = []
    for token in tokens:
        kind, *parts = token
        if kind == "char":
            given.append(("character", chr(parts[0])))
        elif kind in ("start", "end", "doctype"):
            attributes = ([[(n.decode("latin-1"), v.decode("latin-1")) for n, v in parts[1]]]
                          if kind == "start" else [])
            given.append((kind, parts[0].decode("latin-1"), *attributes))
        else:
            given.append((kind,))
    if not fragment:
        return construction.document(given)
    parser = construction.built("body", ["html"], given[:-1])
    if parser is None or isinstance(parser.mode, tuple):
        return None
    while len(parser.stack) > 1:
        parser.pop()
    return None, ("html", [], parser.stack[0].children)


def of_html5lib(node):
    """A node of html5lib's tree in the same form."""
    out = []
    for child in node.childNodes:
        if child.nodeType == child.TEXT_NODE:
            if out and isinstance(out[-1], str):
                out[-1] += bytewise(child.data)
            else:
                out.append(bytewise(child.data))
        elif child.nodeType == child.ELEMENT_NODE:
            attributes = sorted((bytewise(name), bytewise(value))
                                for name, value in child.attributes.items())
            out.append((bytewise(child.nodeName), attributes, of_html5lib(child)))
        else:
            out.append(child.nodeType)
    return out


def by_html5lib(text):
    """The document that html5lib builds: a doctype's name and a root."""
    document = html5lib.parse(text, treebuilder="dom")
    doctypes = [child.name for child in document.childNodes
                if child.nodeType == child.DOCUMENT_TYPE_NODE]
    roots = [node for node in of_html5lib(document) if isinstance(node, tuple)]
    return (doctypes[0] if doctypes else None), roots[0]


BROWSER = """<!doctype html><meta charset="utf-8"><body><script>
const read = (node) => node.nodeType === 3 ? node.data
  : [node.localName, [...node.attributes].map((one) => [one.name, one.value]),
    [...node.childNodes].map(read)];
const parsed = (text) => {
  const built = new DOMParser().parseFromString(text, 'text/html');
  return [built.doctype && built.doctype.name, read(built.documentElement)];
};
const inside = ([name, text]) => {
  const around = document.createElement(name);
  around.innerHTML = text;
  return [...around.childNodes].map(read);
};
const answers = GIVEN.map((one) => one instanceof Array ? inside(one) : parsed(one));
document.body.textContent = JSON.stringify(answers).replace(/[^ -%'-;=?-~]/g,
  (letter) => '\\\\u' + letter.charCodeAt(0).toString(16).padStart(4, '0'));
</script>"""


def by_browser(given):
    """The results of chromium: for a text a document, for a name and a text an element's nodes.
    """
    with tempfile.TemporaryDirectory() as folder:
        file = pathlib.Path(folder) / "documents.html"
        file.write_text(BROWSER.replace("GIVEN", json.dumps(given).replace("<", "\\u003c")),
                        encoding="utf-8")
        options = ["--headless", "--no-sandbox", "--disable-gpu",
                   f"--user-data-dir={folder}/profile"]
        command = ["chromium", *options, "--virtual-time-budget=600000", "--dump-dom",
                   file.as_uri()]
        ran = subprocess.run(command, capture_output=True, text=True, check=True, timeout=600)
    return json.loads(ran.stdout.split("<body>", 1)[1].split("</body>", 1)[0])
