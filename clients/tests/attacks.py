"""Finds unsafe HTML in a text, by html5lib in a page around the text."""

import html5lib

XHTML = "{http://www.w3.org/1999/xhtml}"
HARMFUL = {"script", "iframe", "object", "embed", "style", "form", "svg", "math", "base", "meta",
           "link", "template"}
SCHEMES = ("javascript:", "vbscript:", "data:")
LINKS = ("href", "src", "action", "formaction", "data")

# The name of each attack, and its Markdown.
ATTACKS = (
    ("a script", "<script>alert(1)</script>"),
    ("a script in an attribute", '<img src="a" onerror="alert(1)">'),
    ("a link that runs a script", "[a](javascript:alert(1))"),
    ("the same with a reference", "[a](java&#115;cript:alert(1))"),
    ("the same in HTML", '<a href="javascript:alert(1)">b</a>'),
    ("a link to data", "[a](data:text/html;base64,PHNjcmlwdD4)"),
    ("a frame", '<iframe src="https://a.b"></iframe>'),
    ("a form", '<form action="https://a.b"><input name="c"></form>'),
    ("a style", "<style>body { display: none }</style>"),
    ("what ends an element around it", "</div></div><p>a"),
    ("an open comment", "a <!-- b"),
    ("an open element", '<div style="display: none">\n\na'),
    ("an id of the page's", '<b id="after">a</b>'),
)

# More, which no table names.
MORE = (
    "<ScRiPt>alert(1)</sCrIpT>",
    "<script\n>alert(1)</script\n>",
    "<svg onload=alert(1)>",
    "<math><style><img src=a onerror=alert(1)></style></math>",
    "<table><script>alert(1)</script></table>",
    "<a\nhref=javascript:alert(1)>b</a>",
    "a <b onmouseover='alert(1)'>c</b>",
    "<![CDATA[<script>alert(1)</script>]]>",
    "<?php alert(1) ?><script>alert(1)</script>",
    "<!-- --!><script>alert(1)</script> -->",
    "`</code><script>alert(1)</script>`",
    "```\n</code></pre><script>alert(1)</script>\n```",
    '```"><script>alert(1)</script>\na\n```',
    "[a](JaVaScRiPt:alert(1))",
    "[a](<java\tscript:alert(1)>)",
    "[a](&#x01;javascript:alert(1))",
    "[a](javascript&colon;alert(1))",
    "[a](vbscript:b)",
    "[a](//b.c 'd\" onclick=\"alert(1)')",
    "[a](b\"onclick=alert(1))",
    "![a\"onerror=\"alert(1)](b)",
    "![a](javascript:alert(1))",
    "![a](data:image/svg+xml,b)",
    "[a]\n\n[a]: javascript:alert(1) '\"><script>alert(1)</script>'",
    "<javascript:alert(1)>",
    "<a@b.c\"onclick=alert(1)>",
    'https://a.b/"onmouseover="alert(1)',
    "www.a.b/<script>alert(1)</script>",
    '[^"><script>alert(1)</script>]\n\n[^"><script>alert(1)</script>]: b',
    "| <script>alert(1)</script> |\n|---|\n| `</td><script>alert(1)</script>` |",
    "- [x] <script>alert(1)</script>",
    "a\0<script>alert(1)</script>",
    "&lt;script&gt;alert(1)&lt;/script&gt;",
    "&#60;script&#62;alert(1)&#60;/script&#62;",
    "\\<script>alert(1)</script>",
    "<plaintext>a",
    "<textarea><b>",
    "<title>a",
    "<noscript><p title='</noscript><script>alert(1)</script>'>",
    "</body></html><script>alert(1)</script>",
)


def is_unsafe(text):
    """Whether a text runs scripts, loads or hides something, or changes the page around it."""
    page = html5lib.parse(f'<!doctype html><body><div id="around">{text}</div><p id="after">a</p>')
    body = page.find(f"{XHTML}body")
    outside = [(child.tag, child.get("id")) for child in body]
    if outside != [(f"{XHTML}div", "around"), (f"{XHTML}p", "after")]:
        return True
    inside = [element for element in body[0].iter() if element is not body[0]]
    return any(is_harmful(element) for element in inside)


def is_harmful(element):
    """Whether an element runs scripts, loads, hides, or takes an id of the page's."""
    if not isinstance(element.tag, str):
        return False
    names = {name for name in element.attrib if isinstance(name, str)}
    urls = ["".join(element.get(name).split()).lower() for name in names.intersection(LINKS)]
    return (
        element.tag.rpartition("}")[2] in HARMFUL
        or any(name.startswith("on") or name == "style" for name in names)
        or any(url.startswith(SCHEMES) for url in urls)
        or element.get("id") in ("around", "after")
    )
