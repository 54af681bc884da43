"""The cases of the group `attacks`: known attacks on each way into the text.

An attack is the whole document, and nearly every node of a way in stands over all of it. To add an
attack, write it at the end of its kind below; to add a way in, write a row in a function of ways in
the module of what it is about (`prose`, `raw`, `media`, `tables`, `footnotes`): its name, its
options and its nodes. `many` has one more attack. `bench/cases.py` makes the cases.
"""
import footnotes
import media
import prose
import raw
import tables
from meaning import ESCAPED_OPTIONS, FLAG_OPTIONS, meaning
from trees import Case, script, spread

MARKUP = ["<script>alert(1)</script>", "<img src=x onerror=alert(1)>", "--><svg/onload=alert(1)>",
          '" onmouseover="alert(1)', "' onfocus='x", "`onerror=x`", '<a href="x', "\"><b a='",
          "x</p>",
          "</code></pre></a>", "<!-- x", "<![CDATA[x", "<!--[if IE]><script>", "&lt;script&gt;",
          "&", "100%<b>",
          "\u2028<script>", "<" * 16]
PROTOCOLS = ["javascript:alert(1)", "JaVaScRiPt:alert(1)", "%6Aavascript:alert(1)",
             "java%0Ascript:alert(1)",
             "javascript%3Aalert(1)", "java\tscript:alert(1)", "  javascript:alert(1)",
             "\x01\x1f javascript:alert(1)", "\ufeffjavascript:alert(1)",
             "java\u017fcript:alert(1)",
             "javascript\uff1aalert(1)", "javascript&colon;alert(1)", "&#106;avascript:alert(1)",
             "java&Tab;script:alert(1)", "javascript://https://x", "data:text/html,x", "vbscript:x",
             "file:///x", ":x",
             "httpsx:y", "//evil.example", "\\\\evil.example", "?x:y", "#x:y", "a/b:c",
             'HTTPS://x/"onload="y',
             "http:javascript:x", "mailto:x?body=<script>", "IRC:x"]
LINES = ["java\nscript:alert(1)", "java\r\nscript:alert(1)", "\njavascript:alert(1)", "<script\n>"]
NULS = ["<scr\0ipt>", "\0javascript:alert(1)"]
SPELLINGS = ["&#106;avascript:x", "&#0000106;avascript:x", "&#x4a;avascript:x",
             "javascript&colon;x",
             "javascript&#58;x", "javascript&#x3A;x", "java&#10;script:x", "java&#x9;script:x",
             "&#1;javascript:x",
             "&#0;javascript:x", "&#32;javascript:x", "a&sol;b:c", "a&num;b:c", "a&quest;b:c",
             "http&colon;&sol;&sol;x", "mailto&colon;x", "&lt;script&gt;", "&#60;script&#x3e;",
             "&quot; onload=&quot;",
             "&apos; onload=&#39;", "&amp;lt;script", "&amp;colon;x", "&amp;&quot;", "&#37;0Aa",
             "%&#50;0a",
             "&#37;&lt;", "&#8232;<"]
OF_ONE_LINE = {"markup": MARKUP, "protocols": PROTOCOLS}
KINDS = OF_ONE_LINE | {"lines": LINES, "nuls": NULS}


def ways_as_text():
    """The ways in on which a text stands as it is written."""
    return [*raw.ways_of_html(), *media.ways_as_text(), *raw.ways_of_code()]


def ways_read(nodes):
    """The ways in on which data and references stand, given as nodes."""
    return [row for subject in (prose, raw, tables, media, footnotes)
            for row in subject.ways_read(nodes)]


def ways_of_data():
    """The ways in on which one node of data stands."""
    return ways_read([prose.data()])


def ways_of_options():
    """The options that are texts and are escaped; the document has the attack too."""
    return [("footnote options", sorted(ESCAPED_OPTIONS), footnotes.called_footnote())]


def cases_of(name, text, ways):
    """A case for each of these ways in. An option that is a text is the attack."""
    made = []
    for way, given, parts in ways:
        options = {option: option in FLAG_OPTIONS or text for option in given}
        document = spread(text, parts)
        made.append(Case(f"attacks: {name}; {way}", script(document, options),
                         meaning(document, options).encode()))
    return made


def over(where, ways, kinds):
    """The cases of these kinds of attacks on some ways in."""
    return [case for kind, attacks in kinds.items() for number, text in enumerate(attacks, 1)
            for case in cases_of(f"{where}: {kind} {number}", text, ways)]


def sections():
    """The runs of cases that this makes, each by what its titles begin with."""
    spelled = [case for number, text in enumerate(SPELLINGS, 1) for case in cases_of(
        f"by references: spellings {number}", text, ways_read(prose.referring(text)))]
    return {
        "attacks: as text": over("as text", ways_as_text(), KINDS),
        "attacks: in what is read": over("in what is read", ways_of_data(), KINDS),
        "attacks: in autolinks": over("in autolinks", media.ways_of_autolinks(), OF_ONE_LINE | {
            "lines": LINES, "autolinked nuls": NULS}),
        "attacks: in options": over("in options", ways_of_options(), OF_ONE_LINE | {"nuls": NULS}),
        "attacks: by references": spelled,
    }
