#!/usr/bin/env python3
"""Tests the Markdown parser of our own, by the program `mdhtml`.

    bench/tests/markdown.py [PROGRAM]

PROGRAM is crates/mdhtml/out/mdhtml if it isn't given, which `rt ci` builds. Six parts:
- the examples of the GFM specification: each text is that of cmark-gfm with the permitted
  differences (clients/tests/judge.py), except for those in KNOWN;
- the examples of CommonMark 0.30, which Debian's crate of pulldown-cmark has as tests: each text is
  the expected one without bare links, tables and footnotes, or with these that of cmark-gfm as
  above, except for those in KNOWN_IN_COMMONMARK;
- the documents of bench/tests/markdown_cases.py that must be read as cmark-gfm reads them,
  likewise;
- its documents under each option, its URLs against bases, each name of a character reference, and
  each mark at each of OFFSETS places in a line;
- the cases of docs/use/MARKDOWN.md, here and by cmark-gfm;
- documents that make parsers slow: four times as long a one takes at most GROWTH times the
  processor time, and at most MEMORY bytes for each of its bytes beyond MEGABYTES. One that seems
  slower is run AGAIN times more, since other work on the machine can only make a time longer.
The first three parts need Debian's cmark-gfm and its extensions, the fifth cmark-gfm: if they are
missing, the part is left out, which is reported. The status is 1 if something is wrong.
"""

import glob
import html.entities
import pathlib
import re
import resource
import shutil
import subprocess
import sys
import tempfile

import markdown_cases

ROOT = pathlib.Path(__file__).resolve().parents[2]
sys.path.insert(0, str(ROOT / "clients" / "tests"))
sys.dont_write_bytecode = True
PROGRAM = ROOT / "crates" / "mdhtml" / "out" / "mdhtml"
KNOWN = {
    614: "an escaped character before an address",
    628: "a bare link of ftp, which isn't permitted",
}
KNOWN_IN_COMMONMARK = {
    171: "a block of `textarea`, which cmark-gfm doesn't know: HTML is text",
}
COMMONMARK = "/usr/share/cargo/registry/pulldown-cmark-*/tests/suite/spec.rs"
EXAMPLE = re.compile(r'let original = r##"(.*?)"##;\s*let expected = r##"(.*?)"##;', re.DOTALL)
WITHOUT = ("--no-bare-links", "--no-tables", "--no-footnotes")
CASE = re.compile(r"(`` .+? ``|`[^`]+`)\s+gives\s+`([^`]+)`,(?:\s+and\s+cmark-gfm\s+`([^`]+)`"
                  r"|\s+as\s+cmark-gfm)")
CHARACTERS = (("\\n", "\n"), ("\\t", "\t"), ("\\0", "\0"))
EXTENSIONS = ("footnotes", "table", "strikethrough", "autolink", "tasklist")
SIZE = 100_000
GROWTH = 12
AGAIN = 5
MEMORY = 400
MEGABYTES = 64
OFFSETS = 40
OPTIONS = ("--math", "--base=http://a/b/c", "--html=without-comments")
NAMES = sorted(name for name in html.entities.html5 if name.endswith(";"))
MOST_DEPTH = 96
MOST_NESTED = 32


def framed(program, documents, *options):
    """The program's output for each document, or None for one that it shows as it is written
    because the compiler refused the parser's events: only such a text ends without a line ending.
    """
    given = b"".join(b"%d\n%s" % (len(document), document) for document in documents)
    out = subprocess.run([program, "--frames", *options], input=given, capture_output=True,
                         check=True).stdout
    texts, at = [], 0
    while at < len(out):
        end = out.index(b"\n", at)
        status, length = map(int, out[at:end].split())
        text = out[end + 1:end + 1 + length]
        is_plain = text.startswith(b"<p>") and text[-1:] not in b"\r\n"
        texts.append(None if status or is_plain else text)
        at = end + 1 + length
    return texts


def judged(program):
    """The faults of the documents that cmark-gfm judges; None if it is missing.
    """
    try:
        import documents
        import judge
        given = documents.examples()
    except OSError:
        return None

    def differing(given):
        return {number for number, (document, text) in enumerate(zip(given, framed(program, given)))
                if text != judge.judge(document).wanted}

    differ = {number + 1 for number in differing(given)}
    print(f"markdown: of {len(given)} examples {len(given) - len(differ)} give cmark-gfm's text "
          "with the permitted differences")
    faults = [f"example {number}: {given[number - 1]!r}" for number in sorted(differ ^ KNOWN.keys())]
    own = [text.encode("utf-8") for text in markdown_cases.AS_GFM]
    print(f"markdown: {len(own)} documents as cmark-gfm reads them")
    return faults + [f"not as cmark-gfm: {own[number]!r}" for number in sorted(differing(own))]


def by_commonmark(program):
    """The faults of the examples of CommonMark; None if they or their judge is missing."""
    try:
        import judge
        source = pathlib.Path(glob.glob(COMMONMARK)[0]).read_text("utf-8")
    except (OSError, IndexError):
        return None
    found = [(given.encode("utf-8"), wanted.encode("utf-8"))
             for given, wanted in EXAMPLE.findall(source)]
    given = [document for document, _ in found]
    alone, whole = framed(program, given, *WITHOUT), framed(program, given)
    exact = {number for number, (_, wanted) in enumerate(found) if alone[number] == wanted}
    differ = {number + 1 for number, document in enumerate(given)
              if number not in exact and whole[number] != judge.judge(document).wanted}
    print(f"markdown: of {len(found)} examples of CommonMark {len(exact)} give the expected text, "
          f"{len(found) - len(exact) - len(differ)} cmark-gfm's with the permitted differences")
    if not found:
        return [f"{COMMONMARK} has no examples"]
    return [f"example {number} of CommonMark: {given[number - 1]!r}"
            for number in sorted(differ ^ KNOWN_IN_COMMONMARK.keys())]


def unlike(program, options, cases):
    """The faults of documents under options: each has its expected HTML."""
    texts = framed(program, [text.encode("utf-8") for text, _ in cases], *options)
    return [f"{' '.join(options)} {text!r}: {None if found is None else found.decode('utf-8')!r}"
            for (text, wanted), found in zip(cases, texts)
            if found is None or found.decode("utf-8") != wanted]


def by_options(program):
    """The faults of documents under each option, and of URLs against bases."""
    faults, count = [], 0
    for options, cases in markdown_cases.BY_OPTIONS:
        faults += unlike(program, options, cases)
        count += len(cases)
    for base, urls in markdown_cases.RESOLVED.items():
        cases = [(f"[x](<{url}>)", f'<p><a href="{wanted}">x</a></p>\n') for url, wanted in urls]
        faults += unlike(program, (f"--base={base}",), cases)
        count += len(cases)
    cases = [markdown_cases.references(), markdown_cases.deep(200, MOST_DEPTH)]
    for depth in (MOST_NESTED, MOST_NESTED + 1, 3 * MOST_NESTED):
        cases += markdown_cases.nested(depth, MOST_NESTED)
    faults += unlike(program, (), cases)
    print(f"markdown: {count + len(cases)} documents under options")
    return faults


def offsets(program):
    """The faults of marks at an offset in a line: text before a mark only adds itself."""
    marked = markdown_cases.MARKED
    alone = framed(program, [text.encode("utf-8") for text in marked], "--math")
    cases = [(before + text, f"<p>{before}{html.decode('utf-8')[3:]}")
             for text, html in zip(marked, alone)
             for before in map(markdown_cases.behind, range(4, OFFSETS + 4))]
    print(f"markdown: {len(marked)} marks at each of {OFFSETS} places")
    return unlike(program, ("--math",), cases)


def by_gfm(text):
    """The output of cmark-gfm for a text."""
    words = [word for name in EXTENSIONS for word in ("-e", name)]
    return subprocess.run(["cmark-gfm", "--unsafe", *words], input=text, capture_output=True,
                          check=True).stdout.decode("utf-8")


def is_like(pattern, text):
    """Whether a text matches a case: `\\n` means a line feed, `..` any text."""
    parts = pattern.replace("\\n", "\n").replace("\\t", "\t").split("..")
    return re.fullmatch(".*".join(map(re.escape, parts)), text.rstrip("\n"), re.DOTALL) is not None


def choices(program):
    """The faults of the page's cases."""
    page = (ROOT / "docs" / "use" / "MARKDOWN.md").read_text("utf-8")
    faults, count = [], 0
    for section in re.split(r"^## ", page, flags=re.MULTILINE):
        options = re.search(r"Options of these cases: `([^`]+)`", section)
        for code, own, other in CASE.findall(section):
            count += 1
            given = code[3:-3] if code.startswith("``") else code[1:-1]
            for name, character in CHARACTERS:
                given = given.replace(name, character)
            text = given.encode("utf-8") + b"\n"
            html = framed(program, [text], *(options[1].split() if options else ()))[0]
            ways = [("mdhtml", own, "" if html is None else html.decode("utf-8"))]
            if shutil.which("cmark-gfm"):
                ways.append(("cmark-gfm", other or own, by_gfm(text)))
            faults += [f"{given}: {name} gives {found!r}" for name, pattern, found in ways
                       if not is_like(pattern, found)]
    print(f"markdown: {count} cases of docs/use/MARKDOWN.md")
    return faults if count else ["docs/use/MARKDOWN.md has no cases"]


def times(length, unit):
    """A text of a length, made of repeated units."""
    return unit * max(1, length // len(unit))


SHAPES = {
    "open brackets": lambda n: times(n, "["),
    "links in links": lambda n: times(n // 2, "[") + "a" + times(n // 2, "](b)"),
    "images around links": lambda n: times(n // 2, "![") + times(n // 2, "[a](b)"),
    "references": lambda n: times(n, "[a][b]"),
    "destinations without an end": lambda n: times(n, "[a](<b"),
    "titles without an end": lambda n: times(n, "[a](b \"c 'd (e "),
    "emphasis that opens": lambda n: times(n, "*a **a "),
    "emphasis of all marks": lambda n: times(n, "*_a __b **c* d_ ~e ~~f "),
    "one run of marks": lambda n: "*" * (n // 2) + "a" + "*" * (n // 2),
    "marks that close": lambda n: times(n // 2, "a_ ") + times(n // 2, "a* "),
    "runs of backticks": lambda n: "".join("e" + "`" * i for i in range(1, int((2 * n) ** 0.5))),
    "dollars": lambda n: times(n, "$a "),
    "deep quotes": lambda n: times(n, ">") + "a",
    "deep quotes in each line": lambda n: times(n, ">" * 90 + "a\n"),
    "tasks without text in lists": lambda n: times(n, "- [ ] \n  - [ ] \n") + "\n- a\n",
    "deep lists": lambda n: times(n, "- ") + "a",
    "blank lines in deep lists": lambda n: "- " * 90 + "a\n" + "\n" * n,
    "lazy lines in deep lists": lambda n: "- " * 90 + "a\n" + "b\n" * (n // 2),
    "lists that go in": lambda n: "".join("  " * i + "- a\n" for i in range(int(n ** 0.5))),
    "footnotes in footnotes": lambda n: times(n, "[^a]:"),
    "a wide table": lambda n: times(n // 3, "|a") + "\n" + times(n // 3, "|-") + "\n" + "|\n" * 9,
    "heads of tables": lambda n: times(n, "|a|\n|-\n"),
    "rows of delimiters": lambda n: times(n, "a\n|-|-|\n"),
    "definitions": lambda n: "".join(f"[a{i}]: b\n" for i in range(n // 12)),
    "definitions that are used": lambda n: "".join(f"[a{i}]: b\n" for i in range(n // 24)) + "\n"
    + "".join(f"[a{i}] " for i in range(n // 24)),
    "one definition again": lambda n: times(n, "[a]: b\n"),
    "definitions without an end": lambda n: times(n, "[a]: b 'c\n"),
    "labels without an end": lambda n: times(n, "[a\n"),
    "footnotes that nothing shows": lambda n:
    "".join(f"[^{i}]: [^{i + 1}]\n\n" for i in range(n // 16)),
    "footnotes that nothing shows, the last first": lambda n:
    "".join(f"[^{i + 1}]: [^{i}]\n\n" for i in range(n // 16)),
    "calls of a footnote": lambda n: times(n, "[^a]") + "\n\n[^a]: b\n",
    "tags without an end": lambda n: times(n, "<a b='"),
    "comments without an end": lambda n: times(n, "x <!-- "),
    "comments in HTML": lambda n: "<div>" + times(n, "<!-->-") + "\n",
    "comments over lines in HTML": lambda n: "<div>\n" + times(n, "a<!--\n-->"),
    "a long URL by a definition": lambda n: "![" + times(n // 2, "[a] ") + "](b)\n\n[a]: "
    + times(n // 2, "b/") + "\n",
    "dots in a URL": lambda n: "[a](" + times(n // 2, "b/") + times(n // 2, "../") + ")",
    "declarations without an end": lambda n: times(n, "x <!A <? <![CDATA["),
    "less-than signs": lambda n: times(n, "<"),
    "www": lambda n: times(n, "_www.a_b."),
    "www in a domain": lambda n: times(n, "www.a_"),
    "www in a word": lambda n: times(n, "xwww."),
    "www in a bracket": lambda n: "[" + times(n, "_www.a_b."),
    "bare links": lambda n: times(n, "http://a_b.c_d "),
    "a bare link with parentheses": lambda n: "http://a.b/" + "(" * (n // 2) + ")" * (n // 2 + 9),
    "a bare link with brackets": lambda n: "[http://a.b/" + "[" * (n // 2) + "]" * (n // 2 + 9),
    "a bare link with references": lambda n: "http://a.b/" + times(n, "&a;"),
    "addresses": lambda n: times(n, "a.b@"),
    "hosts of addresses": lambda n: times(n, "a@b."),
    "character references": lambda n: times(n, "&amp;&#1;&x;"),
    "all names of references": lambda n: "".join(map("&{}".format, NAMES)) + times(n, "&lt;&gt;"),
    "spaces in lines": lambda n: times(n, " " * 1000 + "\n"),
    "spaces in a line": lambda n: "a" + " " * n + "b",
    "tabs": lambda n: times(n, "\t- "),
    "underlines": lambda n: times(n, "a\n=\n"),
    "HTML without an end": lambda n: times(n, "<script>\n"),
    "fences": lambda n: times(n, "```\n~~~\n"),
    "hard breaks": lambda n: times(n, "a  \n\\\n"),
    "one paragraph": lambda n: times(n, "a b c d e f\n"),
}


def taken(program, text):
    """The processor seconds of the program for a document, and its memory in bytes. The seconds are
    those of the program and of the kernel, since Linux only estimates each of them.
    """
    script = ("import resource, subprocess, sys\n"
              "subprocess.run([*sys.argv[2:]], stdin=open(sys.argv[1], 'rb'), check=True,\n"
              "    stdout=subprocess.DEVNULL)\n"
              "used = resource.getrusage(resource.RUSAGE_CHILDREN)\n"
              "print(used.ru_utime + used.ru_stime, used.ru_maxrss * 1024)\n")
    with tempfile.NamedTemporaryFile() as file:
        file.write(text.encode("utf-8"))
        file.flush()
        words = [sys.executable, "-c", script, file.name, program, *OPTIONS]
        runs = [subprocess.run(words, check=True, capture_output=True, text=True).stdout.split()
                for _ in range(2)]
    return min(float(seconds) for seconds, _ in runs), min(int(memory) for _, memory in runs)


def hostile(program):
    """The faults of documents that make parsers slow."""
    faults = []
    for name, shape in SHAPES.items():
        short, long = shape(SIZE), shape(4 * SIZE)
        before, _ = taken(program, short)
        seconds, memory = taken(program, long)
        most = GROWTH * max(before, 0.01)
        for _ in range(AGAIN):
            if seconds > most:
                seconds = min(seconds, taken(program, long)[0])
        if seconds > most:
            faults.append(f"{name}: {before:.2f} seconds, then {seconds:.2f}")
        if memory > (MEGABYTES << 20) + MEMORY * len(long):
            faults.append(f"{name}: {memory >> 20} megabytes for {len(long)} bytes")
    print(f"markdown: {len(SHAPES)} documents that make parsers slow")
    return faults


def left_out(what, packages):
    """Reports that a part is left out."""
    subprocess.run([ROOT / "clients" / "left_out", what, packages], check=True)


def main(arguments):
    """Runs the parts; the status to end with."""
    resource.setrlimit(resource.RLIMIT_CORE, (0, 0))
    program = str(pathlib.Path(arguments[0] if arguments else PROGRAM).resolve())
    faults = by_options(program) + offsets(program) + choices(program) + hostile(program)
    by_judge = judged(program)
    faults += by_judge or []
    if by_judge is None:
        left_out("the examples of the GFM specification by mdhtml",
                 "cmark-gfm libcmark-gfm-extensions-dev")
    of_commonmark = by_commonmark(program)
    faults += of_commonmark or []
    if of_commonmark is None:
        left_out("the examples of CommonMark by mdhtml",
                 "librust-pulldown-cmark-dev libcmark-gfm-extensions-dev")
    if not shutil.which("cmark-gfm"):
        left_out("the cases of docs/use/MARKDOWN.md by cmark-gfm", "cmark-gfm")
    for fault in faults:
        print(f"markdown: {fault}")
    return 1 if faults else 0


if __name__ == "__main__":
    sys.exit(main(sys.argv[1:]))
