#!/usr/bin/env python3
"""Tests the cleaner of HTML, by the program `mdclean`.

    bench/tests/clean.py PROGRAM [COUNT [SEED]] [--show] [--chromium]

PROGRAM is crates/mdclean/out/mdclean, or another build of it. Requires html5lib. Six parts:
- the texts of clean_cases.py, and COUNT random ones (3000) of each of three kinds: html5lib reads
  in each answer only listed elements and attributes, no URL with another scheme, and builds what
  the answer says; cleaning the answer again changes nothing, unless it has MANY tags;
- no answer is the escaped text, which is what is returned if the cleaner fails;
- the same texts with random choices of elements and protocols: each answer is as safe, and has only
  chosen elements and those that they need (NEEDED), and chosen protocols; and the texts of CHOICES;
- the same texts, except for those with NUL, by html5lib and cut down to the list, compared with
  the answer: how many trees are equal, and how many after each step of STEPS;
- texts that make parsers slow: four times as long a one takes at most GROWTH times the processor
  time;
- what the program writes and its status for an argument that isn't known, for an input that isn't
  UTF-8, and for a sequence that ends too soon (RUNS).
The status is 1 if something is wrong. The third part is only reported; with `--show` it prints the
shortest texts of the last three kinds. With `--chromium` that browser reads the answers to the
texts of clean_cases.py too, each as a page and in a `div` (bench/standard/browser.py).
"""

import collections
import pathlib
import random
import re
import resource
import subprocess
import sys
import warnings

import clean_cases

sys.path.append("/usr/lib/python3/dist-packages")
sys.path.append(str(pathlib.Path(__file__).resolve().parents[1] / "standard"))
import html5lib  # noqa: E402

warnings.simplefilter("ignore")
sys.setrecursionlimit(20_000)
XHTML = "{http://www.w3.org/1999/xhtml}"
GLOBAL = {"title", "lang", "dir"}
SPANS = set("em strong del sup code a b i u s small sub span kbd samp var q cite abbr dfn ins "
            "mark".split())
BLOCKS = set("blockquote pre p ul ol li table thead tbody tfoot tr th td h1 h2 h3 h4 h5 h6 div "
             "details summary figure figcaption".split())
VOIDS = {"br", "hr", "img", "wbr"}
MORE = {"a": {"href"}, "img": {"src", "alt", "align", "width", "height"}, "ol": {"start"},
        "details": {"open"}, "table": {"align", "width"}}
MORE |= {name: {"align"} for name in "p div h1 h2 h3 h4 h5 h6".split()}
MORE |= {name: {"align", "valign"} for name in "thead tbody tfoot tr".split()}
MORE |= {name: set("align valign width height colspan rowspan".split()) for name in ("th", "td")}
DROPPED = set("script style iframe noembed noframes xmp noscript title textarea plaintext template "
              "svg math".split())
PROTOCOLS = {"href": {"http", "https", "irc", "ircs", "mailto", "xmpp"}, "src": {"http", "https"}}
TAG = re.compile(rb"<[a-zA-Z!?]|</.")
MANY = 300
SIZE = 40_000
GROWTH = 8
AGAIN = 5
# Arguments and an input, the status, the output, and what is in the line of the error.
RUNS = (
    ([], b"<b>x", 0, b"<b>x</b>", b""),
    ([], b"", 0, b"", b""),
    ([], b"<b>\xff</b>", 2, b"", b"UTF-8"),
    (["--frames"], b"1\n\xff4\n<b>x", 0, b"1 0\n0 8\n<b>x</b>", b""),
    (["--frames"], b"4\n<b>", 2, b"", b"length"),
    (["--frames"], b"four\n<b>x", 2, b"", b"length"),
    (["--help"], b"<b>x", 1, b"", b"--frames"),
    (["--tags"], b"<b>x", 1, b"", b"--tags NAMES"),
)
# Elements that others need, and texts with choices of elements and protocols, and the answers.
NEEDED = {"ul": {"li"}, "ol": {"li"}, "pre": {"code"},
          "table": {"thead", "tbody", "tfoot", "tr", "th", "td"}}
CHOSEN = b"<p>a <b>b</b></p><ul><li>c</ul><table><tr><td>d</table><pre>e</pre>"
LINKS = b"<a href=http://a>b</a><a href=MAILTO:c>d</a><a href=/e>f</a><img src=https://g>"
CHOICES = (
    (CHOSEN, ["--tags", "p"], b"<p>a b</p>c\nd\ne"),
    (CHOSEN, ["--tags", ""], b"a b\nc\nd\ne"),
    (CHOSEN, ["--tags", "b ul"], b"a <b>b</b><ul><li>c</li></ul>d\ne"),
    (CHOSEN, ["--tags", "table pre unknown"],
     b"a b\nc<table><tbody><tr><td>d</td></tr></tbody></table><pre><code>e</code></pre>"),
    (b"a<br>b<hr>c", ["--tags", "p"], b"a\nb\nc"),
    (b"<ul><li>a</ul><ol><li>b", ["--tags", "ol"], b"a<ol><li>b</li></ol>"),
    (b"<script>a</script><p>b", ["--tags", "script b"], b"b"),
    (LINKS, ["--protocols", "http"],
     b'<a href="http://a">b</a><a>d</a><a href="/e">f</a><img />'),
    (LINKS, ["--protocols", "javascript", "--tags", "a"], b'<a>b</a><a>d</a><a href="/e">f</a>'),
)
STEPS = ("white space", "URLs", "empty spans", "spans by block", "content model", "links in links",
         "texts")


def cleaned(program, documents, choices=()):
    """The program's answers, with these arguments."""
    given = b"".join(b"%d\n%s" % (len(document), document) for document in documents)
    out = subprocess.run([program, "--frames", *choices], input=given, capture_output=True,
                         check=True).stdout
    texts, at = [], 0
    while at < len(out):
        end = out.index(b"\n", at)
        length = int(out[at:end].split()[1])
        texts.append(out[end + 1:end + 1 + length])
        at = end + 1 + length
    return texts


def tree_of(text):
    """html5lib's tree of an answer, where flow content may be set."""
    return html5lib.parseFragment(text.decode(errors="replace"), container="div")


def body_of(text):
    """html5lib's tree of a text as the body of a page: its parser of fragments loses what is in a
    table but in no cell."""
    page = html5lib.parse("<!DOCTYPE html><body>" + text.decode(errors="replace"))
    body = page.find(XHTML + "body")
    return page if body is None else body


def name_of(node):
    """An element's name; None for a comment, `foreign` for one of SVG or MathML."""
    if not isinstance(node.tag, str):
        return None
    if not node.tag.startswith(XHTML):
        return "foreign" if node.tag.startswith("{") else node.tag
    return node.tag[len(XHTML):]


def url_of(value):
    """A URL as a browser reads it."""
    return re.sub("[\t\n\r]", "", value.strip("".join(map(chr, range(33)))))


def is_permitted(name, value):
    """Whether an attribute isn't a URL with a scheme that isn't permitted."""
    scheme = re.match(r"([^:/?#]*):", url_of(value))
    return name not in PROTOCOLS or not scheme or scheme.group(1).lower() in PROTOCOLS[name]


def attributes_of(name, node):
    """The listed attributes of an element."""
    listed = GLOBAL | MORE.get(name, set())
    return {key: value for key, value in node.attrib.items()
            if key in listed and is_permitted(key, value)}


def wrong(text):
    """What is wrong with an answer, or None."""
    tree = tree_of(text)
    for node in tree.iter():
        name = name_of(node)
        if node is tree:
            continue
        if name not in SPANS | BLOCKS | VOIDS:
            return f"element {node.tag}"
        if set(node.attrib) != set(attributes_of(name, node)):
            return f"attributes {node.attrib}"
    written = "".join(shown(tree))
    if written != text.decode():
        return f"is built as {written!r}"
    return None


def shown(node):
    """A tree in the grammar's own form, from the answer's attributes."""
    yield escaped(node.text or "")
    for child in node:
        name = name_of(child)
        order = ORDER.get(name, ())
        names = sorted(child.attrib, key=lambda key: order.index(key) if key in order else 99)
        tag = name + "".join(f' {key}="{escaped(child.attrib[key])}"' for key in names)
        if name in VOIDS:
            yield f"<{tag} />"
        else:
            yield f"<{tag}>"
            yield from shown(child)
            yield f"</{name}>"
        yield escaped(child.tail or "")


ORDER = {name: ["title", "lang", "dir", "align", "valign", "width", "height", "colspan", "rowspan",
                "start", "open"] for name in SPANS | BLOCKS | VOIDS}
ORDER["a"] = ["href", "title", "lang", "dir"]
ORDER["img"] = ["src", "alt", "title", "lang", "dir", "align", "width", "height"]


def escaped(text):
    """A text as the grammar writes it."""
    for old, new in (("&", "&amp;"), ("<", "&lt;"), (">", "&gt;"), ('"', "&quot;")):
        text = text.replace(old, new)
    return text


def cut(node):
    """A tree cut down to the list, as a list of texts and of (name, attributes, children)."""
    nodes = [node.text or ""]
    for child in node:
        name = name_of(child)
        if name is not None and name not in DROPPED and name != "foreign":
            inner = cut(child)
            if name in SPANS | BLOCKS | VOIDS:
                nodes.append((name, frozenset(attributes_of(name, child).items()), inner))
            else:
                nodes.extend(inner)
        nodes.append(child.tail or "")
    return joined(nodes)


def joined(nodes):
    """Nodes with texts one after another joined, and without empty ones."""
    out = []
    for node in nodes:
        if isinstance(node, str) and out and isinstance(out[-1], str):
            out[-1] += node
        elif node != "":
            out.append(node)
    return out


def without_white(nodes):
    """Nodes without texts of white space, and with single spaces."""
    out = []
    for node in nodes:
        if isinstance(node, str):
            text = " ".join(node.replace("\0", "").split())
            out.append(text)
        else:
            out.append((node[0], node[1], without_white(node[2])))
    return joined(out)


def without_urls(nodes):
    """Nodes whose URLs are only marked."""
    return [node if isinstance(node, str) else
            (node[0], frozenset((key, "" if key in PROTOCOLS else value.replace("\r", "\n"))
                                for key, value in node[1]), without_urls(node[2]))
            for node in nodes]


def without_empty(nodes):
    """Nodes without empty spans, paragraphs and lists."""
    out = []
    for node in nodes:
        if not isinstance(node, str):
            node = (node[0], node[1], without_empty(node[2]))
            if not node[2] and node[0] not in VOIDS:
                continue
        out.append(node)
    return joined(out)


def by_block(nodes, blocks=(), spans=frozenset()):
    """Each letter and void tag, with the blocks and spans around it, spans in any order."""
    for node in nodes:
        if isinstance(node, str):
            for letter in "".join(node.split()):
                yield letter, blocks, spans
        elif node[0] in VOIDS:
            yield node[0], blocks, spans
        elif node[0] in SPANS:
            yield from by_block(node[2], blocks, spans | {node[0]})
        else:
            yield from by_block(node[2], blocks + (node[0],), spans)


def by_model(nodes):
    """The same by the content model alone: without lists and their items, which the answer adds,
    without what cells and paragraphs don't hold, without rules and line breaks, and without spans
    and images in code."""
    for letter, blocks, spans in by_block(nodes):
        if letter in ("hr", "br", "wbr") or letter == "img" and "pre" in blocks:
            continue
        kept, is_full = [], False
        for name in blocks:
            if name == "tr" and "tr" in kept:
                is_full = True
            if not is_full and name not in ("ul", "ol", "li", "table", "tbody"):
                kept.append(name)
            is_full = is_full or name in FULL
        is_code = "code" in spans or "pre" in kept
        yield letter, tuple(kept), frozenset() if is_code else spans


def by_links(nodes):
    """The same without links, which end one another."""
    for letter, blocks, spans in by_model(nodes):
        yield letter, blocks, spans - {"a"}


def has_nested_link(nodes, in_link=False):
    """Whether a link stands in a link."""
    elements = [node for node in nodes if not isinstance(node, str)]
    return any(name == "a" and in_link or has_nested_link(inner, in_link or name == "a")
               for name, _, inner in elements)


FULL = set("p h1 h2 h3 h4 h5 h6 summary td th pre".split())


def words(nodes):
    """All letters, in order."""
    out = []
    for node in nodes:
        out.extend(node.split() if isinstance(node, str) else words(node[2]))
    return out


def compare(first, second):
    """The first step after which two trees are equal."""
    if first == second:
        return "equal"
    first, second = without_white(first), without_white(second)
    for step, change in zip(STEPS, (lambda x: x, without_urls, without_empty,
                                    lambda x: list(by_block(x)), lambda x: list(by_model(x)),
                                    lambda x: list(by_links(x)), lambda x: "".join(words(x)))):
        changed = change(first), change(second)
        if changed[0] == changed[1] and (step != "links in links" or has_nested_link(first)):
            return step
        if step in STEPS[:3]:
            first, second = changed
    return "other"


def random_text(source, tags):
    """A random text of tags and texts."""
    pieces = []
    for _ in range(source.randrange(1, 24)):
        kind = source.random()
        name = source.choice(tags)
        if kind < 0.42:
            pieces.append(f"<{name}{attribute(source) if source.random() < 0.2 else ''}>")
        elif kind < 0.64:
            pieces.append(f"</{name}>")
        elif kind < 0.7:
            pieces.append(source.choice((" ", "\n", "<!-- c -->", "&amp;", "&lt;b&gt;", "&nbsp;",
                                         "<", "a < b", "\t", "&copy", "<br>", "<hr>", "<img>")))
        else:
            pieces.append(source.choice("xyzuvw"))
    return "".join(pieces).encode()


def attribute(source):
    """A random attribute."""
    name = source.choice("href src title alt align onclick style class width TITLE open".split())
    value = source.choice(("http://a.b/c", "javascript:x", "a", "", "left", "a&amp;b", "/x?y"))
    quote = source.choice(("'", '"', '"'))
    return f" {name}={quote}{value}{quote}"


LISTED = sorted(SPANS | BLOCKS)
OTHERS = ("script style title textarea svg math template noscript font center section dl dd dt "
          "form select option button caption colgroup col foo xmp table td tr a p b li").split()
SIMPLE = "p em strong b i a ul li blockquote h1 h2 code sup del span".split()


def check_safe(program, texts):
    """Checks the answers; returns how many are wrong."""
    answers = cleaned(program, texts)
    again = cleaned(program, answers)
    count = 0
    for text, answer, second in zip(texts, answers, again):
        found = wrong(answer)
        if not found and second != answer and answer.count(b"<") < MANY:
            found = f"cleaned again it is {second!r}"
        if not found and answer == escaped(text.decode()).encode() and TAG.search(text):
            found = "is the escaped text"
        if found:
            count += 1
            if count < 20:
                print(f"clean: {text!r}\n  -> {answer!r}\n  {found}")
    return count


def check_choices(program, source, texts):
    """Checks answers with random choices, and those of CHOICES; returns how many are wrong."""
    found = [(text, choices, answer, cleaned(program, [text], choices)[0])
             for text, choices, answer in CHOICES]
    bad = [(text, choices, made) for text, choices, answer, made in found if made != answer]
    for start in range(0, len(texts), 50):
        part = texts[start:start + 50]
        tags = source.sample(LISTED + sorted(VOIDS), source.choice((0, 1, 3, 9, 20, 40)))
        protocols = source.sample(sorted(PROTOCOLS["href"]), source.randrange(4))
        choices = ["--tags", " ".join(tags), "--protocols", " ".join(protocols)]
        answers = cleaned(program, part, choices)
        bad += [(text, choices, answer) for text, answer in zip(part, answers)
                if wrong(answer) or not is_chosen(answer, set(tags), protocols)
                or (answer == escaped(text.decode()).encode() and TAG.search(text))]
    for text, choices, answer in bad[:20]:
        print(f"clean: {text!r}\n  {choices} -> {answer!r}")
    print(f"clean: {len(CHOICES)} choices, {len(texts)} texts with random ones: {len(bad)} wrong")
    return len(bad)


def is_chosen(text, tags, protocols):
    """Whether an answer has only chosen elements and protocols."""
    kept = tags.union(*(NEEDED.get(tag, ()) for tag in tags))
    tree = tree_of(text)
    for node in tree.iter():
        schemes = [re.match(r"([^:/?#]*):", url_of(node.get(key, ""))) for key in PROTOCOLS]
        if node is not tree and name_of(node) not in kept:
            return False
        if any(scheme and scheme[1].lower() not in protocols for scheme in schemes):
            return False
    return True


def report(program, label, texts):
    """Reports how the answers compare with html5lib's trees."""
    texts = [text for text in texts if b"\0" not in text]
    found, seen = collections.Counter(), collections.defaultdict(list)
    for text, answer in zip(texts, cleaned(program, texts)):
        step = compare(cut(body_of(text)), cut(body_of(answer)))
        found[step] += 1
        seen[step].append((len(text), text, answer))
    print(f"clean: {label}: " + ", ".join(f"{step} {found[step]}" for step in
                                          ("equal", *STEPS, "other") if found[step]))
    return seen


def check_browser(program, texts):
    """Has chromium read the answers; returns how many have faults."""
    from browser import BAD, faults_of

    given = [text for text, _ in BAD] + [text.decode() for text in cleaned(program, texts)]
    found = faults_of([[text, False, None] for text in given], "chromium")
    missed = sum(not any(word in fault for fault in faults)
                 for (_, word), faults in zip(BAD, found))
    faulty = [pair for pair in zip(texts, found[len(BAD):], strict=True) if pair[1]]
    for pair in faulty:
        print(f"clean: chromium: {pair}")
    print(f"clean: chromium read {len(texts)} answers: {len(faulty)} with faults; of {len(BAD)} "
          f"texts with faults it missed {missed}")
    return len(faulty) + missed


def used():
    """The processor seconds of the programs that ended, with the kernel's for them."""
    usage = resource.getrusage(resource.RUSAGE_CHILDREN)
    return usage.ru_utime + usage.ru_stime


def seconds(program, text):
    """The processor time for a text."""
    before = used()
    cleaned(program, [text])
    return used() - before


SLOW = {
    "open blocks": b"<div>", "open spans": b"<b>", "spans and blocks": b"<b><i><p>x",
    "links": b"<a href=xxxxxxxxxxxxxxxxxxxxxxxx><p>x", "unclosed quotes": b"<a b='",
    "attributes": b"<a " + b"b=c " * 20, "end tags": b"</p></b></div>", "comments": b"<!-- -",
    "marks": b"<", "references": b"&a&am&amp", "raw": b"<style>", "scripts": b"<script><!--",
    "svg": b"<svg>", "tables": b"<table>x<tr><td>", "lists": b"<ul><li>", "list texts": b"<ul>x",
    "closed": b"<b><p>x</p></b>", "nul": b"\0\r&", "numbers": b"&#11111", "template": b"<template>",
    "ends of opened": b"<div></b><b></i>",
}


def check_speed(program):
    """Checks that the time grows with the length; returns how often it doesn't."""
    count = 0
    for name, piece in SLOW.items():
        for start in (b"", b"<p>", b"<div>" * 300 + b"<b><i>" * 30):
            first = start + piece * (SIZE * 4 // len(piece))
            second = start + piece * (SIZE * 16 // len(piece))
            most = GROWTH * max(seconds(program, first), 0.05)
            # Other work on the machine can only make a time longer.
            times = (seconds(program, second) for _ in range(AGAIN))
            if all(time > most for time in times):
                print(f"clean: slow: {name}: more than {most:.2f} seconds")
                count += 1
    long_link = b"<a href=" + b"x" * SIZE * 4 + b">" + b"<p>x" * SIZE
    if all(seconds(program, long_link) > 2 for _ in range(AGAIN)):
        print("clean: slow: a long link in many blocks")
        count += 1
    return count


def check_runs(program):
    """Checks the program's outputs and statuses; returns how many are wrong."""
    count = 0
    for words, given, status, written, said in RUNS:
        done = subprocess.run([program, *words], input=given, capture_output=True)
        found = done.returncode, done.stdout, len(done.stderr.splitlines())
        if found != (status, written, int(status > 0)) or said not in done.stderr:
            print(f"clean: {words} {given!r}: {found} {done.stderr!r}")
            count += 1
    return count


def main():
    given = [word for word in sys.argv[1:] if not word.startswith("--")]
    program = str(pathlib.Path(given[0]).resolve())
    count = int(given[1]) if len(given) > 1 else 3000
    source = random.Random(int(given[2]) if len(given) > 2 else 1)
    attacks = clean_cases.attacks()
    listed = [random_text(source, LISTED) for _ in range(count)]
    others = [random_text(source, LISTED + OTHERS) for _ in range(count)]
    simple = [random_text(source, SIMPLE) for _ in range(count)]
    bad = check_safe(program, attacks + listed + others + simple)
    print(f"clean: {len(attacks)} attacks, {3 * count} random texts: {bad} wrong")
    bad += check_choices(program, source, attacks + listed + others)
    for label, texts in (("attacks", attacks), ("simple", simple), ("listed", listed),
                         ("others", others)):
        seen = report(program, label, texts)
        if "--show" in sys.argv:
            for step in (*STEPS[3:], "other"):
                for _, text, answer in sorted(seen[step])[:4]:
                    print(f"  {step}: {text!r}\n    {answer!r}\n    {cut(body_of(text))}\n"
                          f"    {cut(body_of(answer))}")
    bad += check_speed(program) + check_runs(program)
    if "--chromium" in sys.argv:
        bad += check_browser(program, attacks)
    sys.exit(bad > 0)


if __name__ == "__main__":
    main()
