#!/usr/bin/env python3
"""Checks every link, path and name in the pages.

    bench/pages/links.py

A page is a `.md` file in git. In each page:

- A link points to an existing file or folder, and its `#` to a heading.
- Words quoted after a link (`[CALLS](CALLS.md), "Within limits"`) begin a heading or an item there.
- A path in backticks exists from the top, from the page's folder or from a crate's folder, or is
  the end of a path. One that begins with `src/`, `specs/` or the like exists in the page's own
  crate, or in a crate that the page names. `*` and `..` match anything.
- `md_crate::path::item` and `Type::method` exist in the sources.

And docs/maintain/PERF.md has under "Today" the seconds of each workload at the start and now, in
the form in which bench/measure/tables.py writes them, with the commit that docs/PERF.md names.

Prints each broken one on a line, and exits with status 1.
"""

import collections
import fnmatch
import functools
import pathlib
import re
import subprocess
import sys

import edits

ROOT = pathlib.Path(__file__).resolve().parents[2]
ENDINGS = (".rt", ".antt", ".edit", ".py", ".c", ".h", ".rs", ".md", ".txt", ".toml", ".sh")
# Folders of a crate.
WITHIN = {"src", "specs", "proofs", "must-fail", "cases", "make"}
# Paths that aren't in git, and why pages name them.
MADE = {
    "clients/out": "clients/build and clients/package make it",
    "crates/*/out": "rt makes it",
    "out": "the same, from a crate's folder",
    "crates/app": "a user's crate, in the example of docs/use/API.md",
    "c/liblibc_c.a": "the Rattle kit has it",
    "AnswersOffered.antt": "rattle check --generated writes it",
    "compile.rt": "an example of docs/maintain/PROVING.md, of a name that a file can't have",
    "src/to_html.rs": "the original's",
    "src/util": "the original's",
    "text/html": "a media type",
}
# Types that aren't in our sources, and why pages name them.
FOREIGN = {
    "CompileContext": "the original's",
    "One": "an example of docs/maintain/DECISIONS.md",
}

# The table of the seconds at the start and now.
TIMED = "<!-- start: bench/measure/tables.py -->"
TIMED_HEAD = ["| workload | seconds at the start | seconds now | start over now |",
              "|---|--:|--:|--:|"]
TIMES = re.compile(r"\| (\w+) \| (\d+\.\d{3}) \| (\d+\.\d{3}) \| (\d+\.\d{2}) \|")
FENCED = re.compile(r"^ *```.*?^ *```$", re.MULTILINE | re.DOTALL)
SPAN = re.compile(r"(`+)(.+?)\1", re.DOTALL)
LINK = re.compile(r"\[[^\]]*\]\(([^)\s]+)\)(?:,\s+\"([^\"]+)\")?")
HEADING = re.compile(r"^#+ (.*)$", re.MULTILINE)
FRONT = r"^(?:#+ |- |\*\*|- \*\*)"
PATH = re.compile(r"[\w.*-]*/[\w.*/-]*")
BARE = re.compile(r"\w+\.(?:rt|antt|edit)")
ITEM = re.compile(r"(\w+(?:::\w+)+)(?:\(.*)?")
WORD = r"^(?:pub(?:\(\w+\))? )?"
DEFINED = re.compile(WORD + r"(?:const |unsafe |extern \"C\" )*"
                     r"(?:fn|struct|enum|trait|type|const|static|mod) (\w+)", re.MULTILINE)
BLOCK = re.compile(WORD + r"(impl|enum|struct|trait)\b([^{;]*)\{\n?(.*?)^\}",
                   re.MULTILINE | re.DOTALL)
MEMBER = re.compile(r"\b(?:fn|const|type) (\w+)")
VARIANT = re.compile(r"^    (?:pub(?:\(\w+\))? )?(\w+)", re.MULTILINE)


@functools.cache
def files():
    """The files in git and their folders, from the top."""
    listed = subprocess.run(["git", "ls-files", "-z"], cwd=ROOT, check=True, capture_output=True)
    paths = [pathlib.PurePosixPath(name) for name in listed.stdout.decode().split("\0") if name]
    return {str(place) for path in paths for place in [path, *path.parents]} - {"."}


@functools.cache
def ends():
    """The ends of these paths: of `crates/md_html/src/laws.rt` also `src/laws.rt`, `laws.rt`."""
    return {"/".join(parts[at:]) for parts in (path.split("/") for path in files())
            for at in range(len(parts))}


@functools.cache
def crates():
    """The crates' names."""
    return {path.split("/")[1] for path in files() if fnmatch.fnmatch(path, "crates/*")}


@functools.cache
def read(path):
    return (ROOT / path).read_text(encoding="utf-8")


def prose(page):
    """A page without its fenced blocks."""
    return FENCED.sub("", read(page))


def slug(heading):
    """The id of a heading, as GitHub makes it."""
    plain = re.sub(r"\[([^\]]*)\]\([^)]*\)", r"\1", heading.strip())
    return re.sub(r"[^\w\- ]", "", plain.lower()).replace(" ", "-")


def broken_links(page):
    """The broken links outside code."""
    for target, quoted in LINK.findall(SPAN.sub("code", prose(page))):
        if re.match(r"\w+:", target):
            continue
        path, _, anchor = target.partition("#")
        place = ((ROOT / page).parent / path if path else ROOT / page).resolve()
        place = str(place.relative_to(ROOT)) if place.is_relative_to(ROOT) else ""
        if place not in files():
            yield f"the link {target}"
        elif place.endswith(".md"):
            if anchor and anchor not in map(slug, HEADING.findall(prose(place))):
                yield f"the heading {target}"
            words = r"\s+".join(map(re.escape, quoted.split()))
            if words and not re.search(FRONT + words, prose(place), re.MULTILINE):
                yield f"{quoted!r}, which isn't in {place}"


def exists(path, known):
    """Whether a path is one of these; a file's may be without its ending."""
    pattern = re.sub(r"\.\.+", "*", path)
    return path in known or bool(fnmatch.filter(known, pattern)) or (
        "." not in path.split("/")[-1].strip(".") and bool(fnmatch.filter(known, pattern + ".*")))


def is_broken_path(page, path, named):
    """Whether a path is broken, in a page that names these crates."""
    path = re.sub(r"(?<!\.)\.$", "", path.removeprefix("./")).strip("/")
    folder = page.rpartition("/")[0]
    first, _, rest = path.partition("/")
    if any(fnmatch.fnmatch(path, made) or fnmatch.fnmatch(path, made + "/*") for made in MADE):
        return False
    if first in files():
        return not exists(path, files()) and not exists(f"{folder}/{path}", files())
    if first in WITHIN:
        owners = [folder, *(f"crates/{crate}" for crate in named)]
        return not any(exists(f"{owner}/{path}", files()) for owner in owners)
    if first in crates():
        return not (path in edits.told() or exists(f"crates/{path}", files())
                    or exists(f"crates/{first}/must-fail/{rest}", files()))
    return (path.endswith(ENDINGS) or first in ends()) and not exists(path, ends())


@functools.cache
def sources(front):
    """The sources below a folder, by the parts of their names."""
    return {tuple(path.removeprefix(front).rsplit(".", 1)[0].split("/")): read(path)
            for path in files() if path.startswith(front) and path.endswith((".rt", ".rs"))}


@functools.cache
def members():
    """The members of each type: functions, variants, fields and constants."""
    found = collections.defaultdict(set)
    blocks = (block for text in sources("").values() for block in BLOCK.findall(text))
    for kind, head, body in blocks:
        names = MEMBER.findall(body) + (VARIANT.findall(body) if kind in ("enum", "struct") else [])
        for name in re.findall(r"\b[A-Z]\w*", head):
            found[name].update(names)
    return found


def is_broken_item(first, *rest):
    """Whether the sources have no item of this name."""
    if first[0].isupper():
        return first not in FOREIGN and rest[0] not in members()[first]
    modules = sources(f"crates/{first}/src/")
    if first not in crates() or tuple(rest) in modules:
        return False
    if len(rest) > 1 and rest[-2][0].isupper():
        return rest[-1] not in members()[rest[-2]]
    texts = [modules.get(tuple(rest[:-1]), "")] if len(rest) > 1 else modules.values()
    return not any(rest[-1] in DEFINED.findall(text) for text in texts)


def broken(page):
    """Everything broken in a page."""
    yield from broken_links(page)
    named = sorted(crates() & set(re.findall(r"\w+", prose(page))))
    for span in (" ".join(span.split()) for _, span in SPAN.findall(prose(page))):
        if (item := ITEM.fullmatch(span)) and is_broken_item(*item[1].split("::")):
            yield f"the item {span}"
        for word in (word.strip("\"',;:()") for word in span.split()):
            if PATH.fullmatch(word) and is_broken_path(page, word, named):
                yield f"the path {word}"
            elif BARE.fullmatch(word) and word not in ends() and word not in MADE:
                yield f"the file {word}"


def untimed():
    """What the page on speed lacks of the seconds at the start and now."""
    page, named = read("docs/maintain/PERF.md"), read("docs/PERF.md").split("\n")[0]
    commit = re.search(r"`([0-9a-f]{40})`", named)
    if commit is None or commit[1] not in page:
        yield "not the commit that docs/PERF.md names in its first line"
    today = page.partition("\n## Today\n")[2].partition("\n## ")[0]
    table = today.partition(f"{TIMED}\n")[2].split("\n\n")[0].split("\n")
    rows = {row[1]: row.groups() for row in map(TIMES.fullmatch, table[2:]) if row}
    if table[:2] != TIMED_HEAD or len(rows) != len(table) - 2:
        yield f"no table after {TIMED} under 'Today', or one of another form"
    lines = [line.split() for line in read("bench/workloads.txt").splitlines()]
    for name in (words[0] for words in lines if words and words[0][0] != "#"):
        _, before, now, ratio = rows.get(name, (name, "0", "1", "1"))
        if abs(float(before) / float(now) - float(ratio)) > 0.02:
            yield f"no row of {name} at the start and now, or another ratio than theirs"


def main():
    pages = sorted(path for path in files() if path.endswith(".md"))
    faults = [f"{page}: {fault}" for page in pages for fault in broken(page)]
    faults += [f"docs/maintain/PERF.md: {fault}" for fault in untimed()]
    print("\n".join(faults) if faults else f"links: {len(pages)} pages")
    return bool(faults)


if __name__ == "__main__":
    sys.exit(main())
