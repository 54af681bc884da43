#!/usr/bin/env python3
"""Compares what the cleaner keeps of real HTML with html5lib's tree, cut down to the list.

    bench/tests/clean_real.py PROGRAM FOLDER.. [--count N] [--seed N] [--show]
    bench/tests/clean_real.py PROGRAM FOLDER.. --tests [--show]
    bench/tests/clean_real.py PROGRAM FILE.. --ammonia [--show]

PROGRAM is crates/mdclean/out/mdclean, or another build of it; FOLDER has HTML files, as
/usr/share/doc has where packages with documentation are installed. It takes N files (1000) of at
most SIZE bytes at random, at most SHARE of them of one package, and reports how many trees are
equal, and how many after each step of clean.py; with `--show` it names those that are equal after
no step but the last two. With `--tests` the folders have the tests of tree construction of the
Standard (*.dat, as Debian's golang-golang-x-net-dev has them), of which it takes all texts that
aren't for fragments, and reports them alike. With `--ammonia` the files are src/lib.rs of that
crate (Debian's librust-ammonia-dev), and it takes the fragments of its tests. The status is 1 if an answer is unsafe by html5lib.
"""

import argparse
import collections
import pathlib
import random
import re
import sys

import clean

SIZE = 200_000
SHARE = 0.1
FRAGMENT = re.compile(
    r'let (?:fragment|original|html) =\s*(?:r#*"(.*?)"#*|"((?:[^"\\]|\\.)*)");', re.S)
ESCAPE = re.compile(r"\\(?:u\{|x)([0-9A-Fa-f]+)\}?|\\\n\s*|\\.", re.S)


def files_of(folders):
    """The HTML files of folders by package: the first folder below `doc`, or the folder itself."""
    found = collections.defaultdict(list)
    for folder in folders:
        for path in sorted(pathlib.Path(folder).rglob("*")):
            if path.suffix in (".html", ".htm", ".xhtml") and path.is_file():
                parts = path.parts
                at = parts.index("doc") + 1 if "doc" in parts else 0
                if 0 < path.stat().st_size <= SIZE:
                    found[parts[at] if at else folder].append(path)
    return found


def chosen(packages, count, source):
    """This many files, at most a share of them of one package."""
    most = max(1, int(count * SHARE))
    paths = [path for _, part in sorted(packages.items())
             for path in source.sample(part, min(most, len(part)))]
    return source.sample(paths, min(count, len(paths)))


def tests_of(folders):
    """The texts of the tests of tree construction in folders, without those of fragments."""
    for folder in folders:
        for path in sorted(pathlib.Path(folder).rglob("*.dat")):
            for test in ("\n" + path.read_text(errors="replace")).split("\n#data\n")[1:]:
                if "\n#document-fragment" not in test and "\n#errors" in "\n" + test:
                    data = ("\n" + test)[:("\n" + test).index("\n#errors")][1:]
                    yield path, data.replace("\0", "").encode()


def fragments_of(files):
    """The fragments in the tests of the crate ammonia."""
    for path in map(pathlib.Path, files):
        tests = path.read_text(encoding="utf-8").split("mod test {")[1]
        for raw, plain in FRAGMENT.findall(tests):
            yield path, (raw or ESCAPE.sub(unescaped, plain)).replace("\0", "").encode()


def unescaped(escape):
    """What an escape in a string of Rust means."""
    if escape[1]:
        return chr(int(escape[1], 16))
    return {"n": "\n", "t": "\t", "r": "\r", "0": "\0"}.get(escape[0][1], escape[0][1].strip())


def text_of(path):
    """A file as UTF-8, without NUL."""
    return path.read_bytes().decode(errors="replace").replace("\0", "").encode()


def main():
    parser = argparse.ArgumentParser(description=__doc__.split("\n", maxsplit=1)[0])
    parser.add_argument("program")
    parser.add_argument("folders", nargs="+")
    parser.add_argument("--count", type=int, default=1000)
    parser.add_argument("--seed", type=int, default=1)
    parser.add_argument("--show", action="store_true")
    parser.add_argument("--tests", action="store_true")
    parser.add_argument("--ammonia", action="store_true")
    given = parser.parse_args()
    program = str(pathlib.Path(given.program).resolve())
    if given.tests:
        texts = list(tests_of(given.folders))
    elif given.ammonia:
        texts = list(fragments_of(given.folders))
    else:
        paths = chosen(files_of(given.folders), given.count, random.Random(given.seed))
        texts = ((path, text_of(path)) for path in paths)
    found, bad = collections.Counter(), 0
    for path, text in texts:
        answer = clean.cleaned(program, [text])[0]
        step = clean.compare(clean.cut(clean.body_of(text)), clean.cut(clean.body_of(answer)))
        found[step] += 1
        fault = clean.wrong(answer)
        if fault:
            bad += 1
            print(f"clean: {path}: {fault[:200]}")
        if given.show and step in ("texts", "other"):
            print(f"{step}: {path}" + (f" {text!r}\n  {answer!r}" if given.tests or given.ammonia else ""))
    print(f"clean: {sum(found.values())} texts: " + ", ".join(
        f"{step} {found[step]}" for step in ("equal", *clean.STEPS, "other") if found[step]))
    print(f"clean: {bad} unsafe")
    sys.exit(bad > 0)


if __name__ == "__main__":
    main()
