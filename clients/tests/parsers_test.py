#!/usr/bin/env python3
"""Compares bivdrazo-render with bivdrazo-render-cmark: on the examples of the GFM specification, of
which each that gives another text must be known by its number; and on mutated documents, of which
enough must give the same text. Neither parser may fail.

    parsers_test.py OUT    OUT has both programs
"""

import concurrent.futures
import os
import pathlib
import subprocess
import sys

import documents

KNOWN = {
    614: "an escaped character before an address",
    628: "a bare link of ftp, which isn't permitted",
}
MUTATED = 1000
LEAST_EQUAL = 800


def rendered(program, document):
    """The output of a program for a document."""
    return subprocess.run([program], input=document, capture_output=True, check=True).stdout


def same(programs, found):
    """For each document, whether both programs write the same."""
    with concurrent.futures.ThreadPoolExecutor(os.cpu_count()) as pool:
        texts = [list(pool.map(lambda each: rendered(program, each), found))
                 for program in programs]
    return [own == other for own, other in zip(*texts)]


def main(arguments):
    """Compares each document; returns the exit status."""
    out = pathlib.Path(arguments[0])
    programs = (out / "bivdrazo-render", out / "bivdrazo-render-cmark")
    examples = documents.examples()
    differ = {number for number, is_same in enumerate(same(programs, examples), 1) if not is_same}
    for number in sorted(differ ^ KNOWN.keys()):
        print(f"parsers: example {number}: {examples[number - 1]!r}")
    mutated = [each.decode("utf-8", "replace").encode("utf-8")
               for each in documents.mutated(MUTATED, 1)]
    equal = sum(same(programs, mutated))
    print(f"parsers: of {len(examples)} examples {len(examples) - len(differ)} give the same text "
          f"by both, of {MUTATED} mutated ones {equal}")
    return 0 if differ == KNOWN.keys() and equal >= LEAST_EQUAL else 1


if __name__ == "__main__":
    sys.exit(main(sys.argv[1:]))
