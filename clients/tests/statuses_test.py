#!/usr/bin/env python3
"""Checks that each status in numbers.txt has its own text in C, and the same in Python.

    statuses_test.py OUT

Compiles a program in the folder OUT, with CC, that prints bivdrazo_markdown_status_text of each
number. Ends with status 1 if a status has no text.
"""

import os
import pathlib
import re
import subprocess
import sys

CLIENTS = pathlib.Path(__file__).resolve().parent.parent
sys.path.insert(0, str(CLIENTS / "python"))
sys.dont_write_bytecode = True

from bivdrazo.errors import TEXTS  # noqa: E402  (after the path of the module is set)

PROGRAM = """
#include "bivdrazo_markdown.h"
#include <stdio.h>
#include <stdlib.h>

int main(int count, char **numbers) {
    for (int at = 1; at < count; at++)
        puts(bivdrazo_markdown_status_text((uint32_t)atoi(numbers[at])));
}
"""


def texts_of(out, numbers):
    """What C says of each of these numbers."""
    program = out / "statuses"
    subprocess.run([*os.environ.get("CC", "cc").split(), "-std=c11", "-I", CLIENTS / "c", "-x", "c",
                    "-", "-o", program], input=PROGRAM, text=True, check=True)
    return subprocess.run([program, *map(str, numbers)], capture_output=True, text=True,
                          check=True).stdout.splitlines()


def main(arguments):
    """Compares the texts; returns the exit status."""
    listed = (CLIENTS / "numbers" / "numbers.txt").read_text()
    numbers = [int(number)
               for number in re.findall(r"(?m)^(?:markdown_)?status (\d+) ", listed)]
    texts = texts_of(pathlib.Path(arguments[0]), [*numbers, 999])
    unknown = texts.pop()
    wrong = [number for number, text in zip(numbers, texts)
             if text == unknown or text != TEXTS.get(number)]
    for number in wrong:
        print(f"statuses: {number}: C says {texts[numbers.index(number)]!r}, "
              f"Python {TEXTS.get(number)!r}")
    print("statuses: failed" if wrong else f"statuses: {len(numbers)} have words")
    return 1 if wrong else 0


if __name__ == "__main__":
    sys.exit(main(sys.argv[1:]))
