#!/usr/bin/env python3
"""Compares the output of two builds of a program for random scripts: valid ones, broken ones, and
some with invalid bytes.

    bench/alike.py OLD NEW [COUNT [SEED]]

OLD and NEW are programs that read a script, as crates/mdevents/out/mdevents. The scripts are those
of crates/md_cases (once bench/cases.py --write has written them), one or two of them joined, with
some random changes. It prints how many of each status there were, and stops with status 1 at the
first script for which outputs, messages or statuses differ, which it then prints.
"""

import collections
import os
import pathlib
import random
import re
import subprocess
import sys
from concurrent.futures import ThreadPoolExecutor

CASES = pathlib.Path(__file__).parents[1] / "crates" / "md_cases" / "stdin"
OPTIONS = ["allow_dangerous_html", "allow_dangerous_protocol", "gfm_tagfilter", "allow_any_img_src",
           "gfm_task_list_item_checkable"]
INSERTED = [b"\xff", b"\x80", b"\xe2\x82", b"\xf0\x9f\xa6\x80", "Ж".encode(), b"\t", b"\n", b"&",
            b"%41", b"<script>", b"\0", b" "]


def cases():
    """The scripts of the cases, each as its lines of events and settings and its document."""
    for case in re.split(rb"^%%%% .*\n", CASES.read_bytes(), flags=re.MULTILINE)[1:]:
        head, found, document = case.partition(b"\n--\n")
        if found and len(case) < 4_000:
            yield ([line for line in head.split(b"\n") if line[:1] not in (b"?", b"=")],
                   document[:-1])


def moved(line, by):
    """A line with its index increased by so much."""
    return re.sub(rb" (\d+)", lambda found: b" %d" % max(0, int(found.group(1)) + by), line)


def joined(chance, first, second):
    """Two scripts joined, with or without a line ending between them."""
    (lines, document), (others, more) = first, second
    ending = [b"+LineEnding %d" % len(document),
              b"-LineEnding %d" % (len(document) + 1)] if chance.random() < 0.8 else []
    after = len(document) + (1 if ending else 0)
    return lines + ending + [moved(line, after) for line in others], document + (b"\n" if ending
                                                                                 else b"") + more


def changed_line(chance, lines):
    """The lines with a change in one place."""
    lines, at = list(lines), chance.randrange(len(lines))
    kind = chance.randrange(7)
    if kind == 0:
        del lines[at]
    elif kind == 1:
        lines.insert(at, chance.choice(lines))
    elif kind == 2:
        lines[at] = moved(lines[at], chance.choice((-2, -1, 1, 2, 9)))
    elif kind == 3:
        lines[at] += b".%d" % chance.randrange(6)
    elif kind == 4:
        other = chance.randrange(len(lines))
        lines[at], lines[other] = lines[other], lines[at]
    elif kind == 5:
        lines[at] = lines[at].replace(chance.choice((b"e", b"+", b" ", b"T")),
                                      chance.choice((b"-", b"  ", b"E", b"")), 1)
    else:
        lines.insert(0, b"!" + chance.choice(OPTIONS).encode())
    return lines


def scripts(count, seed):
    """So many random scripts."""
    chance, known = random.Random(seed), list(cases())
    for _ in range(count):
        lines, document = chance.choice(known)
        if chance.random() < 0.4:
            lines, document = joined(chance, (lines, document), chance.choice(known))
        for _ in range(chance.choice((0, 0, 1, 1, 2, 5)) if lines else 0):
            lines = changed_line(chance, lines) or [b""]
        for _ in range(chance.choice((0, 0, 0, 1, 2, 20))):
            at = chance.randrange(len(document) + 1)
            put, taken = chance.choice(INSERTED), chance.choice((0, 1, 1))
            document = document[:at] + put * chance.choice((1, 1, 1, 30)) + document[at + taken
                                                                                     * len(put):]
        yield b"\n".join([*lines, b"--", document])


def answers(programs, script):
    """The result of each program: its status, its output and its messages."""
    done = [subprocess.run([program], input=script, capture_output=True) for program in programs]
    return script, [(one.returncode, one.stdout, one.stderr) for one in done]


def main():
    """Compares the results."""
    if len(sys.argv) not in (3, 4, 5):
        sys.exit("usage: bench/alike.py OLD NEW [COUNT [SEED]]")
    programs = [os.path.abspath(word) for word in sys.argv[1:3]]
    count = int(sys.argv[3]) if len(sys.argv) > 3 else 50_000
    seed = int(sys.argv[4]) if len(sys.argv) > 4 else 1
    statuses = collections.Counter()
    with ThreadPoolExecutor(os.cpu_count()) as pool:
        for script, (old, new) in pool.map(lambda given: answers(programs, given),
                                           scripts(count, seed)):
            statuses[old[0]] += 1
            if old != new:
                sys.stdout.buffer.write(script)
                sys.exit(f"\n{old}\n{new}")
    print(f"{count:,} scripts, equal; of each status: {dict(sorted(statuses.items()))}")


if __name__ == "__main__":
    main()
