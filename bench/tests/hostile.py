#!/usr/bin/env python3
"""Tests hostile events; the tests judge with code of their own, not with the calls under test.

usage: bench/tests/hostile.py CASES MDEVENTS

CASES is crates/md_cases/out/md_cases, once `rt run < stdin` there has built it: it compiles many
scripts in a run, by `run`, `compile`, `compile_checked`, `compile_counted` (with two visits of each
event) and `compile_within`, and reports differences. MDEVENTS is crates/mdevents/out/mdevents,
which compiles some of the scripts too. The modules in bench/tests/hostile, and what each tests:

- few: each list of at most four of eight events, which has a text exactly if it has no fault
- shapes: documents of up to a hundred thousand levels or items, each with its exact text, and those
  of scaled_shapes, nested nodes at each power of two
- trees: trees of the grammar (grammar, growing) with all names, odd points, bytes that aren't UTF-8
  and repeated names of references: each has a text, which is read under safe options (reading)
- broken: such trees with one event removed, doubled, exchanged, renamed or moved: that the result
  is a possible one, and that the repaired ones have the same result as before

The seeds are fixed. Ends with status 1 if something is wrong, and names the list, or the seed.
"""

import collections
import concurrent.futures
import os
import pathlib
import sys

sys.dont_write_bytecode = True
HERE = pathlib.Path(__file__).resolve().parent
sys.path[:0] = [str(HERE / "hostile"), str(HERE.parent / "measure")]

import asking  # noqa: E402  (without bytecode in this folder)
import broken  # noqa: E402
import few  # noqa: E402
import reading  # noqa: E402
import shapes  # noqa: E402
import trees  # noqa: E402

Programs = collections.namedtuple("Programs", "cases mdevents")
SEEDS = {trees: 800, broken: 300}
# The number of trees for each process, and the number of processes at once, each in 0.3 GB.
SEEDS_OF_JOB, MOST_PROCESSES = 50, 4
SHOWN, SHOWN_LETTERS = 20, 500


def jobs():
    """The jobs, each a module and its argument, the longest first."""
    asked = [(shapes, name) for name in shapes.SHAPES]
    for module, seeds in SEEDS.items():
        asked += [(module, range(first, min(first + SEEDS_OF_JOB, seeds)))
                  for first in range(0, seeds, SEEDS_OF_JOB)]
    return asked + [(few, length) for length in range(few.GREATEST + 1)]


def ask(job):
    """The counts of a job, and its faults."""
    programs, place = job
    module, asked = jobs()[place]
    try:
        return module.ask(programs, asked)
    except asking.Wrong as wrong:
        return collections.Counter(), [f"{module.__name__}, {asked}: {wrong}"]


def main():
    """Runs each test."""
    if len(sys.argv) != 3:
        sys.exit("usage: bench/tests/hostile.py CASES MDEVENTS")
    programs = Programs(*map(os.path.abspath, sys.argv[1:]))
    counts, faults = collections.Counter(), reading.faults()
    with concurrent.futures.ProcessPoolExecutor(min(os.cpu_count(), MOST_PROCESSES)) as pool:
        places = range(len(jobs()))
        for counted, wrong in pool.map(ask, [(programs, place) for place in places]):
            counts += counted
            faults += wrong
    if counts[few.WITH_TEXT] != few.TEXTS:
        faults.append(f"{counts[few.WITH_TEXT]} lists of few events have a text")
    for fault in faults[:SHOWN]:
        print(f"hostile events: {fault[:SHOWN_LETTERS]}")
    told = ", ".join(f"{count:,} {what}" for what, count in counts.items())
    print(f"hostile events: {told}; {len(faults)} faults")
    sys.exit(1 if faults else 0)


if __name__ == "__main__":
    main()
