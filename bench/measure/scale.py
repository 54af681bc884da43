#!/usr/bin/env python3
"""Runs `mdevents` on a million nodes, nested and side by side, and prints a Markdown table.

    python3 bench/measure/scale.py PROGRAM [N]

PROGRAM is the built `mdevents`, and N the number of nodes, if not 1,000,000. There is a script for
each name that can contain itself, so many levels deep, and one for each that a document can
contain, so many times. All their nodes have the same few bytes. Each text is compared with one that
is built here. It fails, with status 1, if the texts differ, or if there is none. Memory is the
program's peak, as the system counts it.
"""

import multiprocessing
import os
import subprocess
import sys
import tempfile
import time

sys.dont_write_bytecode = True
from scaled_shapes import SHAPES  # noqa: E402  (without bytecode in this folder)


def write(path, place, n):
    """Writes the script of the shape at an index; returns its number of events."""
    shape = SHAPES[place][1]
    with open(path, "w", encoding="utf-8") as file:
        for part, times in ((shape.opening, n), (shape.middle, 1), (shape.closing, n),
                            (shape.after, 1)):
            file.write(part * times)
        file.write(f"--\n{shape.document}")
    ends = shape.opening.count("\n") + shape.closing.count("\n")
    return n * ends + shape.middle.count("\n") + shape.after.count("\n")


def is_right(path, place, n):
    """Whether the text is the expected one of the shape at an index."""
    with open(path, "rb") as file:
        return file.read() == SHAPES[place][1].text(n).encode()


def apart(function, *arguments):
    """Calls in a process of its own, since this one's memory would count as the minimum of the
    program's memory.
    """
    with multiprocessing.Pool(1) as pool:
        return pool.apply(function, arguments)


def run(program, source, target):
    """The seconds, the status and the peak memory, in MiB, of a run."""
    with open(source, "rb") as stdin, open(target, "wb") as stdout:
        begun = time.perf_counter()
        process = subprocess.Popen([program], stdin=stdin, stdout=stdout)
        _, status, usage = os.wait4(process.pid, 0)
        process.returncode = os.waitstatus_to_exitcode(status)
    return time.perf_counter() - begun, process.returncode, usage.ru_maxrss / 1024


def main():
    program, *sizes = sys.argv[1:]
    n = int(sizes[0]) if sizes else 1_000_000
    failures = 0
    print(f"{n:,} of each, {time.strftime('%Y-%m-%d %H:%M')}, load {os.getloadavg()[0]:.1f}\n")
    print("| name | | events | HTML, kB | seconds | memory, MiB | |")
    print("|---|---|---|---|---|---|---|")
    with tempfile.TemporaryDirectory() as folder:
        source, target = os.path.join(folder, "script"), os.path.join(folder, "html")
        for place, (way, shape) in enumerate(SHAPES):
            events = apart(write, source, place, n)
            seconds, status, memory = run(program, source, target)
            size = os.path.getsize(target)
            is_fine = status == 0 and apart(is_right, target, place, n)
            failures += not is_fine
            verdict = "as expected" if is_fine else f"status {status}, another text"
            print(
                f"| `{shape.name}` | {way} | {events:,} | {size / 1000:,.1f} "
                f"| {seconds:.2f} | {memory:,.0f} | {verdict} |",
                flush=True,
            )
    print(f"\n{len(SHAPES)} shapes, {failures} with another text; {time.strftime('%H:%M')}")
    sys.exit(1 if failures else 0)


if __name__ == "__main__":
    main()
