#!/usr/bin/env python3
"""Times `mdevents` on large event scripts, and prints a Markdown table.

    python3 bench/measure/timed.py PROGRAM [WORD..]

PROGRAM is the built `mdevents`; words keep the shapes whose names have one of them. The scripts are
written into a temporary folder. Each is run three times; the one of the best wall time counts.
Growth is that of the processor time over the size before. Memory is the program's peak, as the
system counts it: never less than what this script itself takes, some 16 MiB.
"""

import multiprocessing
import os
import subprocess
import sys
import tempfile
import threading
import time

sys.dont_write_bytecode = True
from timed_parts import Script  # noqa: E402  (without bytecode in this folder)
from timed_shapes import SHAPES  # noqa: E402

RUNS = 3
LIMIT = 60.0  # seconds; a shape that takes longer is halved


class Result:
    """The cost of the best run, and how the program ended."""

    def __init__(self, wall, usage, status, error):
        self.wall = wall
        self.cpu = usage.ru_utime + usage.ru_stime
        self.memory = usage.ru_maxrss // 1024  # MiB, of kiB
        self.status = status
        self.error = error


def run(program, source, target):
    """One run, which is killed at the limit."""
    with open(source, "rb") as stdin, open(target, "wb") as stdout:
        begun = time.perf_counter()
        process = subprocess.Popen([program], stdin=stdin, stdout=stdout, stderr=subprocess.PIPE)
        timer = threading.Timer(LIMIT, process.kill)
        timer.start()
        _, status, usage = os.wait4(process.pid, 0)
        wall = time.perf_counter() - begun
        timer.cancel()
        process.returncode = os.waitstatus_to_exitcode(status)
        error = process.stderr.read().decode().strip()
        process.stderr.close()
    return Result(wall, usage, process.returncode, error)


def write(path, make, n):
    """Writes a script; its events, and the size of its document."""
    with open(path, "w", encoding="ascii") as file:
        script = Script(file)
        make(script, n)
        script.end()
    return script.events, script.index


def measure(program, folder, make, n):
    """The script's events, the sizes of the document and the HTML, and the best of the runs;
    None if it exceeds the limit.
    """
    source = os.path.join(folder, "script")
    target = os.path.join(folder, "html")
    # In a process of its own, since this one's memory would count as the minimum of the
    # program's memory.
    with multiprocessing.Pool(1) as pool:
        events, size = pool.apply(write, (source, make, n))
    results = []
    for _ in range(RUNS):
        results.append(run(program, source, target))
        if results[-1].wall >= LIMIT:
            return None
    best = min(results, key=lambda result: result.wall)
    return events, size, os.path.getsize(target), best


def measured(program, folder, make, sizes):
    """What is measured at each size, all halved until the largest stays within the limit."""
    last = measure(program, folder, make, sizes[-1])
    if last is None:
        return measured(program, folder, make, [size // 2 for size in sizes])
    return [(size, measure(program, folder, make, size))
            for size in sizes[:-1]] + [(sizes[-1], last)]


def print_shape(name, rows):
    before = None
    for size, (events, text, html, best) in rows:
        growth = f"{best.cpu / before:.1f}" if before else ""
        end = "" if best.status == 0 else f" (status {best.status}: {best.error})"
        print(
            f"| {name}{end} | {size:,} | {events:,} | {text / 1000:,.1f} | {html / 1000:,.1f} "
            f"| {best.wall:.3f} | {best.cpu:.3f} | {growth} | {best.memory:,} |",
            flush=True,
        )
        before = best.cpu


def load():
    return ", ".join(f"{value:.1f}" for value in os.getloadavg())


def main():
    program, *words = sys.argv[1:]
    print(f"{time.strftime('%Y-%m-%d %H:%M')}, {os.cpu_count()} processors, load {load()}\n")
    print("| shape | n | events | document, kB | HTML, kB | wall, s | processor, s | growth | "
          "memory, MiB |")
    print("|---|---|---|---|---|---|---|---|---|")
    with tempfile.TemporaryDirectory() as folder:
        for name, sizes, make in SHAPES:
            if not words or any(word in name for word in words):
                print_shape(name, measured(program, folder, make, sizes))
    print(f"\n{time.strftime('%H:%M')}, load {load()}")


if __name__ == "__main__":
    main()
