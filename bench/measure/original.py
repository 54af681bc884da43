#!/usr/bin/env python3
"""Measures `mdevents` beside the original, and prints the Markdown tables of docs/use/SPEED.md.

    python3 bench/measure/original.py PROGRAM [--picture FILE] [--runs R] [--shapes NAME,..|none]
        [--only-shapes]

PROGRAM is the built `mdevents`. The folder that BIVDRAZO_ORIGINAL names has `compare.py`, which
builds the original; without it this says so, and `bench/measure/timed.py` measures the program
alone. valgrind, if it is installed, counts instructions, which are steady on a busy machine. The
realistic script is that of the folder's examples, in sequence; `reader` is the same script with an
invalid line before its document, `compile` the rest. Times are the minimum of some runs, in ms; the
runs alternate between both scripts and both programs. The picture shows the times of the shapes,
and is drawn if matplotlib is installed.
"""

import argparse
import os
import re
import subprocess
import sys
import tempfile

ORIGINAL = os.environ.get("BIVDRAZO_ORIGINAL", "")
SIZES = (5000, 10000, 20000, 40000)
SLOW = 3.0  # seconds; after a longer run no greater size of that shape is run
CHECK = "md_tree::grammar::read_events"  # the function of the program that reads all events


def beside():
    """The module that builds the original and measures, or None if its folder isn't known."""
    if not os.path.isfile(os.path.join(ORIGINAL, "compare.py")):
        return None
    sys.path.insert(0, ORIGINAL)
    import compare

    return compare


def put(path, data):
    with open(path, "wb") as file:
        file.write(data)


# Runs a command on a file from a small process: the peak memory of a process includes that of the
# process that it was forked from.
USED = """
import os, sys
from subprocess import DEVNULL, Popen
with open(sys.argv[1], "rb") as file:
    process = Popen(sys.argv[2:], stdin=file, stdout=DEVNULL, stderr=DEVNULL)
used = os.wait4(process.pid, 0)[2]
print(used.ru_utime + used.ru_stime, used.ru_minflt, used.ru_maxrss * 1024)
"""


def used(command, path):
    """The seconds of a run, its page faults, and its peak memory in bytes."""
    words = [sys.executable, "-I", "-S", "-c", USED, path, *command]
    said = subprocess.run(words, stdout=subprocess.PIPE, check=True).stdout
    seconds, faults, memory = said.split()
    return float(seconds), int(faults), int(memory)


def least_used(commands, paths, runs):
    """For each path the minimum of each command, alternating: a busy period affects all alike."""
    best = {}
    for _ in range(runs):
        for path in paths:
            for at, command in enumerate(commands):
                now = used(command, path)
                best[path, at] = tuple(map(min, now, best.get((path, at), now)))
    return best


def row(*cells):
    print("| " + " | ".join(cells) + " |")


def ratio(ours, theirs):
    if not theirs:
        return "–"
    return f"{ours / theirs:.{2 if ours / theirs >= 0.01 else 3}f}"


def whole_and_reader(measure, path, lines, document, compare):
    """The result of `measure` for a script, and for the same with an invalid line before its
    document.
    """
    put(path, compare.written(lines, document))
    whole = measure(path)
    put(path, compare.written(lines + [b"unreadable"], document))
    return whole, measure(path)


def of_check(command, path):
    """The instructions of the check, with what it calls."""
    words = ["valgrind", "--tool=callgrind", "--callgrind-out-file=/dev/null",
             f"--toggle-collect={CHECK}", *command]
    with open(path, "rb") as file:
        ran = subprocess.run(words, stdin=file, stdout=subprocess.DEVNULL, stderr=subprocess.PIPE)
    return int(re.search(rb"Collected\s*:\s*(\d+)", ran.stderr).group(1))


def instructions_table(compare, commands, path):
    lines, document = compare.realistic(10)

    def each(path):
        counts = [compare.instructions(command, path) for command in commands]
        return None if None in counts else [count / len(lines) for count in counts]

    whole, reader = whole_and_reader(each, path, lines, document, compare)
    if whole is None or reader is None:
        print("Instructions are not counted: valgrind is missing.\n")
        return
    rest = [whole[at] - reader[at] for at in (0, 1)]
    row(f"instructions an event, {len(lines):,} events", "the original", "ours", "beside it")
    row("---", "---", "---", "---")
    put(path, compare.written(lines, document))
    check = of_check(commands[0], path) / len(lines), None
    for name, (ours, theirs) in (("check, compile, write", rest), ("of these the check", check),
                                 ("reading the script", reader), ("the whole program", whole)):
        row(name, f"{theirs:.0f}" if theirs else "–", f"{ours:.0f}", ratio(ours, theirs))
    print()


def times_table(compare, commands, path, runs):
    lines, document = compare.realistic(100)
    unread = path + "-unreadable"
    put(path, compare.written(lines, document))
    put(unread, compare.written(lines + [b"unreadable"], document))
    best = least_used(commands, (path, unread), runs)
    whole, reader = ([best[at_path, at] for at in (0, 1)] for at_path in (path, unread))
    text = [len(compare.text_of(command, path)) for command in commands]
    size = os.path.getsize(path)
    row(f"{len(lines):,} events", "the original", "ours", "beside it")
    row("---", "---", "---", "---")
    rest = [whole[at][0] - reader[at][0] for at in (0, 1)]
    row("check, compile, write, ms", f"{rest[1] * 1000:.1f}", f"{rest[0] * 1000:.1f}", ratio(*rest))
    faults = [whole[at][1] - reader[at][1] for at in (0, 1)]
    row("of these, page faults", f"{faults[1]:,}", f"{faults[0]:,}", ratio(*faults))
    both = ratio(whole[0][0], whole[1][0])
    row("the whole program, ms", f"{whole[1][0] * 1000:.1f}", f"{whole[0][0] * 1000:.1f}", both)
    memory = [(whole[at][2] - size - text[at]) / len(lines) for at in (0, 1)]
    row("memory beyond script and text, bytes an event", f"{memory[1]:.0f}", f"{memory[0]:.0f}",
        ratio(*memory))
    print()


def shape_times(compare, commands, path, shape, runs):
    """The minimum times of a shape at each size, ours and the original's, None if a run was
    killed.
    """
    times = []
    for size in SIZES:
        put(path, compare.shapes.script(shape, size))
        best = [found and found[0] for found in compare.least(commands, path, runs)]
        times.append((size, *best))
        if any(time is None or time > SLOW for time in best):
            break
    return times


def milliseconds(time):
    return "killed" if time is None else f"{time * 1000:,.1f}"


def shapes_table(compare, commands, path, names, runs):
    row("shape", "n", "the original, ms", "ours, ms", "beside it")
    row("---", "---", "---", "---", "---")
    found = {}
    for name in names:
        found[name] = shape_times(compare, commands, path, name, runs)
        size, ours, theirs = found[name][-1]
        known = ours is not None and theirs
        row(name, f"{size:,}", milliseconds(theirs), milliseconds(ours), ratio(ours, theirs)
            if known else "–")
        sys.stdout.flush()
    print()
    return found


def draw(found, file):
    """Draws the times of each shape over its sizes, ours and the original's."""
    try:
        import matplotlib

        matplotlib.use("Agg")
        from matplotlib import pyplot
    except ImportError:
        print("There is no picture: matplotlib is missing (Debian: python3-matplotlib).")
        return
    columns = 4
    rows = -(-len(found) // columns)
    figure, axes = pyplot.subplots(rows, columns, figsize=(3.2 * columns, 2.4 * rows),
                                   squeeze=False)
    for axis in axes.flat[len(found):]:
        axis.axis("off")
    for axis, (name, times) in zip(axes.flat, found.items()):
        for at, label, colour in ((2, "the original", "#b0b0b0"), (1, "ours", "#1f5fa8")):
            known = [(time[0], time[at] * 1000) for time in times if time[at] is not None]
            axis.plot([size for size, _ in known], [time for _, time in known], "o-", color=colour,
                      label=label, markersize=3)
        axis.set_title(name, fontsize=8)
        axis.set_ylim(bottom=0)
        axis.tick_params(labelsize=6)
    axes.flat[0].legend(fontsize=6)
    figure.supxlabel("n", fontsize=8)
    figure.supylabel("ms", fontsize=8)
    figure.tight_layout()
    figure.savefig(file, dpi=110)


def main():
    parser = argparse.ArgumentParser(usage="see the head of this file")
    parser.add_argument("program")
    parser.add_argument("--picture")
    parser.add_argument("--runs", type=int, default=5)
    parser.add_argument("--shapes", default="all")
    parser.add_argument("--only-shapes", action="store_true")
    given = parser.parse_args()
    compare = beside()
    if compare is None:
        print("BIVDRAZO_ORIGINAL names no folder with the original, so there is nothing to compare "
              "with.")
        print("bench/measure/timed.py measures the program alone.")
        return 0
    commands = [[os.path.abspath(given.program)], [compare.original_path()]]
    names = ([] if given.shapes == "none" else list(compare.shapes.SHAPES) if given.shapes == "all"
             else given.shapes.split(","))
    with tempfile.TemporaryDirectory(prefix="md-beside-") as folder:
        path = os.path.join(folder, "script")
        if not given.only_shapes:
            instructions_table(compare, commands, path)
            times_table(compare, commands, path, given.runs)
        found = shapes_table(compare, commands, path, names, given.runs) if names else {}
    if found and given.picture:
        draw(found, given.picture)
    return 0


if __name__ == "__main__":
    sys.exit(main())
