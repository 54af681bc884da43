#!/usr/bin/env python3
"""Measures texts within limits, for events that give as much to read or to print as they can.

usage: bench/bounds.py ARCHIVE [--each]

ARCHIVE is crates/md_ffi/out/libmd_ffi.a, once clients/link has linked it. Each shape of
bench/measure/bounds.c is compiled by `bivdrazo_compile_within` in a process of its own, with some
1 kB to 1 MB of document and events, texts of at most 10 kB and 1 MB, and four times as much work as
input and text together may have: with as many nodes, up to that size, as give no more work. Prints
the maximum cost for a byte of input and limit, and with --each that of each call. Inputs of up to
100 kB have an address space of 64 MB. Ends with status 1 if a process dies or a text exceeds its
limit.
"""

import os
import resource
import subprocess
import sys
import tempfile

SHAPES = [
    "texts", "title", "code", "dropped-texts", "footnote-texts", "links", "label-images",
    "dropped-links",
    "footnote-links", "table", "footnote-table", "centred-table", "footnote-centred", "calls",
    "short-calls", "folded-calls", "dropped-folded-calls", "dropped-prefixes", "labels",
    "folded-labels", "images", "names",
]
SIZES = [1_000, 10_000, 100_000, 1_000_000]
LIMITS = [10_000, 1_000_000]
WORK = 4
EVENT = 16
TOO_MUCH = 11
STATUSES = {0: "a text", 7: "no memory", 10: "too long", 11: "too much"}
HELD = 64_000_000


def built(archive, folder):
    """The program, linked with an archive."""
    here = os.path.dirname(os.path.realpath(__file__))
    program = os.path.join(folder, "bounds")
    libraries = [archive, f"{here}/../clients/c/memory.c", "-lm"]
    command = [os.environ.get("CC", "cc"), "-O2", f"-I{here}/../clients/c", "-o", program,
               f"{here}/measure/bounds.c"]
    subprocess.run([*command, *libraries], check=True)
    return program


def asked(program, shape, length, nodes, text, held):
    """One call: its status, the text's length, its seconds, its memory in bytes,
    and the length of its input in bytes.
    """

    def limit():
        if held:
            resource.setrlimit(resource.RLIMIT_AS, (held, held))

    def call(work):
        words = [program, shape, str(length), str(nodes), str(text), str(work)]
        done = subprocess.run(words, capture_output=True, text=True, preexec_fn=limit, check=False)
        if done.returncode:
            sys.exit(f"{shape} of {length} bytes and {nodes} nodes: "
                     f"status {done.returncode} {done.stderr}")
        return done.stdout.split()

    given = length + EVENT * int(call(0)[5])
    answer = call(WORK * (given + text))
    return int(answer[0]), int(answer[1]), float(answer[2]), 1024 * (int(answer[4])
                                                                     - int(answer[3])), given


def most_nodes(program, shape, length, most, text, held):
    """The maximum number of nodes, at most so many, whose work doesn't exceed the limit."""
    low, high = 1, most
    while low < high:
        middle = (low + high + 1) // 2
        if asked(program, shape, length, middle, text, held)[0] == TOO_MUCH:
            high = middle - 1
        else:
            low = middle
    return low


def main():
    worst = {"time": (0, ""), "memory": (0, "")}
    calls = 0
    with tempfile.TemporaryDirectory() as folder:
        program = built(sys.argv[1], folder)
        for shape in SHAPES:
            for size in SIZES:
                for text in LIMITS:
                    held = HELD if size <= 100_000 else 0
                    length = size // 2
                    nodes = most_nodes(program, shape, length, length // (4 * EVENT), text, held)
                    status, printed, seconds, memory, given = asked(program, shape, length, nodes,
                                                                    text, held)
                    what = f"{shape} of {given:,} bytes, at most {text:,}"
                    calls += 1
                    if status not in STATUSES or printed > text:
                        sys.exit(f"{what}: status {status}, a text of {printed:,} bytes")
                    if "--each" in sys.argv:
                        print(f"{what}: {STATUSES[status]}, {printed:,} bytes, "
                              f"{seconds * 1000:.1f} ms, {memory / 1e6:.1f} MB", flush=True)
                    for name, cost in (("time", seconds * 1e9), ("memory", memory)):
                        worst[name] = max(worst[name], (cost / (given + text), what))
    print(f"bounds: {calls} calls within limits; most time: {worst['time'][0]:.0f} ns a byte of "
          f"input and limit ({worst['time'][1]})")
    print(f"most memory: {worst['memory'][0]:.1f} bytes a byte of input and limit "
          f"({worst['memory'][1]})")


main()
