#!/usr/bin/env python3
"""Times the library's call beside another program's compiler.

    clients/other-libraries/calls.py FOLDER ORIGINAL

FOLDER has event scripts NAME.script. ORIGINAL is a program for which
`ORIGINAL --bench CALLS < SCRIPT` prints `least_ns=` and the least time of a call. clients/build
makes the library first. Prints a table in Markdown: the scripts that set no option, joined as often
as a row says, with the least time of each call.
"""

import ctypes
import pathlib
import re
import subprocess
import sys
import time

sys.path.insert(0, str(pathlib.Path(__file__).resolve().parent.parent / "python"))

from bivdrazo import calls, numbers  # noqa: E402
from bivdrazo.library import LIBRARY, COptions  # noqa: E402


def moved(line, start):
    """An event's line, with its index increased."""
    return re.sub(rb" (\d+)", lambda match: b" %d" % (int(match[1]) + start), line)


def realistic(folder, times):
    """The scripts that set no option as one script: its event lines, each moved to its place,
    and its document.
    """
    lines, documents, start = [], [], 0
    for path in sorted(folder.glob("*.script")) * times:
        events, document = path.read_bytes().split(b"\n--\n", 1)
        if not events.startswith(b"!"):
            lines += [moved(line, start) for line in events.splitlines()]
            documents.append(document.removesuffix(b"\n") + b"\n")
            start += len(documents[-1])
    return lines, b"".join(documents)


def event_of(line):
    """The event of a script's line."""
    sign, name, other, index, columns = re.fullmatch(rb"([+-])(\D+)(\d*) (\d+)(?:\.(\d+))?",
                                                     line).groups(default=b"0")
    kind = calls.Kind.ENTER if sign == b"+" else calls.Kind.EXIT
    member = re.sub(r"(?<=[a-z])(?=[A-Z])", "_", name.decode()).upper()
    return calls.Event(kind, numbers.Name[member], int(index), int(columns), int(other or 0))


def call_time(lines, document, times):
    """The least time of the library's call over events, in nanoseconds, and its text."""
    events, length = calls.events_of(map(event_of, lines))
    options = COptions()  # all that is 0 and unset: the default options
    names = calls.references_of({"amp": "&", "lt": "<", "gt": ">", "quot": '"', "colon": ":"})
    room = 8 * length + 2 * len(document) + 64
    buffer = ctypes.create_string_buffer(room)
    least = None
    for _ in range(times):
        start = time.perf_counter_ns()
        answer = LIBRARY.bivdrazo_compile(events, length, document, len(document), options, names,
                                          5, buffer, room)
        spent = time.perf_counter_ns() - start
        least = spent if least is None else min(least, spent)
    if answer.status != 0:
        sys.exit(f"the library's call: status {answer.status}")
    return least, ctypes.string_at(buffer, answer.length)


def original_time(original, script, calls_):
    """The least time of the other compiler's call, in nanoseconds, and its text."""
    bench = subprocess.run([original, "--bench", str(calls_)], input=script, capture_output=True,
                           check=True)
    text = subprocess.run([original], input=script, capture_output=True, check=True).stdout
    return int(re.search(rb"least_ns=(\d+)", bench.stdout)[1]), text


def print_calls(folder, original):
    """Prints the table."""
    print("| times | events | bytes | bivdrazo_compile, µs | original, µs | ratio |")
    print("|--:|--:|--:|--:|--:|--:|")
    for times, calls_ in ((1, 5000), (10, 1000), (100, 150)):
        lines, document = realistic(folder, times)
        own, text = call_time(lines, document, calls_)
        other, other_text = original_time(original, b"\n".join(lines) + b"\n--\n" + document,
                                          calls_)
        note = "" if text == other_text else " the texts differ"
        sizes = f"{times} | {len(lines):,} | {len(document):,}"
        print(f"| {sizes} | {own / 1000:.0f} | {other / 1000:.0f} | {own / other:.2f} |{note}")


if __name__ == "__main__":
    print_calls(pathlib.Path(sys.argv[1]), sys.argv[2])
