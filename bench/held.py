#!/usr/bin/env python3
"""Compiles scripts that would show leaked memory, and checks the peak memory of each.

usage: bench/held.py PROGRAM

PROGRAM is crates/mdevents/out/mdevents, once `rt run < stdin` there has built it. No clause says
that memory is freed. Each of the first three scripts prints or drops some hundreds of texts as long
as its document, few of them at once, and may take the memory of some sixty of them. The others have
a limit of their own, a few hundredths above the measured value: definitions use no more capacity
than their texts fill, the list of a document's texts is freed before its labels are looked up, and
the capacity of a script's events doesn't exceed that of growth by doubling, so that the script is
compiled in an address space of so many bytes. Ends with status 1 if one takes more.
"""

import os
import resource
import subprocess
import sys

LENGTH = 1_000_000
LONG = b"a" + b"b" * (LENGTH - 1)


def leaf(name, start, end):
    """The two events of a node without children."""
    return [f"+{name} {start}", f"-{name} {end}"]


def images(count):
    """Nested images, each with a reference whose text is the document."""
    label = ["+DefinitionLabelString 0", *leaf("Data", 0, 1), "-DefinitionLabelString 1"]
    events = ["+Definition 0", *label, "-Definition 1", "+Paragraph 0"]
    events += ["+Image 0", "+Label 0", "+LabelText 0"] * count + leaf("Data", 0, 1)
    reference = ["+ReferenceString 0", *leaf("Data", 0, LENGTH), "-ReferenceString 1"]
    events += ["-LabelText 1", "-Label 1", *reference, "-Image 1"] * count
    return [*events, "-Paragraph 1"]


def definitions(count):
    """Definitions with the document as label, and one byte as destination."""
    label = ["+DefinitionLabelString 0", *leaf("Data", 0, LENGTH), "-DefinitionLabelString 1"]
    destination = ["+DefinitionDestinationString 0", *leaf("Data", 0, 1),
                   "-DefinitionDestinationString 1"]
    return ["+Definition 0", *label, *destination, "-Definition 1"] * count


def footnotes(count):
    """Footnotes with the document in their labels, and one byte as text."""
    events = []
    for number in range(count):
        label = [*leaf("Data", 0, LENGTH), f"-GfmFootnoteDefinitionLabelString {number + 1}"]
        events += ["+GfmFootnoteDefinition 0", "+GfmFootnoteDefinitionPrefix 0",
                   "+GfmFootnoteDefinitionLabelString 0"]
        events += [*label, f"-GfmFootnoteDefinitionPrefix {number + 1}"]
        events += ["+Paragraph 0", *leaf("Data", 0, 1), "-Paragraph 1", "-GfmFootnoteDefinition 1"]
    return events


def kept_targets(count, size):
    """Definitions, each with a destination and a title of so many bytes."""
    label = ["+DefinitionLabelString 0", *leaf("Data", 0, 1), "-DefinitionLabelString 1"]
    events = []
    for name in ("DefinitionDestinationString", "DefinitionTitleString"):
        events += [f"+{name} 0", *leaf("Data", 0, size), f"-{name} {size}"]
    return ["+Definition 0", *label, *events, f"-Definition {size}"] * count


def labels(count, first, size):
    """Definitions with labels of some such size each, no two alike, that begin at an index."""
    events = []
    for last in range(first + size, first + size + count):
        label = [f"+DefinitionLabelString {first}", *leaf("Data", first, last),
                 f"-DefinitionLabelString {last}"]
        events += [f"+Definition {first}", *label, f"-Definition {last}"]
    return events


def data(count):
    """A paragraph of so many texts of a byte each."""
    return ["+Paragraph 0", *leaf("Data", 0, 1) * count, "-Paragraph 1"]


def spans(count):
    """A paragraph of so many emphases of a text of a byte each."""
    return ["+Paragraph 0", *(["+Emphasis 0", *leaf("Data", 0, 1), "-Emphasis 1"] * count),
            "-Paragraph 1"]


BAD = 2_000_000

# Each script: its name, its events, generated when it is run, its document, the limit on its
# memory, and its address space, if it has one.
SCRIPTS = [
    ("images", lambda: images(400), LONG, 64_000_000, None),
    ("definitions", lambda: definitions(200), LONG, 64_000_000, None),
    ("footnotes", lambda: footnotes(200), LONG, 64_000_000, None),
    ("definitions of 65 bytes", lambda: kept_targets(30_000, 65), b"a" * 65, 45_500_000, None),
    ("labels behind bad bytes", lambda: labels(100, BAD, 250_000), b"\xff" * BAD + b"a" * 500_000,
     57_000_000, None),
    ("events in 26,000 kB", lambda: data(66_000), b"ab", 64_000_000, 26_000 * 1024),
    ("events in 28,000 kB", lambda: data(66_000), b"ab", 64_000_000, 28_000 * 1024),
    # The check keeps a word for most events; with a record for each this takes 16,600 kB.
    ("spans in 13,600 kB", lambda: spans(40_000), b"ab", 64_000_000, 13_600 * 1024),
    # The longest comes last, since a program's peak begins with this script's own memory.
    ("definitions of 20 bytes", lambda: kept_targets(100_000, 20), b"a" * 20, 142_000_000, None),
]


def taken(program, events, document, space):
    """The status of a run with these events, and its peak memory in bytes."""
    script = "\n".join([*events, "--\n"]).encode("ascii") + document
    limit = None if space is None else lambda: resource.setrlimit(resource.RLIMIT_AS,
                                                                  (space, space))
    with subprocess.Popen([program], stdin=subprocess.PIPE, stdout=subprocess.DEVNULL,
                          preexec_fn=limit) as child:
        child.stdin.write(script)
        child.stdin.close()
        _, status, usage = os.wait4(child.pid, 0)
        child.returncode = os.waitstatus_to_exitcode(status)
    return child.returncode, usage.ru_maxrss * 1024


def main():
    """Checks each script."""
    if len(sys.argv) != 2:
        sys.exit("usage: bench/held.py PROGRAM")
    faults = []
    for name, events, document, most, space in SCRIPTS:
        status, bytes_taken = taken(os.path.abspath(sys.argv[1]), events(), document, space)
        print(f"held memory: {name}, {bytes_taken / 1e6:.1f} MB at most")
        if status != 0 or bytes_taken > most:
            faults.append(f"{name}: status {status}, {bytes_taken / 1e6:.1f} MB, "
                          f"where {most / 1e6:.1f} are enough")
    print("\n".join(faults) or "held memory: 0 faults")
    sys.exit(1 if faults else 0)


if __name__ == "__main__":
    main()
