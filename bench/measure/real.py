#!/usr/bin/env python3
"""Counts what the events of real Markdown cost, and what each kind of node costs.

    bench/measure/real.py PROGRAM [--parser PARSER] [--bytes BYTES] [FOLDER..]

PROGRAM is the built `mdevents`; PARSER writes the events of a Markdown file as a script
(`bivdrazo-render-cmark --events`, by default that of clients/out). The documents are those of
clients/speed: the files NAME.md below the folders (by default /usr/share/doc and
/usr/share/cargo/registry), up to so many bytes (by default 400,000). valgrind counts instructions,
which are steady on a busy machine. The first table has the instructions per event of checking and
of printing, for all documents together. The second has the instructions per node of a kind, with
its children: the difference between twice as many of them and as many, in one document.
"""

import argparse
import importlib.machinery
import importlib.util
import os
import pathlib
import re
import subprocess
import sys
import tempfile

sys.dont_write_bytecode = True
import timed_parts as parts  # noqa: E402  (without bytecode in this folder)

ROOT = pathlib.Path(__file__).resolve().parents[2]
CHECK = "md_tree::grammar::read_events"
PRINT = "md_html::running::run_events"
COUNT = 400


def paragraph(script, inside):
    with script.node("Paragraph"):
        inside(script)


# Each kind of node, what makes one of them, and the node that they stand in, if any.
KINDS = (
    ("a text of six bytes", lambda script: script.leaf("Data", "abcdef"), "Paragraph"),
    ("a line ending in a paragraph", parts.line, "Paragraph"),
    ("emphasis", lambda script: parts.span(script, "Emphasis", "*", "abcdef"), "Paragraph"),
    ("code in a text", lambda script: parts.code(script, "abcdef"), "Paragraph"),
    ("a link with a resource", lambda script: parts.link(script, "abcdef", "http://a.b"),
     "Paragraph"),
    ("a paragraph of a text", lambda script: paragraph(script, lambda s: s.leaf("Data", "abcdef")),
     None),
    ("a heading", lambda script: parts.heading(script, "abcdef"), None),
    ("fenced code of a line", lambda script: parts.fenced_code(script, ["abcdef"]), None),
    ("an item with a paragraph", lambda script: parts.item(script, "abcdef"), "ListUnordered"),
    ("a table of two cells", lambda script: parts.table(script, 1, [["abcdef"]]), None),
    ("a definition", lambda script: parts.definition(script, "abcdef", "http://a.b"), None),
)


def counts(program, script):
    """The instructions of a run on a script, in the check and in the printer."""
    with tempfile.TemporaryDirectory(prefix="md-real-") as folder:
        path = f"{folder}/callgrind"
        subprocess.run(["valgrind", "--tool=callgrind", f"--callgrind-out-file={path}", program],
                       input=script, stdout=subprocess.DEVNULL, stderr=subprocess.DEVNULL,
                       check=True)
        listed = subprocess.run(["callgrind_annotate", "--inclusive=yes", "--threshold=100", path],
                                stdout=subprocess.PIPE, stderr=subprocess.DEVNULL, check=True,
                                text=True).stdout
    found = []
    for function in (CHECK, PRINT):
        line = re.search(r"^\s*([\d,]+) .*:" + re.escape(function) + r"(?: |$)", listed,
                         re.MULTILINE)
        found.append(int(line[1].replace(",", "")) if line else 0)
    return found


def documents(folders, most):
    """The documents that clients/speed measures, up to so many bytes."""
    loader = importlib.machinery.SourceFileLoader("speed", str(ROOT / "clients/speed"))
    speed = importlib.util.module_from_spec(importlib.util.spec_from_loader("speed", loader))
    loader.exec_module(speed)
    return speed.real_documents(folders, most)


def script_of(parser, document):
    """The events of a document, as a script."""
    with tempfile.NamedTemporaryFile(suffix=".md") as file:
        file.write(document)
        file.flush()
        return subprocess.run([parser, "--events", file.name], stdout=subprocess.PIPE,
                              check=True).stdout


def print_real(program, parser, folders, most):
    """The table of real documents."""
    events = checked = printed = size = 0
    found = documents(folders, most)
    for document in found:
        script = script_of(parser, document)
        check, shown = counts(program, script)
        events += len(re.findall(rb"^[+-]", script.partition(b"\n--\n")[0], re.MULTILINE))
        checked, printed, size = checked + check, printed + shown, size + len(document)
    print(f"{len(found)} documents, {size:,} bytes, {events:,} events\n")
    print("| instructions per event | |\n|---|--:|")
    for name, count in (("check", checked), ("print", printed), ("both", checked + printed)):
        print(f"| {name} | {count / events:.0f} |")


def repeated(make, around, count):
    """The script of a document with so many nodes of a kind."""
    with tempfile.TemporaryFile("w+", encoding="ascii") as file:
        script = parts.Script(file)
        if around:
            with script.node(around):
                for _ in range(count):
                    make(script)
        else:
            for _ in range(count):
                make(script)
                parts.line(script)
        script.end()
        file.seek(0)
        return file.read().encode("ascii")


def print_nodes(program):
    """The table of nodes."""
    print("\n| instructions per node, with its children | check | print |\n|---|--:|--:|")
    for name, make, around in KINDS:
        once, twice = (counts(program, repeated(make, around, count))
                       for count in (COUNT, 2 * COUNT))
        check, shown = ((after - before) / COUNT for before, after in zip(once, twice))
        print(f"| {name} | {check:,.0f} | {shown:,.0f} |", flush=True)


def main():
    words = argparse.ArgumentParser(description=__doc__.split("\n", 1)[0])
    words.add_argument("program")
    words.add_argument("--parser", default=str(ROOT / "clients/out/bivdrazo-render-cmark"))
    words.add_argument("--bytes", type=int, default=400_000)
    words.add_argument("folders", nargs="*",
                       default=["/usr/share/doc", "/usr/share/cargo/registry"])
    given = words.parse_args()
    program = os.path.abspath(given.program)
    print_real(program, given.parser, given.folders, given.bytes)
    print_nodes(program)


if __name__ == "__main__":
    main()
