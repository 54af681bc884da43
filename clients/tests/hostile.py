"""Renders each shape of Markdown that makes parsers slow or large with every client, and measures
time and memory.

    hostile.py OUT [--size BYTES] [--table]

OUT is the folder that clients/build wrote, with bivdrazo-tests in target/release and
markdown_file. The crate for Rust, C, Python and bivdrazo-render render each shape, of about a
megabyte, in a process each, within the default limits. All four must make the same text, within
SECONDS of processor time. The memory beyond input and text, with that of the program, must stay
within MEGABYTES, or within the limit in hostile.txt for that shape. All four must report too much
work for a shape if hostile.txt says so. Otherwise the status is 1. --table prints all measurements,
and those of pulldown-cmark's own renderer.
"""

import argparse
import concurrent.futures
import hashlib
import os
import pathlib
import subprocess
import sys
import tempfile
from typing import NamedTuple

HERE = pathlib.Path(__file__).resolve().parent
MEGA = 1 << 20
SECONDS = 5
MEGABYTES = 64
MOST_MEMORY = 4 << 30  # of address space: so that only the program runs out of memory

PYTHON = """
import sys
from bivdrazo import TooMuchWork, markdown_to_html
text = sys.stdin.buffer.read().decode("utf-8")
try:
    sys.stdout.write(markdown_to_html(text))
except TooMuchWork:
    sys.exit(6)
"""

# How each way ends where there is too much work; Rust's tells each error so.
TOO_MUCH = {"Rust": 2, "C": 37, "Python": 6, "bivdrazo-render": 6}
WORK = "too much work"


class Run(NamedTuple):
    """What a program took: its status, seconds of a processor, the most memory in
    bytes; and its text.
    """

    status: int
    seconds: float
    memory: int
    length: int
    digest: str


def ways(out):
    """The commands, by the names of the ways in."""
    return {
        "Rust": [out / "target" / "release" / "bivdrazo-tests", "render"],
        "C": [out / "markdown_file"],
        "Python": [sys.executable, "-X", "utf8", "-c", PYTHON],
        "bivdrazo-render": [out / "bivdrazo-render"],
    }


def environment():
    """What Python finds our module by."""
    return {**os.environ, "PYTHONPATH": str(HERE.parent / "python"), "PYTHONDONTWRITEBYTECODE": "1"}


def run(command, path):
    """Runs a command over a document, under limits."""
    limited = ["prlimit", f"--as={MOST_MEMORY}", f"--cpu={2 * SECONDS}", *command]
    with tempfile.TemporaryFile() as output, open(path, "rb") as document:
        process = subprocess.Popen(
            limited, stdin=document, stdout=output, stderr=subprocess.DEVNULL, env=environment()
        )
        _, status, used = os.wait4(process.pid, 0)
        process.returncode = os.waitstatus_to_exitcode(status)
        output.seek(0)
        digest = hashlib.sha256()
        while part := output.read(MEGA):
            digest.update(part)
        seconds = used.ru_utime + used.ru_stime
        return Run(process.returncode, seconds, 1024 * used.ru_maxrss, output.tell(),
                   digest.hexdigest())


def beyond(path, found):
    """The memory of a run beyond its input and its text, in megabytes."""
    return (found.memory - os.path.getsize(path) - found.length) / MEGA


def allowed():
    """How many megabytes a shape may take that takes more than the others, or that it is too much
    work, by its name.
    """
    lines = (HERE / "hostile.txt").read_text(encoding="utf-8").splitlines()
    return {name: most if most == WORK else int(most)
            for name, most in (line.rsplit(": ", 1) for line in lines if not line.startswith("#"))}


def faults(path, runs, most):
    """What is wrong with the runs of a shape."""
    first = next(iter(runs.values()))
    for name, found in runs.items():
        memory = beyond(path, found)
        if most == WORK:
            if found.status != TOO_MUCH[name] or found.length != 0:
                yield f"{name} ends with status {found.status}, but must report too much work"
        elif found.status != 0:
            yield f"{name} ends with status {found.status}"
        elif found.digest != first.digest:
            yield f"{name} makes another text"
        elif found.seconds > SECONDS or memory > most:
            yield f"{name} takes {found.seconds:.2f} seconds and {memory:.0f} megabytes"


def row(path, runs, plain):
    """A row of the table."""
    text = next(iter(runs.values())).length
    cells = " | ".join(f"{found.seconds:.2f} | {beyond(path, found):.0f}"
                       for found in runs.values())
    own = f"{plain.seconds:.2f} | {beyond(path, plain):.0f}" if plain.status == 0 else "– | –"
    return (f"| {path.stem} | {os.path.getsize(path) / MEGA:.2f} | {text / MEGA:.2f} "
            f"| {cells} | {own} |")


def measured(out, path, is_table):
    """The runs of a shape with every client, and for a table that of pulldown-cmark's own
    renderer.
    """
    runs = {name: run(command, path) for name, command in ways(out).items()}
    tests = out / "target" / "release" / "bivdrazo-tests"
    return path, runs, run([tests, "plain"], path) if is_table else None


def main():
    """Measures all shapes; returns the exit status."""
    parser = argparse.ArgumentParser()
    parser.add_argument("out", type=pathlib.Path)
    parser.add_argument("--size", default=str(MEGA))
    parser.add_argument("--table", action="store_true")
    arguments = parser.parse_args()
    out, is_table, more = arguments.out, arguments.table, allowed()
    wrong, slowest = 0, (0, "")
    with tempfile.TemporaryDirectory() as folder, \
            concurrent.futures.ThreadPoolExecutor(os.cpu_count()) as pool:
        subprocess.run([out / "target" / "release" / "bivdrazo-tests", "shapes", folder,
                        arguments.size], check=True)
        paths = sorted(pathlib.Path(folder).glob("*.md"))
        for path, runs, plain in pool.map(lambda path: measured(out, path, is_table), paths):
            if is_table:
                print(row(path, runs, plain), flush=True)
            for fault in faults(path, runs, more.get(path.stem, MEGABYTES)):
                wrong += 1
                print(f"{path.stem}: {fault}")
            slowest = max(slowest, (max(found.seconds for found in runs.values()), path.stem))
    wrong += len(more.keys() - {path.stem for path in paths})
    seconds, shape = slowest
    print(f"hostile: {len(paths)} shapes by {len(runs)} ways, of which "
          f"{list(more.values()).count(WORK)} are too much work, {wrong} faults, "
          f"{seconds:.2f} seconds at most ({shape})")
    return 1 if wrong else 0


if __name__ == "__main__":
    sys.exit(main())
