#!/usr/bin/env python3
"""Measures in one run, and writes the tables of docs/use/SPEED.md and docs/maintain/PERF.md.

    bench/measure/tables.py [--write] [--jobs TITLE=PROGRAM]... [--start CHECKOUT] [NAME..]

It prints the tables, that of renderers after all that clients/speed prints, and with --write writes
each into the page that has a line `<!-- NAME: bench/measure/tables.py -->`, after that line; with
names it makes only these. It requires valgrind, `mdevents` and `md_bench` built in their folders,
clients/build for the events of real Markdown, and what clients/speed requires; for what is beside
the original BIVDRAZO_ORIGINAL, as original.py says. --jobs names the builds of md_bench that the
table of jobs compares, by default this checkout's alone; from the second on each has its ratio to
the first. Times are minimums of some runs: let nothing else run. All of it takes some 20 minutes.

The table `start` isn't made unless it is named: `bench/measure/tables.py --write start` builds the
benchmark in this checkout and in one of the commit that docs/PERF.md names, which proves both if
nothing is kept of them, and times both alternately (bench/run). --start names a checkout in which that
was done before.
"""

import argparse
import concurrent.futures
import datetime
import os
import pathlib
import re
import subprocess
import sys
import tempfile

ROOT = pathlib.Path(__file__).resolve().parents[2]
PAGES = (ROOT / "docs/use/SPEED.md", ROOT / "docs/maintain/PERF.md")
MEASURE = ROOT / "bench/measure"
PROGRAM = ROOT / "crates/mdevents/out/mdevents"
BENCHMARK = ROOT / "crates/md_bench/out/md_bench"
ORIGINAL = os.environ.get("BIVDRAZO_ORIGINAL", "")
MARK = "<!-- {}: bench/measure/tables.py -->"
TARGETS = {"check, compile, write": "1.0", "of these the check": "120 instructions",
           "reading the script": "0.5", "the whole program": "0.6",
           "check, compile, write, ms": "1.0",
           "memory beyond script and text, bytes an event": "80 bytes"}
RENDERERS = {"bivdrazo (Rust)": "Bivdrazo (Rust)"}
# The documents of each job of the benchmark in one round.
ROUND = {"comments": 1000, "pages": 32, "letters": 32, "articles": 6, "scripts": 4, "awkward": 3000}


def printed(*words, **more):
    """The lines that a command prints."""
    return subprocess.run([str(word) for word in words], check=True, stdout=subprocess.PIPE,
                          text=True, **more).stdout.split("\n")


def cells_of(lines):
    """The cells of the rows of tables among some lines, without those that draw lines."""
    return [[cell.strip() for cell in line.strip("|").split("|")]
            for line in lines if line.startswith("|") and not re.match(r"\|[-:| ]+$", line)]


def table(head, rows):
    """The lines of a table: the first column has words, the others numbers."""
    line = "|---|" + "--:|" * (len(head) - 1)
    return ["| " + " | ".join(head) + " |", line, *("| " + " | ".join(row) + " |" for row in rows)]


def renderers():
    """What renderers take per byte, and per megabyte, for documents and for comments."""
    lines = printed(ROOT / "clients/speed", "--bytes", 1_500_000, "--comments", 20_000)
    print("\n".join(lines))
    start = next(at for at, line in enumerate(lines) if line.startswith("Comments:"))
    sides = [{row[0]: row[1:4] for row in cells_of(part) if len(row) == 5}
             for part in (lines[:start], lines[start:])]
    head = ["renderer", *(f"{word}{what}" for word in ("documents", "comments")
                          for what in ("", ": ratio", ": s/MB"))]
    return table(head, [[RENDERERS.get(name, name), *row, *sides[1][name]]
                        for name, row in sides[0].items()
                        if name != "way" and not name.startswith("Python")])


def real():
    """What real.py prints: its first line, and the cells of its rows."""
    if not real.lines:
        real.lines = printed(sys.executable, MEASURE / "real.py", PROGRAM)
    return real.lines[0], cells_of(real.lines)


real.lines = []


def events():
    """What checking and printing take per event of real documents."""
    said, rows = real()
    return table([said, "instructions per event"],
                 [row for row in rows if len(row) == 2 and row[1]])


def nodes():
    """What checking and printing take per node of a kind."""
    rows = [row for row in real()[1] if len(row) == 3]
    return table(rows[0], rows[1:])


def original(*words):
    """The cells of the tables that original.py prints."""
    if not os.path.isfile(os.path.join(ORIGINAL, "compare.py")):
        sys.exit("tables: BIVDRAZO_ORIGINAL names no folder with the original")
    return cells_of(printed(sys.executable, MEASURE / "original.py", PROGRAM, *words))


def beside():
    """What the realistic script takes beside the original."""
    rows = original("--runs", 20, "--shapes", "none")
    return table(["", "the original", "ours", "ratio", "target"],
                 [[*row, TARGETS.get(row[0], "")] if "event" not in row[0] or "bytes" in row[0]
                  else [f"**{row[0]}**", "", "", "", ""] for row in rows])


def shapes():
    """The times of shapes beside the original, and how instructions grow."""
    rows = original("--runs", 9, "--shapes", "all", "--only-shapes")
    grown = dict(line.split()[::3] for line in printed(
        sys.executable, pathlib.Path(ORIGINAL, "compare.py"), PROGRAM, "--sizes", "", "--no-count",
        "--growth", 2500) if re.match(r"[\w-]+ +\d+ +\d+ +[\d.]+$", line))
    said = dict(re.findall(r"^\| `([\w-]+)`(.*?) \|", PAGES[0].read_text("utf-8"), re.MULTILINE))
    return table(["shape: what it has", "n", "the original, ms", "ours, ms", "ratio", "growth"],
                 [[f"`{row[0]}`{said.get(row[0], '')}", *row[1:], grown.get(row[0], "–")]
                  for row in rows[1:]])


def counted(program, job, rounds):
    """The instructions of some rounds of a job."""
    with open(ROOT / "bench/texts.txt", "rb") as texts:
        done = subprocess.run(["valgrind", "--tool=callgrind", "--callgrind-out-file=/dev/null",
                               program, job, "1", str(rounds * ROUND[job])], stdin=texts,
                              stdout=subprocess.DEVNULL, stderr=subprocess.PIPE, check=True)
    return int(re.search(rb"Collected\s*:\s*(\d+)", done.stderr)[1])


def of_round(program, job):
    """Million instructions of a round of a job: `awkward` makes all that it reads, and of the
    others the making of documents isn't counted.
    """
    once = counted(program, job, 1)
    return (once if job == "awkward" else counted(program, job, 2) - once) / 1e6


def jobs(builds):
    """What the jobs of the benchmark take in some builds."""
    with concurrent.futures.ThreadPoolExecutor(os.cpu_count()) as pool:
        asks = [(program, job) for job in ROUND for _, program in builds]
        found = dict(zip(asks, pool.map(lambda ask: of_round(*ask), asks)))
    head = ["job", builds[0][0]]
    for title, _ in builds[1:]:
        head += [title, "ratio"]
    rows = []
    for job in ROUND:
        first = found[builds[0][1], job]
        rows.append([job, f"{first:.1f}"])
        for _, program in builds[1:]:
            rows[-1] += [f"{found[program, job]:.1f}", f"{found[program, job] / first:.2f}"]
    return table(head, rows)


def built(checkout):
    """Builds the benchmark in a checkout, proved."""
    folder = pathlib.Path(checkout, "crates/md_bench")
    with open(folder / "stdin", "rb") as texts:
        subprocess.run(["rt", "run"], cwd=folder, stdin=texts, stdout=sys.stderr, check=True)


def make_start(checkout):
    """Makes a checkout of the commit that docs/PERF.md names, with the benchmark of this one."""
    commit = re.search(r"`([0-9a-f]{40})`", (ROOT / "docs/PERF.md").read_text("utf-8"))[1]
    subprocess.run(["git", "clone", "--quiet", ROOT, checkout], check=True)
    subprocess.run(["git", "-C", checkout, "checkout", "--quiet", commit], check=True)
    for folder in ("bench", "crates/md_bench"):
        subprocess.run(["rm", "-rf", f"{checkout}/{folder}"], check=True)
    archive = subprocess.run(["git", "-C", ROOT, "archive", "HEAD", "bench", "crates/md_bench"],
                             stdout=subprocess.PIPE, check=True).stdout
    subprocess.run(["tar", "xf", "-", "-C", checkout], input=archive, check=True)
    line = next(line for line in (ROOT / "crates.txt").read_text("utf-8").splitlines()
                if line.startswith("md_bench:"))
    with open(f"{checkout}/crates.txt", "a", encoding="utf-8") as crates:
        print(line, file=crates)
    built(checkout)


def start(checkout):
    """The seconds of the jobs at the start and now, by bench/run."""
    built(ROOT)
    with tempfile.TemporaryDirectory() as folder:
        if checkout is None:
            checkout = f"{folder}/start"
            make_start(checkout)
        rows = [line.split() for line in printed(ROOT / "bench/run", checkout, ROOT)[1:] if line]
    return table(["workload", "seconds at the start", "seconds now", "start over now"],
                 [[name, old, new, ratio] for name, old, new, _, ratio in rows])


def put(name, lines):
    """Writes a table into the page that has its mark."""
    mark = MARK.format(name)
    for page in PAGES:
        text = page.read_text("utf-8")
        if mark in text:
            before, _, after = text.partition(mark + "\n")
            rest = after.split("\n")
            rest = rest[next(at for at, line in enumerate(rest) if not line.startswith("|")):]
            page.write_text("\n".join([before + mark, *lines, *rest]), "utf-8")
            return
    print(f"No page has {mark}.")


def main():
    words = argparse.ArgumentParser(usage="see the head of this file")
    words.add_argument("--write", action="store_true")
    words.add_argument("--jobs", action="append", default=[])
    words.add_argument("--start")
    words.add_argument("names", nargs="*")
    given = words.parse_args()
    builds = [tuple(word.split("=", 1)) for word in given.jobs] or [("now", str(BENCHMARK))]
    makers = {"beside": beside, "shapes": shapes, "events": events, "nodes": nodes,
              "renderers": renderers, "jobs": lambda: jobs(builds)}
    all_names = list(makers)
    makers["start"] = lambda: start(given.start)
    for name in given.names or all_names:
        print(f"{name}, {datetime.datetime.now():%Y-%m-%d %H:%M}\n", flush=True)
        lines = makers[name]()
        print("\n".join(lines) + "\n", flush=True)
        if given.write:
            put(name, lines)


if __name__ == "__main__":
    main()
