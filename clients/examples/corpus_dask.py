#!/usr/bin/env python3
"""Renders a folder of very many small comments with two workers, and doesn't stop for a failure.

    corpus_dask.py [--together FILES] FOLDER SITE REPORT

Each file `NAME.md` of FOLDER becomes `NAME.html` in SITE. A page is written to a new file that is
then renamed, so no page is ever written by half. A page that is newer than its file stays, so a
second run renders only what is missing or changed.

SITE is for these pages alone: a page `NAME.html` is removed if FOLDER has no `NAME.md` any more, or
if that fails now, so what was deleted or is refused isn't shown by its old page. If FOLDER can't be
listed, nothing is removed, and the exit status is 2.

Standard error shows the progress. REPORT has a line in JSON for each file that fails,
`{"file": "NAME.md", "cause": "..."}`, and after each task a line with the counts so far,
`{"rendered": 2990, "unchanged": 0, "removed": 1, "failed": 10, "left": 7000}`. It is written as the
run goes on: if the program is killed, REPORT says what was done, and another run does the rest.

Otherwise the exit status is 0 if no file failed, 1 if one did. Requires Debian's python3-dask and
python3-distributed.
"""

import argparse
import json
import os
import pathlib
import signal
import stat
import sys
import tempfile
import time

import dask.bag
from distributed import Client, LocalCluster, as_completed

from bivdrazo import TooLong, markdown_to_html

MAX_INPUT = 10_000
MAX_OUTPUT = 100_000
MAX_WORK = 50_000
TOGETHER = 1000  # the number of files in a task
WORKERS = 2
PAUSE = 1  # the least number of seconds between two lines of progress


def read(source):
    """The text of a file; reads at most one byte more than the limit."""
    if not stat.S_ISREG(os.stat(source).st_mode):
        raise OSError("not a regular file")
    with open(source, "rb") as file:
        document = file.read(MAX_INPUT + 1)
    if len(document) > MAX_INPUT:
        raise TooLong("input", MAX_INPUT)
    return document.decode("utf-8")


def write(target, text):
    """Writes a new file in the same folder and renames it. A worker writes one at a time."""
    beside = target.with_name(f"{os.getpid()}.part")
    try:
        beside.write_text(text, encoding="utf-8", newline="")
        beside.replace(target)
    finally:
        beside.unlink(missing_ok=True)


def cause_of(error):
    """The text of an error in the report."""
    if isinstance(error, OSError) and error.strerror:
        return error.strerror
    return str(error) or type(error).__name__


def page_of(name, site):
    """The path of a file's page."""
    return site / f"{name[:-3]}.html"


def is_done(name, folder, site):
    """Whether a page is newer than its file."""
    try:
        return os.stat(page_of(name, site)).st_mtime_ns > os.stat(folder / name).st_mtime_ns
    except OSError:
        return False


def render(name, folder, site):
    """Renders one file; returns None, or its line of the report if it fails."""
    try:
        text = read(folder / name)
        html = markdown_to_html(text, number_ids=True, max_input=MAX_INPUT, max_output=MAX_OUTPUT,
                                max_work=MAX_WORK)
        write(page_of(name, site), html)
    except Exception as error:  # with any error, the other files are rendered
        return without_page(name, site, cause_of(error))
    return None


def without_page(name, site, cause):
    """Removes the old page of a file that fails; returns the file's line of the report."""
    try:
        page_of(name, site).unlink(missing_ok=True)
    except OSError as error:
        cause += f"; its old page stays: {cause_of(error)}"
    return {"file": name, "cause": cause}


def render_all(names, folder, site):
    """Renders some files; returns the lines of the report."""
    lines = [render(name, folder, site) for name in names]
    return [line for line in lines if line is not None]


def results(client, names, folder, site, together):
    """For each task, as soon as it ends: its number of files, and its lines of the report. If the
    task's worker ended each time, each of its files has a line and no page.
    """
    bag = dask.bag.from_sequence(names, partition_size=together)
    tasks = client.compute(bag.map_partitions(render_all, folder, site).to_delayed())
    parts = {task.key: names[at * together : (at + 1) * together] for at, task in enumerate(tasks)}
    for task in as_completed(tasks):
        error = task.exception()
        part = parts[task.key]
        if error is None:
            yield len(part), task.result()
        else:
            cause = f"the worker: {cause_of(error)}"
            yield len(part), [without_page(name, site, cause) for name in part]
        task.release()


class Report:
    """The report, and the progress on standard error."""

    def __init__(self, lines, unchanged, removed, left):
        self.lines = lines
        self.counts = {"rendered": 0, "unchanged": unchanged, "removed": removed, "failed": 0,
                       "left": left}
        self.total = left
        self.shown = 0.0
        self.write([])

    def write(self, failures):
        """Writes the lines of failures, and one with the counts."""
        for line in [*failures, self.counts]:
            print(json.dumps(line), file=self.lines)
        self.lines.flush()

    def add(self, files, failures):
        """Adds the result of a task."""
        self.counts["left"] -= files
        self.counts["failed"] += len(failures)
        self.counts["rendered"] += files - len(failures)
        self.write(failures)
        if time.monotonic() - self.shown >= PAUSE or self.counts["left"] == 0:
            self.shown = time.monotonic()
            print(f"{self.total - self.counts['left']} of {self.total} files, "
                  f"{self.counts['failed']} failed", file=sys.stderr, flush=True)


def remove_others(names, site):
    """Removes the pages of files that aren't in the folder; returns their number."""
    kept = {page_of(name, site).name for name in names}
    others = [page for page in site.glob("*.html") if page.name not in kept and page.is_file()]
    for page in others:
        page.unlink()
    return len(others)


def render_folder(names, folder, site, report, together):
    """Renders the files of the folder; returns the report."""
    site.mkdir(parents=True, exist_ok=True)
    for part in site.glob("*.part"):  # left by a worker that was killed
        part.unlink()
    removed = remove_others(names, site)
    left = [name for name in names if not is_done(name, folder, site)]
    with open(report, "w", encoding="utf-8") as lines:
        made = Report(lines, len(names) - len(left), removed, len(left))
        if not left:
            return made
        with tempfile.TemporaryDirectory() as space:
            cluster = LocalCluster(n_workers=WORKERS, threads_per_worker=1, dashboard_address=None,
                                   local_directory=space)
            with cluster, Client(cluster) as client:
                for files, failures in results(client, left, folder.resolve(), site.resolve(),
                                               together):
                    made.add(files, failures)
    return made


def main():
    """Renders the folder; returns the exit status."""
    parser = argparse.ArgumentParser(description=__doc__.split("\n", 1)[0])
    parser.add_argument("folder", type=pathlib.Path)
    parser.add_argument("site", type=pathlib.Path)
    parser.add_argument("report", type=pathlib.Path)
    parser.add_argument("--together", type=int, default=TOGETHER, metavar="FILES",
                        help="the number of files in a task (default: %(default)s)")
    given = parser.parse_args()
    signal.signal(signal.SIGTERM, lambda *_: sys.exit(128 + signal.SIGTERM))
    try:
        names = sorted(name for name in os.listdir(given.folder) if name.endswith(".md"))
    except OSError as error:
        parser.error(f"{given.folder}: {cause_of(error)}")
    counts = render_folder(names, given.folder, given.site, given.report, given.together).counts
    print(f"{counts['rendered']} files rendered, {counts['unchanged']} unchanged, "
          f"{counts['removed']} removed, {counts['failed']} failed: {given.report}")
    return 1 if counts["failed"] else 0


if __name__ == "__main__":
    ended = main()
    sys.stdout.flush()
    # All is written; a run over a million files crashed after this line was reached.
    os._exit(ended)
