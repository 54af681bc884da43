#!/usr/bin/env python3
"""Refuses the requests for memory of the calls that md_cases makes, one in each run.

usage: bench/tests/refuse.py PROGRAM

PROGRAM is crates/md_cases/out/md_cases, once `rt run < stdin` there has built it. The Nth request
is refused, N from 1 upwards until a run has no refusal: each run must end with status 0 and print
that each call was made. The calls that need nothing that takes memory must succeed if each request
is refused, and those that read a checked document must make no further request. Ends with status 1
if one of these fails.
"""

import os
import subprocess
import sys
import tempfile

HERE = os.path.dirname(os.path.abspath(__file__))
WANTED = b"each call was made\n"
MOST_RUNS = 5000


def run(program, folder, refused, asked=b""):
    """The status and the output of a run, and its number of requests, the maximum if it crashed.
    """
    count = os.path.join(folder, "count")
    given = {"LD_PRELOAD": os.path.join(folder, "refuse.so"), "REFUSE": str(refused),
             "COUNT": count}
    ran = subprocess.run([program], input=asked, env=given, capture_output=True, timeout=60)
    if not os.path.exists(count):
        return ran.returncode, ran.stdout, MOST_RUNS
    with open(count, encoding="ascii") as file:
        requests = int(file.read())
    os.remove(count)
    return ran.returncode, ran.stdout, requests


def refuse_each(program, folder, asked):
    """The faults, a line each, and the number of refused requests."""
    status, output, ample = run(program, folder, 0, asked)
    if (status, output) != (0, WANTED) or ample == 0:
        return [f"with ample memory: status {status}, {ample} requests, {output.decode()}"], 0
    faults = []
    for number in range(1, MOST_RUNS):
        status, output, requests = run(program, folder, number, asked)
        if (status, output) != (0, WANTED):
            faults.append(f"request {number} refused: status {status}, {output.decode()}")
        if requests < number:
            return faults, number - 1
    return [*faults, f"more than {MOST_RUNS} requests"], MOST_RUNS


def faults_without_memory(program, folder):
    """The faults of the calls that take no memory."""
    faults = []
    if run(program, folder, "all", b"plain") != (0, WANTED, 0):
        faults.append("a call that takes no memory doesn't answer where each request is refused")
    checked, methods = (run(program, folder, 0, asked) for asked in (b"checked", b"methods"))
    if checked != methods:
        faults.append(f"calls of what was checked: {checked} without them, {methods} with them")
    return faults


def main():
    if len(sys.argv) != 2:
        sys.exit(__doc__)
    with tempfile.TemporaryDirectory() as folder:
        compiler = os.environ.get("CC", "cc")
        shared = ["-shared", "-fPIC", "-o", os.path.join(folder, "refuse.so")]
        subprocess.run([compiler, "-O1", *shared, os.path.join(HERE, "refuse.c")], check=True)
        program = os.path.abspath(sys.argv[1])
        faults, refused = faults_without_memory(program, folder), 0
        for asked in (b"memory", b"methods"):
            found, count = refuse_each(program, folder, asked)
            faults, refused = faults + found, refused + count
    for fault in faults:
        print(f"refused memory: {fault}")
    print(f"refused memory: {refused} requests refused in turn, {len(faults)} faults")
    sys.exit(1 if faults else 0)


if __name__ == "__main__":
    main()
